"""Rows of the docs' tables, tried by the program. tests/docs runs these.

Each row of such a table has a trial here, or stands among those that are not tried, with the reason. What is owed stands in the row
where it is the program's text, and here where the row says it in words.
"""
import os
import re
import resource
import socket
import subprocess
import tempfile
import time

import apart
import pages
import parted
from served import serve

DIGITS = r"\d+"
MEBIBYTE = 1 << 20
# What is not tried here, by page and row, with the reason.
NOT_TRIED = {
    ("docs/operation.md", "refused 2"): "memory has to be refused: geo_refusals_served",
    ("docs/operation.md", "refused 3"): "a site may make 2^48 steps by the operator's lines",
    ("docs/configuration.md", "cannot start another thread"): "it wants a user of its own: tests/serve",
    ("docs/configuration.md", "out of memory"): "memory has to be refused: tests/memory",
    ("docs/script.md", "clock ended"): "2^56 stamps have to be issued",
    ("docs/script.md", "out of memory"): "memory has to be refused: tests/memory",
    ("docs/protocol.md", "SERVER_ERROR clock ended"): "2^56 stamps have to be issued",
    ("docs/protocol.md", "SERVER_ERROR out of memory"): "memory has to be refused: tests/memory",
}


def run_script(text):
    """The status of a script, the lines that it prints, and what is told on standard error."""
    done = subprocess.run([serve.PROGRAM, "script"], input=text.encode(), capture_output=True, timeout=serve.PATIENCE)
    return done.returncode, done.stdout.decode("ascii").split("\n")[:-1], done.stderr.decode()


def answers(request, options=""):
    """What one site answers to these bytes, as lines."""
    status, lines, told = run_script(f"sites 1{options}\nclient 1 {request}\n")
    assert (status, told, len(lines)) == (0, "", 1), (status, lines[:3], told)
    return lines[0].removeprefix("1> ").split(r"\r\n")[:-1]


def claimed(page, rows, tried):
    """That each row has a trial or a reason, and that no trial and no reason is left over."""
    reasons = {row for of, row in NOT_TRIED if of == page}
    for row in rows:
        assert row in tried or row in reasons, f"{page}: no trial has the row {row!r}"
    for row in tried:
        assert row in rows, f"{page}: the trial of {row!r} has no row"


def fits(page, row, spans, seen, names):
    """That all that was seen is as some span says, and that each span was seen, or can't be."""
    patterns = {span: pages.template(span, names) for span in spans if (page, span) not in NOT_TRIED}
    for line in seen:
        assert any(one.fullmatch(line) for one in patterns.values()), f"{page}, {row!r}: the program says {line!r}"
    for span, one in patterns.items():
        assert any(one.fullmatch(line) for line in seen), f"{page}, {row!r}: {span!r} was not seen, but {seen}"


LONG = "x" * MEBIBYTE
# 15 pages have room for one of the two
FULL = f"client 1 set a 0 0 {MEBIBYTE}\\r\\n{LONG}\\r\\n\nclient 1 set b 0 0 {MEBIBYTE}\\r\\n{LONG}\\r\\n\n"
# Scripts whose lines of a kind print all that these can print.
SCRIPT_LINES = {
    "sites N": "sites 2 pages 16 max 5 reap 0",
    "at N": f"sites 1\nat 1\nat {1 << 40}\nat 5",
    "client S TEXT": "sites 1\nclient 1 version\\r\\n\nclient 1 ver\nclient 1 \nclient 1 sion\\r\\n",
    "send S T": "sites 3\nsend 1 2\nsend 2 1\nretire 1 2\nsend 1 2\nsend 1 3",
    "take S K": "sites 3\nsend 1 2\ntake 2 0\ntake 2 0\ntake 3 0",
    "tick S": "sites 1\ntick 1\nclient 1 flush_all 10\\r\\n\ntick 1\nat 12\ntick 1\ntick 1",
    "reap S KEY": "sites 1 reap 0\nclient 1 set a 0 1 1\\r\\nx\\r\\n\nreap 1 a\nat 10\nreap 1 a\nreap 1 a",
    "remove S": "sites 1\nremove 1\nclient 1 delete a\\r\\n\nremove 1\nremove 1",
    "evict S KEY": "sites 1\nevict 1 a\nclient 1 set a 0 0 1\\r\\nx\\r\\n\nevict 1 a\nevict 1 a",
    "fill S KEY TEXT": f"sites 1\nfill 1 a x\n{FULL}fill 1 b {LONG}\nfill 1 a {LONG}\nevict 1 b\nfill 1 a {LONG}",
    "retire S T": "sites 2\nretire 1 2\nretire 1 2",
    "versions S": "sites 1\nversions 1",
}


def script_lines():
    """docs/script.md: what each line of a script prints."""
    page = "docs/script.md"
    rows = {pages.spans_in(row[0])[0]: row for row in pages.table_of(page, "Lines", "Line").rows}
    claimed(page, rows, SCRIPT_LINES)
    for row, script in SCRIPT_LINES.items():
        status, lines, told = run_script(script + "\n")
        assert (status, told) == (0, ""), (row, status, told)
        word, seen = row.split()[0], []
        if word == "versions":
            assert lines == ["floor none", "end"], lines
            continue
        for line in script.split("\n"):
            printed = [] if line.split()[0] in ("sites", "at") else [lines.pop(0)]
            seen += printed if line.split()[0] == word else []
        assert not lines, (row, lines)
        spans = pages.spans_in(rows[row][2])
        # the bytes of the answer behind the one, a number behind the other
        spans = [{"S> ": "S> TEXT", "refused": "refused K"}.get(span, span) for span in spans]
        fits(page, row, spans, seen, {"S": DIGITS, "K": DIGITS, "N": DIGITS, "TEXT": ".*"})


def script_ends():
    """docs/script.md: with which status a script ends, and what is told."""
    page = "docs/script.md"
    rows = {(pages.spans_in(row[2]) or [""])[0]: row for row in pages.table_of(page, "Where a script ends", "Status").rows}
    usage = next(row for row in rows if row.startswith("usage: "))
    tried = {"": 0, "bad line N": 0, usage: 0, "a read failed": 0}
    claimed(page, rows, tried)
    status, lines, told = run_script("sites 1\n\n# none\nclient 1 version\\r\\n")
    assert (str(status), lines, told) == (rows[""][0], [r"1> VERSION 1.0.0\r\n"], ""), (status, lines, told)
    status, lines, told = run_script("# none\n\nsites 1\nclient 1 version\\r\\n\nsend 1 1\nclient 1 version\\r\\n\n")
    owed = rows["bad line N"][0], [r"1> VERSION 1.0.0\r\n"], "bad line 5\n"
    assert (str(status), lines, told) == owed, (status, lines, told)
    for words in ([], ["script", "x", "1"], ["other"], ["serve"]):
        done = subprocess.run([serve.PROGRAM, *words], capture_output=True, timeout=serve.PATIENCE)
        assert (str(done.returncode), done.stderr.decode()) == (rows[usage][0], usage + "\n"), done
    read, write = pages.spans_in(rows["a read failed"][2])
    folder = os.open("/", os.O_RDONLY)
    done = subprocess.run([serve.PROGRAM, "script"], stdin=folder, capture_output=True, timeout=serve.PATIENCE)
    os.close(folder)
    assert (str(done.returncode), done.stderr.decode()) == (rows["a read failed"][0], read + "\n"), done
    with open("/dev/full", "wb") as full:
        text = b"sites 1\nclient 1 version\\r\\n\n"
        done = subprocess.run([serve.PROGRAM, "script"], input=text, stdout=full, stderr=subprocess.PIPE, timeout=serve.PATIENCE)
    assert (str(done.returncode), done.stderr.decode()) == (rows["a read failed"][0], write + "\n"), done


SET = r"set a 5 0 2\r\nhi\r\n"
# What stands where a row says "the same": words of the trials, and not of the page.
SHOWN, NUMBERED, SUM = "VALUE KEY FLAGS BYTES", "VALUE KEY FLAGS BYTES UNIQUE", "UNIQUE"
# By the first word of a row: what is sent behind SET, and what the row says of it in other words than the answer's.
COMMANDS = {
    "set": (r"set b 0 0 1\r\nx\r\n", []),
    "add": (r"add a 0 0 1\r\nx\r\nadd b 0 0 1\r\nx\r\n", []),
    "replace": (r"replace a 0 0 1\r\nx\r\nreplace b 0 0 1\r\nx\r\n", []),
    "append": (r"append a 0 0 1\r\nx\r\nprepend b 0 0 1\r\nx\r\nprepend a 0 0 1\r\nx\r\n", ["STORED", "NOT_STORED"]),
    "cas": (r"cas b 0 0 1 257\r\nx\r\ncas a 0 0 1 258\r\nx\r\ncas a 0 0 1 257\r\nx\r\n", []),
    "get": (r"get b a\r\n", []),
    "gets": (r"gets b a\r\n", [NUMBERED, "END"]),
    "gat": (r"gat 10 b a\r\n", [SHOWN, "END"]),
    "gats": (r"gats 10 b a\r\n", [NUMBERED, "END"]),
    "touch": (r"touch a 10\r\ntouch b 10\r\n", []),
    "delete": (r"delete a\r\ndelete a 0\r\n", []),
    "incr": (r"set a 0 0 20\r\n18446744073709551615\r\nincr a 3\r\nincr b 1\r\n", [SUM, "STORED"]),
    "decr": (r"set a 0 0 1\r\n3\r\ndecr a 5\r\ndecr b 1\r\n", [SUM, "STORED"]),
    "flush_all": (r"flush_all\r\nflush_all 10\r\n", []),
    "version": (r"version\r\n", []),
    "verbosity": (r"verbosity 1\r\n", []),
    "stats": (r"stats\r\n", []),
    "quit": (r"quit\r\nversion\r\n", []),
}
NAMES = {"KEY": r"\S+", "FLAGS": DIGITS, "BYTES": DIGITS, "UNIQUE": DIGITS, "NAME": r"\w+"}


def owed_by(cell):
    """The answers among the spans of a cell: those that begin with a capital."""
    return [span for span in pages.spans_in(cell) if re.match(r"[A-Z]+(_[A-Z]+)?( |$)", span)]


def commands():
    """docs/protocol.md: what each command answers."""
    page = "docs/protocol.md"
    rows = {pages.spans_in(row[0])[0].split()[0]: row for row in pages.table_of(page, "Commands", "Line").rows}
    claimed(page, rows, COMMANDS)
    for word, (sent, more) in COMMANDS.items():
        stored, *seen = answers(SET + sent)
        assert stored == "STORED", stored
        seen = [line for at, line in enumerate(seen) if at == 0 or not seen[at - 1].startswith("VALUE ")]
        # the last word of STAT NAME VALUE stands for a number, the first of VALUE KEY .. for itself
        fits(page, word, [span.replace("NAME VALUE", "NAME BYTES") for span in owed_by(rows[word][1]) + more], seen, NAMES)
    named = re.search(r"for ([\w, ]+), in this order", rows["stats"][1])[1].split(", ")
    assert [line.split()[1] for line in answers(r"stats\r\n")[:-1]] == named, named
    wrapped = answers(r"set a 0 0 20\r\n18446744073709551615\r\nincr a 3\r\ndecr a 5\r\n")
    assert wrapped == ["STORED", "2", "0"], wrapped


def number_of(text):
    return int(re.search(r"\d+", text)[0])


def bad_lines():
    """docs/protocol.md: how what can't be read is answered, and where reading goes on."""
    page = "docs/protocol.md"
    table = pages.table_of(page, "Reading", "What came").rows
    rows = {pages.spans_in(row[1])[0]: row[0] for row in table}
    large = number_of(rows["SERVER_ERROR object too large for cache"]) if "SERVER_ERROR object too large for cache" in rows else 0
    long = number_of(rows["CLIENT_ERROR line too long"]) if "CLIENT_ERROR line too long" in rows else 0
    version = "VERSION 1.0.0"
    trials = {
        "ERROR": [r"nonsense\r\n \r\nversion\r\n", 2],
        "CLIENT_ERROR bad command line format": [r"get\r\nset a x 0 7\r\nversion\r\n", 2],
        "CLIENT_ERROR invalid numeric argument": [r"incr a x\r\nversion\r\n", 1],
        "CLIENT_ERROR bad data chunk": [r"set a 0 0 1\r\nxyz\r\nversion\r\n", 1],
        "SERVER_ERROR object too large for cache": [f"set a 0 0 {large + 1}\\r\\n{'x' * (large + 1)}\\r\\nversion\\r\\n", 1],
        # the return is one of the bytes of a line
        "CLIENT_ERROR line too long": [f"{'x' * long}\\r\\nversion\\r\\n", 1],
    }
    claimed(page, rows, trials)
    for owed, (sent, times) in trials.items():
        ends = owed.endswith("line too long")
        seen = answers(sent)
        assert seen == [owed] * times + [version] * (not ends), f"{owed}: {seen}"
    assert answers(f"set a 0 0 {large}\\r\\n{'x' * large}\\r\\n") == ["STORED"]
    assert answers(f"{'x' * (long - 1)}\\r\\nversion\\r\\n") == ["ERROR", version]


def protocol_refusals():
    """docs/protocol.md: how a good request is refused."""
    page = "docs/protocol.md"
    rows = [pages.spans_in(row[0])[0] for row in pages.table_of(page, "Refusals", "Answer").rows]
    one = r"set a 0 0 1\r\nx\r\n"
    trials = {
        "CLIENT_ERROR cannot increment or decrement non-numeric value": (one + r"incr a 1\r\nget a\r\n", "", ["VALUE a 0 1", "x", "END"]),
        "SERVER_ERROR object too large for cache": (f"set a 0 0 {MEBIBYTE}\\r\\n{LONG}\\r\\nappend a 0 0 1\\r\\nx\\r\\n", "", []),
        "SERVER_ERROR version map full": (one + r"set b 0 0 1\r\nx\r\nget b\r\n", " max 1", ["END"]),
    }
    claimed(page, rows, trials)
    for owed, (sent, options, behind) in trials.items():
        stored, seen, *rest = answers(sent, options)
        assert (stored, seen) == ("STORED", owed), (stored, seen)
        assert rest == behind, rest


SITE = '[[site]]\nnumber = 1\nclient = "127.0.0.1:1"\n'
SOCKETS = f'link = "tcp"\n{SITE}peer = "127.0.0.1:2"\n'


def outcome(text, *words):
    """The status and standard error of a server that doesn't start: of a file with this text, or of these words alone."""
    with tempfile.NamedTemporaryFile("w", suffix=".toml") as file:
        file.write(text or "")
        file.flush()
        command = [serve.PROGRAM, *(["serve", file.name] if text is not None else []), *words]
        done = subprocess.run(command, stdin=subprocess.DEVNULL, capture_output=True, timeout=serve.PATIENCE)
        assert done.stdout == b"", done
        return done.returncode, done.stderr.decode()


def at_a_taken_port():
    with socket.create_server(("127.0.0.1", 0)) as taken:
        address = f"127.0.0.1:{taken.getsockname()[1]}"
        return serve.refused(f'sessions = 1\npages = 15\n[[site]]\nnumber = 1\nclient = "{address}"\n'), address


def with_few_descriptors():
    ports = serve.free_ports(2)
    text = serve.configured(ports, [0, 0], 1, workers=16)
    return serve.refused(text, lambda: resource.setrlimit(resource.RLIMIT_NOFILE, (40, 40))), ""


def with_a_full_output():
    [port] = serve.free_ports(1)
    with open("/dev/full", "wb") as full:
        process = serve.started(serve.configured([port], [0], 1), output=full)
        serve.Client(port).quit()
        _, errors = process.communicate(timeout=serve.PATIENCE)
        return (process.returncode, errors.decode()), ""


def configuration_refusals():
    """docs/configuration.md: why a server doesn't start, with which line and status."""
    page = "docs/configuration.md"
    rows = {pages.spans_in(row[0])[0]: row[1] for row in pages.table_of(page, "Refusals", "Line on standard error").rows}
    memory = "sessions = 1\n" + SITE
    usage = next((row for row in rows if row.startswith("usage: ")), "usage: ")
    trials = {
        usage: [(outcome(None, "other"), ""), (outcome(memory, "17"), ""), (outcome(SOCKETS, "2"), "")],
        "configuration: unreadable": [(outcome(None, "serve", "/nowhere/at/all.toml"), "")],
        "configuration: not toml": [(outcome("sessions = \n"), ""), (outcome("sessions = 1\n" + memory), "")],
        "configuration: missing NAME": [(outcome(SITE), "sessions"), (outcome("sessions = 1\n"), "site")],
        "configuration: wrong type NAME": [(outcome('sessions = "1"\n' + SITE), "sessions"), (outcome("audit = 1\n" + memory), "audit")],
        "configuration: out of range NAME": [(outcome("pages = 14\n" + memory), "pages"), (outcome(memory, "1"), "link")],
        "configuration: unknown NAME": [(outcome("colour = 3\n" + memory), "colour")],
        "configuration: site numbers": [(outcome(memory + SITE), "")],
        "cannot listen on ADDRESS": [at_a_taken_port()],
        "cannot open another descriptor": [with_few_descriptors()],
        "a socket or the output failed": [with_a_full_output()],
    }
    claimed(page, rows, trials)
    for row, cases in trials.items():
        for (status, told), name in cases:
            owed = re.sub(r"NAME|ADDRESS", name, row) + "\n"
            assert (str(status), told) == (rows[row], owed), f"{owed!r} with status {rows[row]} is owed, and not {told!r}, {status}"


def with_key(key, number):
    """A configuration of one site in which this key has this number."""
    top, site = {"sessions": 1}, {"number": 1, "client": '"127.0.0.1:1"', "workers": 4}
    (site if key in site else top)[key] = number
    lines = [f"{name} = {value}\n" for name, value in top.items()] + ["[[site]]\n"]
    return "".join(lines + [f"{name} = {value}\n" for name, value in site.items()])


def configuration_ranges():
    """docs/configuration.md: a number beside its range is refused."""
    for table in [it for it in pages.tables_of("docs/configuration.md") if it.section == "Keys"]:
        for key, _, values, _ in table.rows:
            for number in beside(values):
                seen = outcome(with_key(key.strip("`"), number))
                assert seen == (2, f"configuration: out of range {key.strip('`')}\n"), (key, number, seen)


def beside(values):
    """The two numbers beside a range, and none of what is no range."""
    found = re.fullmatch(r"(\d+) to (\d+)", values)
    return (int(found[1]) - 1, int(found[2]) + 1) if found else ()


def orders():
    """docs/operation.md: what the line `retire N` is answered."""
    page = "docs/operation.md"
    rows = [pages.spans_in(row[0])[0] for row in pages.table_of(page, "Retire a site that is gone for good", "Answer").rows]
    trials = {"retired": b"retire 3\n", "nothing": b"retire 3\n", "refused 1": b"retire 1\n"}
    claimed(page, rows, trials)
    with apart.Apart(serve, 3, started=[1]) as sites:
        sites[1].until_told("site 1 is ready")
        for owed, line in [*trials.items(), ("refused 1", b"retire 4\n"), ("unknown", b"hello\n")]:
            answer = sites[1].answers(line)
            assert answer.decode() == owed + "\n", (line, answer)
        sites[1].stops()


def provoked(sites):
    """Has site 1 of two tell all that a site can tell, and gives the lines of its log."""
    one = sites[1]
    sites.until_joined()
    address = ("127.0.0.1", sites.peers[0])
    with socket.create_connection(address) as stranger:
        stranger.sendall(b"GET / HTTP/1.0\r\n\r\n")
        assert parted.is_let_go(stranger)
    one.until_told("a frame from a stranger is refused: ")
    sites[2].kill()
    one.until_told("the link from site 1 to site 2 is down: ")
    one.until_told("the link from site 2 to site 1 is down: ")
    # at most once a second
    time.sleep(1.2)
    with socket.create_connection(address) as known:
        known.sendall(parted.frame(2, 1, 2))
        serve.until("the link of one that says it is site 2", lambda: one.log().count("the link from site 2 to site 1 is up") == 2)
        known.sendall(b"GET / HTTP/1.0\r\n\r\n" * 4)
        assert parted.is_let_go(known)
    one.until_told("a frame from site 2 is refused: ")
    one.stops()
    return one.log()


def logs():
    """docs/operation.md: the lines on standard error are those of the table, and each of these comes."""
    page = "docs/operation.md"
    names = {"N": DIGITS, "M": DIGITS, "ADDRESS": r"[\w.]+:\d+", "CAUSE": ".+", "FAULT": ".+"}
    spans = [span for row in pages.table_of(page, "Logs", "Line").rows for span in pages.spans_in(row[0])]
    with apart.Apart(serve, 2) as sites:
        fits(page, "Logs", spans, provoked(sites), names)


TESTS = [script_lines, script_ends, commands, bad_lines, protocol_refusals, configuration_refusals, configuration_ranges, orders, logs]
