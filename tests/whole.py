"""The whole program with an allocation refused: worked scripts, and a server whose clients try each command. tests/memory runs it.

With memory at hand a script writes what it owes by its own comments, and a server answers each request of a client and ends well.
With an allocation refused a script's output is a beginning of that, with status 3, or all of it with status 0. A server that starts
answers each request with what is owed or that it is out of memory, or closes the connection, and counts that as a fault or doesn't count
the session; where one allocation alone is refused, the next request, or the next client, is answered; it ends by itself.
"""
import contextlib
import itertools
import os
import re
import socket
import subprocess
import tempfile
import time

ROOT = os.path.dirname(os.path.dirname(os.path.realpath(__file__)))
PATIENCE = 30
OUT_OF_MEMORY = b"out of memory\n"
REFUSED = b"SERVER_ERROR out of memory\r\n"
SESSIONS = 6
CUT = re.compile(rb"the link from site \d to site \d is cut\n")
# What a site that runs alone may tell while it runs. A line for which there is no memory is lost.
TOLD = re.compile(
    rb"site 1 (listens for clients at .*, and for sites at .*|is ready|stops)\n|the link from site \d to site \d is (up|down: .*)\n"
    rb"|a frame from (site \d|a stranger) is refused: .*\n"
)
# Below those that the system gives to whoever connects: so no client has one, and no two runs beside each other.
PORTS = itertools.cycle(range(10_000, 32_000))
# How often a server is started whose port another program took meanwhile.
STARTS = 3
# Worked scripts, of crates/geo_worked/data.
SCRIPTS = [
    "a_fill_is_told_to_no_site",
    "a_fill_of_an_evicted_value",
    "a_fill_of_what_the_version_names",
    "append_and_incr",
    "flush_at_a_moment",
    "gats_touches_what_it_shows",
    "incr_and_decr",
    "keys_that_end",
    "removal_and_a_late_parcel",
    "sifted_parcel_brings_news",
    "stats_of_a_site",
    "two_sites_and_a_tie",
    "what_another_site_holds_is_missing_here",
]


def refusing(library, after, number, later):
    words = {"LD_PRELOAD": library, "REFUSE_AFTER": after, "REFUSE_AT": str(number), "REFUSE_FROM": "1" if later else "0"}
    return {**os.environ, **words}


class Script:
    """A worked script, read from standard input."""

    def __init__(self, program, library, name):
        self.program, self.library, self.name = program, library, f"script {name}"
        with open(f"{ROOT}/crates/geo_worked/data/{name}.script", "rb") as file:
            self.text = file.read()
        self.whole, (counted, refused) = self.run(0, False)
        self.counted = counted if self.whole == (0, owed_by(self.text), b"") and refused == 0 else 0

    def run(self, number, later):
        """Its status with its output, and how many allocations were counted and refused."""
        with tempfile.NamedTemporaryFile() as report:
            env = {**refusing(self.library, "read", number, later), "REFUSE_REPORT": report.name}
            done = subprocess.run([self.program, "script"], input=self.text, capture_output=True, timeout=PATIENCE, env=env)
            return (done.returncode, done.stdout, done.stderr), counts_in(report)

    def fault(self, number, later):
        """What is wrong with the run of which this allocation is refused, or None."""
        (status, output, errors), (_, refused) = self.run(number, later)
        if (refused > 0) != (number <= self.counted):
            return f"{refused} allocations were refused"
        if (status, output, errors) == self.whole:
            return None
        if status == 3 and errors in (b"", OUT_OF_MEMORY) and self.whole[1].startswith(output):
            return None
        return f"status {status}, {len(output)} bytes of {len(self.whole[1])}, {errors!r}"


def owed_by(text):
    """What a worked script is to write: its comments that begin with `#> `."""
    return b"".join(line[3:] + b"\n" for line in text.split(b"\n") if line.startswith(b"#> "))


def counts_in(report):
    told = report.read().split()
    return (int(told[0]), int(told[1])) if len(told) == 2 else (0, 0)


class Closed(Exception):
    """The server closed the connection."""


class Wrong(Exception):
    """What no server may answer."""


class Client:
    def __init__(self, port):
        self.socket = socket.create_connection(("127.0.0.1", port), timeout=PATIENCE)
        self.socket.setsockopt(socket.IPPROTO_TCP, socket.TCP_NODELAY, 1)

    def reply(self, owed):
        """As many bytes as are owed, or the words that memory was wanted."""
        came = b""
        while came != REFUSED and len(came) < len(owed):
            try:
                more = self.socket.recv(65536)
            except ConnectionError:
                more = b""
            if not more:
                if not owed.startswith(came) and not REFUSED.startswith(came):
                    raise Wrong(f"{came!r} in place of {owed!r}")
                raise Closed
            came += more
            if not owed.startswith(came) and not REFUSED.startswith(came):
                raise Wrong(f"{came!r} in place of {owed!r}")
        return came

    def ask(self, line, owed, talk):
        """Asks until memory is there, three times at most."""
        for _ in range(3):
            try:
                self.socket.sendall(line)
            except ConnectionError:
                raise Closed from None
            if self.reply(owed) == owed:
                return True
            talk.refused += 1
        return False

    def close(self):
        self.socket.close()


def conversation(key):
    """Each command once, with what it is owed where each before it was carried out."""
    k = key
    return [
        (b"set %s 3 0 2\r\nhi\r\n" % k, b"STORED\r\n"),
        (b"get %s\r\n" % k, b"VALUE %s 3 2\r\nhi\r\nEND\r\n" % k),
        (b"get %sx\r\n" % k, b"END\r\n"),
        (b"add %s 0 0 1\r\nz\r\n" % k, b"NOT_STORED\r\n"),
        (b"add %sn 0 0 1\r\n7\r\n" % k, b"STORED\r\n"),
        (b"replace %s 4 0 3\r\nold\r\n" % k, b"STORED\r\n"),
        (b"append %s 0 0 1\r\n!\r\n" % k, b"STORED\r\n"),
        (b"prepend %s 0 0 1\r\n?\r\n" % k, b"STORED\r\n"),
        (b"get %s %sn\r\n" % (k, k), b"VALUE %s 4 5\r\n?old!\r\nVALUE %sn 0 1\r\n7\r\nEND\r\n" % (k, k)),
        (b"incr %sn 5\r\n" % k, b"12\r\n"),
        (b"decr %sn 2\r\n" % k, b"10\r\n"),
        (b"touch %s 1000\r\n" % k, b"TOUCHED\r\n"),
        (b"gat 1000 %s\r\n" % k, b"VALUE %s 4 5\r\n?old!\r\nEND\r\n" % k),
        (b"cas %s 0 0 1 1\r\nz\r\n" % k, b"EXISTS\r\n"),
        (b"delete %s\r\n" % k, b"DELETED\r\n"),
        (b"get %s\r\n" % k, b"END\r\n"),
        (b"verbosity 1\r\n", b"OK\r\n"),
        (b"version\r\n", b"VERSION 1.0.0\r\n"),
        (b"set %s 0 0 70000\r\n%s\r\n" % (k, b"v" * 70000), b"STORED\r\n"),
        (b"get %s\r\n" % k, b"VALUE %s 0 70000\r\n%s\r\nEND\r\n" % (k, b"v" * 70000)),
        (b"no such command\r\n", b"ERROR\r\n"),
        (b"flush_all\r\n", b"OK\r\n"),
        (b"get %sn\r\n" % k, b"END\r\n"),
    ]


def free_ports(count):
    """Ports that no other run has had lately, and that nobody listens at."""
    found = []
    while len(found) < count:
        port = next(PORTS)
        with socket.socket() as one:
            one.setsockopt(socket.SOL_SOCKET, socket.SO_REUSEADDR, 1)
            try:
                one.bind(("127.0.0.1", port))
            except OSError:
                continue
        found.append(port)
    return found


class Talk:
    """What came of the clients that try each command: how many connections were opened and closed by the server, how many requests
    were told that memory was wanted, and whether a client was answered to its end."""

    def __init__(self):
        self.opened = self.closed = self.refused = 0
        self.is_done = False

    def fault(self, told, sites, later):
        """What is wrong with it beside the end's sums of so many sites, or None."""
        faults, lost = told[b"faults"], sites * SESSIONS - told[b"sessions"]
        if lost < 0 or self.closed > faults + lost:
            return f"{self.closed} connections were closed, {faults} faults and {lost} lost"
        if later:
            return None
        # One allocation costs one request its answer, or one connection its life.
        if not self.is_done or self.closed + self.refused > 1 or faults + lost > 1:
            return f"{self.closed} closed, {self.refused} refused, {faults} faults and {lost} lost for one allocation"
        return None


class Server:
    """Two sites, and a client that tries each command at the first while the second is told of it, and fetches the bytes where it is to."""

    sites, audit = 2, b"sound"

    def __init__(self, program, library, link, fills, name=None):
        self.program, self.library, self.link, self.fills = program, library, link, fills
        self.name = name or f"serve over {link}{' with fills' if fills else ''}"
        (counted, refused), wrong, talk = self.run(0, False)
        is_well = wrong is None and refused == 0 and talk.is_done and talk.closed + talk.refused == 0
        self.counted = counted if is_well else 0

    def configured(self, ports):
        """A file with the configuration."""
        lines = [f"pages = 15\nsessions = {SESSIONS}\nevery = 1\nlink = \"{self.link}\"\n"]
        if self.fills:
            lines.append("fills = true\n")
        for site in (1, 2):
            peer = f'peer = "127.0.0.1:{ports[site + 1]}"\n' if self.link == "tcp" else ""
            lines.append(f'[[site]]\nnumber = {site}\nclient = "127.0.0.1:{ports[site - 1]}"\nworkers = 1\n{peer}')
        file = tempfile.NamedTemporaryFile("w", suffix=".toml")
        file.write("".join(lines))
        file.flush()
        return file

    def started(self, number, later, report):
        """The program, its ports, and what is let go of once it has ended."""
        ports = free_ports(4)
        file = self.configured(ports)
        return self.launched([file.name], number, later, report), ports, file

    def launched(self, words, number, later, report):
        env = {**refusing(self.library, "start", number, later), "REFUSE_REPORT": report.name}
        pipe, none = subprocess.PIPE, subprocess.DEVNULL
        return subprocess.Popen([self.program, "serve", *words], stdin=none, stdout=pipe, stderr=pipe, env=env)

    def connect(self, process, port):
        """A client, or None where the program has ended."""
        until = time.monotonic() + PATIENCE
        while process.poll() is None:
            try:
                return Client(port)
            except ConnectionError:
                if time.monotonic() > until:
                    raise Wrong("nobody listens") from None
                time.sleep(0.002)
        return None

    def talk(self, process, port):
        """Clients try each command, one after another until one is answered to its end, three at most."""
        talk = Talk()
        for attempt in range(3):
            client = self.connect(process, port)
            if client is None:
                break
            talk.opened += 1
            try:
                talk.is_done = all(client.ask(line, owed, talk) for line, owed in conversation(b"k%d" % attempt))
                client.socket.sendall(b"quit\r\n")
                client.close()
            except (Closed, ConnectionError):
                talk.closed += 1
                client.close()
            if talk.is_done:
                break
        return talk

    def use_up(self, process, port, opened):
        """Opens the connections that are left, so that the program ends."""
        for _ in range(SESSIONS - opened):
            client = self.connect(process, port)
            if client is None:
                return
            client.close()

    def use_up_all(self, process, ports, opened):
        """The same at each site that runs in the program. The first has had so many."""
        self.use_up(process, ports[0], opened)
        self.use_up(process, ports[1], 0)

    def run(self, number, later):
        """How many allocations were counted and refused, what is wrong, and what came of the clients."""
        for _ in range(STARTS):
            counts, wrong, talk, errors = self.run_once(number, later)
            if not errors.startswith(b"cannot listen"):
                break
        return counts, wrong, talk

    def run_once(self, number, later):
        """The same, and what it wrote to standard error."""
        with tempfile.NamedTemporaryFile() as report:
            process, ports, file = self.started(number, later, report)
            with process, file:
                talk = Talk()
                try:
                    talk = self.talk(process, ports[0])
                    self.use_up_all(process, ports, talk.opened)
                    output, errors = process.communicate(timeout=PATIENCE)
                    counts = counts_in(report)
                    return counts, self.fault_of(process.returncode, output, errors, talk, counts, number, later), talk, errors
                except (Wrong, subprocess.TimeoutExpired) as why:
                    return (0, 1), f"{why}", talk, b""
                finally:
                    process.kill()

    def fault(self, number, later):
        """What is wrong with the run of which this allocation is refused, or None."""
        return self.run(number, later)[1]

    def fault_of(self, status, output, errors, talk, counts, number, later):
        """What is wrong with how a server ended, or None."""
        counted, refused = counts
        # Threads make as many allocations as their turns come to, so that the last of a run may be none of another.
        if (refused > 0) != (0 < number <= counted):
            return f"{refused} of {counted} allocations were refused"
        others = [line for line in errors.splitlines(True) if not self.may_tell(line)]
        if not is_told(status, b"".join(others)):
            return f"status {status}, {errors!r}"
        if number > 0 and refused > 0 and status in (3, 4) and not output:
            return None
        if status != 0:
            return f"status {status}, {output!r}"
        told = dict(line.split(b" ", 1) for line in output.splitlines())
        if told[b"audit"] != self.audit:
            return f"{output!r}"
        return talk.fault({name: int(told[name]) for name in (b"sessions", b"faults")}, self.sites, later)


    def may_tell(self, line):
        """Whether a line may stand on standard error however a server ends."""
        # a link on which there was no memory for what was asked for is cut, and comes back
        return self.fills and CUT.fullmatch(line)


class Alone(Server):
    """The same, with the first site alone in the program that is refused memory. It ends by itself, and the other one is told to."""

    sites, audit = 1, b"skipped"

    def __init__(self, program, library):
        super().__init__(program, library, "tcp", True, "serve one site with fills")

    def started(self, number, later, report):
        ports = free_ports(4)
        held = contextlib.ExitStack()
        file = held.enter_context(self.configured(ports))
        pipe, quiet = subprocess.PIPE, subprocess.DEVNULL
        other = subprocess.Popen([self.program, "serve", file.name, "2"], stdin=pipe, stdout=quiet, stderr=quiet)
        held.callback(other.communicate, b"stop\n", PATIENCE)
        return self.launched([file.name, "1"], number, later, report), ports, held

    def use_up_all(self, process, ports, opened):
        self.use_up(process, ports[0], opened)

    def may_tell(self, line):
        return TOLD.fullmatch(line)


def is_told(status, errors):
    """Whether standard error has what is owed with this status."""
    if status == 3:
        return errors in (OUT_OF_MEMORY, b"cannot start another thread\n")
    if status == 4:
        return errors.startswith(b"cannot ") or errors == b"a socket or the output failed\n"
    return errors == b""


def subjects(program, library):
    """All that is run with an allocation refused: the name of each, and what makes it."""
    found = [(f"script {name}", lambda name=name: Script(program, library, name)) for name in SCRIPTS]
    for link in ("memory", "tcp"):
        for fills, words in ((False, ""), (True, " with fills")):
            found.append((f"serve over {link}{words}", lambda link=link, fills=fills: Server(program, library, link, fills)))
    found.append(("serve one site with fills", lambda: Alone(program, library)))
    return found
