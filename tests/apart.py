"""Sites that run apart, each in a process of its own. tests/serve runs these, and hands each what starts and asks a server."""
import os
import random
import select
import shutil
import signal
import struct
import subprocess
import tempfile
import threading
import time

from modes import in_both

SUMS = ["sessions", "requests", "faults", "rounds", "frames_refused", "audit"]
TESTS = []


def test(function):
    TESTS.append(function)
    return function


class Site:
    """A process that runs one site. What it tells on standard error goes to a file."""

    def __init__(self, serve, command, port, environment=None):
        self.serve, self.port = serve, port
        self.told = tempfile.NamedTemporaryFile("rb", suffix=".log")
        with open(self.told.name, "wb") as errors:
            pipe = subprocess.PIPE
            streams = {"stdin": pipe, "stdout": pipe, "stderr": errors}
            self.process = subprocess.Popen(command, env=environment, start_new_session=True, **streams)

    def client(self):
        return self.serve.Client(self.port)

    def log(self):
        """The lines on standard error."""
        with open(self.told.name, "rb") as file:
            return file.read().decode().splitlines()

    def has_told(self, line):
        """Whether some line begins so."""
        return any(one.startswith(line) for one in self.log())

    def until_told(self, line):
        self.serve.until(f"the line {line!r}", lambda: self.has_told(line))

    def says(self, line):
        self.process.stdin.write(line)
        self.process.stdin.flush()

    def answers(self, line, within=10):
        """Says a line, and gives the line that answers it."""
        self.says(line)
        ready, _, _ = select.select([self.process.stdout], [], [], within)
        assert ready, f"{line!r} was not answered"
        return self.process.stdout.readline()

    def ends(self, within=20):
        """Waits for the end, and answers what was told: numbers by name, and the audit's word."""
        output, _ = self.process.communicate(timeout=within)
        assert self.process.returncode == 0, (self.process.returncode, output, self.log())
        told = dict(line.split(" ", 1) for line in output.decode().splitlines() if line != "unknown")
        assert list(told) == SUMS, output
        return {name: word if name == "audit" else int(word) for name, word in told.items()}

    def stops(self, within=20):
        """Has it stop by the operator's line."""
        self.says(b"stop\n")
        return self.ends(within)

    def kill(self):
        if self.process.poll() is None:
            # the launching script and what it has started
            os.killpg(self.process.pid, signal.SIGKILL)
        self.process.wait()
        for pipe in (self.process.stdin, self.process.stdout):
            pipe.close()


class Apart:
    """Several sites, each in a process of its own, all with the same file."""

    def __init__(self, serve, sites, started=None, **more):
        ports = serve.free_ports(2 * sites)
        self.serve, self.clients, self.peers = serve, ports[:sites], ports[sites:]
        self.more = more
        self.sites = {}
        self.files = []
        for number in range(1, sites + 1) if started is None else started:
            self.start(number)

    def text(self, number, peers):
        """The configuration, as the site with this number has it."""
        text = self.serve.configured(self.clients, peers, 1, **{"link": "tcp", "workers": 2, **self.more})
        return text.replace("sessions = 1\n", "")

    def command(self, number, peers):
        with tempfile.NamedTemporaryFile("w", suffix=".toml", delete=False) as file:
            file.write(self.text(number, peers))
        self.files.append(file.name)
        return [self.serve.PROGRAM, "serve", file.name, str(number)]

    def start(self, number, peers=None, environment=None):
        command = self.command(number, peers or self.peers)
        self.sites[number] = Site(self.serve, command, self.clients[number - 1], environment)
        return self.sites[number]

    def until_joined(self):
        """Waits until each site has told that its links to all others are up."""
        for one, site in self.sites.items():
            for other in self.sites:
                if one != other:
                    site.until_told(f"the link from site {one} to site {other} is up")

    def __getitem__(self, number):
        return self.sites[number]

    def __enter__(self):
        return self

    def __exit__(self, *_):
        for site in self.sites.values():
            site.kill()
        for file in self.files:
            os.unlink(file)


def shown(client, key):
    """The value of a key with its stamp, as `gets` shows it, or None."""
    client.send(b"gets " + key + b"\r\n")
    line = b""
    while not line.endswith(b"\r\n"):
        more = client.read(1)
        assert more, "the connection ended"
        line += more
    if line == b"END\r\n":
        return None
    _, _, _, length, stamp = line.split()
    value = client.read(int(length) + 7)
    assert value.endswith(b"\r\nEND\r\n"), value
    return stamp, value[:-7]


def stored(client, key, value):
    client.ask(b"set %s 0 0 %d\r\n%s\r\n" % (key, len(value), value), b"STORED\r\n")


def all_show(clients, key):
    """What all sites show of a key, if that is the same and no miss."""
    seen = {shown(client, key) for client in clients}
    return seen.pop() if len(seen) == 1 and None not in seen else None


def agree(clients, keys):
    """Whether all sites show the same of each key: a version with its stamp, or a miss."""
    return all(len({shown(client, key) for client in clients}) == 1 for key in keys)


@test
def three_processes_agree_on_the_stamps(serve):
    with Apart(serve, 3, more="fills = true") as sites:
        sites.until_joined()
        clients = [sites[number].client() for number in (1, 2, 3)]
        for client, value in zip(clients, (b"one", b"two", b"six")):
            stored(client, b"k", value)
        stamp, value = serve.until("one version at all sites", lambda: all_show(clients, b"k"))
        assert value in (b"one", b"two", b"six"), value
        for number, client in enumerate(clients):
            stored(client, b"k", b"%d" % number)
            newer = serve.until("the newer one", lambda: all_show(clients, b"k"))
            serve.until("the newer one", lambda: (all_show(clients, b"k") or (b"", b""))[1] == b"%d" % number)
            assert newer[0] != stamp
        for client in clients:
            client.quit()
        for number in (1, 2, 3):
            serve.has(sites[number].stops(), sessions=1, faults=0, frames_refused=0, audit="skipped")


@test
def a_stale_copy_goes_at_each_of_three_processes(serve):
    with Apart(serve, 3) as sites:
        sites.until_joined()
        clients = [sites[number].client() for number in (1, 2, 3)]
        for at, client in enumerate(clients):
            stored(client, b"a", b"%d" % at)
            for other in clients:
                if other is not client:
                    serve.until("the stale copy to go", lambda: other.get(b"a") is None)
            assert client.get(b"a") == b"%d" % at
        for client in clients:
            client.quit()
        for number in (1, 2, 3):
            serve.has(sites[number].stops(), faults=0, frames_refused=0)


@test
def the_log_tells_where_a_site_listens_and_of_its_links(serve):
    with Apart(serve, 2, started=[1]) as sites:
        one = sites[1]
        one.until_told("site 1 is ready")
        first = f"site 1 listens for clients at 127.0.0.1:{sites.clients[0]}, and for sites at 127.0.0.1:{sites.peers[0]}"
        assert one.log()[0] == first, one.log()
        one.until_told("the link from site 1 to site 2 is down: ")
        client = one.client()
        stored(client, b"a", b"early")
        two = sites.start(2)
        sites.until_joined()
        one.until_told("the link from site 2 to site 1 is up")
        other = two.client()
        serve.until("the record at site 2", lambda: serve.stat(other, b"records") == 1)
        other.quit()
        two.stops()
        one.until_told("the link from site 2 to site 1 is down: ")
        serve.until("both ends", lambda: one.log().count("the link from site 1 to site 2 is up") == 1
                    and sum(line.startswith("the link from site 1 to site 2 is down") for line in one.log()) == 2)
        assert two.has_told("site 2 stops"), two.log()
        client.quit()
        serve.has(one.stops(), sessions=1, faults=0, frames_refused=0)


class Load(threading.Thread):
    """A client that sets keys, one after the other, and notes what was stored last of each."""

    def __init__(self, client, keys, seed):
        super().__init__(daemon=True)
        self.client, self.keys, self.random, self.name_of = client, keys, random.Random(seed), seed
        self.last, self.sent, self.number, self.fault = {}, {}, 0, None
        self.is_over = False

    def run(self):
        try:
            while not self.is_over:
                key = self.random.choice(self.keys)
                self.number += 1
                value = b"%d %d" % (self.name_of, self.number)
                self.sent[key] = value
                self.client.send(b"set %s 0 0 %d\r\n%s\r\n" % (key, len(value), value))
                answer = self.client.read(8)
                if answer != b"STORED\r\n":
                    assert answer == b"", answer
                    return
                self.last[key] = value
        except OSError as fault:
            self.fault = fault

    def ends(self):
        self.is_over = True
        self.join(20)
        assert not self.is_alive(), "a client waits for an answer"


@test
def a_site_that_stands_still_holds_up_no_other(serve):
    with Apart(serve, 3, more="patience = 1000") as sites:
        sites.until_joined()
        one, two = sites[1].client(), sites[2].client()
        os.kill(sites[3].process.pid, signal.SIGSTOP)
        try:
            slowest = 0
            for number in range(40):
                key = b"k%d" % number
                writer, reader = (one, two) if number % 2 else (two, one)
                before = serve.stat(reader, b"records")
                began = time.monotonic()
                stored(writer, key, b"x" * 50_000)
                serve.until("the record at the other site", lambda: serve.stat(reader, b"records") == before + 1)
                slowest = max(slowest, time.monotonic() - began)
                time.sleep(0.05)
            assert slowest < 1, f"the others waited for {slowest} seconds"
        finally:
            os.kill(sites[3].process.pid, signal.SIGCONT)
        three = sites[3].client()
        serve.until("all records at site 3", lambda: serve.stat(three, b"records") == 40)
        stored(three, b"k0", b"newer")
        serve.until("the stale copy to go", lambda: two.get(b"k0") is None)
        for client in (one, two, three):
            client.quit()
        for number in (1, 2, 3):
            sites[number].stops()


@in_both(TESTS)
def the_others_go_on_where_a_site_is_killed_under_load(serve, mode):
    keys = [b"k%d" % number for number in range(200)]
    with Apart(serve, 3, more=f"fills = true\n{mode.more}") as sites:
        sites.until_joined()
        loads = [Load(sites[number].client(), keys, number) for number in (1, 2, 3)]
        for load in loads:
            load.start()
        time.sleep(1)
        os.kill(sites[3].process.pid, signal.SIGKILL)
        before = [load.number for load in loads[:2]]
        time.sleep(1)
        for load in loads:
            load.ends()
        assert all(load.number > was + 100 for load, was in zip(loads, before)), "the others did not go on"
        clients = [load.client for load in loads[:2]]
        # what the killed one wrote last is a miss, for its bytes went with it
        serve.until("the same versions", lambda: agree(clients, keys))
        assert sum(clients[0].get(key) is not None for key in keys) > 20
        for client in clients:
            client.quit()
        for number in (1, 2):
            serve.has(sites[number].stops(), faults=0)


def moved(folder, seconds):
    """Sets the clock of a program that shift.so is preloaded to so many seconds ahead."""
    # in place: the program has the file as memory
    file = os.open(f"{folder}/ahead", os.O_WRONLY | os.O_CREAT)
    os.pwrite(file, struct.pack("q", seconds), 0)
    os.close(file)


def with_a_clock_of_its_own(serve, folder):
    """What a program's environment needs for a clock that can be moved."""
    library = f"{folder}/shift.so"
    subprocess.run(["cc", "-shared", "-fPIC", "-O2", "-o", library, f"{serve.ROOT}/tests/shift.c"], check=True)
    moved(folder, 0)
    return {**os.environ, "LD_PRELOAD": library, "SHIFT_FILE": f"{folder}/ahead"}


@test
def a_clock_that_is_set_back_and_forth_changes_no_order(serve):
    with tempfile.TemporaryDirectory() as folder, Apart(serve, 2, started=[2], more="fills = true") as sites:
        environment = with_a_clock_of_its_own(serve, folder)
        moved(folder, -3600)
        sites.start(1, environment=environment)
        sites.until_joined()
        clients = one, two = [sites[number].client() for number in (1, 2)]
        # by a clock that is behind, what ends soon has ended elsewhere before
        one.ask(b"set short 0 100 1\r\na\r\n", b"STORED\r\n")
        assert one.get(b"short") == b"a"
        moved(folder, 0)
        assert [client.get(b"short") for client in clients] == [None, None]
        one.ask(b"set long 0 5000 1\r\na\r\n", b"STORED\r\n")
        stamps = []
        for number, seconds in enumerate((0, -3600, 3600, 0)):
            moved(folder, seconds)
            for client in clients:
                value = b"%d of %s" % (number, b"one" if client is one else b"two")
                stored(client, b"k", value)
                stamp, seen = serve.until("the value at both sites", lambda: all_show(clients, b"k"))
                assert seen == value, seen
                stamps.append(int(stamp))
            assert one.get(b"long") == b"a", seconds
        assert stamps == sorted(set(stamps)), stamps
        # where a clock has gone back, its site goes on at the last moment that it was shown
        one.ask(b"set short 0 100 1\r\na\r\n", b"STORED\r\n")
        moved(folder, 3600)
        assert one.get(b"short") == b"a"
        for client in clients:
            client.quit()
        for number in (1, 2):
            serve.has(sites[number].stops(), faults=0)


@test
def a_site_that_starts_again_under_its_number_holds_up_no_other(serve):
    with Apart(serve, 3, more="fills = true") as sites:
        sites.until_joined()
        one, two, three = [sites[number].client() for number in (1, 2, 3)]
        for number in range(20):
            stored(three, b"k%d" % number, b"before")
        serve.until("them elsewhere", lambda: agree((one, two, three), [b"k%d" % number for number in range(20)]))
        sites[3].kill()
        again = sites.start(3)
        sites.until_joined()
        three = again.client()
        # it serves its own clients, and is a stranger to what the others know
        stored(three, b"own", b"after")
        assert three.get(b"own") == b"after"
        for number in range(20):
            writer = two if number % 2 else one
            stored(writer, b"k%d" % number, b"after")
        keys = [b"k%d" % number for number in range(20)]
        serve.until("the newer ones at both", lambda: all((all_show((one, two), key) or (b"", b""))[1] == b"after" for key in keys))
        for client in (one, two, three):
            client.quit()
        for number in (1, 2, 3):
            serve.has(sites[number].stops(), faults=0)


@test
def deletes_go_once_the_others_retire_a_dead_site(serve):
    with Apart(serve, 3) as sites:
        sites.until_joined()
        clients = one, two = [sites[number].client() for number in (1, 2)]
        os.kill(sites[3].process.pid, signal.SIGKILL)
        for number in range(20):
            stored(one, b"k%d" % number, b"x")
            one.ask(b"delete k%d\r\n" % number, b"DELETED\r\n")
        serve.until("the deletes at site 2", lambda: serve.stat(two, b"records") == 20)
        time.sleep(1)
        assert [serve.stat(client, b"records") for client in clients] == [20, 20]
        answers = {b"retire 1": b"refused 1", b"retire 0": b"refused 1", b"retire 4": b"refused 1", b"retire": b"unknown"}
        answers |= {b"retire three": b"unknown", b"retire 003": b"unknown", b"retire 3": b"retired", b"retire 03": b"nothing"}
        for line, answer in answers.items():
            assert sites[1].answers(line + b"\n") == answer + b"\n", line
        serve.until("the deletes to go", lambda: all(serve.stat(client, b"records") == 0 for client in clients))
        assert sites[2].answers(b"retire 3\n") == b"nothing\n"
        stored(two, b"k0", b"newer")
        serve.until("the record at site 1", lambda: serve.stat(one, b"records") == 1)
        for client in clients:
            client.quit()
        for number in (1, 2):
            serve.has(sites[number].stops(), faults=0)


def launched(serve, folder):
    """The launching script beside a copy of the program, which is newer than its sources: there are none."""
    os.makedirs(f"{folder}/crates/geocache/out")
    os.makedirs(f"{folder}/crates/geocache/src")
    shutil.copy(f"{serve.ROOT}/geocache", folder)
    with open(f"{folder}/crates.txt", "w"):
        pass
    shutil.copy(serve.PROGRAM, f"{folder}/crates/geocache/out/geocache")
    return f"{folder}/geocache"


class Spread:
    """twemproxy in front of one site of each cluster, as contrib/twemproxy.yml has it."""

    def __init__(self, serve, ports):
        [self.port, stats] = serve.free_ports(2)
        with open(f"{serve.ROOT}/contrib/twemproxy.yml", encoding="utf-8") as file:
            text = file.read()
        text = text.replace("127.0.0.1:22121", f"127.0.0.1:{self.port}")
        for at, port in enumerate(ports):
            text = text.replace(f"10.0.1.{5 + at}:11211", f"127.0.0.1:{port}")
        assert "10.0.1" not in text, text
        self.file = tempfile.NamedTemporaryFile("w", suffix=".yml")
        self.file.write(text)
        self.file.flush()
        quiet = subprocess.DEVNULL
        self.process = subprocess.Popen(["nutcracker", "-c", self.file.name, "-s", str(stats)], stdout=quiet, stderr=quiet)

    def __enter__(self):
        return self

    def __exit__(self, *_):
        self.process.kill()
        self.process.wait()


@test
def keys_are_spread_over_two_clusters(serve):
    if not shutil.which("nutcracker"):
        raise serve.Skipped("nutcracker is not installed")
    keys = [b"key-%d" % number for number in range(2000)]
    with Apart(serve, 2, more="fills = true") as red, Apart(serve, 2, more="fills = true") as blue:
        for sites in (red, blue):
            sites.until_joined()
        with Spread(serve, [red.clients[0], blue.clients[0]]) as first, Spread(serve, [red.clients[1], blue.clients[1]]) as second:
            here, there = serve.Client(first.port), serve.Client(second.port)
            for key in keys:
                stored(here, key, b"value of " + key)
            for key in keys:
                assert here.get(key) == b"value of " + key, key
            # each key is of one cluster, whichever data centre asks
            own = [serve.stat(sites[1].client(), b"curr_items") for sites in (red, blue)]
            assert sum(own) == len(keys) and min(own) > 500, own
            for key in keys:
                serve.until(f"{key!r} in the other data centre", lambda key=key: there.get(key) == b"value of " + key)
            for key in keys[::20]:
                there.ask(b"delete %s\r\n" % key, b"DELETED\r\n")
            for key in keys[::20]:
                serve.until(f"{key!r} to go", lambda key=key: here.get(key) is None)
            for client in (here, there):
                client.close()
        for sites in (red, blue):
            for number in (1, 2):
                serve.has(sites[number].stops(), frames_refused=0)
