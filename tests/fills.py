"""Sites that fill what they lack from one another. tests/serve runs these, and hands each what starts and asks a server."""
import hashlib
import random
import socket
import struct
import threading
import time

from modes import in_both

FILLS = "fills = true"
# For how many seconds clients write and read at random.
AT_RANDOM = 10
KEYS = [b"k%d" % number for number in range(12)]
LENGTHS = (0, 10, 10, 10, 300, 300, 3000, 20_000)
# One era has all that they do, so that the audit can tell.
ONE_ERA = FILLS + "\nera_bytes = 4294967296"
TESTS = []


def test(function):
    TESTS.append(function)
    return function


def is_shown(client, key, flags, value):
    """Whether a site shows these flags and bytes of a key. Where it shows anything, it shows these."""
    client.send(b"get " + key + b"\r\n")
    line = b""
    while not line.endswith(b"\r\n"):
        line += client.read(1)
    if line == b"END\r\n":
        return False
    owed = b"VALUE %s %d %d\r\n" % (key, flags, len(value)), value + b"\r\nEND\r\n"
    told = line, client.read(len(owed[1]))
    assert told == owed, f"{told!r} is shown, and {owed!r} was set"
    return True


def is_soon_a_hit(serve, sites, link):
    """What a site sets is soon shown at each other one, and so is what is set there in its place."""
    with serve.Server(sites, 1, link=link, more=FILLS) as server:
        clients = [server.client(site) for site in range(1, sites + 1)]
        for round, (writer, value) in enumerate(zip(clients, (b"hi", b"x" * 100_000, bytes(1 << 20)))):
            writer.ask(b"set a %d 0 %d\r\n%s\r\n" % (round + 7, len(value), value), b"STORED\r\n")
            for client in clients:
                serve.until("the value at each site", lambda: is_shown_at_last(client, round + 7, value))
        clients[0].ask(b"delete a\r\n", b"DELETED\r\n")
        for client in clients:
            serve.until("its end at each site", lambda: client.get(b"a") is None)
            client.quit()
        serve.has(server.ends(), sessions=sites, faults=0, frames_refused=0, audit="sound")


def is_shown_at_last(client, flags, value):
    """Whether a site shows these bytes, and with these flags. Before that it may show older ones."""
    if client.get(b"a") != value:
        return False
    return is_shown(client, b"a", flags, value)


@test
def what_one_of_two_sites_sets_is_soon_a_hit_at_both_over_memory_links(serve):
    is_soon_a_hit(serve, 2, "memory")


@test
def what_one_of_two_sites_sets_is_soon_a_hit_at_both_over_sockets(serve):
    is_soon_a_hit(serve, 2, "tcp")


@test
def what_one_of_three_sites_sets_is_soon_a_hit_at_all_over_memory_links(serve):
    is_soon_a_hit(serve, 3, "memory")


@test
def what_one_of_three_sites_sets_is_soon_a_hit_at_all_over_sockets(serve):
    is_soon_a_hit(serve, 3, "tcp")


@test
def without_fills_nothing_is_fetched(serve):
    for link in ("memory", "tcp"):
        with serve.Server(2, 1, link=link) as server:
            one, two = server.client(1), server.client(2)
            one.ask(b"set a 0 0 2\r\nhi\r\n", b"STORED\r\n")
            serve.until("the record at site 2", lambda: serve.stat(two, b"records") == 1)
            time.sleep(0.5)
            assert two.get(b"a") is None
            one.quit()
            two.quit()
            serve.has(server.ends(), sessions=2, faults=0, frames_refused=0, audit="sound")


@test
def more_keys_than_one_fetch_takes_are_filled(serve):
    with serve.Server(2, 1, link="tcp", more=FILLS) as server:
        one, two = server.client(1), server.client(2)
        for number in range(500):
            one.ask(b"set n%d 0 0 5\r\n%05d\r\n" % (number, number), b"STORED\r\n")
        for number in range(500):
            serve.until("each value", lambda: is_shown(two, b"n%d" % number, 0, b"%05d" % number))
        one.quit()
        two.quit()
        serve.has(server.ends(), sessions=2, faults=0, frames_refused=0, audit="sound")


class Writer(threading.Thread):
    """A client that sets, deletes and gets at random. What it is shown of a key somebody has set."""

    def __init__(self, client, written, seed, end):
        super().__init__()
        self.client, self.written, self.end = client, written, end
        self.random, self.number, self.fault, self.hits = random.Random(seed), 0, None, 0
        self.seed = seed

    def step(self):
        key, way = self.random.choice(KEYS), self.random.random()
        if way < 0.2:
            self.number += 1
            value = b"%s %d %d " % (key, self.seed, self.number) + b"." * self.random.choice(LENGTHS)
            self.written[key].add(hashlib.sha256(value).digest())
            self.client.ask(b"set %s 0 0 %d\r\n%s\r\n" % (key, len(value), value), b"STORED\r\n")
        elif way < 0.25:
            self.client.send(b"delete " + key + b"\r\n")
            first = self.client.read(2)
            assert first in (b"DE", b"NO"), first
            self.client.read(len(b"DELETED\r\n" if first == b"DE" else b"NOT_FOUND\r\n") - 2)
        else:
            value = self.client.get(key)
            if value is not None:
                self.hits += 1
                assert hashlib.sha256(value).digest() in self.written[key], f"nobody has set {value[:60]!r} of {key!r}"

    def run(self):
        try:
            while time.monotonic() < self.end:
                self.step()
        except Exception as fault:
            self.fault = fault


def at_random(serve, sites, link, mode):
    written = {key: set() for key in KEYS}
    with serve.Server(sites, 2, link=link, more=f"{ONE_ERA}\n{mode.more}", pages=64) as server:
        end = time.monotonic() + AT_RANDOM
        clients = [(site, server.client(site)) for site in range(1, sites + 1) for _ in range(2)]
        writers = [Writer(client, written, 100 * site + at, end) for at, (site, client) in enumerate(clients)]
        for writer in writers:
            writer.start()
        for writer in writers:
            writer.join()
            if writer.fault:
                raise writer.fault
            assert writer.hits > 100, writer.hits
            writer.client.quit()
        serve.has(server.ends(), sessions=2 * sites, faults=0, frames_refused=0, audit=mode.audit)


@in_both(TESTS)
def nobody_is_shown_what_nobody_set_while_two_sites_write_over_sockets(serve, mode):
    at_random(serve, 2, "tcp", mode)


@in_both(TESTS)
def nobody_is_shown_what_nobody_set_while_three_sites_write_over_memory_links(serve, mode):
    at_random(serve, 3, "memory", mode)


def framed(kind, fields):
    """A frame of the second version: docs/replication.md."""
    content = b"GCDS\2" + struct.pack(">I", 42 + len(fields)) + bytes([kind]) + fields
    return content + hashlib.sha256(content).digest()


def offer(key, value, offered):
    """The answer of site 2 to an ask of site 1 for a value of a key: these bytes."""
    fields = bytes([2, 1, 2, len(key)]) + key + hashlib.sha256(value).digest()
    return framed(3, fields + (b"\0" if offered is None else b"\1" + struct.pack(">I", len(offered)) + offered))


def is_told_wrongly(serve, what):
    """Site 2's end of the link on which site 1 asks says something before site 1 asks for the first time."""
    with serve.Server(2, 1, link="tcp", more=FILLS) as server:
        one, two = server.client(1), server.client(2)
        assert serve.site_two_hears_of(one, two, b"b") < 2
        for end in serve.ends_of(server.process, server.peers[1], False):
            with end:
                end.sendall(what)
        two.ask(b"set a 3 0 4\r\ntrue\r\n", b"STORED\r\n")
        # the link is cut, comes back, and then site 1 has what was set
        serve.until("the value at site 1", lambda: is_shown(one, b"a", 3, b"true"))
        assert serve.site_two_hears_of(one, two, b"c") < 7, "the link did not come back"
        one.quit()
        two.quit()
        output, errors = server.process.communicate(timeout=serve.PATIENCE)
        assert b"the link from site 1 to site 2 is cut\n" in errors, errors
        assert output.endswith(b"audit sound\n"), output


@test
def other_bytes_than_were_asked_for_are_not_held(serve):
    is_told_wrongly(serve, offer(b"a", b"true", b"lies"))
    is_told_wrongly(serve, offer(b"a", b"true", b"true but longer"))


@test
def an_offer_of_another_key_ends_its_link(serve):
    is_told_wrongly(serve, offer(b"b", b"true", b"true"))


@test
def an_offer_of_another_version_ends_its_link(serve):
    is_told_wrongly(serve, offer(b"a", b"older", b"older"))


@test
def half_a_frame_ends_its_link(serve):
    is_told_wrongly(serve, offer(b"a", b"true", b"true")[:40])


@test
def noise_ends_its_link(serve):
    is_told_wrongly(serve, random.Random(5).randbytes(5000))


@test
def a_message_that_is_no_offer_ends_its_link(serve):
    is_told_wrongly(serve, framed(2, bytes([2, 1, 2, 1]) + b"a" + hashlib.sha256(b"true").digest()))


@test
def strangers_that_ask_get_what_is_held_and_hold_nobody_up(serve):
    with serve.Server(2, 1, link="tcp", more=FILLS) as server:
        one, two = server.client(1), server.client(2)
        value = bytes(1 << 20)
        two.ask(b"set a 0 0 %d\r\n%s\r\n" % (len(value), value), b"STORED\r\n")
        serve.until("the value at site 1", lambda: is_shown(one, b"a", 0, value))
        asks = framed(2, bytes([1, 2, 2, 1]) + b"a" + hashlib.sha256(value).digest())
        # one reads what it is offered, and one asks again and again and reads nothing
        with socket.create_connection(("127.0.0.1", server.peers[1]), timeout=serve.PATIENCE) as reader:
            reader.sendall(asks)
            owed = offer(b"a", value, value)
            answer = b""
            while len(answer) < len(owed):
                piece = reader.recv(1 << 20)
                assert piece, f"the connection ended behind {len(answer)} bytes"
                answer += piece
            assert answer == owed
        deaf = socket.create_connection(("127.0.0.1", server.peers[1]), timeout=2)
        try:
            deaf.sendall(asks * 1000)
        except (TimeoutError, OSError):
            pass
        assert serve.site_two_hears_of(one, two, b"b") < 8, "one that reads nothing keeps the link waiting"
        two.ask(b"version\r\n", b"VERSION 1.0.0\r\n")
        deaf.close()
        one.quit()
        two.quit()
        serve.has(server.ends(), sessions=2, faults=0, audit="sound")
