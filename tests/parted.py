"""Links between sites that run apart: cut, silent, taken by strangers, or to nowhere. tests/serve runs these with those of apart.py."""
import hashlib
import random
import select
import socket
import struct
import subprocess
import tempfile
import threading
import time

from apart import TESTS, Apart, Load, Site, all_show, shown, stored, test
from modes import in_both

# How many keys there are where links are cut at random, and for how many seconds they are.
KEYS, CUTTING = 10_000, 20


class Proxy(threading.Thread):
    """Carries connections to a port, and cuts each at a byte of chance while it is to cut."""

    def __init__(self, port, seed):
        super().__init__(daemon=True)
        self.listener = socket.create_server(("127.0.0.1", 0))
        self.port, self.random, self.to = self.listener.getsockname()[1], random.Random(seed), port
        self.cuts, self.is_cutting, self.is_over = 0, True, False

    def carry(self, one, other):
        """Carries both ways until either ends, or so many bytes have come by."""
        left = self.random.choice((0, 1, 9, 40, 100, 1000, 10_000, 100_000))
        while True:
            ready, _, _ = select.select([one, other], [], [], 0.2)
            if self.is_over:
                return
            for end in ready:
                piece = end.recv(65536)
                if not piece:
                    return
                if self.is_cutting and len(piece) >= left:
                    (other if end is one else one).sendall(piece[:left])
                    self.cuts += 1
                    return
                left -= len(piece)
                (other if end is one else one).sendall(piece)

    def serve_one(self, one):
        try:
            with one, socket.create_connection(("127.0.0.1", self.to), timeout=5) as other:
                self.carry(one, other)
        except OSError:
            pass

    def run(self):
        self.listener.settimeout(0.2)
        while not self.is_over:
            try:
                one, _ = self.listener.accept()
            except TimeoutError:
                continue
            one.settimeout(5)
            threading.Thread(target=self.serve_one, args=(one,), daemon=True).start()
        self.listener.close()


@in_both(TESTS)
def links_that_are_cut_at_random_lose_nothing(serve, mode):
    keys = [b"key%d" % number for number in range(KEYS)]
    with Apart(serve, 3, started=[], pages=64, more=f"fills = true\npatience = 1000\n{mode.more}") as sites:
        proxies = {}
        for one in (1, 2, 3):
            for other in (1, 2, 3):
                if one != other:
                    proxies[one, other] = Proxy(sites.peers[other - 1], 10 * one + other)
                    proxies[one, other].start()
        for one in (1, 2, 3):
            ways = [sites.peers[one - 1] if other == one else proxies[one, other].port for other in (1, 2, 3)]
            sites.start(one, ways)
        loads = [Load(sites[number].client(), keys, number) for number in (1, 2, 3)]
        for load in loads:
            load.start()
        time.sleep(CUTTING)
        for load in loads:
            load.ends()
            assert load.fault is None and load.number > 1000, (load.fault, load.number)
        for proxy in proxies.values():
            proxy.is_cutting = False
        cuts = sum(proxy.cuts for proxy in proxies.values())
        assert cuts > 20, cuts
        clients = [load.client for load in loads]
        end = time.monotonic() + 90
        for key in keys:
            written = [load.last[key] for load in loads if key in load.last]
            while written:
                same = all_show(clients, key)
                if same:
                    assert same[1] in written, (key, same, written)
                    break
                assert time.monotonic() < end, (key, [shown(client, key) for client in clients])
                time.sleep(0.02)
        for client in clients:
            client.quit()
        for number in (1, 2, 3):
            sites[number].stops()
        for proxy in proxies.values():
            proxy.is_over = True


@test
def a_peer_that_never_answers_loses_its_link_and_holds_up_nobody(serve):
    with Apart(serve, 3, started=[1, 3], more="fills = true\npatience = 500") as sites:
        silent = socket.create_server(("127.0.0.1", sites.peers[1]))
        sites[1].until_told("the link from site 1 to site 2 is up")
        sites[1].until_told("the link from site 1 to site 3 is up")
        one, three = sites[1].client(), sites[3].client()
        for number in range(20):
            began = time.monotonic()
            stored(three, b"k%d" % number, b"x")
            serve.until("the fill at site 1", lambda: one.get(b"k%d" % number) == b"x")
            assert time.monotonic() - began < 0.4, "a silent site holds up another"
        # what no site holds is asked for at each
        stored(three, b"lost", b"y" * 900_000)
        serve.until("the end of that link", lambda: sites[1].has_told("the link from site 1 to site 2 is down: "))
        silent.close()
        for client in (one, three):
            client.quit()
        for number in (1, 3):
            sites[number].stops()


def frame(sender, receiver, sites):
    """An offer of nothing that a site sends: docs/replication.md."""
    fields = bytes([sender, receiver, sites, 1]) + b"k" + bytes(32) + b"\0"
    content = b"GCDS\2" + struct.pack(">I", 42 + len(fields)) + b"\3" + fields
    return content + hashlib.sha256(content).digest()


def is_let_go(stranger):
    stranger.settimeout(10)
    try:
        return stranger.recv(1) == b""
    except ConnectionResetError:
        return True


@test
def a_link_that_is_always_cut_is_tried_less_and_less_often(serve):
    with Apart(serve, 2, started=[]) as sites, socket.create_server(("127.0.0.1", sites.peers[1])) as other:
        sites.start(1).until_told("site 1 is ready")
        other.settimeout(0.1)
        end, count = time.monotonic() + 3, 0
        while time.monotonic() < end:
            try:
                other.accept()[0].close()
                count += 1
            except TimeoutError:
                pass
        # pauses of 50, 100, 200 milliseconds and so on
        assert 3 <= count <= 8, count
        serve.has(sites[1].stops(), sessions=0, faults=0)


@test
def a_newer_connection_takes_the_place_of_an_older_one(serve):
    with Apart(serve, 2, started=[1]) as sites:
        sites[1].until_told("site 1 is ready")
        address = ("127.0.0.1", sites.peers[0])
        older = socket.create_connection(address)
        older.sendall(frame(2, 1, 2))
        sites[1].until_told("the link from site 2 to site 1 is up")
        newer = socket.create_connection(address)
        newer.sendall(frame(2, 1, 2))
        assert is_let_go(older)
        sites[1].until_told("the link from site 2 to site 1 is down: a newer connection takes its place")
        newer.settimeout(1)
        try:
            assert newer.recv(1) != b"", "the newer one is let go"
        except TimeoutError:
            pass
        newer.close()
        sites[1].stops()


@test
def strangers_at_a_peer_port_are_let_go_and_told_of_once_a_second(serve):
    with Apart(serve, 2, started=[1], more="patience = 500") as sites:
        sites[1].until_told("site 1 is ready")
        address = ("127.0.0.1", sites.peers[0])
        began = time.monotonic()
        silent = socket.create_connection(address)
        assert is_let_go(silent) and 0.4 < time.monotonic() - began < 3
        began = time.monotonic()
        count = 0
        # noise, of a site that there isn't, of this one itself, and for another
        while time.monotonic() - began < 2.5:
            for what in (b"GET / HTTP/1.0\r\n\r\n", frame(3, 1, 2), frame(1, 2, 2), frame(2, 3, 3)):
                stranger = socket.create_connection(address)
                stranger.sendall(what)
                assert is_let_go(stranger), what
                stranger.close()
                count += 1
        refused = [line for line in sites[1].log() if "is refused: " in line]
        assert 2 <= len(refused) <= 4, refused
        told = sites[1].stops()
        assert told["frames_refused"] >= count, (told, count)


@test
def a_peer_whose_name_is_unknown_keeps_nobody_waiting(serve):
    [client, peer] = serve.free_ports(2)
    text = serve.configured([client, 1], [peer, 1], 1, link="tcp").replace('peer = "127.0.0.1:1"', 'peer = "nowhere.invalid:1"')
    with tempfile.NamedTemporaryFile("w", suffix=".toml") as file:
        file.write(text.replace("sessions = 1\n", ""))
        file.flush()
        one = Site(serve, [serve.PROGRAM, "serve", file.name, "1"], client)
        try:
            one.until_told("the link from site 1 to site 2 is down: ")
            user = one.client()
            stored(user, b"a", b"hi")
            user.quit()
            one.says(b"stop\n")
            serve.has(one.ends(), sessions=1, faults=0, audit="skipped")
        finally:
            one.kill()


@test
def each_fault_of_a_call_for_one_site_is_told(serve):
    def outcome(text, *words):
        with tempfile.NamedTemporaryFile("w", suffix=".toml") as file:
            file.write(text)
            file.flush()
            command = [serve.PROGRAM, "serve", file.name, *words]
            done = subprocess.run(command, stdin=subprocess.DEVNULL, capture_output=True, timeout=serve.PATIENCE)
            assert done.stdout == b"", done
            return done.returncode, done.stderr.decode()

    [client, peer] = serve.free_ports(2)
    whole = serve.configured([client], [peer], 1, link="tcp")
    endless = whole.replace("sessions = 1\n", "")
    usage = (2, "usage: geocache script | geocache serve FILE\n")
    for word in ("0", "2", "17", "256", "-1", "one", ""):
        assert outcome(endless, word) == usage, (word, outcome(endless, word))
    assert outcome(endless, "1", "1") == usage
    assert outcome(endless) == (2, "configuration: missing sessions\n")
    memory = serve.configured([client], [peer], 1)
    for text, owed in (
        (memory, "out of range link"),
        (memory.replace("sessions = 1\n", ""), "out of range link"),
        (memory.replace('link = "memory"\n', ""), "out of range link"),
        ("patience = 99\n" + endless, "out of range patience"),
        ("patience = 600001\n" + endless, "out of range patience"),
        ("drain = -1\n" + endless, "out of range drain"),
        ("drain = 600001\n" + endless, "out of range drain"),
        ("drain = true\n" + endless, "wrong type drain"),
        ("sessions = 0\n" + endless, "out of range sessions"),
        ("sessions = true\n" + endless, "wrong type sessions"),
        ("", "missing site"),
    ):
        assert outcome(text, "1") == (2, f"configuration: {owed}\n"), (text, outcome(text, "1"))
    with socket.create_server(("127.0.0.1", 0)) as taken:
        port = taken.getsockname()[1]
        told = outcome(serve.configured([client], [port], 1, link="tcp"), "1")
        assert told == (4, f"cannot listen on 127.0.0.1:{port}\n"), told
