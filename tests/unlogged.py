"""Sites whose histories are not logged. tests/serve runs these, and hands each what starts and asks a server."""
import random
import threading

from apart import Apart
from modes import UNLOGGED

# How many clients a site has, how many requests each makes, and under how many keys of its own.
CLIENTS, REQUESTS, KEYS = 3, 2000, 50
PIPELINE = 20
TESTS = []


def test(function):
    TESTS.append(function)
    return function


class Owner(threading.Thread):
    """A client with keys of its own, which knows what each holds, and so what each request is owed."""

    def __init__(self, client, number):
        super().__init__(daemon=True)
        self.client, self.number, self.random = client, number, random.Random(number)
        self.held, self.fault = {}, None

    def stores(self, key):
        """A number of some digits, or what is none."""
        value = b"%d" % self.random.randrange(1 << 40) if self.random.random() < 0.5 else b"x" * self.random.choice((0, 10, 300, 3000))
        self.held[key] = value
        return b"set %s 0 0 %d\r\n%s\r\n" % (key, len(value), value), b"STORED\r\n"

    def deletes(self, key):
        return b"delete %s\r\n" % key, b"NOT_FOUND\r\n" if self.held.pop(key, None) is None else b"DELETED\r\n"

    def adds(self, key):
        value = self.held.get(key)
        if value is None:
            return b"incr %s 7\r\n" % key, b"NOT_FOUND\r\n"
        if not value.isdigit():
            return b"incr %s 7\r\n" % key, b"CLIENT_ERROR cannot increment or decrement non-numeric value\r\n"
        self.held[key] = b"%d" % (int(value) + 7)
        return b"incr %s 7\r\n" % key, self.held[key] + b"\r\n"

    def gets(self, key):
        value = self.held.get(key)
        return b"get %s\r\n" % key, b"END\r\n" if value is None else b"VALUE %s 0 %d\r\n%s\r\nEND\r\n" % (key, len(value), value)

    def asks(self, count):
        """Makes so many requests at once, and compares their answers."""
        ways = self.random.choices((self.gets, self.stores, self.deletes, self.adds), (60, 25, 5, 10), k=count)
        pairs = [way(b"k%d-%d" % (self.number, self.random.randrange(KEYS))) for way in ways]
        self.client.ask(b"".join(sent for sent, _ in pairs), b"".join(owed for _, owed in pairs))

    def run(self):
        try:
            for _ in range(REQUESTS // PIPELINE):
                self.asks(PIPELINE)
            self.client.quit()
        except Exception as fault:
            self.fault = fault


def answers_rightly(serve, link):
    """Clients of two sites have the answers that they are owed, and behind them a stale copy goes."""
    with serve.Server(2, CLIENTS + 1, link=link, more=UNLOGGED.more) as server:
        owners = [Owner(server.client(1 + index % 2), index) for index in range(2 * CLIENTS)]
        for owner in owners:
            owner.start()
        for owner in owners:
            owner.join(serve.PATIENCE + 40)
            assert not owner.is_alive(), "a client waits for an answer"
            if owner.fault:
                raise owner.fault
        one, two = server.client(1), server.client(2)
        one.ask(b"set a 0 0 3\r\nold\r\n", b"STORED\r\n")
        written = serve.stat(one, b"clock")
        serve.until("the clock of site 2", lambda: serve.stat(two, b"clock") >= written)
        two.ask(b"set a 0 0 3\r\nnew\r\n", b"STORED\r\n")
        serve.until("the stale copy to go", lambda: one.get(b"a") is None)
        assert two.get(b"a") == b"new"
        one.quit()
        two.quit()
        told = server.ends()
        serve.has(told, sessions=2 * (CLIENTS + 1), faults=0, frames_refused=0, audit="skipped")
        assert told["requests"] > 2 * CLIENTS * REQUESTS, told


@test
def clients_of_two_sites_are_answered_rightly_without_a_history_over_memory_links(serve):
    answers_rightly(serve, "memory")


@test
def clients_of_two_sites_are_answered_rightly_without_a_history_over_sockets(serve):
    answers_rightly(serve, "tcp")


@test
def deletes_and_a_flush_reach_the_other_site_without_a_history(serve):
    keys = [b"k%d" % number for number in range(20)]
    for link in ("memory", "tcp"):
        with serve.Server(2, 1, link=link, more=f"fills = true\n{UNLOGGED.more}") as server:
            one, two = server.client(1), server.client(2)
            for key in keys:
                one.ask(b"set %s 0 0 2\r\nhi\r\n" % key, b"STORED\r\n")
            for key in keys:
                serve.until("each value at site 2", lambda: two.get(key) == b"hi")
            for key in keys[::2]:
                one.ask(b"delete %s\r\n" % key, b"DELETED\r\n")
            for key in keys[::2]:
                serve.until("the deletes at site 2", lambda: two.get(key) is None)
            assert all(two.get(key) == b"hi" for key in keys[1::2])
            two.ask(b"flush_all\r\n", b"OK\r\n")
            for key in keys:
                assert two.get(key) is None
                serve.until("the flush at site 1", lambda: one.get(key) is None)
            one.quit()
            two.quit()
            serve.has(server.ends(), sessions=2, faults=0, frames_refused=0, audit="skipped")


@test
def an_audit_is_made_only_where_histories_are_logged(serve):
    for line, word in (("audit = true", "sound"), ("audit = false", "skipped")):
        with serve.Server(1, 1, more=line) as server:
            client = server.client(1)
            client.ask(b"set a 0 0 2\r\nhi\r\nget a\r\n", b"STORED\r\nVALUE a 0 2\r\nhi\r\nEND\r\n")
            client.quit()
            serve.has(server.ends(), sessions=1, requests=3, faults=0, audit=word)
        with Apart(serve, 1, more=line) as sites:
            client = sites[1].client()
            client.ask(b"set a 0 0 2\r\nhi\r\n", b"STORED\r\n")
            client.quit()
            serve.has(sites[1].stops(), sessions=1, requests=2, faults=0, audit=word)
