"""Clients that ask a server for more than the machine has. tests/serve runs these, each over a server of its own.

Whatever a client asks for and however little it reads, the program's memory stays bounded, other clients are answered within half a
second, and who asked gets every byte in the end. The program may take no more memory than no test is to take, so that one that fails
takes no machine down.
"""
import concurrent.futures
import random
import resource
import socket
import time

# By how many mebibytes memory may rise for what a client is owed; and how much of what was answered a history that is logged keeps, once,
# and once more while an era that ended is let go.
OWED, ERA = 64, 32
# The program may take so many more than it has once the tests begin.
MOST = 768
SESSIONS = 2
# A value of no pattern, so that each byte out of place is seen.
LARGE = random.Random(3).randbytes(1 << 20)
STORE = b"set a 0 0 %d\r\n%s\r\n" % (len(LARGE), LARGE)
SHOWN = b"VALUE a 0 %d\r\n%s\r\n" % (len(LARGE), LARGE)
END = b"END\r\n"
TESTS = []


def test(function):
    TESTS.append(function)
    return function


def settings(mode):
    """What a server is started with. One worker has all clients."""
    return {"workers": 1, "more": f"era_bytes = {ERA << 20}\n{mode.more}"}


def number_in(pid, name):
    """A number of bytes that the system tells of a process."""
    with open(f"/proc/{pid}/status") as file:
        [number] = [line.split()[1] for line in file if line.startswith(name + ":")]
    return int(number) << 10


def takes(client, owed):
    """Has a client read as many bytes as are owed, in large pieces, and compares them."""
    answer, filled = bytearray(len(owed)), 0
    while filled < len(owed):
        count = client.socket.recv_into(memoryview(answer)[filled:])
        assert count, f"the connection ended behind {filled} of {len(owed)} bytes"
        filled += count
    if answer != owed:
        at = next(at for at, (one, two) in enumerate(zip(answer, owed)) if one != two)
        raise AssertionError(f"{bytes(answer[at : at + 60])!r} came at byte {at} of {len(owed)}, and {owed[at : at + 60]!r} is owed")


def line_that_repeats(length):
    """A line of so many bytes that names one key again and again, and how often it does."""
    times = (length - len(b"get\r\n")) // 2
    return b"get" + b" a" * times + b"\r\n", times


def takes_shown(client, times):
    """Has a client read the answer to a line that names the key so many times."""
    for _ in range(times):
        takes(client, SHOWN)
    takes(client, END)


class Pair:
    """A client that asks for much, and another one."""

    def __init__(self, server, mode):
        self.server, self.pid = server, server.process.pid
        self.kept = 2 * ERA if mode.is_logged else 0
        self.client, self.other = server.client(1), server.client(1)
        self.client.ask(STORE, b"STORED\r\n")
        self.other.ask(b"set b 0 0 1\r\n!\r\n", b"STORED\r\n")
        self.slowest = 0
        self.before = number_in(self.pid, "VmRSS")
        _, most = resource.prlimit(self.pid, resource.RLIMIT_DATA)
        resource.prlimit(self.pid, resource.RLIMIT_DATA, (number_in(self.pid, "VmData") + (MOST << 20), most))

    def serves_the_other(self):
        """Has the other client answered, and notes how long it took."""
        began = time.monotonic()
        self.other.ask(b"get b\r\n", b"VALUE b 0 1\r\n!\r\nEND\r\n")
        self.slowest = max(self.slowest, time.monotonic() - began)

    def rose_by(self, most):
        """Checks by how many mebibytes memory rose, and rose at its peak."""
        now, peak = (number_in(self.pid, name) - self.before >> 20 for name in ("VmRSS", "VmHWM"))
        assert now < most and peak < most, f"memory rose by {now} MiB, and by {peak} at its peak: {most} are the most"

    def ends(self):
        assert self.slowest < 0.5, f"another client waited for {self.slowest} seconds"
        self.client.quit()
        self.other.quit()
        told = self.server.ends()
        # an era ended where it keeps more than an era's bytes, or no history was logged
        assert (told["sessions"], told["faults"], told["audit"]) == (SESSIONS, 0, "skipped"), told


@test
def a_large_value_that_a_line_names_again_and_again_takes_its_memory_once(pair):
    line, times = line_that_repeats(1005)
    for _ in range(3):
        pair.client.send(line)
        takes_shown(pair.client, times)
    pair.rose_by(OWED)
    pair.ends()


@test
def a_line_that_names_a_large_value_two_thousand_times_holds_up_no_other(pair):
    line, times = line_that_repeats(4005)
    pair.client.send(line)
    with concurrent.futures.ThreadPoolExecutor(1) as pool:
        reading = pool.submit(takes_shown, pair.client, times)
        while not reading.done():
            pair.serves_the_other()
            time.sleep(0.005)
    reading.result()
    pair.rose_by(OWED)
    pair.ends()


@test
def a_thousand_large_answers_that_nobody_reads_take_no_memory(pair):
    pair.client.send(b"get a\r\n" * 1000)
    began = time.monotonic()
    while time.monotonic() - began < 2:
        pair.serves_the_other()
        time.sleep(0.01)
    pair.rose_by(OWED)
    for _ in range(1000):
        takes(pair.client, SHOWN + END)
    pair.rose_by(OWED + pair.kept)
    pair.ends()


@test
def what_a_slow_client_has_read_is_let_go_though_it_is_always_owed_more(pair):
    # with little room on its side what it is owed is never written whole
    pair.client.socket.setsockopt(socket.SOL_SOCKET, socket.SO_RCVBUF, 32768)
    pair.client.send(b"get a\r\n" * 300)
    for _ in range(300):
        takes(pair.client, SHOWN + END)
        pair.serves_the_other()
    pair.rose_by(OWED + pair.kept)
    pair.ends()
