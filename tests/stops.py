"""How sites that run apart stop: by a line, by a signal, or by themselves. tests/serve runs these with those of apart.py."""
import os
import re
import signal
import socket
import tempfile
import time

from apart import Apart, Load, Site, launched, stored, test


def held_elsewhere(serve, sites, keys):
    """A client of site 2, which holds what site 1 was first told of each key."""
    one, other = sites[1].client(), sites[2].client()
    for key in keys:
        stored(one, key, b"first")
    serve.until("the first values at site 2", lambda: all(other.get(key) == b"first" for key in keys))
    one.quit()
    return other


@test
def what_was_stored_before_a_stop_is_known_elsewhere_after_it(serve):
    keys = [b"k%d" % number for number in range(50)]
    # rounds come seldom, so that the last one has something to tell
    with Apart(serve, 2, every=2000, more="fills = true") as sites:
        sites.until_joined()
        other = held_elsewhere(serve, sites, keys)
        loads = [Load(sites[1].client(), keys, number) for number in range(4)]
        for load in loads:
            load.start()
        time.sleep(0.5)
        told = sites[1].stops()
        for load in loads:
            load.ends()
        assert told["faults"] == 0, told
        for key in keys:
            value = other.get(key)
            lawful = [load.last[key] for load in loads if key in load.last] + [load.sent[key] for load in loads if key in load.sent]
            # its writers ran side by side, and the last of each may be the latest
            assert value is None or value in lawful or not lawful, (key, value, lawful)
        link = "the link from site 1 to site 2 is "
        assert [line for line in sites[1].log() if line.startswith(link)][-1] == f"{link}up", sites[1].log()
        other.quit()
        sites[2].stops()


@test
def an_only_writer_finds_nothing_older_after_a_stop(serve):
    keys = (b"a", b"b", b"c")
    with Apart(serve, 2, every=2000, more="fills = true") as sites:
        sites.until_joined()
        other = held_elsewhere(serve, sites, keys)
        load = Load(sites[1].client(), keys, 7)
        load.start()
        time.sleep(0.5)
        sites[1].stops()
        load.ends()
        for key in keys:
            value = other.get(key)
            assert value in (None, load.last[key], load.sent[key]), (value, load.last[key], load.sent[key])
        other.quit()
        sites[2].stops()


@test
def a_stop_waits_until_the_others_have_taken_all(serve):
    with Apart(serve, 2, every=2000) as sites:
        sites.until_joined()
        one, two = sites[1].client(), sites[2].client()
        os.kill(sites[2].process.pid, signal.SIGSTOP)
        try:
            stored(one, b"late", b"x")
            one.quit()
            sites[1].says(b"stop\n")
            time.sleep(2)
            assert sites[1].process.poll() is None, "it did not wait for the other"
        finally:
            os.kill(sites[2].process.pid, signal.SIGCONT)
        serve.has(sites[1].ends(), sessions=1, faults=0)
        serve.until("the record at site 2", lambda: serve.stat(two, b"records") == 1)
        two.quit()
        sites[2].stops()


@test
def requests_that_came_whole_are_answered_at_a_stop(serve):
    with Apart(serve, 1) as sites:
        one = sites[1]
        resting, half, busy = one.client(), one.client(), one.client()
        for client in (resting, half, busy):
            client.ask(b"version\r\n", b"VERSION 1.0.0\r\n")
        half.send(b"set a 0 0 5\r\nhe")
        value = b"x" * 1000
        stored(busy, b"k", value)
        # all of that has come when the site is told to stop
        busy.send(b"get k\r\n" * 5000)
        time.sleep(0.5)
        one.says(b"stop\n")
        owed = (b"VALUE k 0 1000\r\n%s\r\nEND\r\n" % value) * 5000
        answer = busy.read(len(owed))
        assert answer == owed, f"{len(answer)} of {len(owed)} bytes arrived"
        for client in (resting, half, busy):
            assert client.is_closed()
            client.close()
        serve.has(one.ends(), sessions=3, faults=0, audit="sound")
        try:
            socket.create_connection(("127.0.0.1", one.port), timeout=2).close()
        except OSError:
            return
        raise AssertionError("somebody listens still")


@test
def clients_that_came_before_a_stop_are_let_in(serve):
    with Apart(serve, 1) as sites:
        one = sites[1]
        one.until_told("site 1 is ready")
        os.kill(one.process.pid, signal.SIGSTOP)
        # more than are let in at once
        clients = [one.client() for _ in range(100)]
        for client in clients:
            client.send(b"version\r\n")
        one.says(b"stop\n")
        os.kill(one.process.pid, signal.SIGCONT)
        for client in clients:
            assert client.read(15) == b"VERSION 1.0.0\r\n"
            client.close()
        serve.has(one.ends(), sessions=100, requests=100, faults=0)


@test
def a_client_that_never_reads_is_let_go_once_the_drain_is_over(serve):
    with Apart(serve, 1, more="drain = 1000") as sites:
        one = sites[1]
        silent = one.client()
        stored(silent, b"k", b"x" * 100_000)
        silent.socket.settimeout(0.5)
        try:
            for _ in range(200):
                silent.send(b"get k\r\n" * 10)
        except (TimeoutError, OSError):
            pass
        began = time.monotonic()
        told = one.stops()
        passed = time.monotonic() - began
        assert 0.9 < passed < 4, passed
        serve.has(told, sessions=1, audit="sound")
        # a fault where some of what it is owed could not be written, and none where the system had taken all that was answered
        assert told["faults"] <= 1 and told["requests"] < 2001, told
        silent.close()


@test
def a_line_that_is_no_order_is_answered_and_the_end_of_lines_says_nothing(serve):
    with Apart(serve, 1) as sites:
        one = sites[1]
        one.until_told("site 1 is ready")
        for line in (b"hello\n", b"stopp\n", b"\n", b"x" * 1000 + b"stop\n"):
            one.says(line)
            assert serve.next_line(one.process.stdout) == b"unknown\n"
        client = one.client()
        client.quit()
        serve.has(one.stops(), sessions=1, requests=1, faults=0, audit="sound")
    with Apart(serve, 1) as sites:
        one = sites[1]
        one.process.stdin.close()
        time.sleep(0.5)
        one.client().quit()
        assert one.process.poll() is None
        one.process.stdin = open(os.devnull, "wb")


@test
def a_site_that_has_had_its_sessions_stops_by_itself(serve):
    [client, peer] = serve.free_ports(2)
    with tempfile.NamedTemporaryFile("w", suffix=".toml") as file:
        file.write(serve.configured([client], [peer], 2, link="tcp"))
        file.flush()
        one = Site(serve, [serve.PROGRAM, "serve", file.name, "1"], client)
        for _ in range(2):
            one.client().quit()
        serve.has(one.ends(), sessions=2, requests=2, faults=0, audit="sound")
        one.kill()


def through_the_script(serve, ask):
    """Starts two sites by the launching script, and has the first stop as this function asks it to."""
    with tempfile.TemporaryDirectory() as folder, Apart(serve, 2, started=[], every=1000) as sites:
        script = launched(serve, folder)
        for number in (1, 2):
            command = sites.command(number, sites.peers)
            sites.sites[number] = Site(serve, [script, *command[1:]], sites.clients[number - 1])
        sites.until_joined()
        one, two = sites[1].client(), sites[2].client()
        for number in range(100):
            stored(one, b"k%d" % number, b"x")
        ask(sites[1])
        told = sites[1].ends()
        serve.has(told, sessions=1, faults=0, audit="skipped")
        assert one.is_closed()
        serve.until("all records at site 2", lambda: serve.stat(two, b"records") == 100)
        two.quit()
        sites[2].says(b"stop\n")
        sites[2].ends()


@test
def sigterm_at_the_script_stops_a_site(serve):
    through_the_script(serve, lambda site: os.kill(site.process.pid, signal.SIGTERM))


@test
def ctrl_c_stops_a_site(serve):
    # a terminal's Ctrl-C goes to all that run in the foreground
    through_the_script(serve, lambda site: os.killpg(site.process.pid, signal.SIGINT))


@test
def a_sigterm_for_the_whole_group_stops_a_site(serve):
    through_the_script(serve, lambda site: os.killpg(site.process.pid, signal.SIGTERM))


@test
def a_second_signal_kills(serve):
    with tempfile.TemporaryDirectory() as folder, Apart(serve, 1, started=[], more="drain = 60000") as sites:
        command = sites.command(1, sites.peers)
        site = Site(serve, [launched(serve, folder), *command[1:]], sites.clients[0])
        sites.sites[1] = site
        client = site.client()
        stored(client, b"k", b"x" * 100_000)
        client.socket.settimeout(0.5)
        try:
            for _ in range(200):
                client.send(b"get k\r\n" * 10)
        except (TimeoutError, OSError):
            pass
        os.kill(site.process.pid, signal.SIGTERM)
        site.until_told("site 1 stops")
        time.sleep(0.5)
        assert site.process.poll() is None
        os.kill(site.process.pid, signal.SIGTERM)
        site.process.communicate(timeout=5)
        assert site.process.returncode == 128 + signal.SIGKILL, site.process.returncode
        assert not re.search("is ready", site.log()[-1])


@test
def the_script_tells_where_all_sites_listen_and_when_they_do(serve):
    ports = serve.free_ports(2)
    with tempfile.TemporaryDirectory() as folder, tempfile.NamedTemporaryFile("w", suffix=".toml") as file:
        file.write(serve.configured(ports, [0, 0], 1))
        file.flush()
        whole = Site(serve, [launched(serve, folder), "serve", file.name], ports[0])
        try:
            whole.until_told("geocache: the sites are ready")
            where = " ".join(f"127.0.0.1:{port}" for port in ports)
            assert whole.log() == [f"geocache: the sites listen for clients at {where}", "geocache: the sites are ready"], whole.log()
            for port in ports:
                serve.Client(port).quit()
            serve.has(whole.ends(), sessions=2, requests=2, faults=0, audit="sound")
        finally:
            whole.kill()
