# SPDX-License-Identifier: MIT
"""Few descriptors, no memory, more questions than can be asked, a suspended machine, the log, and
arguments."""
import contextlib
import os
import re
import resource
import select
import signal
import socket
import subprocess
import time

import pytest
from dns.rcode import FORMERR, NOERROR, SERVFAIL

from tests.forwarder.harness import (BUILD, MOST_SECONDS, Forwarder, Server, Stream, address, bound,
                                     counts, data, datagrams, exchange, many, octets_of, plain,
                                     query, read, silent, under)

VERSION = (BUILD.parent / "VERSION").read_text().strip()


def spent(forwarder, seconds):
    """What a forwarder takes of the processors in so many seconds in which nobody asks."""
    before = forwarder.processor_seconds()
    time.sleep(seconds)
    return forwarder.processor_seconds() - before


# ---- Descriptors.

@under("forwarder")
@pytest.mark.parametrize("descriptors", [12, 16, 32, 64, 128])
def test_descriptors_that_are_few(forwarder, descriptors):
    """Tables are as large as the limit allows, and all is served, one after another."""
    it = forwarder(Server(), descriptors=descriptors)
    for n in range(40):
        assert data(it.ask(f"a{n}.example")) == [address(n)]
    for n in range(100, 120):
        with it.stream() as stream:
            assert data(stream.ask(f"a{n}.example")) == [address(n)]
    assert len(os.listdir(f"/proc/{it.process.pid}/fd")) <= descriptors
    streams = [Stream(it.port) for _ in range(descriptors)]
    assert spent(it, 0.5) < 0.2  # no busy loop
    assert data(it.ask("a1.example")) == [address(1)]
    for stream in streams:
        stream.close()


def test_descriptors_that_are_too_few(programs):
    command = 'ulimit -n 11 && exec "$0" 127.0.0.1 0 127.0.0.1 53'
    run = subprocess.run(["sh", "-c", command, BUILD / "forwarder"], capture_output=True, text=True)
    assert (run.returncode, run.stdout) == (1, "")
    assert "Too many open files" in run.stderr


@under("forwarder")
def test_descriptors_that_run_out(forwarder):
    """Where the limit falls while it runs, cached data are answered, other questions SERVFAIL, and
    nothing spins; that is not remembered as a failure of the names' servers."""
    it = forwarder(Server())
    assert data(it.ask("a1.example")) == [address(1)]
    resource.prlimit(it.process.pid, resource.RLIMIT_NOFILE, (5, 1024))
    assert data(it.ask("a1.example")) == [address(1)]
    assert it.ask("a2.example").rcode() == SERVFAIL
    with contextlib.ExitStack() as opened:
        for _ in range(4):
            opened.enter_context(Stream(it.port))
        assert spent(it, 1) < 0.4  # no busy loop
        resource.prlimit(it.process.pid, resource.RLIMIT_NOFILE, (1024, 1024))
        assert data(it.ask("a2.example")) == [address(2)]
        with it.stream() as stream:
            assert data(stream.ask("a1.example")) == [address(1)]


# ---- Memory.

@under("forwarder")
def test_memory_that_is_refused(forwarder):
    """Where memory is used up, or the system refuses all of it, what is cached is answered, and the
    rest is SERVFAIL."""
    environment = {**os.environ, "LD_PRELOAD": str(BUILD / "refusals.so")}
    it = forwarder(Server(), options=("-q", "-t", "1"), environment=environment)

    def go_on():
        it.signal(signal.SIGUSR2)

    def ask_for_cached(count):
        for n in range(count):
            assert data(it.ask(f"a{n % 50}.example")) == [address(n % 50)]
    ask_for_cached(50)
    go_on()  # used up
    for _ in range(2):
        ask_for_cached(300)
        for n in range(20):
            assert it.ask(f"a{n + 200}.example").rcode() == SERVFAIL
    go_on()  # refused
    for n in range(50):
        assert data(it.ask(f"a{n}.example")) == [address(n)]
        reply = it.ask(f"a{n + 50}.example")
        assert (reply.rcode(), counts(reply)) == (SERVFAIL, [0, 0, 0])
    assert exchange(it.port, octets_of(query("a1.example"))[:-1]).rcode() == FORMERR
    go_on()  # there again
    assert data(it.ask("a1.example")) == [address(1)]
    assert data(it.ask("a300.example")) == [address(300)]


@under("forwarder")
def test_stack_that_is_small(forwarder):
    """Threads have stacks of their own size, whatever the limit is in KiB."""
    it = forwarder(Server(many), stack=64)
    for _ in range(2):
        assert len(data(it.ask("n20.example"))) == 20
        with it.stream() as stream:
            assert stream.gets_many(3000)


# ---- The end.

@under("forwarder")
@pytest.mark.parametrize("stack", [64, 216])
def test_stack_that_is_small_at_the_end(forwarder, stack):
    """Who still waits gets a reply from a thread, whose stack has a size of its own."""
    it = forwarder(Server(silent), stack=stack)
    with datagrams(it.port) as client, it.stream() as stream:
        client.send(octets_of(query("a1.example")))
        stream.put(query("a2.example"))
        it.wait_for("queries", 2)
        it.process.send_signal(signal.SIGTERM)
        assert read(client.recv(512)).rcode() == stream.read().rcode() == SERVFAIL


def test_queries_that_wait_at_the_end(forwarder):
    """Each thread ends its own fetches while others still run. All who wait get a reply, also on
    connections of other threads."""
    it = forwarder(Server(silent), options=("-q", "-t", "4"))
    with contextlib.ExitStack() as opened:
        clients = [opened.enter_context(datagrams(it.port)) for _ in range(24)]
        streams = [opened.enter_context(it.stream()) for _ in range(24)]
        for n, (client, stream) in enumerate(zip(clients, streams)):
            client.send(octets_of(query(f"a{n % 6}.example")))
            stream.put(query(f"a{n % 6}.example"))
        it.wait_for("queries", 48)
        it.process.send_signal(signal.SIGTERM)
        replies = [read(it.recv(512)) for it in clients] + [it.read() for it in streams]
    assert {it.rcode() for it in replies} == {SERVFAIL}


# ---- Places.

def turned_away(clients, seconds):
    """Reads an answer from each client that has one, waits so long for the first, and tells how
    many they are."""
    ready = select.select(clients, [], [], seconds)[0]
    for client in ready:
        assert read(client.recv(4096)).rcode() == SERVFAIL
    return len(ready)


@contextlib.contextmanager
def sockets(port):
    """24 of them, since the answers that end the tries come all at once, and a socket holds some
    160 of them."""
    with contextlib.ExitStack() as opened:
        yield [opened.enter_context(datagrams(port)) for _ in range(24)]


def test_more_questions_than_can_be_asked(forwarder):
    """1,200 questions while no upstream answers: who is not answered at once waits for the end of
    the tries."""
    it, replies = forwarder(server := Server(silent)), 0
    with sockets(it.port) as clients:
        for n in range(1200):
            clients[n % 24].send(octets_of(query(f"a{n}.example")))
            if n % 24 == 23:
                it.wait_for("queries", n + 1)
            replies += turned_away(clients, 0)
        while replies < 1200:
            more = turned_away(clients, MOST_SECONDS)
            assert more, f"{replies} answers to 1,200 questions"
            replies += more
    server.answer = plain()
    assert data(it.ask("a2000.example")) == [address(2000)]


# ---- The clock.

@under("forwarder")
def test_what_is_kept_ages_in_suspend(forwarder):
    environment = {**os.environ, "LD_PRELOAD": str(BUILD / "suspend.so")}
    it = forwarder(server := Server(plain(60)), environment=environment)
    for _ in range(2):
        assert data(it.ask("a1.example")) == [address(1)]
    it.signal(signal.SIGUSR2)  # 100 seconds
    assert data(it.ask("a1.example")) == [address(1)]
    assert server.times("a1.example") == 2


# ---- The log.

@pytest.mark.parametrize("program", ["forwarder-checked", "forwarder-threads"])
def test_log(programs, program):
    line = (r"forwarder: in \d+ s (\d+) queries, (\d+) hits, (\d+) stale, (\d+) failures, "
            r"(\d+) octets sent; (\d+) keys of (\d+) octets")
    it = Forwarder(Server(), program=program, options=("-l", "1"))
    for name in ["a1.example"] * 2 + ["nothing.example"] * 3:
        assert it.ask(name).rcode() == NOERROR
    lines = [it.process.stderr.readline() for _ in range(3)]
    status, said = it.end()
    found = [re.fullmatch(line, it.strip()) for it in [*lines, *said.splitlines()]]
    assert status == 0 and all(found), (lines, said)
    queries, hits, stale, failures, sent = (sum(int(it[n]) for it in found) for n in range(1, 6))
    assert (queries, hits, stale, failures) == (5, 3, 0, 0)
    assert sent > 5 * 29
    # Two answers and the SOA record. A key takes 160 octets, a short name and an address 80, and
    # the SOA record's data 32, 48, 16 and 46 (docs/RULES.md).
    held = (160 + 80 + 80) + (160 + 80 + 80 + 142) + (160 + 80 + 142)
    assert found[-1].group(6, 7) == ("3", str(held))


def fill(pid, number):
    """Fills a pipe that a process writes to."""
    end = os.open(f"/proc/{pid}/fd/{number}", os.O_WRONLY | os.O_NONBLOCK)
    with contextlib.suppress(BlockingIOError):
        while True:
            os.write(end, bytes(4096))
    os.close(end)


@pytest.mark.parametrize("number", [1, 2], ids=["output", "errors"])
def test_pipe_that_nobody_reads(programs, number):
    """What does not fit is dropped: nothing waits for who reads it, and SIGTERM neither."""
    it = Forwarder(Server(), program="forwarder", options=("-l", "1"))
    fill(it.process.pid, number)
    it.process.send_signal(signal.SIGUSR1)
    time.sleep(1.2)
    try:
        assert data(it.ask("a1.example")) == [address(1)]
        it.process.send_signal(signal.SIGTERM)
        assert it.process.wait(MOST_SECONDS) == 0
    finally:
        it.process.kill()
        it.end()


def test_pipes_whose_reader_is_gone(programs):
    it = Forwarder(Server(), program="forwarder", options=("-l", "1"))
    it.process.stdout.close()
    it.process.stderr.close()
    it.process.send_signal(signal.SIGUSR1)
    time.sleep(1.2)
    assert data(it.ask("a1.example")) == [address(1)]
    assert it.end() == (0, "")


def connected(port):
    """A connection to a forwarder that starts."""
    end = time.monotonic() + MOST_SECONDS
    while True:
        try:
            return Stream(port)
        except ConnectionRefusedError:
            assert time.monotonic() < end
            time.sleep(0.05)


def test_standard_files_that_are_closed(programs):
    """Their numbers are not those of sockets, so no client is sent a line of the log."""
    taken, server = bound(True), Server()
    port = taken[0].getsockname()[1]
    for it in taken:
        it.close()
    words = [BUILD / "forwarder", "-l", "1", "127.0.0.1", str(port), "127.0.0.1", str(server.port)]
    process = subprocess.Popen(["sh", "-c", 'exec "$0" "$@" <&- >&- 2>&-', *words])
    try:
        with connected(port) as stream:
            assert data(stream.ask("a1.example")) == [address(1)]
            stream.settimeout(2.5)
            with pytest.raises(socket.timeout):
                stream.recv(1)
    finally:
        process.terminate()
        assert process.wait(MOST_SECONDS) == 0
        server.is_over = True


# ---- Arguments.

@pytest.mark.parametrize("words", ["--help", "-h", "--version", "-V", "-t 1 --help 127.0.0.1"])
def test_arguments_that_ask(programs, words):
    """For the usage and for the version."""
    run = subprocess.run([BUILD / "forwarder", *words.split()], capture_output=True, text=True)
    assert (run.returncode, run.stderr) == (0, "")
    told = "usage: " if "h" in words else f"forwarder {VERSION}\n"
    assert run.stdout[:len(told)] == told


@pytest.mark.parametrize("words", [
    "", "127.0.0.1 0", "127.0.0.1 0 127.0.0.1", "127.0.0.1 0 127.0.0.1 65536",
    "127.0.0.1 0 127.0.0.1 0", "127.0.0.1 0 0.0.0.0 53", "127.0.0.1 0 127.0.0.1 53 :: 53",
    "localhost 0 127.0.0.1 53", "-l 0 127.0.0.1 0 127.0.0.1 53", "-x 127.0.0.1 0 127.0.0.1 53",
    "127.0.0.1 0" + " 127.0.0.1 53" * 9, "::1@53 53 127.0.0.1 53", "127.0.0.1 0 [::1] 53",
    "--listen 127.0.0.1 127.0.0.1 0 127.0.0.1 53", "--listen @0 127.0.0.1 0 127.0.0.1 53",
    f"--listen {'1' * 99}@0 127.0.0.1 0 127.0.0.1 53",
    "--listen ::1@0 " * 8 + "127.0.0.1 0 127.0.0.1 53",
    *(f"--octets {it} 127.0.0.1 0 127.0.0.1 53"
      for it in ("", "0", "1", "1023K", "M", "-1M", "1MB", "1m", "70368744177665", "99999999999G")),
    f"--identity {'x' * 256} 127.0.0.1 0 127.0.0.1 53", "-t 65 127.0.0.1 0 127.0.0.1 53"])
def test_wrong_arguments(programs, words):
    run = subprocess.run([BUILD / "forwarder", *words.split()], capture_output=True, text=True)
    assert (run.returncode, run.stdout) == (2, "")
    assert "usage: " in run.stderr
