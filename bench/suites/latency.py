# SPDX-License-Identifier: MIT
"""Tells how long a client waits while another asks for names of a hostile server.

Build the C library first, by `bin/build-c`. The clients are those of the forwarder
(examples/forwarder), and everything runs on loopback. One client asks for OTHERS names that are
cached, RATE queries a second, and its waits are taken. Meanwhile another client asks for ATTACK
names a second that nobody asked for before, all answered by a name server of this process, by one
of these ways:
  none       nobody asks for others
  harmless   an address for each name
  collisions an address for each name, and the hashes of names are alike under a hasher with a known
             number (tests/hostile/attacks.py)
  one part   an address for each name, and all names lie in one part by `part_of`, which has no key
  sets       an RRset of some 16,000 octets for each name, which is kept, over TCP
  messages   a message of 64 kB for each name, of which little is kept, over TCP
Waits are milliseconds: the median, the 99th percentile and the longest. The server's own work takes
processors too, so `harmless` is what to compare with.
"""
import itertools
import multiprocessing
import socket
import statistics
import time
from contextlib import suppress

from bench.page import table, write_section
from bench.setup import ARCHIVE, TOP, compiled
from tests.hostile.attacks import ASKED, END, label, labels
from tools.debian import needs
from tools.model import part_of
from tools.wire import A, TXT, message, question, record

needs("dns", "python3-dnspython")
from dns.flags import QR, RD, TC  # noqa: E402
from tests.forwarder.harness import Forwarder, Server  # noqa: E402

NEEDS, TITLE = (ARCHIVE,), "Clients beside a hostile server"
OPTIONS = {
    "rate": (1000.0, "queries a second for cached names"),
    "attack": (500.0, "names a second that the hostile client asks for"),
    "seconds": (10.0, "for how long waits are taken"),
    "way": ((), "some of the ways (default all)"),
}
OTHERS, PARTS, TTL, FLAGS = 20, 16, 600, QR | RD | 0x480
HEAD = ["Names", "median", "99th percentile", "longest", "missing", "queries", "fetched",
        "processor", "memory"]
# How long a client waits before an answer counts as missing.
MOST_SECONDS = 2.0


# ---- The names that the hostile client asks for, in wire form.


def plain_names():
    return (label(number, 6) + END for number in itertools.count())


def picked_names():
    return (bytes([len(it)]) + it + END for it in labels(200_000, True))


def names_of_one_part():
    return (it for it in plain_names() if part_of(it, PARTS) == 0)


# ---- What the server answers.


def one_address(server, number, asked):
    return [message(number, FLAGS, asked, [record(ASKED, A, TTL, b"\xc0\0\2\1")])]


def texts(count):
    """An answer of so many TXT records of 255 octets each, which has to be asked for over TCP."""
    records = [record(ASKED, TXT, TTL, b"\xfe%03d" % it + bytes(251)) for it in range(count)]

    def answer(server, number, asked):
        return [message(number, FLAGS, asked, records) if server.is_tcp else
                message(number, FLAGS | TC, asked)]

    return answer


WAYS = {
    "none": (None, A, one_address),
    "harmless": (plain_names, A, one_address),
    "collisions": (picked_names, A, one_address),
    "one part": (names_of_one_part, A, one_address),
    "sets": (plain_names, TXT, texts(62)),
    "messages": (plain_names, TXT, texts(244)),
}


# ---- The clients, each a process of its own.


def attack(port, names, rtype, rate):
    """Asks for a name after another, and reads no answer."""
    client = socket.socket(socket.AF_INET, socket.SOCK_DGRAM)
    client.connect(("127.0.0.1", port))
    began = time.monotonic()
    for number, name in enumerate(names()):
        time.sleep(max(0, began + number / rate - time.monotonic()))
        with suppress(OSError):  # the forwarder's socket is full
            client.send(message(number % 65_536, RD, question(name, rtype)))


def wait_of(client, number, octets):
    """The milliseconds until a query was answered, or None."""
    began = time.monotonic()
    try:
        client.send(octets)
        while client.recv(4096)[:2] != number.to_bytes(2, "big"):
            pass
    except socket.timeout:
        return None
    return 1000 * (time.monotonic() - began)


def measure(port, rate, seconds, told):
    """Asks for one name after another that is cached, and tells how long each answer took."""
    client = socket.socket(socket.AF_INET, socket.SOCK_DGRAM)
    client.connect(("127.0.0.1", port))
    client.settimeout(MOST_SECONDS)
    waits, began = [], time.monotonic()
    for number in range(int(rate * seconds)):
        time.sleep(max(0, began + number / rate - time.monotonic()))
        octets = message(number % 65_536, RD, question(f"a{number % OTHERS}.example", A))
        waits.append(wait_of(client, number % 65_536, octets))
    told.send(waits)


def answered_by(answer):
    """The server's call: an address for the names of the other clients, and else the hostile
    answer."""
    def answer_all(server, asked, name):
        is_others = name.startswith("a") and len(name.split(".")[0]) <= 3
        octets = question(name, asked.question[0].rdtype)
        return (one_address if is_others else answer)(server, asked.id, octets)

    return answer_all


def run(way, asked):
    """The waits, how many queries the forwarder got of the other client and how many of them it
    answered after a fetch, and what it took of processors and of memory, while names are asked in
    this way."""
    names, rtype, answer = WAYS[way]
    with Forwarder(Server(answered_by(answer)), program="forwarder") as it:
        for number in range(OTHERS):
            it.ask(f"a{number}.example")
        before = it.counters(), it.processor_seconds(), it.memory()
        told, tell = multiprocessing.Pipe(False)
        attacking = names and multiprocessing.Process(
            target=attack, args=(it.port, names, rtype, asked.attack), daemon=True)
        if attacking:
            attacking.start()
        time.sleep(1)
        measuring = multiprocessing.Process(
            target=measure, args=(it.port, asked.rate, asked.seconds, tell))
        measuring.start()
        waits = told.recv()
        measuring.join()
        after = it.counters(), it.processor_seconds(), it.memory()
        if attacking:
            attacking.kill()
    queries, fetched = (after[0][word] - before[0][word] for word in ("queries", "fetched"))
    return waits, queries - len(waits), fetched, after[1] - before[1], after[2] - before[2]


def told(way, waits, queries, fetched, processor, memory):
    """The cells of a row of the table."""
    came = sorted(it for it in waits if it is not None)
    late = came[99 * len(came) // 100]
    return [way, f"{statistics.median(came):.2f}", f"{late:.2f}", f"{came[-1]:.1f}",
            f"{len(waits) - len(came)}", f"{queries:,}", f"{fetched:,}", f"{processor:.1f}",
            f"{memory / 1e6:.0f}"]


def main(args):
    if unknown := set(args.way) - set(WAYS):
        return f"there is no way {', '.join(sorted(unknown))}"
    compiled("forwarder", "-D_GNU_SOURCE", *sorted((TOP / "examples" / "forwarder").glob("*.c")),
             ARCHIVE)
    rows = []
    for way in args.way or WAYS:
        rows.append(told(way, *run(way, args)))
        print(dict(zip(HEAD, rows[-1])), flush=True)
    write_section(
        args, TITLE,
        f". One client of the forwarder asks for cached names, {args.rate:.0f} times a second for "
        f"{args.seconds:.0f} seconds. Another client begins one second earlier, and asks for "
        f"{args.attack:.0f} names a second; a hostile server answers the queries for these names. "
        "The rows differ in the names that the other client asks for and in the answers of the "
        "server; `bench/run latency --help` describes the rows. The first three columns of numbers "
        "are the waiting times of the client that asks for cached names, in milliseconds: the "
        "median, the 99th percentile and the longest. `missing` is the number of answers that this "
        "client did not get. `queries` is the number of queries from the other client, and "
        "`fetched` is the number of these queries that were answered after a fetch. The last two "
        "columns are the processor time of the forwarder in seconds, and the growth of its memory "
        "in MB. The hostile server uses processor time too, so compare the other rows with "
        "`harmless`, not with `none`.",
        table(HEAD, rows))
