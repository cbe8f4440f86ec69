# SPDX-License-Identifier: MIT
"""What the tests of the forwarder are made of: name servers, clients, and forwarders' processes.

All of it is on 127.0.0.1, where no other address is named, on ports that the system picks. A name
server is a thread of this
process. Messages are dnspython's, in which each record is an RRset of its own, so that records stay
in their order. A record that is made is written as a line of a zone file, without its class:
"a.example 60 A 192.0.2.1".
"""
import functools
import re
import select
import signal
import socket
import struct
import subprocess
import threading
import time
from pathlib import Path

import dns.message
import dns.name
import dns.rdata
import dns.rdataclass
import dns.rdatatype
import dns.rrset
import dns.wire
import pytest
from dns.flags import AA, RA, RD, TC
from dns.rcode import NOERROR, NXDOMAIN, SERVFAIL

BUILD = Path(__file__).resolve().parents[2] / "build"
# What runs a program under valgrind, whose reports give it status 3.
VALGRIND = ["valgrind", "-q", "--error-exitcode=3", "--leak-check=full", "--fair-sched=try"]
ID = 0x1234
SOA = "example 60 SOA ns.example host.example 1 2 3 4 60"
# The property of a test that says how many answers it compared with those of nsd.
COMPARED = "compared with nsd"
# The seconds in which something has to come, also on a machine that does much else.
MOST_SECONDS = 30


def under(*programs):
    """A test whose forwarders are these programs, and not one for each sanitizer."""
    return pytest.mark.parametrize("forwarder", programs, indirect=True)


def took(call, *arguments):
    """What a call answers, and how many seconds it took."""
    began = time.monotonic()
    return call(*arguments), time.monotonic() - began


# ---- Messages.

def address(number):
    return f"192.0.{2 + number // 256 % 100}.{number % 256}"


def wire_name(text):
    return dns.name.from_text(text).to_wire()


def hosts(*names):
    """The lines of an address of each name."""
    return [f"{it} 60 A {address(9)}" for it in names]


def aliases(names, ttl=60):
    """The lines of aliases that lead from each name to the next."""
    return [f"{one} {ttl} CNAME {other}" for one, other in zip(names, names[1:])]


def record(line):
    """The record of a line. All of its names end at the root."""
    owner, ttl, rtype, data = line.split(None, 3)
    return dns.rrset.from_text_list(dns.name.from_text(owner), int(ttl), "IN", rtype, [data],
                                    origin=dns.name.root, relativize=False)


def record_of(name, rtype, data, ttl=60):
    """A record of these octets of data, which may be none of the type."""
    generic = dns.rdata.GenericRdata(dns.rdataclass.IN, rtype, data)
    return dns.rrset.from_rdata(name, ttl, generic)


def query(name, rtype="A", version=None, **others):
    it = dns.message.make_query(name, rtype, **others)
    if version is not None:
        it.use_edns(version)
    return it


def response(asked, *answer, authority=(), additional=(), rcode=NOERROR, flags=RA):
    """A response to a query, with records, or those of lines."""
    it = dns.message.make_response(asked)
    it.use_edns(False)
    it.set_rcode(rcode)
    it.flags |= flags
    for section, records in zip(it.sections[1:], (answer, authority, additional)):
        section += [record(it) if isinstance(it, str) else it for it in records]
    return it


def truncated(asked):
    return response(asked, flags=RA | TC)


def answered(name, rtype, *answer, flags=AA, **others):
    """The octets of a response to a question of the id ID."""
    asked = query(name, rtype, id=ID, flags=0)
    return octets_of(response(asked, *answer, flags=flags, **others))


@functools.cache
def addresses(name, count):
    """The octets of a response behind its id: so many addresses. They are made of octets, since
    dnspython takes seconds for thousands of records."""
    empty = answered(name, "A", flags=RD | RA)[2:]
    records = (b"\xc0\x0c" + struct.pack(">HHIH", 1, 1, 60, 4) + socket.inet_aton(address(it))
               for it in range(count))
    return empty[:4] + struct.pack(">H", count) + empty[6:] + b"".join(records)


def with_id(asked, octets):
    """The octets of a response to a query, of those behind the id."""
    return asked.id.to_bytes(2, "big") + octets


def octets_of(message):
    """The octets of a message, or those that were given."""
    return message if isinstance(message, bytes) else message.to_wire(max_size=65535)


def framed(message):
    """A message as it stands on TCP (RFC 1035 section 4.2.2)."""
    octets = octets_of(message)
    return len(octets).to_bytes(2, "big") + octets


def read(octets):
    """The message of octets, all of which have to be read."""
    return dns.message.from_wire(octets, one_rr_per_rrset=True)


def counts(message):
    """How many records each section has, but for an OPT record."""
    return [len(it) for it in message.sections[1:]]


def data(message, rtype="A"):
    """The data of the answer's records of a type, as text."""
    rtype = dns.rdatatype.from_text(rtype)
    return [it[0].to_text() for it in message.answer if it.rdtype == rtype]


def text_of(name):
    """The text of a name in lower case, without its last dot."""
    return name.to_text(omit_final_dot=True).lower()


def edns(message):
    """The payload, the version and the flags of an OPT record, or None where there is none."""
    return message.opt and (message.payload, message.edns, message.ednsflags & 0xffff)


# ---- Servers.

def plain(ttl=60):
    """Answers each name of the form a7.example with address 7, nothing.. with no data, and others
    with no such name."""
    def answer(server, asked, name):
        first, rtype = name.split(".")[0], asked.question[0].rdtype
        if re.fullmatch(r"a\d+", first) and rtype == dns.rdatatype.A:
            return [response(asked, f"{name} {ttl} A {address(int(first[1:]))}")]
        is_there = re.fullmatch(r"a\d+|nothing\w*", first)
        return [response(asked, authority=[SOA], rcode=NOERROR if is_there else NXDOMAIN)]
    return answer


def silent(*_):
    return []


def behind(gate):
    """Answers as `plain` does, once a gate is open (an Event)."""
    return lambda *asked: plain()(*asked) if gate.wait(MOST_SECONDS) else []


def told(*lines, **others):
    """Answers each name with the records of these lines, in which {} is the name."""
    return lambda _, asked, name: [response(asked, *(it.format(name) for it in lines), **others)]


def dead(server, asked, name):
    """Answers as `plain` does, but nothing of names with "dead" in them."""
    return [] if "dead" in name else plain()(server, asked, name)


def many(server, asked, name):
    """Answers n7.example with so many addresses."""
    return [with_id(asked, addresses(name, int(name.split(".")[0][1:])))]


def take(sock, size):
    """So many octets of a connection, or fewer at its end."""
    octets = b""
    while len(octets) < size and (got := sock.recv(size - len(octets))):
        octets += got
    return octets


def family_of(host):
    return socket.AF_INET6 if ":" in host else socket.AF_INET


def bound(tcp, host="127.0.0.1"):
    """A socket for datagrams, and with `tcp` one that listens on the same port."""
    sock = socket.socket(family_of(host), socket.SOCK_DGRAM)
    sock.bind((host, 0))
    try:
        return [sock, *([socket.create_server(sock.getsockname(), family=sock.family, backlog=64)]
                        if tcp else [])]
    except OSError:  # another has this port on TCP
        return bound(tcp, host)


class Server(threading.Thread):
    """A name server. `answer(server, asked, name)` gives the messages, or octets, with which it
    answers a query for a name, which has lower case and no last dot; `server.octets` is the query,
    `server.client` who sent it, and `server.is_tcp` how. With `tcp` it listens on TCP too."""

    def __init__(self, answer=plain(), tcp=True, delay=0, host="127.0.0.1"):
        super().__init__(daemon=True)
        self.answer, self.delay, self.host, self.asked = answer, delay, host, []
        self.octets, self.client, self.is_tcp, self.is_over = b"", None, False, False
        self.sockets = bound(tcp, host)
        self.socket, self.port = self.sockets[0], self.sockets[0].getsockname()[1]
        self.start()

    def run(self):
        while not self.is_over:
            for it in select.select(self.sockets, [], [], 0.1)[0]:
                try:
                    self.read(it)
                except OSError:  # who asked over TCP is gone
                    if it in self.sockets[2:]:
                        self.sockets.remove(it)
                        it.close()

    def read(self, sock):
        if sock is self.socket:
            octets, client = sock.recvfrom(4096)
            self.take(octets, client, False, lambda it: sock.sendto(octets_of(it), client))
        elif sock is self.sockets[1]:
            self.sockets.append(sock.accept()[0])
            self.sockets[-1].settimeout(5)
        elif octets := take(sock, int.from_bytes(take(sock, 2), "big")):
            self.take(octets, sock, True, lambda it: sock.sendall(framed(it)))
        else:
            raise ConnectionError("the end")

    def take(self, octets, client, is_tcp, send):
        self.octets, self.client, self.is_tcp = octets, client, is_tcp
        asked = read(octets)
        name = text_of(asked.question[0].name)
        self.asked.append((name, dns.rdatatype.to_text(asked.question[0].rdtype)))
        answers = self.answer(self, asked, name)

        def send_all():
            for it in answers:
                send(it)
        threading.Timer(self.delay, send_all).start() if self.delay else send_all()

    def times(self, name, rtype="A"):
        return self.asked.count((name, rtype))

    def stop(self):
        self.is_over = True
        self.join()
        for it in self.sockets:
            it.close()


# ---- Clients and forwarders.

def datagrams(port, seconds=MOST_SECONDS, host="127.0.0.1", source=None):
    """A socket that sends to a forwarder, and takes what comes from the address that it asks."""
    sock = socket.socket(family_of(host), socket.SOCK_DGRAM)
    if source:
        sock.bind((source, 0))
    sock.connect((host, port))
    sock.settimeout(seconds)
    return sock


def exchange_octets(port, asked, seconds=MOST_SECONDS):
    """The octets that a forwarder answers to a query or to octets by UDP, or None."""
    with datagrams(port, seconds) as client:
        client.send(octets_of(asked))
        try:
            return client.recv(65535)
        except socket.timeout:
            return None


def exchange(port, asked, seconds=MOST_SECONDS):
    """The same as a message."""
    octets = exchange_octets(port, asked, seconds)
    return octets and read(octets)


def ask_for_any(port, name, rtype):
    """Asks for data that may be malformed: the RCODE of a reply, which has to be whole."""
    asked = query(name, rtype)
    octets = exchange_octets(port, asked)
    assert octets, f"no reply for {name}"
    parser = dns.wire.Parser(octets)
    questions, *records = parser.get_struct("!6H")[2:]
    for is_question in [True] * questions + [False] * sum(records):
        parser.get_name()
        parser.get_struct("!HH")
        if not is_question:
            parser.get_bytes(parser.get_struct("!IH")[1])
    reply = dns.message.from_wire(octets, question_only=True)
    assert not parser.remaining() and asked.is_response(reply)
    assert reply.rcode() in (NOERROR, NXDOMAIN, SERVFAIL)
    return reply.rcode()


class Stream(socket.socket):
    """A connection to a forwarder."""

    def __init__(self, port, seconds=MOST_SECONDS, source=None, host="127.0.0.1"):
        super().__init__(family_of(host))
        self.settimeout(seconds)
        if source:
            self.bind((source, 0))
        self.connect((host, port))

    def put(self, *queries):
        self.sendall(b"".join(map(framed, queries)))

    def read_octets(self):
        """The octets of the next reply, or None at the connection's end."""
        try:
            size = take(self, 2)
            return take(self, int.from_bytes(size, "big")) if len(size) == 2 else None
        except ConnectionResetError:
            return None

    def read(self):
        """The same as a message."""
        octets = self.read_octets()
        return octets and read(octets)

    def gets_many(self, count):
        """Asks for so many addresses (`many`): whether a reply comes that has room for them.
        dnspython takes seconds to read thousands."""
        self.put(query(f"n{count}.example"))
        octets = self.read_octets()
        return octets is not None and octets[6:8] == struct.pack(">H", count)

    def rest(self):
        """What is left until the connection's end, or empty where that is a reset."""
        try:
            return take(self, 1 << 26)
        except ConnectionResetError:
            return b""

    def ask(self, *arguments, **others):
        self.put(query(*arguments, **others))
        return self.read()


def command(program):
    """The words that run a program: NAME, or `valgrind NAME`."""
    *checker, name = program.split()
    return [*(VALGRIND if checker else ()), BUILD / name]


class Forwarder:
    """A forwarder's process. At its end it has to be as clean as the sanitizers or valgrind want
    it."""

    def __init__(self, *upstreams, program, options=("-q",), descriptors=None, stack=None,
                 environment=None, host="127.0.0.1"):
        words = [*command(program), *options, host, "0"]
        for it in upstreams:
            words += [getattr(it, "host", "127.0.0.1"), str(it.port)]
        for option, limit in (("n", descriptors), ("s", stack)):
            if limit:
                words = ["sh", "-c", f'ulimit -{option} "$0" && exec "$@"', str(limit), *words]
        self.process = subprocess.Popen(words, env=environment, stdout=subprocess.PIPE,
                                        stderr=subprocess.PIPE, text=True)
        lines = [self.process.stdout.readline() for _ in range(1 + options.count("--listen"))]
        found = [re.fullmatch(r"port (\d+)\n", it) for it in lines]
        self.ports = [it and int(it[1]) for it in found]
        self.port, self.upstreams = self.ports[0], upstreams

    def __enter__(self):
        assert self.port, self.end()
        return self

    def ask(self, name, rtype="A", most=512, **others):
        """Asks by UDP. A reply has to be one to the query, of as many octets as it may have, with
        the question as it was spelled, and with an OPT record for who sent one."""
        asked = query(name, rtype, **others)
        octets = exchange_octets(self.port, asked)
        assert octets and len(octets) <= most, name
        assert asked.is_response(reply := read(octets))
        assert not reply.question or str(reply.question[0]) == str(asked.question[0])
        assert (reply.opt is None) == (asked.opt is None)
        return reply

    def stream(self):
        return Stream(self.port)

    def counters(self):
        self.process.send_signal(signal.SIGUSR1)
        words = self.process.stdout.readline().split()
        return dict(zip(words[::2], map(int, words[1::2])))

    def counted(self, *names):
        """Some of the counters."""
        counters = self.counters()
        return [counters[it] for it in names]

    def wait_for(self, name, count):
        """Waits until a counter has come so far."""
        end = time.monotonic() + MOST_SECONDS
        while self.counters()[name] < count:
            assert time.monotonic() < end, f"{name} does not come to {count}"

    def signal(self, number):
        """Sends a signal, and waits until a thread has taken it."""
        self.process.send_signal(number)
        status = Path(f"/proc/{self.process.pid}/status")
        while int(re.search(r"ShdPnd:\s*(\w+)", status.read_text())[1], 16) >> number - 1 & 1:
            time.sleep(0.01)
        time.sleep(0.1)  # in which its handler runs

    def processor_seconds(self):
        """What the process took of the processors so far."""
        words = Path(f"/proc/{self.process.pid}/stat").read_text().rsplit(")", 1)[1].split()
        return (int(words[11]) + int(words[12])) / 100

    def memory(self):
        """The octets that the process has in memory."""
        status = Path(f"/proc/{self.process.pid}/status").read_text()
        return 1024 * int(re.search(r"VmRSS:\s*(\d+)", status)[1])

    def end(self):
        """Ends the process, and answers its status and what it wrote on standard error."""
        self.process.send_signal(signal.SIGTERM)
        try:
            _, said = self.process.communicate(timeout=60)
        except subprocess.TimeoutExpired:
            self.process.kill()
            _, said = self.process.communicate()
        for it in self.upstreams:
            it.is_over = True
        return self.process.returncode, said

    def __exit__(self, *_):
        assert self.end() == (0, "")
