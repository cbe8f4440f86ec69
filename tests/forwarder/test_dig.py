# SPDX-License-Identifier: MIT
"""Debian's dig asks an authoritative server, and the forwarder before it: they have to agree."""
import re
import shutil
import socket
import subprocess
import tempfile
import time
from types import SimpleNamespace

import dns.exception
import dns.query
import pytest

from tests.forwarder.harness import COMPARED, query, under

NAMES = 400
TYPES = ("A", "AAAA", "MX", "TXT", "SRV")
CONFIGURATION = """
server: ip-address: 127.0.0.1@{port} username: "" chroot: "" zonesdir: "{folder}"
  zonelistfile: "{folder}/list" xfrdfile: "{folder}/xfrd" xfrdir: "{folder}"
  logfile: "{folder}/log" pidfile: "" database: "" server-count: 1 rrl-ratelimit: 0
remote-control: control-enable: no
zone: name: test.example zonefile: zone
"""


def zone():
    """A zone with names of each kind: sets of all types, large ones, aliases, DNAME, a wildcard."""
    lines = ["$ORIGIN test.example.", "$TTL 3600", "@ SOA ns host 1 3600 600 86400 300", "@ NS ns",
             "ns A 192.0.2.53", "@ CAA 0 issue \"ca.example\""]
    for n in range(NAMES):
        kind = n % 8
        if kind < 4:
            lines += [f"n{n} A 192.0.2.{n % 250}", f"n{n} A 198.51.100.{n % 250}",
                      f"n{n} AAAA 2001:db8::{n:x}", f"n{n} MX 10 n{(n + 1) % NAMES}"]
        elif kind == 4:
            lines += [f"n{n} TXT \"{'x' * 200}\" \"{k}\""
                      for k in range(10)] + [f"n{n} A 192.0.2.1"]
        elif kind == 5:
            lines += [f"n{n} CNAME n{n - 1}"]
        elif kind == 6:
            lines += [f"n{n} SRV 1 2 {p} n{n - 6}" for p in range(1, 40)]
        else:
            lines += [f"n{n} DNAME n{n - 7}", f"x.n{n - 7} A 192.0.2.{n % 250}"]
    return "\n".join(lines + ["*.wild A 192.0.2.99", "*.wild TXT \"wild\"", ""])


def owner_of(n):
    """A name of the zone, below a DNAME or a wildcard, or none of it."""
    if n % 8 == 7:
        return f"x.n{n}"
    return f"n{n}.wild" if n % 50 == 0 else f"n{n}-none" if n % 60 == 1 else f"n{n}"


QUESTIONS = [(f"{owner_of(n)}.test.example", rtype) for n in range(NAMES) for rtype in TYPES]


# Seconds that nsd may take to start, on a machine that does much else, and ports that are tried.
START, PORTS = 60, 5


@pytest.fixture
def authority(tmp_path):
    """The port of nsd, with the zone."""
    nsd = shutil.which("nsd") or shutil.which("nsd", path="/usr/sbin:/usr/local/sbin")
    if nsd is None or shutil.which("dig") is None:
        pytest.skip("there is no dig or no nsd here (Debian's bind9-dnsutils and nsd)")
    (tmp_path / "zone").write_text(zone())
    said = []
    for _ in range(PORTS):
        port = free_port()
        (tmp_path / "conf").write_text(CONFIGURATION.format(port=port, folder=tmp_path))
        process = subprocess.Popen([nsd, "-d", "-c", tmp_path / "conf"], text=True,
                                   stdout=subprocess.DEVNULL, stderr=subprocess.PIPE)
        try:
            if has_started(process, port):
                yield port
                return
        finally:
            process.terminate()
            said.append(process.communicate()[1])
    pytest.fail(f"nsd did not start: {said}")


def free_port():
    """A port of 127.0.0.1 that nobody has, of UDP nor of TCP."""
    while True:
        with socket.socket(socket.AF_INET, socket.SOCK_DGRAM) as udp, socket.socket() as tcp:
            udp.bind(("127.0.0.1", 0))
            try:
                tcp.bind(udp.getsockname())
            except OSError:
                continue
            return udp.getsockname()[1]


def has_started(process, port):
    """Waits until nsd answers; whether it does."""
    end = time.monotonic() + START
    while process.poll() is None and time.monotonic() < end:
        try:
            if dns.query.udp(query("test.example", "SOA"), "127.0.0.1", 1, port).answer:
                return True
        except (OSError, dns.exception.Timeout):
            time.sleep(0.05)
    return False


def dig(port, words):
    """What dig says of each question: the status, and the answer's records, no times to live."""
    with tempfile.NamedTemporaryFile("w") as batch:
        batch.writelines(f"{name} {rtype}\n" for name, rtype in QUESTIONS)
        batch.flush()
        ran = subprocess.run(["dig", "@127.0.0.1", "-p", str(port), "+noall", "+comments",
                              "+answer", "+tries=2", "+time=4", *words, "-f", batch.name],
                             capture_output=True, text=True, timeout=100)
    answers, edns = [], 0
    for line in ran.stdout.splitlines():
        if found := re.match(r";; ->>HEADER<<- opcode: QUERY, status: (\w+),", line):
            answers.append((found[1], []))
        elif line.startswith("; EDNS: version: 0"):
            edns += 1
        elif line and line[0] != ";":
            owner, _, *rest = line.split(None, 4)
            answers[-1][1].append((owner.lower(), *rest))
        assert not re.match(r";; (Warning|Got bad|connection|communications)", line)
    return [(status, sorted(records)) for status, records in answers], edns


@under("forwarder")
@pytest.mark.parametrize("words", [("+noedns",), ("+edns=0",), ("+tcp", "+noedns")])
def test_dig_agrees_with_the_authority(authority, forwarder, words, record_property):
    """2,000 questions without EDNS, with it, and over TCP: the server's answer, and twice that of
    the forwarder. These are 12,000 comparisons, and the last lines of a run have their number."""
    it = forwarder(SimpleNamespace(port=authority))
    wanted, _ = dig(authority, words)
    assert len(wanted) == 2000
    compared = 0
    for _ in range(2):
        answers, edns = dig(it.port, words)
        assert len(answers) == 2000
        for question, got, want in zip(QUESTIONS, answers, wanted):
            assert got == want, question
            compared += 1
        assert edns == (2000 if words == ("+edns=0",) else 0)
    record_property(COMPARED, compared)
