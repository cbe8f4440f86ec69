# SPDX-License-Identifier: MIT
"""examples/lookup.c, the example of README.md, on loopback, beside a name server that is made here,
under the sanitizers of addresses and of undefined behaviour."""
import os
import subprocess

import pytest
from dns.rcode import NXDOMAIN, SERVFAIL

from tests.c.builds import example
from tests.forwarder.harness import aliases, told

# Runs a program where this file stands in place of the system's list of servers.
BESIDE = ["unshare", *(["--map-root-user"] if os.geteuid() else []), "--mount", "sh", "-c",
          'mount --bind "$0" /etc/resolv.conf && exec "$@"']


@pytest.fixture(scope="module")
def program(library, tmp_path_factory):
    return example("lookup", library, tmp_path_factory.mktemp("example"))


@pytest.fixture
def look_up(program, server):
    """Looks names up, and returns the status, the addresses that are printed and their TTLs. The
    words that run the program may have others before them."""
    def look_up(*names, before=()):
        ran = subprocess.run([*before, program, "127.0.0.1", str(server.port), *names], text=True,
                             capture_output=True, timeout=60)
        assert ran.stderr == ""
        words = [line.split(" TTL ") for line in ran.stdout.splitlines()]
        return ran.returncode, [address for address, _ in words], [int(ttl) for _, ttl in words]
    return look_up


def test_a_name_is_asked_for_once(look_up, server):
    status, addresses, ttls = look_up("a7.example", "A7.example.", "a8.example")
    assert (status, addresses) == (0, ["192.0.2.7", "192.0.2.7", "192.0.2.8"])
    assert all(30 <= it <= 60 for it in ttls)
    assert server.times("a7.example") == server.times("a8.example") == 1


def test_an_alias_and_its_addresses(look_up, server):
    server.answer = told(*aliases(["c.example", "d.example"]), "d.example 30 A 192.0.2.3",
                         "d.example 30 A 192.0.2.4")
    status, addresses, _ = look_up("c.example", "c.example", "d.example")
    assert (status, addresses) == (0, ["192.0.2.3", "192.0.2.4"] * 3)
    assert len(server.asked) == 1


def test_addresses_of_other_lengths(look_up, server):
    """They are in the answer of a response as the server sent them, and are not printed."""
    def answer(server, asked, name):
        data = [b"\7", bytes([192, 0, 2, 9]), bytes(range(5))]
        records = [b"\xc0\x0c\0\1\0\1\0\0\0\x3c" + len(it).to_bytes(2, "big") + it for it in data]
        header = server.octets[:2] + bytes([0x81, 0x80, 0, 1, 0, len(records), 0, 0, 0, 0])
        return [b"".join([header, server.octets[12:], *records])]
    server.answer = answer
    assert look_up("a.example") == (0, ["192.0.2.9"], [60])


@pytest.mark.parametrize("servers", [["::1"], ["::1", "127.0.0.2"], ["127.0.0.2", "::1"], []])
def test_servers_of_the_system_are_not_asked(servers, look_up, server, tmp_path):
    """What is asked is the server of the command line."""
    file = tmp_path / "resolv.conf"
    file.write_text("".join(f"nameserver {it}\n" for it in servers))
    if subprocess.run([*BESIDE, file, "true"], capture_output=True).returncode:
        pytest.skip("the system's list of servers cannot be replaced here (unshare, mount)")
    assert look_up("a7.example", before=[*BESIDE, file]) == (0, ["192.0.2.7"], [60])
    assert len(server.asked) == 1


@pytest.mark.parametrize("rcode", [NXDOMAIN, SERVFAIL])
def test_what_is_not_found(rcode, look_up, server):
    server.answer = told(rcode=rcode)  # a denial with no SOA record is stored nowhere
    assert look_up("n.example") == (1, [], [])


def test_a_denial_is_an_answer(look_up, server):
    assert look_up("b.example", "b.example") == (0, [], [])
    assert server.times("b.example") == 1


@pytest.mark.parametrize("name", ["a..example", "a" * 64 + ".example", "", "." * 300])
def test_a_text_that_is_no_name(name, look_up):
    status, addresses, _ = look_up(name)
    assert status in (0, 1) and not addresses
