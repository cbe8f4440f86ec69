#!/usr/bin/env python3
# SPDX-License-Identifier: MIT
"""tests/captures/lab.py [--by RESOLVER] [--seconds N] [--queries N] [--seed N] TO: makes TO.pcap.gz
as root.

In a network namespace of its own, name servers (nsd) serve zones that never change, a resolver
asks them, and clients ask the resolver, with EDNS and without, over UDP and TCP, for names drawn by
Zipf's law. tcpdump writes all that goes over port 53, what clients are answered too. The resolver
is unbound, bind (named) or powerdns (pdns_recursor), each with its usual settings, but that nothing
is validated, and that unbound prefetches.

The captures that are here were made by

    tests/captures/lab.py tests/captures/lab-unbound
    tests/captures/lab.py --by bind --seconds 45 --queries 1300 tests/captures/lab-bind
    tests/captures/lab.py --by powerdns --seconds 45 --queries 1300 tests/captures/lab-powerdns

Since no zone changes, and no server says other than another one of its zone, no cache may ever
answer with other records than the resolver, nor deny what it has. The zones have hosts, aliases
also into other zones, DNAME records, wildcards, empty non-terminals, delegations with glue and
without, TXT records that need TCP, and times to live of 3 seconds to two days.
Needs: nsd tcpdump iproute2 util-linux, and unbound, bind9 or pdns-recursor.
"""
import argparse
import gzip
import random
import shutil
import sys
import tempfile
import time
from concurrent.futures import ThreadPoolExecutor
from contextlib import suppress
from pathlib import Path

sys.path.insert(0, str(Path(__file__).resolve().parents[2]))

from tests.captures.daemons import (add_addresses, hints, in_namespace, nsd_conf,  # noqa: E402
                                    running, unbound_conf)
from tools.debian import needs  # noqa: E402

needs("dns", "python3-dnspython")

import dns.exception  # noqa: E402
import dns.flags  # noqa: E402
import dns.message  # noqa: E402
import dns.query  # noqa: E402

RESOLVER = "192.0.2.53"
CLIENTS = [f"203.0.113.{it}" for it in range(1, 6)]
# Who serves the root, `example.`, the zones below it, and `far.example.` beside these.
ROOT, TLD, ONE, OTHER, FAR = (f"198.51.100.{it}" for it in range(1, 6))
HOSTS, ALIASES = 48, 30
TIMES = [3, 8, 20, 45, 300]
SOA = "{0} {1} SOA ns.{0} hostmaster.{0} 1 3600 600 604800 {1}\n"
DAY = 86_400
WAIT = 10


# ---- zones


def delegation(zone):
    """The NS set of a zone with two servers below it, and their addresses."""
    return (f"{zone} 60 NS ns1.{zone}\n{zone} 60 NS ns2.{zone}\n"
            f"ns1.{zone} 60 A {ONE}\nns2.{zone} 60 A {OTHER}\n")


# Its servers are in other zones, so no glue stands above.
FAR_SERVERS = "far.example. 60 NS away.hosts.example.\nfar.example. 60 NS away.names.example.\n"
BELOW = [f"{it}.example." for it in ("hosts", "names", "deep", "large")]
EXAMPLE = f"example. 120 NS ns.example.\nns.example. 120 A {TLD}\n"
SUB = f"sub.deep.example. 30 NS ns.sub.deep.example.\nns.sub.deep.example. 30 A {FAR}\n"
ROOT_ZONE = (SOA.format(".", 60).replace("ns..", "a.root.").replace("hostmaster..", "host.root.")
             + f". 300 NS a.root.\na.root. 300 A {ROOT}\n{EXAMPLE}")
EXAMPLE_ZONE = (SOA.format("example.", 20) + EXAMPLE + "".join(map(delegation, BELOW))
                + FAR_SERVERS)


def hosts_zone():
    """Hosts of up to four addresses, half of them with none of type AAAA; wildcards; names that
    exist by names below them alone."""
    zone = "hosts.example."
    text = SOA.format(zone, 15) + delegation(zone) + f"{zone} 45 MX 10 h00.{zone}\n"
    text += f"{zone} 45 MX 20 h01.{zone}\naway.{zone} 60 A {FAR}\n"
    for host in range(HOSTS):
        name, ttl = f"h{host:02}.{zone}", TIMES[host % len(TIMES)]
        text += "".join(f"{name} {ttl} A 192.0.2.{host + 64 * it}\n" for it in range(host % 4 + 1))
        if host % 2:
            text += f"{name} {ttl} AAAA 2001:db8:2::{host}\n"
    text += f"*.wild.{zone} 20 A 192.0.2.250\n*.wild.{zone} 20 TXT wild\n"
    text += f"*.led.{zone} 8 CNAME h05.{zone}\n"
    return text + f"one.two.empty.{zone} 20 A 192.0.2.251\n"


def names_zone():
    """Aliases: to hosts of another zone, to an alias and so on, to what is not there, around in a
    loop, and by DNAME records."""
    zone, hosts = "names.example.", "hosts.example."
    text = SOA.format(zone, 20) + delegation(zone) + f"away.{zone} 60 A {FAR}\n"
    for number in range(ALIASES):
        ttl = TIMES[(number + 2) % len(TIMES)]
        text += f"n{number:02}.{zone} {ttl} CNAME h{number * 7 % HOSTS:02}.{hosts}\n"
    for number in range(1, 5):
        text += f"chain{number}.{zone} {12 * number} CNAME chain{number + 1}.{zone}\n"
    text += f"chain5.{zone} 20 CNAME x03.far.example.\n"
    text += f"beside.{zone} 20 CNAME host.{zone}\nother.{zone} 45 CNAME host.{zone}\n"
    text += f"host.{zone} 20 A 192.0.2.252\n"
    text += f"nowhere.{zone} 20 CNAME none.{hosts}\nnothing.{zone} 45 CNAME no.{zone}\n"
    text += f"around.{zone} 8 CNAME again.{zone}\nagain.{zone} 8 CNAME around.{zone}\n"
    return text + f"old.{zone} 30 DNAME {hosts}\nmoved.{zone} 20 DNAME far.example.\n"


def far_zone():
    """What lives for longer than unbound lets it live: positive for two days, negative for two
    hours."""
    zone = "far.example."
    text = SOA.format(zone, 7_200) + FAR_SERVERS + f"days.{zone} {2 * DAY} A 192.0.2.253\n"
    return text + "".join(f"x{it:02}.{zone} {TIMES[it % len(TIMES)]} A 192.0.2.{100 + it}\n"
                          for it in range(12))


def deep_zone():
    zone = "deep.example."
    return SOA.format(zone, 8) + delegation(zone) + SUB + f"www.{zone} 20 A 192.0.2.200\n"


def sub_zone():
    zone = "sub.deep.example."
    return SOA.format(zone, 8) + SUB + "".join(
        f"s{it}.{zone} {TIMES[it % len(TIMES)]} A 192.0.2.{210 + it}\n" for it in range(6))


def large_zone():
    """TXT sets of which the first fits a usual datagram, and the last none."""
    zone, text = "large.example.", SOA.format("large.example.", 20) + delegation("large.example.")
    for number, size in enumerate((4, 7, 20)):
        text += f"t{number}.{zone} 45 TXT " + " ".join(
            '"' + chr(97 + it) * 200 + '"' for it in range(size)) + "\n"
    return text


# ---- questions


def questions():
    """What clients ask for."""
    for host in range(HOSTS):
        yield from ((f"h{host:02}.hosts.example.", it) for it in ("A", "AAAA"))
    yield from ((f"n{it:02}.names.example.", "A") for it in range(ALIASES))
    yield from ((f"n{it:02}.names.example.", "AAAA") for it in range(0, ALIASES, 3))
    yield from ((f"chain{it}.names.example.", "A") for it in range(1, 6))
    yield from ((f"{it}.names.example.", "A") for it in (
        "beside", "other", "host", "nowhere", "nothing", "around", "none.old", "old", "days.moved"))
    yield from ((f"h{it:02}.old.names.example.", "A") for it in range(12))
    yield from ((f"x{it:02}.moved.names.example.", "A") for it in range(6))
    yield from ((f"{it}.hosts.example.", "A") for it in (
        "a.wild", "b.wild", "a.led", "b.led", "one.two.empty", "two.empty", "empty", "none", "no1",
        "below.h03"))
    yield from ((f"x{it:02}.far.example.", "A") for it in range(12))
    yield from ((f"{it}.far.example.", "A") for it in ("days", "none", "no1"))
    yield from ((f"{it}.deep.example.", "A") for it in ("www", "s0.sub", "s3.sub", "no.sub"))
    yield from ((f"{it}.example.", "MX") for it in ("hosts", "h00.hosts", "names"))
    yield from ((f"{it}.example.", "NS") for it in ("hosts", "far", "sub.deep"))
    yield from [("hosts.example.", "SOA"), ("n03.names.example.", "CNAME"),
                ("a.wild.hosts.example.", "TXT"), ("h00.hosts.example.", "HTTPS"),
                ("old.names.example.", "DNAME"), ("h00.hosts.example.", "ANY"),
                ("nope.", "A"), ("no.example.", "A")]


# Some are rare: they are large.
LARGE = [(f"t{it}.large.example.", "TXT") for it in range(3)]


def query(rng, common):
    """A query, and whether it goes over TCP; few of them do not wish for recursion."""
    asked, odds = common
    name, rtype = rng.choice(LARGE) if rng.random() < 0.01 else rng.choices(asked, odds)[0]
    name = "".join(rng.choice((it, it.upper())) for it in name) if rng.random() < 0.05 else name
    edns = {} if rng.random() < 0.15 else {
        "use_edns": 0, "payload": rng.choice((1232, 1232, 4096)),
        "want_dnssec": rng.random() < 0.2}
    flags = 0 if rng.random() < 0.02 else dns.flags.RD
    made = dns.message.make_query(name, rtype, id=rng.randrange(65_536), flags=flags, **edns)
    return made, rng.random() < 0.05


def ask(made, is_tcp, source):
    """Asks the resolver, over TCP too where the answer was truncated."""
    with suppress(dns.exception.Timeout):
        if is_tcp:
            dns.query.tcp(made, RESOLVER, WAIT, source=source)
        else:
            dns.query.udp_with_fallback(made, RESOLVER, WAIT, source=source, ignore_trailing=True)


def load(rng, seconds, count):
    """Sends so many queries over that time."""
    asked = list(questions())
    rng.shuffle(asked)
    common = asked, [1 / rank for rank in range(1, len(asked) + 1)]
    moments = sorted(rng.uniform(0, seconds) for _ in range(count))
    begun = time.monotonic()
    with ThreadPoolExecutor(16) as clients:
        for moment in moments:
            drawn = *query(rng, common), rng.choice(CLIENTS)
            time.sleep(max(0.0, begun + moment - time.monotonic()))
            clients.submit(ask, *drawn)
    time.sleep(2)


# ---- servers

NAMED = """options {{
  directory "{0}"; pid-file "{0}/pid"; session-keyfile "{0}/key"; listen-on-v6 {{ none; }};
  listen-on {{ {1}; }}; query-source address {1}; allow-query-cache {{ any; }};
  allow-recursion {{ any; }}; dnssec-validation no; empty-zones-enable no; max-cache-size 64m; }};
controls {{ }};
zone "." {{ type hint; file "{2}"; }};
"""


def unbound(folder):
    return ["unbound", "-d", "-c", str(unbound_conf(
        folder, [RESOLVER], ROOT, ["do-ip6: no", "prefetch: yes"]))]


def bind(folder):
    conf = folder / "named.conf"
    conf.write_text(NAMED.format(folder, RESOLVER, hints(folder, ROOT)))
    return ["named", "-g", "-n", "1", "-c", str(conf)]


def powerdns(folder):
    return ["pdns_recursor", f"--config-dir={folder}", f"--socket-dir={folder}", "--daemon=no",
            "--setuid=", "--setgid=", "--security-poll-suffix=", "--threads=1", "--dnssec=off",
            f"--hint-file={hints(folder, ROOT)}", f"--local-address={RESOLVER}",
            f"--query-local-address={RESOLVER}", "--allow-from=0.0.0.0/0", "--dont-query="]


RESOLVERS = {it.__name__: it for it in (unbound, bind, powerdns)}


def daemons(folder, pcap, resolver):
    """What has to run, in this order."""
    zones = [("hosts.example.", hosts_zone()), ("names.example.", names_zone()),
             ("deep.example.", deep_zone()), ("large.example.", large_zone())]
    servers = [([ROOT], [(".", ROOT_ZONE)]), ([TLD], [("example.", EXAMPLE_ZONE)]),
               ([ONE], zones), ([OTHER], zones),
               ([FAR], [("far.example.", far_zone()), ("sub.deep.example.", sub_zone())])]
    for number, (own, served) in enumerate(servers):
        yield ["nsd", "-d", "-c", str(nsd_conf(folder, number, own, served))]
    yield ["tcpdump", "-Z", "root", "-i", "lo", "-U", "-B", "16384", "-w", str(pcap),
           "port 53 or icmp or ip[6:2] & 0x1fff != 0"]
    yield resolver(folder)


def made(given):
    """Makes the capture, within a namespace."""
    add_addresses([RESOLVER, ROOT, TLD, ONE, OTHER, FAR, *CLIENTS])
    with tempfile.TemporaryDirectory() as folder:
        pcap = Path(folder) / "pcap"
        with running(daemons(Path(folder), pcap, RESOLVERS[given.by])):
            load(random.Random(given.seed), given.seconds, given.queries)
        # without a name and a time, so that the file is that of the packets alone
        with (open(pcap, "rb") as source, open(f"{given.to}.pcap.gz", "wb") as target,
              gzip.GzipFile("", "wb", 9, target, mtime=0) as packed):
            shutil.copyfileobj(source, packed)


def main(words):
    reader = argparse.ArgumentParser(description=__doc__,
                                     formatter_class=argparse.RawDescriptionHelpFormatter)
    for name, kind, usual in (("seconds", float, 75), ("queries", int, 2_000), ("seed", int, 41)):
        reader.add_argument(f"--{name}", type=kind, default=usual)
    reader.add_argument("--by", choices=RESOLVERS, default="unbound")
    reader.add_argument("to", type=Path, metavar="TO")
    given = reader.parse_args(words)
    given.to = given.to.resolve()
    in_namespace(__file__, words)
    made(given)


if __name__ == "__main__":
    main(sys.argv[1:])
