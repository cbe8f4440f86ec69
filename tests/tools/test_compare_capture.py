# SPDX-License-Identifier: MIT
"""Tests of bin/compare-capture, on captures of three resolvers in a lab (tests/captures/lab.py) and
on made ones.

The numbers that the command has to find in the first come from dpkt and dnspython, which read what
goes between whom, and from a few lines of the RFCs' rules on what a cache may hold. If the program
is not built, the model replays in its place (tools/model.py)."""
import gzip
import io
import json
import random
import re
import subprocess
from collections import Counter
from functools import cache
from typing import NamedTuple

import pytest

from tests.tools import made_captures as made
from tests.tools.made_messages import message, query
from tests.tools.shared import REPORT, TOP, ran
from tools.captures.cached import EXCHANGED, UNANSWERED, Ask, Finder
from tools.captures.compared import ReportFault, replies_in, reply_of
from tools.captures.comparison import Comparison
from tools.captures.later import Doubt, is_newer
from tools.captures.packets import Capture
from tools.captures.seen import Peer, Seen
from tools.captures.sides import Place
from tools.captures.traffic import Traffic
from tools.traces import read_trace, report

dpkt = pytest.importorskip("dpkt")
dns = pytest.importorskip("dns.message")

LABS = ["unbound", "bind", "powerdns"]
RESOLVER = "192.0.2.53"
WRONG, FAULT = 1, 2


@pytest.fixture(scope="module")
def lab(tmp_path_factory):
    """Finds the capture of a resolver in the lab."""
    @cache
    def capture(name):
        path = tmp_path_factory.mktemp("lab") / f"{name}.pcap"
        packed = TOP / "tests" / "captures" / f"lab-{name}.pcap.gz"
        path.write_bytes(gzip.decompress(packed.read_bytes()))
        return path
    return capture


@pytest.fixture(scope="module")
def compare(replayer):
    """Compares a capture, and returns the status and the object."""
    def run(path, *words, program=replayer):
        run = ran("bin/compare-capture", "--resolver", RESOLVER, "--program", program, "--json",
                  *words, path)
        assert run.stderr == "" and run.stdout.count("\n") == 1, run.stderr
        return run.returncode, json.loads(run.stdout)
    return run


@pytest.fixture
def wrong_of(replayer, tmp_path):
    """Makes a program whose report is changed by sed."""
    def make(change):
        path = tmp_path / "wrong"
        path.write_text(f"#!/bin/bash\nset -o pipefail\nreal={replayer}\n"
                        f"{REPORT.format(change)}\n")
        path.chmod(0o755)
        return path
    return make


def trace_of(path):
    """The trace that is kept of a capture."""
    return path.with_suffix(".trace")


@pytest.fixture(scope="module")
def lab_found(compare, lab):
    """Finds what the command prints about a resolver in the lab."""
    @cache
    def found(name):
        path = lab(name)
        return compare(path, "--examples=5000", "--trace", trace_of(path))
    return found


def numbers(found):
    """The number of answers of each class that there is one of."""
    return {it: told["answers"] for it, told in found["classes"].items() if told["answers"]}


# ---- the capture of the lab, read by dpkt and dnspython


class Sent(NamedTuple):
    """A message, and who sent it to whom: an address and a port each."""

    at: float
    source: tuple
    target: tuple
    message: dns.Message


class Wire:
    """Puts fragments and the octets of TCP connections together, which come in their order on a
    loopback interface."""

    def __init__(self):
        self.pieces, self.streams = {}, {}

    def messages(self, path):
        with open(path, "rb") as stream:
            for at, frame in dpkt.pcap.Reader(stream):
                for source, target, octets in self.payloads(dpkt.ethernet.Ethernet(frame).data):
                    yield Sent(at, source, target,
                               dns.from_wire(octets, ignore_trailing=True))

    def payloads(self, ip):
        """The messages that a packet ends."""
        told = ip.data
        if ip.p == dpkt.ip.IP_PROTO_ICMP:
            return
        if ip.mf or ip.offset:
            piece = self.pieces.setdefault(ip.id, bytearray())
            piece += bytes(ip.data)
            if ip.mf:
                return
            told = dpkt.udp.UDP(bytes(self.pieces.pop(ip.id)))
        source, target = ((dpkt.utils.inet_to_str(address), port) for address, port in
                          ((ip.src, told.sport), (ip.dst, told.dport)))
        if isinstance(told, dpkt.udp.UDP):
            yield source, target, bytes(told.data)
            return
        if told.flags & dpkt.tcp.TH_SYN:
            self.streams[source, target] = bytearray()
        octets = self.streams.setdefault((source, target), bytearray())
        octets += told.data
        while len(octets) > 2 and len(octets) >= 2 + (size := int.from_bytes(octets[:2], "big")):
            yield source, target, bytes(octets[2:2 + size])
            del octets[:2 + size]


CNAME, SOA, ANY = 5, 6, 255
QR, AA, TC, NXDOMAIN = 0x8000, 0x0400, 0x0200, 3
CAP, NEGATIVE_CAP = 604_800, 10_800


class Held(NamedTuple):
    """What a cache has by RFC 2181 section 5.4.1 and RFC 2308 section 5: records, or none of a
    denial, until that second, and how far they are trusted."""

    until: int
    rank: int
    records: frozenset | None


class Expected:
    """What the command has to tell of the capture of the lab."""

    def __init__(self, sent):
        self.held, self.open, self.exchanged = {}, {}, 0
        self.queries, self.others, self.not_compared = 0, Counter(), Counter()
        self.classes, self.seconds = Counter(), {"longer": [], "shorter": []}
        for it in sent:
            self.take(it)

    def take(self, it):
        if it.source == (RESOLVER, 53):
            self.answered(it)
        elif it.target != (RESOLVER, 53):
            self.exchanged += 1
            if it.message.flags & QR and it.message.flags & AA:
                self.learn(int(it.at), it.message)
        elif it.message.question[0].rdtype != ANY:
            self.queries += 1
            self.open[it.source, it.message.id] = int(it.at), self.exchanged

    # ---- what servers say, each of its own zones alone, with one TTL in a set

    def learn(self, at, told):
        """Takes in an authoritative response."""
        name, rtype = told.question[0].name, told.question[0].rdtype
        for section, records in enumerate((told.answer, told.authority)):
            for it in records:
                rank = 3 if section else 4 if it.name == name else 2
                self.put(at, (it.name, it.rdtype), at + min(it.ttl, CAP), rank, frozenset(it))
        end, followed = led(told)
        soa = next((it for it in told.authority if it.rdtype == SOA), None)
        if soa and not any((it.name, it.rdtype) == (end, rtype) for it in told.answer):
            key = end, None if told.rcode() == NXDOMAIN else rtype
            until = at + min(soa.ttl, soa[0].minimum, NEGATIVE_CAP)
            self.put(at, key, until, 2 if followed else 4, None)

    def put(self, at, key, until, rank, records):
        held = self.held.get(key)
        if not held or held.until <= at or held.rank <= rank:
            self.held[key] = Held(until, rank, records)

    # ---- what clients are answered

    def answered(self, it):
        at, exchanged = self.open.pop((it.target, it.message.id), (None, None))
        if at is None:
            return
        if exchanged != self.exchanged:
            self.others[EXCHANGED] += 1
        elif it.message.flags & TC:
            self.not_compared["the answer is truncated"] += 1
        elif it.message.rcode() not in (0, NXDOMAIN):
            self.not_compared[f"the answer has RCODE {it.message.rcode()}"] += 1
        elif it.message.rcode() == 0 and not has_end(it.message):
            self.not_compared["the answer has neither data nor an SOA record"] += 1
        else:
            self.compare(at, it.message)

    def compare(self, at, told):
        """Counts an answer by its class."""
        gaps = []
        for key, ttl, records in parts_of(told):
            held = self.held.get(key) or self.held.get((key[0], None))
            if not held:
                self.classes["unseen"] += 1
                return
            assert held.records == records
            if held.until <= at:
                is_ended = at <= held.until + 1 or records and ttl <= 1
                self.classes["ended" if is_ended else "missed"] += 1
                return
            gaps.append(held.until - at - ttl)
        gap = max(gaps, key=abs)
        word = "longer" if gap > 1 else "shorter" if gap < -1 else \
            "same" if records else "same-denial"
        self.classes[word] += 1
        if word in self.seconds:
            self.seconds[word].append(abs(gap))


def led(told):
    """Where the aliases of an answer lead, and whether there are any."""
    name, targets = told.question[0].name, {}
    if told.question[0].rdtype != CNAME:
        targets = {it.name: it[0].target for it in told.answer if it.rdtype == CNAME}
    followed = name in targets
    while name in targets:
        name = targets.pop(name)
    return name, followed


def has_end(told):
    """Whether an answer has data of the name where its aliases lead, or an SOA record."""
    end, _ = led(told)
    return (any((it.name, it.rdtype) == (end, told.question[0].rdtype) for it in told.answer)
            or any(it.rdtype == SOA for it in told.authority))


def parts_of(told):
    """The keys, TTLs and records of an answer: of each alias, and of what it ends with."""
    question, sets = told.question[0], {(it.name, it.rdtype): it for it in told.answer}
    name, rtype = question.name, question.rdtype
    while rtype != CNAME and (name, CNAME) in sets:
        alias = sets[name, CNAME]
        yield (name, CNAME), alias.ttl, frozenset(alias)
        name = alias[0].target
    if (name, rtype) in sets:
        yield (name, rtype), sets[name, rtype].ttl, frozenset(sets[name, rtype])
    else:
        soa = next(it for it in told.authority if it.rdtype == SOA)
        yield (name, rtype), soa.ttl, None


@pytest.fixture(scope="module", params=LABS)
def both(request, lab, lab_found):
    """What the command prints about a resolver, and what it has to."""
    return lab_found(request.param)[1], Expected(Wire().messages(lab(request.param)))


@pytest.mark.parametrize("name", LABS)
def test_nothing_is_wrong_in_the_lab(lab_found, name):
    """Its zones never change, so no other records and denials than theirs are right."""
    status, found = lab_found(name)
    assert status == 0
    assert not {"wrong-set", "wrong-denial", "newer", "stale"} & set(numbers(found))


def test_which_answers_came_from_the_cache(both):
    found, expected = both
    assert (found["queries"], found["not_from_cache"]) == (expected.queries, expected.others)
    assert found["from_cache"] == expected.queries - expected.others.total() >= 900
    assert found["compared"] == expected.classes.total()
    assert found["evictions"] == 0


def test_why_others_are_not_compared(both):
    found, expected = both
    assert found["not_compared"] == expected.not_compared


def test_the_classes_are_those_that_the_rfcs_rules_give(both):
    found, expected = both
    assert numbers(found) == expected.classes
    for it, gaps in expected.seconds.items():
        assert found["classes"][it]["seconds"] == ([min(gaps), max(gaps)] if gaps else [])
    assert sum(it["share"] for it in found["classes"].values()) == pytest.approx(1)


def examples(found, *classes):
    """What the resolver answered in the examples of these classes, and the difference of TTLs."""
    return [(it["resolver"], it["seconds"]) for it in found["examples"] if it["class"] in classes]


def test_unbound_misses_no_more(lab_found):
    """It makes no CNAME records of DNAME records that are not validated."""
    assert not {"unseen", "missed"} & set(numbers(lab_found("unbound")[1]))


@pytest.mark.parametrize("name", ["bind", "powerdns"])
def test_only_aliases_of_dname_records_are_missed(lab_found, name):
    """These make them of a DNAME record that they hold (RFC 6672 section 3.4)."""
    missed = examples(lab_found(name)[1], "unseen", "missed")
    assert missed and all(re.match(r"\S+\.(old|moved)\.names\.example\. \d+ CNAME ", told[0])
                          for told, _ in missed)


def test_only_denials_are_shorter_than_those_of_unbound(lab_found):
    """It holds one SOA record for all denials of a zone, so one shows the TTL of a later one. An
    RRset that it holds it does not renew by the same data, so none of its RRsets lives longer."""
    shorter = examples(lab_found("unbound")[1], "shorter")
    assert shorter and all(told[-1].startswith(("NODATA", "NXDOMAIN")) for told, _ in shorter)


@pytest.mark.parametrize("name, is_capped", [("unbound", True), ("powerdns", True),
                                             ("bind", False)])
def test_caps_of_resolvers_are_seen(lab_found, name, is_capped):
    """By default unbound and PowerDNS cap a TTL at a day, and that of a denial at an hour; BIND at
    a week and at three hours, as rrcache does. In the lab days.far.example. has two days, and a
    denial of far.example. two hours."""
    longer = [it for it in examples(lab_found(name)[1], "longer") if it[1] >= 3_600]
    data = {seconds for told, seconds in longer if told[-1].startswith("days.far.example. ")}
    denied = {seconds for told, seconds in longer if told[-1].startswith("NXDOMAIN ")}
    assert bool(longer) is is_capped
    assert data <= {86_400} and min(denied, default=3_600) == 3_600


# ---- a report that is wrong

SOA_DATA = "00" * 22
DATA, NODATA = "same", "same-denial"
# By the status of the command: changes of replies, each with the class that the answer had, and the
# one that it has then.
CHANGES = {
    "wrong sets": (WRONG, [
        (r"s/ c0\(......\)/ c1\1/", DATA, "wrong-set"), ("s/$/,c6336401/", DATA, "wrong-set"),
        (f"s/ nodata .*/ fresh 9 a. {16 * '00'}/", NODATA, "wrong-set"),
        (r"s/ fresh .* c0\(......\)/ stale 30 a. c1\1/", DATA, "wrong-set")]),
    "wrong denials": (WRONG, [
        (f"s/ fresh .*/ nxdomain 9 . {SOA_DATA}/", DATA, "wrong-denial"),
        (f"s/ fresh .*/ nodata 9 . {SOA_DATA}/", DATA, "wrong-denial"),
        ("s/ nodata / nxdomain /", NODATA, "wrong-denial")]),
    "none wrong": (0, [
        ("s/ fresh .*/ miss/", DATA, "missed"), ("s/ nodata .*/ miss/", NODATA, "missed"),
        (r"s/ fresh [0-9]* / fresh 90000 /", DATA, "longer"),
        (r"s/ fresh [0-9]* / fresh 0 /", DATA, "shorter"),
        (r"s/ fresh [0-9]* / stale 30 /", DATA, "stale")]),
}


def lines_of(found, word):
    """The lines of asks that have an address, or NODATA, for more than 9 seconds."""
    told = {it["line"]: it["rrcache"][0].split() for it in found["examples"]
            if it["class"] == word and len(it["rrcache"]) == 1}
    if word == NODATA:
        return [line for line, (kind, *_) in told.items() if kind == "NODATA"]
    return [line for line, (_, ttl, rtype, *_) in told.items() if rtype == "A" and int(ttl) > 9]


@pytest.mark.parametrize("wanted, changes", CHANGES.values(), ids=CHANGES)
def test_replies_that_are_wrong_are_found(compare, wrong_of, lab_found, lab, wanted, changes):
    _, right = lab_found("unbound")
    lines = {DATA: iter(lines_of(right, DATA)), NODATA: iter(lines_of(right, NODATA))}
    changed = [(next(lines[it[1]]), *it) for it in changes]
    counts = Counter(numbers(right))
    for _, _, was, is_now in changed:
        counts.subtract({was: 1, is_now: -1})
    told = ";".join(f"{line + 1}{change}" for line, change, *_ in changed)
    status, found = compare(lab("unbound"), "--examples=5000", program=wrong_of(told))
    classes = {it["line"]: it["class"] for it in found["examples"]}
    assert [classes[line] for line, *_ in changed] == [it[-1] for it in changed]
    assert (status, numbers(found)) == (wanted, dict(counts))


# ---- made captures

NOW = 1_000_000_000
CLIENT, OWN, SERVER = (bytes([192, 0, 2, it]) for it in (1, 53, 201))
RESOLVERS = [Place(OWN)]
DENIALS = {"NXDOMAIN": 3, "NODATA": 0}
ALIASED = ["@ 60 CNAME t.@", "t.@ 60 A 192.0.2.1"]
# What a server says at the first second, of a name written @; what the resolver says ten seconds
# later from its cache; and the class. A denial has the TTL of its SOA record, or no such record.
CASES = {
    "as old": (["@ 60 A 192.0.2.1"], ["@ 50 A 192.0.2.1"], "same"),
    "a second less": (["@ 60 A 192.0.2.1"], ["@ 49 A 192.0.2.1"], "same"),
    "a second more": (["@ 60 A 192.0.2.1"], ["@ 51 A 192.0.2.1"], "same"),
    "two seconds less": (["@ 60 A 192.0.2.1"], ["@ 48 A 192.0.2.1"], "longer"),
    "two seconds more": (["@ 60 A 192.0.2.1"], ["@ 52 A 192.0.2.1"], "shorter"),
    "other order": (["@ 60 A 192.0.2.1", "@ 60 A 192.0.2.2"],
                    ["@ 50 A 192.0.2.2", "@ 50 A 192.0.2.1"], "same"),
    "other case": (ALIASED, ["@ 50 CNAME T.@", "T.@ 50 A 192.0.2.1"], "same"),
    "other address": (["@ 60 A 192.0.2.1"], ["@ 50 A 192.0.2.2"], "wrong-set"),
    "fewer addresses": (["@ 60 A 192.0.2.1", "@ 60 A 192.0.2.2"], ["@ 50 A 192.0.2.1"],
                        "wrong-set"),
    "more addresses": (["@ 60 A 192.0.2.1"], ["@ 50 A 192.0.2.1", "@ 50 A 192.0.2.2"],
                       "wrong-set"),
    "denied by the resolver": (["@ 60 A 192.0.2.1"], ["NXDOMAIN 50"], "wrong-set"),
    "the last second": (["@ 10 A 192.0.2.1"], ["@ 0 A 192.0.2.1"], "ended"),
    "a second behind": (["@ 9 A 192.0.2.1"], ["@ 30 A 192.0.2.1"], "ended"),
    "two seconds behind": (["@ 8 A 192.0.2.1"], ["@ 30 A 192.0.2.1"], "missed"),
    "a second left": (["@ 8 A 192.0.2.1"], ["@ 1 A 192.0.2.1"], "ended"),
    "never told": (None, ["@ 50 A 192.0.2.1"], "unseen"),
    "the same denial": (["NXDOMAIN 60"], ["NXDOMAIN 50"], "same-denial"),
    "the same denial of a type": (["NODATA 60"], ["NODATA 50"], "same-denial"),
    "a denial without a TTL": (["NXDOMAIN 60"], ["NXDOMAIN"], "same-denial"),
    "a denial that lives longer": (["NODATA 60"], ["NODATA 40"], "longer"),
    "a denial of the type alone": (["NXDOMAIN 60"], ["NODATA 50"], "wrong-denial"),
    "a denial of the name": (["NODATA 60"], ["NXDOMAIN 50"], "wrong-denial"),
    "a denial of data": (["NXDOMAIN 60"], ["@ 50 A 192.0.2.1"], "wrong-denial"),
    "an alias": (ALIASED, ["@ 50 CNAME t.@", "t.@ 50 A 192.0.2.1"], "same"),
    "an alias that lives longer": (ALIASED, ["@ 40 CNAME t.@", "t.@ 50 A 192.0.2.1"], "longer"),
    "another alias": (ALIASED, ["@ 50 CNAME u.@", "u.@ 50 A 192.0.2.1"], "wrong-set"),
    "another address of an alias": (ALIASED, ["@ 50 CNAME t.@", "t.@ 50 A 192.0.2.2"],
                                    "wrong-set"),
    "an alias to no address": (ALIASED, ["@ 50 CNAME t.@", "NODATA 50"], "wrong-set"),
    "an alias to what is denied": (["@ 60 CNAME t.@", "NXDOMAIN 60"],
                                   ["@ 50 CNAME t.@", "NXDOMAIN 50"], "same-denial"),
    "an alias to what is denied here": (["@ 60 CNAME t.@", "NXDOMAIN 60"],
                                        ["@ 50 CNAME t.@", "t.@ 50 A 192.0.2.1"],
                                        "wrong-denial"),
    "an alias to what was not told": (["@ 60 CNAME t.@"],
                                      ["@ 50 CNAME t.@", "t.@ 50 A 192.0.2.1"], "unseen"),
    # the first CNAME record counts (docs/RULES.md), here neither the last nor the least
    "several aliases": ([*(f"@ 60 CNAME {it}.@" for it in "bac"), "b.@ 60 A 192.0.2.1"],
                        [*(f"@ 50 CNAME {it}.@" for it in "bac"), "b.@ 50 A 192.0.2.1"], "same"),
    "no alias": (["@ 60 A 192.0.2.1"], ["@ 50 CNAME t.@", "t.@ 50 A 192.0.2.1"], "wrong-set"),
    "the end of an alias alone": (["@ 60 CNAME t.@", "t.@ 8 A 192.0.2.1"],
                                  ["@ 50 CNAME t.@", "t.@ 30 A 192.0.2.1"], "missed"),
}


def sent(at, source, target, octets):
    """The packet of a message, some seconds after the first."""
    client, ports = 4000, {OWN: 5000, SERVER: 53}
    ends = [53 if CLIENT in (source, target) and it == OWN else ports.get(it, client)
            for it in (source, target)]
    return NOW + at, made.ethernet(made.udp(source, target, ends, octets))


def said(asked, lines, number, flags):
    """A response to a question that says this of its name."""
    answer, authority, additional, rcode = [], [], [], 0
    for it in (line.replace("@", asked.split()[0]) for line in lines):
        word, _, ttl = it.partition(" ")
        if word in DENIALS:
            rcode = DENIALS[word]
            authority += [f". {ttl} SOA . . 1 2 3 4 {ttl}"] if ttl else []
        elif it.startswith("+"):
            additional.append(it[1:])
        else:
            answer.append(it)
    return message(number, flags | rcode, asked, answer, authority, additional)


def served(at, asked, lines, number):
    """The packets of a query to a server and its response."""
    yield sent(at, OWN, SERVER, query(asked, number, flags=0))
    yield sent(at + 0.001, SERVER, OWN, said(asked, lines, number, 0x8400))


def talk(name, number, told, answered, flags=0x8180, rtype="A"):
    """The packets of a server's response, and of a client's query with the resolver's answer."""
    asked = f"{name} {rtype}"
    if told:
        yield from served(0, asked, told, number)
    yield sent(10, CLIENT, OWN, query(asked, number))
    if answered is not None:
        yield sent(10.001, OWN, CLIENT, said(asked, answered, number, flags))


def capture_of(tmp_path, *talks):
    """Writes a capture of talks: what servers say first, then what clients are answered."""
    packets = [it for talk in talks for it in talk]
    path = tmp_path / "made.pcap"
    path.write_bytes(made.pcap(sorted((it for it in packets if it[0] < NOW + 10),
                                      key=lambda it: int(it[0]))
                               + [it for it in packets if it[0] >= NOW + 10]))
    return path


def test_each_difference_has_its_class(compare, tmp_path):
    names = {f"n{number}.": it for number, it in enumerate(CASES)}
    path = capture_of(tmp_path, *(talk(name, number, *CASES[it][:2])
                                  for number, (name, it) in enumerate(names.items())))
    status, found = compare(path, "--examples=100")
    got = {names[it["trace"].split()[2].removeprefix("t.")]: it["class"]
           for it in found["examples"]}
    assert got == {name: word for name, (*_, word) in CASES.items()}
    assert (status, found["compared"], found["not_compared"]) == (WRONG, len(CASES), {})


def test_an_example_names_the_ask_that_differs(compare, tmp_path):
    """Of an alias that is the ask for its target: lines 0 is the response, and 1 the alias's."""
    path = capture_of(tmp_path, talk("n.", 7, *CASES["another address of an alias"][:2]))
    _, found = compare(path)
    (example,) = found["examples"]
    assert (example["line"], example["trace"].split()[2:4]) == (2, ["t.n.", "1"])
    assert example["resolver"] == ["n. 50 CNAME t.n.", "t.n. 50 A 192.0.2.2"]
    assert example["rrcache"] == ["n. 50 CNAME t.n.", "t.n. 50 A 192.0.2.1"]


@pytest.mark.parametrize("mode, word", [("failed", "missed"), ("now", "stale")])
def test_stale_data_of_rrcache(compare, tmp_path, mode, word):
    """An address, and an alias whose address is fresh."""
    path = capture_of(tmp_path, talk("n.", 7, ["@ 5 A 192.0.2.1"], ["@ 30 A 192.0.2.1"]),
                      talk("m.", 8, ["@ 5 CNAME t.@", "t.@ 60 A 192.0.2.1"],
                           ["@ 30 CNAME t.@", "t.@ 50 A 192.0.2.1"]))
    status, found = compare(path, "--mode", mode)
    assert (status, numbers(found)) == (0, {word: 2})


def test_a_failure_counts_for_the_names_of_a_CNAME_chain(compare, tmp_path):
    """A query fails after five seconds, so the client, who asks at 10, gets stale data of both
    names (docs/RULES.md, "Serving stale data")."""
    path = capture_of(
        tmp_path, served(0, "n. A", ["@ 5 CNAME t.@", "t.@ 5 A 192.0.2.1"], 1),
        [sent(3, OWN, SERVER, query("n. A", 2, flags=0))],
        talk("n.", 3, None, ["@ 30 CNAME t.@", "t.@ 30 A 192.0.2.1"]))
    status, found = compare(path)
    assert (status, numbers(found)) == (0, {"stale": 1})


GOOD = list(talk("good.", 1, ["@ 60 A 192.0.2.1"], ["@ 50 A 192.0.2.1"]))


# What servers say to questions, one a second; what the resolver still says of the address of n.;
# and the class. A line with a plus is additional data.
CHANGED = {
    # RFC 2308 section 5: a name that does not exist has no data of any type
    "no name by now": ([("n. A", ["@ 60 A 192.0.2.1"]), ("n. AAAA", ["NXDOMAIN 60"])],
                       ["@ 50 A 192.0.2.1"], "newer"),
    "a name by now": ([("n. AAAA", ["NXDOMAIN 60"]), ("n. A", ["@ 60 A 192.0.2.1"])],
                      ["NXDOMAIN 50"], "newer"),
    "an alias by now": ([("n. A", ["@ 60 A 192.0.2.1"]),
                         ("n. AAAA", ["@ 60 CNAME t.", "NODATA 60"])],
                        ["@ 50 A 192.0.2.1"], "newer"),
    "a change that no server told": ([("n. A", ["@ 60 A 192.0.2.1"]), ("n. AAAA", ["NODATA 60"])],
                                     ["@ 50 A 192.0.2.9"], "wrong-set"),
    # RFC 2181 section 5.4.1: what an alias leads to is trusted less than an answer
    "a change behind an alias": ([("n. A", ["@ 60 A 192.0.2.1"]),
                                  ("alias. A", ["@ 60 CNAME n.", "n. 60 A 192.0.2.2"])],
                                 ["n. 55 A 192.0.2.2"], "wrong-set"),
    # and additional data answer no client
    "additional data": ([("other. A", ["@ 60 A 192.0.2.2", "+n. 60 A 192.0.2.1"])],
                        ["@ 50 A 192.0.2.1"], "unseen"),
    "additional data of late": ([("n. A", ["@ 60 A 192.0.2.1"]),
                                 ("alias. A", ["@ 60 CNAME n.", "n. 60 A 192.0.2.2"]),
                                 ("other. A", ["@ 60 A 192.0.2.2", "+n. 60 A 192.0.2.1"])],
                                ["n. 55 A 192.0.2.2"], "wrong-set"),
}


@pytest.mark.parametrize("told, answered, word", CHANGED.values(), ids=CHANGED)
def test_what_a_server_said_later_is_not_wrong(compare, tmp_path, told, answered, word):
    talks = [served(at, *it, at) for at, it in enumerate(told)]
    status, found = compare(capture_of(tmp_path, *talks, talk("n.", 9, None, answered)))
    assert (status, numbers(found)) == (WRONG if word == "wrong-set" else 0, {word: 1})


def test_an_alias_that_the_trace_does_not_follow_is_not_compared(compare, tmp_path):
    """From behind another alias the capture has another target of n., which rrcache trusts less
    than the answer to n. itself (RFC 2181 section 5.4.1); the trace asks for the newer one."""
    path = capture_of(
        tmp_path, served(0, "n. A", ["@ 60 CNAME t.", "t. 60 A 192.0.2.1"], 1),
        served(5, "alias. A", ["@ 60 CNAME n.", "n. 60 CNAME u.", "u. 60 A 192.0.2.2"], 2),
        talk("n.", 3, None, ["@ 50 CNAME t.", "t. 50 A 192.0.2.1"]), GOOD)
    status, found = compare(path)
    assert (status, numbers(found)) == (0, {"same": 1})
    assert found["not_compared"] == {
        "rrcache has an alias to a name that the trace does not ask for": 1}


OWN_NSEC = "@ 60 NSEC o. CNAME NSEC"


@pytest.mark.parametrize("told, answered, word", [
    ([OWN_NSEC], ["@ 50 NSEC o. CNAME NSEC"], "same"),
    # one that comes with the CNAME record of its name, and one of the target alone
    ([OWN_NSEC], ["@ 50 CNAME t.@", "@ 50 NSEC o. CNAME NSEC"], "same"),
    (["@ 60 CNAME t.@"], ["@ 50 CNAME t.@", "t.@ 50 NSEC u. A NSEC"], "unseen")])
def test_an_alias_has_NSEC_records_of_its_own(compare, tmp_path, told, answered, word):
    """For these no alias is followed (docs/RULES.md, "The alias rule")."""
    path = capture_of(tmp_path, talk("n.", 1, told, answered, rtype="NSEC"),
                      talk("n.", 2, ALIASED, None))
    status, found = compare(path)
    assert (status, numbers(found)) == (0, {word: 1})


@pytest.mark.parametrize("said_before, is_stale, wanted", [
    ({"own": (5, 20), "other": (4, 20)}, False, True), ({"own": (5, 20)}, False, False),
    ({"own": (3, 20), "other": (4, 20)}, False, False), ({"other": (4, 20)}, False, False),
    ({}, False, False), ({"own": (5, 10), "other": (4, 20)}, False, False),
    ({"own": (5, 11), "other": (4, 20)}, False, True),
    ({"own": (5, 10), "other": (4, 20)}, True, True)])
def test_what_is_newer(said_before, is_stale, wanted):
    """Both were said, that of the cache in a later line, and it lives beyond the moment 10, unless
    it is told as stale."""
    assert is_newer(Doubt(9, 10, "own", is_stale, "other"), said_before) is wanted


def test_what_is_not_compared_is_counted(compare, tmp_path):
    """An answer that is truncated, a failure, one with nothing in it, and one with another
    question; a query that is sent twice and has no answer, and one after which the resolver asks.
    """
    late = list(talk("late.", 6, None, ["@ 60 A 192.0.2.1"]))
    path = capture_of(
        tmp_path, GOOD, talk("cut.", 2, None, [], 0x8380), talk("failed.", 3, None, [], 0x8182),
        talk("nothing.", 4, None, []), talk("open.", 5, None, None),
        [late[0], sent(10, OWN, SERVER, query("late. A", 9, flags=0)), late[1]],
        talk("odd.", 8, None, None),
        [sent(10, OWN, CLIENT, said("other. A", ["@ 50 A 192.0.2.1"], 8, 0x8180))],
        [sent(11, CLIENT, OWN, query("open. A", 5))])
    _, found = compare(path)
    assert (found["queries"], found["from_cache"], found["compared"]) == (8, 5, 1)
    assert found["not_from_cache"] == {EXCHANGED: 1, UNANSWERED: 2}
    assert found["not_compared"] == dict.fromkeys([
        "the answer is truncated", "the answer has RCODE 2",
        "the answer has neither data nor an SOA record",
        "the answer has another question than the query"], 1)


def test_dnstap_tells_the_sides_itself():
    """Of its messages no address has to be the resolver's. One that is unreachable stands for a
    message to a server."""
    client, own, server = (Peer(it, port) for it, port in ((CLIENT, 4000), (b"", 53), (SERVER, 53)))
    asked, answer = query("a. A"), said("a. A", ["@ 60 A 192.0.2.1"], 7, 0x8180)
    exchange = [Seen(1, client, own, asked, "client"), Seen(2, own, client, answer, "client")]
    between = [Seen(1, own, server, query("a. A", 9, 0), "server"),
               Seen(1, own, server, b"", kind="unreachable")]
    for others in ([], between[:1], between[1:]):
        finder = Finder(Traffic(Counter(), RESOLVERS, follows_aliases=True))
        lines = list(finder.lines([exchange[0], *others, exchange[1]]))
        assert [it.split()[0] for it in lines] == ["ask"]
        assert (finder.queries, len(finder.answers)) == (1, 0 if others else 1)
        assert finder.others[EXCHANGED] == bool(others)


@pytest.mark.parametrize("seed", range(10))
def test_each_answer_of_a_broken_capture_is_counted_once(lab, seed):
    """Of each query it is told whether it was answered from the cache, and of each such answer
    whether it is compared, whatever the octets are."""
    rng, octets = random.Random(seed), bytearray(lab("bind").read_bytes()[:60_000])
    for _ in range(rng.choice([5, 50, 500])):
        # the header of the file stays
        octets[rng.randrange(24, len(octets))] = rng.randrange(256)
    finder = Finder(Traffic(Counter(), RESOLVERS, follows_aliases=True))
    seen = Capture(Counter(), {53}).messages(io.BufferedReader(io.BytesIO(octets)))
    trace = "".join(f"{it}\n" for it in finder.lines(seen)).encode()
    finder.end()
    asks = {ask.number: ask for it in finder.answers for ask in it.asks}
    replies, _ = replies_in(report(read_trace(io.BytesIO(trace))), asks, finder.number)
    found = Comparison(2)
    for it in finder.answers:
        found.take(it, replies)
    found.settle(io.BytesIO(trace))
    assert finder.queries == len(finder.answers) + finder.others.total()
    assert len(finder.answers) == found.count + found.not_compared.total()


def test_an_eviction_is_counted(compare, tmp_path):
    """Of two sets one is put out, so one of both is missed."""
    other = talk("other.", 2, ["@ 60 A 192.0.2.1"], ["@ 50 A 192.0.2.1"])
    _, found = compare(capture_of(tmp_path, GOOD, other), "--capacity=1")
    assert (found["evictions"], numbers(found)) == (1, {"same": 1, "missed": 1})
    assert all(it["why"].endswith(" --capacity 1") for it in found["examples"])


@pytest.mark.parametrize("words, evictions, classes", [
    ([], 0, {"same": 2}), (["--capacity=1"], 1, {"same": 1, "missed": 1})])
@pytest.mark.parametrize("name", ["x-out:y.example.", "kept-out:y."])
def test_a_name_counts_as_no_eviction(compare, tmp_path, name, words, evictions, classes):
    """An eviction is the outcome of an offer (docs/FORMATS.md, "Reports"), not a word of a reply,
    and has the name once more."""
    odd = talk(name, 2, ["@ 60 A 192.0.2.1"], ["@ 50 A 192.0.2.1"])
    _, found = compare(capture_of(tmp_path, odd, GOOD), *words)
    assert (found["evictions"], numbers(found)) == (evictions, classes)


# A type that dnspython does not know, so that it takes any octets, and type DNAME.
UNKNOWN, DNAME = b"\xfd\xe8", b"\0\x27"


@pytest.mark.parametrize("data, text", [
    ("03666f6f00", "foo."), ("03666f6fc00c", "03666f6fc00c"), ("03616263", "03616263"),
    ("0161005f", "0161005f"), ("", "")])
def test_rdata_of_DNAME_that_are_no_name_are_told_as_digits(compare, tmp_path, data, text):
    """The cache keeps these octets unread, also those of a name that a server compressed, though it
    must not (RFC 6672 section 2.5)."""
    lines = [rf"@ {ttl} TYPE65000 \# {len(data) // 2} {data}" for ttl in (60, 50)]
    packets = talk("n.", 1, lines[:1], lines[1:], rtype="TYPE65000")
    status, found = compare(capture_of(tmp_path, [(at, it.replace(UNKNOWN, DNAME))
                                                  for at, it in packets]))
    (example,) = found["examples"]
    assert (status, numbers(found)) == (0, {"same": 1})
    assert example["resolver"] == example["rrcache"] == [f"n. 50 DNAME {text}"]


# ---- the command


def run_on(replayer, *words):
    return ran("bin/compare-capture", "--resolver", RESOLVER, "--program", replayer, *words)


def test_the_trace_is_that_of_from_capture(lab_found, lab):
    lab_found("unbound")
    run = ran("bin/from-capture", "--zone-from-servers", "--follow-aliases", "--resolver",
              RESOLVER, path := lab("unbound"))
    assert run.stdout == trace_of(path).read_text()


@pytest.mark.parametrize("is_kept", [False, True])
def test_the_command_of_an_example_tells_why(compare, tmp_path, is_kept):
    """With the trace, or from the capture."""
    kept = ["--trace", tmp_path / "a trace"] if is_kept else []
    _, found = compare(capture_of(tmp_path, GOOD), *kept)
    (example,) = found["examples"]
    run = subprocess.run(["bash", "-c", example["why"]], capture_output=True, text=True)
    assert (run.returncode, run.stderr) == (0, "")
    assert run.stdout.splitlines()[:2] == [
        f"trace:  {example['trace']}", "report: 1 ask fresh 50 good. c0000201"]


def test_the_table_has_what_the_object_has(replayer, tmp_path):
    run = run_on(replayer, capture_of(
        tmp_path, GOOD, talk("other.", 2, *CASES["other address"][:2]),
        talk("longer.", 3, *CASES["two seconds less"][:2])))
    assert run.returncode == WRONG
    rows = {it[0]: it[1:4] for it in map(str.split, run.stdout.splitlines()) if len(it) > 3}
    assert rows["same"] == rows["wrong-set"] == ["1", "33.3", "%"]
    assert rows["wrong-denial"] == ["0", "0.0", "%"]
    assert "3 queries of clients; the resolver answered 3 from its cache" in run.stdout
    assert "the same, but rrcache's TTL is longer, by 2 seconds\n" in run.stdout
    assert "wrong-set: line 4: ask 1000000010 other. 1 answer failed" in run.stdout


REPLY = ["0 response 1 kept", "1 ask fresh 50 good. c0000201", "2 ask miss"]


@pytest.mark.parametrize("lines, fault", [
    (REPLY[:2], "has 2 lines, and the trace 3"), ([*REPLY, "3 ask miss"], "has 4 lines"),
    ([], "has 0 lines"), (REPLY[1:], "not about line 0"), ([REPLY[0], "1 put kept"], "line 1"),
    ([REPLY[0], "1 ask fresh 50 good."], "not about line 1"), ([REPLY[0], "1"], "line 1"),
    ([REPLY[0], "1 ask fresh x good. c0000201"], "not about line 1"),
    ([REPLY[0], "1 ask fresh 50 good. c000020"], "not about line 1"),
    ([REPLY[0], "1 ask fresh 50 go..od. c0000201"], "not about line 1"),
    ([REPLY[0], "1 ask good 50 good. c0000201"], "not about line 1")])
def test_a_report_that_is_none_of_the_trace_is_refused(lines, fault):
    """It lacks lines, has too many or others, or a reply that is none."""
    ask = Ask(1, "ask 1 good. 1 answer none", 1, b"\4good\0", 1, None)
    assert replies_in(REPLY, {1: ask}, 3)[0][1].ttl is None
    with pytest.raises(ReportFault, match=re.escape(fault)):
        replies_in(lines, {1: ask}, 3)


def test_a_reply_whose_rdata_are_none_of_the_type_is_refused():
    """Those of a CNAME record are a name."""
    ask = Ask(1, "ask 1 good. 5 answer none", 1, b"\4good\0", CNAME, None)
    assert reply_of(ask, "fresh", "50", "good.", "016100").records.ttl == 50
    with pytest.raises(ValueError):
        reply_of(ask, "fresh", "50", "good.", "c0000201")


@pytest.mark.parametrize("program, fault", [
    ("/nonexistent", "/nonexistent: "), ("false", "false ended with status 1"),
    ("true", "the report has 0 lines, and the trace 2")])
def test_a_program_that_fails_is_a_fault(tmp_path, program, fault):
    run = run_on(program, capture_of(tmp_path, GOOD))
    assert (run.returncode, run.stdout, run.stderr.count("\n")) == (FAULT, "", 1)
    assert fault in run.stderr


def test_a_capture_without_answers_is_a_fault(replayer, tmp_path):
    run = run_on(replayer, capture_of(tmp_path, talk("open.", 1, ["@ 60 A 192.0.2.1"], None)))
    assert (run.returncode, run.stdout, run.stderr.count("\n")) == (FAULT, "", 1)
    assert "there is no answer to compare" in run.stderr
    assert "no answer is in the capture (1)" in run.stderr


def test_what_is_no_capture_is_a_fault(replayer, tmp_path):
    path = tmp_path / "none"
    path.write_text("none")
    run = run_on(replayer, path)
    assert (run.returncode, run.stdout, run.stderr.count("\n")) == (FAULT, "", 1)
    assert f"{path} is not a capture" in run.stderr
