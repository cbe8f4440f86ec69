# SPDX-License-Identifier: MIT
"""Tests of bin/what-if: what it counts in small traces follows from docs/RULES.md."""
import csv
import io
import json
import os
import resource
import shutil
import xml.etree.ElementTree as xml

import pytest

from tests.tools.made_messages import DENIED, SOA, message
from tests.tools.shared import (ENTRY, LONG_LIST, REPORT, SEVERAL, SHARED, SHORT_LIST, TOP,
                                WRONG_ARGUMENTS, counted, interrupted, ran)
from tools.captures.curves import AmountScale

ASKED = [
    "put 100 a. 1 4 60 01020304", "ask 110 a. 1 answer none",
    "put 110 b. 1 4 60 01020304", "ask 120 a. 1 answer none", "ask 120 b. 1 answer none",
    "ask 200 b. 1 answer now", f"response 200 example. {DENIED}",
    "ask 210 a.example. 1 answer none",
]
# What these take: a name of up to 32 octets, as all are here; the set of a. or b., with 4 octets of
# rdata; the SOA set of example., with 38; the denial of a.example., with the owner's name besides.
NAME = SHARED + SHORT_LIST
A_SET = ENTRY + NAME + SHARED + SHORT_LIST
SOA_SET = ENTRY + NAME + SHARED + LONG_LIST + 38
DENIAL = ENTRY + NAME + NAME + SHARED + LONG_LIST + 38
ALL = A_SET + A_SET + SOA_SET + DENIAL
# capacity, stale, negative: fresh, stale, negative, missed, evictions, octets.
COUNTED = {
    (8, 86_400, 10_800): (3, 1, 1, 0, 0, ALL), (1, 86_400, 10_800): (2, 1, 1, 1, 3, DENIAL),
    (8, 0, 10_800): (3, 0, 1, 1, 0, ALL), (1, 0, 10_800): (2, 0, 1, 2, 3, DENIAL),
    (8, 86_400, 5): (3, 1, 0, 1, 0, ALL), (1, 86_400, 5): (2, 1, 0, 2, 3, DENIAL),
    (8, 0, 5): (3, 0, 0, 2, 0, ALL), (1, 0, 5): (2, 0, 0, 3, 3, DENIAL),
}
KINDS = ["fresh", "stale", "negative", "missed"]
VARIED = ["--capacity=1,8", "--stale=0,86400", "--negative=5,10800"]
PUT = "put 100 a. 1 4 60 01020304"
# Names of 32 octets, with that of the length and the root's, and of 33.
NAME_32, NAME_33 = "a" * 30 + ".", "a" * 31 + "."
LONG_NAME = SHARED + LONG_LIST + 33


def denied(asked, soa=SOA, flags=0x8403):
    """A line of a response that denies what is asked."""
    return f"response 100 . {message(7, flags, asked, [], [soa]).hex()}"


# Lines that offer one set, one failure, or a denial with its SOA set; and what all of it takes.
HELD = {
    "short": (PUT, A_SET),
    "no octets": ("put 100 . 10 4 60 -", A_SET),
    "name of 32": (f"put 100 {NAME_32} 1 4 60 01020304", A_SET),
    "name of 33": (f"put 100 {NAME_33} 1 4 60 01020304", ENTRY + LONG_NAME + SHARED + SHORT_LIST),
    "owner": ("put 100 A. 1 4 60 01020304", A_SET + NAME),
    "owner of 33": (f"put 100 {NAME_33.upper()} 1 4 60 01020304",
                    ENTRY + LONG_NAME + LONG_NAME + SHARED + SHORT_LIST),
    "two records": (f"{PUT},01020305", A_SET + SEVERAL + SHORT_LIST),
    "one record twice": (f"{PUT},01020304", A_SET),
    "rdata of 32": (f"put 100 a. 16 4 60 {'00' * 32}", A_SET),
    "rdata of 33": (f"put 100 a. 16 4 60 {'00' * 33}", ENTRY + NAME + SHARED + LONG_LIST + 33),
    "rdata of 33 and 4": (f"put 100 a. 16 4 60 {'00' * 33},01020304",
                          ENTRY + NAME + SHARED + SEVERAL + LONG_LIST + 33 + SHORT_LIST),
    "no name": (denied("a.example. A"), SOA_SET + DENIAL),
    "no type": (denied("a.example. A", flags=0x8400), SOA_SET + DENIAL),
    "no type of the owner": (denied("example. A", flags=0x8400), SOA_SET + DENIAL - NAME),
    "denial's owner": (denied("a.Example. A"), SOA_SET + NAME + DENIAL),
    # the name that is denied has 35 octets
    "denial of 35": (denied(f"a.{NAME_33} A", f"{NAME_33}{SOA.removeprefix('example.')}"),
                     ENTRY + LONG_NAME + SHARED + LONG_LIST + 38
                     + ENTRY + LONG_NAME + 2 + LONG_NAME + SHARED + LONG_LIST + 38),
    "failure": ("fail 100 A. 1", ENTRY + NAME),
    "failure of 33": (f"fail 100 {NAME_33} 1", ENTRY + LONG_NAME),
    "fetch": ("fetch 100 a. 1 . -", ENTRY + NAME),
}


@pytest.fixture
def asked(trace_of):
    """The trace above."""
    return trace_of(ASKED)


def test_what_if_counts_by_the_rules(what_if, asked):
    results = json.loads(what_if(asked, "--json", *VARIED))
    assert dict(map(counted, results)) == COUNTED
    rows = csv.DictReader(io.StringIO(what_if(asked, "--csv", *VARIED)))
    assert [counted(it) for it in rows] == [counted(it) for it in results]
    table = what_if(asked, "--capacity=8").split()
    assert "60.0" in table and f"{ALL:,}" in table


@pytest.mark.parametrize("line, octets", HELD.values(), ids=HELD)
def test_what_if_counts_the_memory_that_keys_take(what_if, trace_of, line, octets):
    found = json.loads(what_if(trace_of([line]), "--json", "--capacity=8"))
    assert [it["octets"] for it in found] == [octets]


@pytest.mark.parametrize("lines, stale, octets", [
    ([PUT, "put 110 a. 1 3 60 01020304,01020305"], 0, A_SET),
    ([PUT, "put 110 a. 1 4 60 01020304,01020305"], 0, A_SET + SEVERAL + SHORT_LIST),
    ([PUT, "sweep 200", "put 200 b. 1 4 9 01020304"], 0, A_SET),
    ([PUT, "sweep 200", "put 200 b. 1 4 9 01020304"], 86_400, A_SET + A_SET)])
def test_what_if_counts_what_is_held(what_if, trace_of, lines, stale, octets):
    """What is outranked or replaced is not held, nor is what a sweep removed: a stale set is kept
    by it."""
    words = ["--json", "--capacity=8", f"--stale={stale}"]
    assert json.loads(what_if(trace_of(lines), *words))[0]["octets"] == octets


def result_by(replayer, path, *words):
    """The result of one setting, by the program or by the model where that is not built."""
    run = ran("bin/what-if", "--program", replayer, "--json", *words, path)
    assert (run.returncode, run.stderr) == (0, "")
    (result,) = json.loads(run.stdout)
    return result


def test_what_if_knows_the_class_of_a_fetch_that_fails(replayer, trace_of):
    """The failure of b. evicts that of a., so one of both is held."""
    path = trace_of(["fetch 0 a. 16/3 . -", "fetch 0 b. 16/3 . -"])
    found = result_by(replayer, path, "--capacity=1")
    assert (found["evictions"], found["octets"]) == (1, ENTRY + NAME)


@pytest.mark.parametrize("name, rclass", [("IN", 1), ("CH", 3), ("HS", 4)])
def test_what_if_lowers_the_TTLs_of_negative_answers_of_each_class(replayer, trace_of, name,
                                                                   rclass):
    """A TTL of 5 that begins at 100 ends at 105 (RFC 2308 section 5)."""
    soa = SOA.replace(" SOA ", f" {name} SOA ") if name != "IN" else SOA
    path = trace_of([denied(f"a.example. {name} TXT", soa),
                     *(f"ask {at} a.example. 16/{rclass} answer none" for at in (104, 105))])
    found = result_by(replayer, path, "--capacity=8", "--negative=5")
    assert (found["negative_answers"], found["missed"]) == (1, 1)


@pytest.fixture
def drawn(what_if, tmp_path):
    """Draws a trace, and answers the points of each curve by its name, which has its color."""
    def draw(path, *words):
        what_if(path, "--svg", tmp_path / "a.svg", *words)
        found = list(xml.parse(tmp_path / "a.svg").iter())
        curves = {it.get("stroke"): [tuple(map(float, point.split(",")))
                                     for point in it.get("points").split()]
                  for it in found if it.tag.endswith("polyline")}
        names = {it.get("style").removeprefix("fill:"): it.text for it in found if it.get("style")}
        return {names[color]: points for color, points in curves.items()}
    return draw


@pytest.mark.parametrize("words, names, points", [
    (["--capacity=1,2,4,8"], KINDS, 4), (["--capacity=8", "--stale=5"], KINDS, 1),
    (VARIED[:2], ["answered, stale 0", "answered, stale 86,400"], 2),
    (["--by=octets", "--capacity=1,2,4,8"], [*KINDS, "answered"], 4),
    (["--by=octets", "--capacity=1,8", "--stale=0,5,9"],
     ["answered, stale 0", "answered, stale 5", "answered, stale 9"], 2),
    (["--by=octets", "--capacity=8", "--parts=1,2"],
     ["answered, parts 1", "answered, parts 2"], 1)])
def test_what_if_draws_a_curve_for_each_share_or_setting(drawn, asked, words, names, points):
    """Over octets a curve goes along the capacities, however few they are."""
    found = drawn(asked, *words)
    assert {it: len(curve) for it, curve in found.items()} == dict.fromkeys(names, points)


def test_what_if_draws_the_shares_over_octets(drawn, asked, tmp_path):
    """The shares are those over the capacities 1, 2, 4 and 8. The first holds the denial at most,
    the second the SOA set too, and the others all, which is less than 8 times as much: so they
    stand as they are, and not by logarithms."""
    words = "--capacity=1,2,4,8"
    usual, found = drawn(asked, words), drawn(asked, "--by", "octets", words)
    for kind in KINDS:
        assert [y for _, y in found[kind]] == [y for _, y in usual[kind]]
    low, second, third, last = (x for x, _ in found["answered"])
    assert low < second < third == last
    assert (second - low) / (last - low) == pytest.approx(SOA_SET / (ALL - DENIAL), abs=0.001)
    # what is not missed is answered, and y of both together is that of 0 % and 100 %
    height = {round(y + other, 1) for (_, y), (_, other) in zip(found["missed"], found["answered"])}
    assert len(height) == 1 and len(set(found["answered"])) == 3
    # round numbers are marked, of which one lies between, and not what was counted
    text = (tmp_path / "a.svg").read_text()
    assert ">1k<" in text and f">{ALL:,}<" not in text
    assert ">octets that keys took, at most<" in text


def test_what_if_goes_on_where_octets_are_the_same(what_if, drawn, trace_of):
    """What was removed had fewer octets than what came then. The capacity 1 misses one ask of two,
    and 2 and 3 none, so the curve of what is missed goes down, and y up."""
    big = f"put 200 c. 16 4 60 {'00' * 2_000}"
    trace = trace_of([PUT, "put 100 b. 1 4 60 01020304", "ask 110 a. 1 answer none",
                      "ask 110 b. 1 answer none", "sweep 200", big])
    words = ["--capacity=1,2,3", "--stale=0"]
    results = json.loads(what_if(trace, "--json", *words))
    assert [it["octets"] for it in results] == [ENTRY + NAME + SHARED + LONG_LIST + 2_000] * 3
    found = drawn(trace, "--by=octets", *words)
    assert len({x for curve in found.values() for x, _ in curve}) == 1
    first, *others = (y for _, y in found["missed"])
    assert others[0] == others[1] > first
    first, *others = (y for _, y in found["answered"])
    assert others[0] == others[1] < first


@pytest.mark.parametrize("values, labels", [
    ([0], "0"), ([23_693], "23.693k"), ([486, 1_596], "600 800 1k 1.2k 1.4k"),
    ([1_234_001, 1_240_000], "1.235M 1.236M 1.237M 1.238M 1.239M 1.24M"),
    ([5_000, 40_000], "5k 10k 20k"),
    ([400_000, 3_000_000_000], "500k 1M 2M 5M 10M 20M 50M 100M 200M 500M 1G 2G")])
def test_amounts_are_marked_by_round_numbers(values, labels):
    """Up to six of them stand between amounts that span less than 8 times; others stand by their
    logarithm, with 1, 2 and 5 of each power of ten."""
    scale = AmountScale(values)
    assert [scale.label(it) for it in scale.marks] == labels.split()


@pytest.mark.parametrize("name", ["none/a.svg", ""])
def test_what_if_opens_the_file_of_the_picture_first(program_of, asked, tmp_path, name):
    """Where it can't, it replays nothing."""
    program = program_of(f"touch {tmp_path}/ran; exit 1")
    run = ran("bin/what-if", "--program", program, "--svg", tmp_path / name, asked)
    assert (run.returncode, run.stdout, run.stderr.count("\n")) == (WRONG_ARGUMENTS, "", 1)
    assert str(tmp_path / name) in run.stderr and not (tmp_path / "ran").exists()


def test_what_if_draws_no_picture_into_its_trace(asked, tmp_path):
    before, link = asked.read_text(), tmp_path / "link"
    link.symlink_to(asked)
    for path in (asked, link):
        run = ran("bin/what-if", "--svg", path, asked)
        assert (run.returncode, run.stdout, run.stderr.count("\n")) == (WRONG_ARGUMENTS, "", 1)
        assert "which would be overwritten" in run.stderr and asked.read_text() == before


@pytest.mark.parametrize("name, shown", [
    (b"\xff\1.trace", "\ufffd\ufffd.trace"), ("<\u00e9&.trace".encode(), "<\u00e9&.trace")])
def test_what_if_draws_traces_of_any_name(tmp_path, name, shown):
    trace, picture = os.fsencode(tmp_path) + b"/" + name, tmp_path / "picture.svg"
    open(trace, "wb").close()
    run = ran("bin/what-if", "--program=true", "--svg", picture, os.fsdecode(trace),
              env={**os.environ, "LC_ALL": "C.UTF-8"})
    assert (run.returncode, run.stderr) == (0, "")
    texts = [it.text for it in xml.parse(picture).getroot() if it.tag.endswith("text")]
    assert f"0 asks of {shown}" in texts


def test_what_if_keeps_what_the_picture_was_until_it_draws(what_if, program_of, asked, tmp_path):
    picture = tmp_path / "a.svg"
    picture.write_text("before\n")
    run = ran("bin/what-if", "--program", program_of("exit 1"), "--svg", picture, asked)
    assert run.returncode == 1 and picture.read_text() == "before\n"
    what_if(asked, "--svg", picture)
    assert picture.read_text().startswith("<svg")


def test_what_if_counts_a_fetch_as_an_ask(what_if, trace_of):
    """Fetched and held are missed, and hit is fresh; at the sweep all is fully expired, so the ask
    is missed."""
    fetch = "fetch {} a.example. 1 example. -"
    lines = [fetch.format(100), fetch.format(101), "put 100 a.example. 1 4 60 c0000201",
             fetch.format(110), "sweep 90000", "ask 110 a.example. 1 any none"]
    result = json.loads(what_if(trace_of(lines), "--json", "--capacity=4"))[0]
    assert counted(result)[1][:4] == (1, 0, 0, 3)


@pytest.mark.parametrize("word", ["--capacity=0", "--stale=604801", "--parts=x",
                                  "--negative=10801", "--by=capacity"])
def test_what_if_refuses_what_it_cannot_replay(asked, word):
    run = ran("bin/what-if", word, asked)
    assert (run.returncode, run.stdout) == (WRONG_ARGUMENTS, "")


def test_what_if_refuses_what_is_no_trace(program, trace_of):
    run = ran("bin/what-if", "--program", program, trace_of(["ask"]))
    assert run.returncode == 1 and "line 0 is not a line of a trace" in run.stderr


def test_what_if_reads_no_line_that_is_too_long(tmp_path):
    """One of 4 GiB in the memory of 1 GiB, also where it lowers the TTLs of negative answers."""
    path, limit = tmp_path / "trace", (2**30, 2**30)
    with open(path, "wb") as stream:
        stream.truncate(2**32)
    for words in ([], ["--negative", 60]):
        run = ran("bin/what-if", "--program", "false", *words, path,
                  preexec_fn=lambda: resource.setrlimit(resource.RLIMIT_AS, limit))
        assert (run.returncode, run.stdout) == (1, "")
        assert run.stderr == "what-if: line 0 is not a line of a trace\n"


@pytest.mark.parametrize("path", ["-", "/dev/stdin"])
def test_what_if_reads_a_trace_that_can_be_read_once(program, asked, path):
    """Of several settings, too, each of which replays it."""
    run = ran("bin/what-if", "--program", program, "--json", *VARIED, path,
              input=asked.read_text())
    assert run.returncode == 0 and dict(map(counted, json.loads(run.stdout))) == COUNTED


@pytest.mark.parametrize("change, said", [
    (r"\$d", "has 7 lines, and the trace 8"), ("3d", "has 7 lines"),
    ("1p", "has 9 lines, and the trace 8"), ("d", "has 0 lines"),
    ("2s/ask.*/ask/", "is not about line 1 of the trace"),
    ("2s/ask/put/", "is not about line 1 of the trace")])
def test_what_if_says_that_a_report_is_not_one_of_the_trace(program_of, asked, change, said):
    """A line that is missing at the end or before, one too many, one cut off, and another word."""
    run = ran("bin/what-if", "--program", program_of(REPORT.format(change)), asked)
    assert (run.returncode, run.stdout) == (1, "") and said in run.stderr


def test_what_if_shows_how_far_the_build_of_its_program_is(what_if, program_of, asked, tmp_path):
    """It does of the repository's program, which builds itself, and of no other that is named. The
    tool is copied beside a program that tells of its builds."""
    (tmp_path / "bin").mkdir()
    tool = shutil.copy(TOP / "bin" / "what-if", tmp_path / "bin")
    (tmp_path / "tools").symlink_to(TOP / "tools")
    program = program_of('case "$*" in "") echo building >&2 ;; esac; exec "$real" "$@"',
                         tmp_path / "bin" / "rrcache")
    run = ran(tool, "--json", *VARIED, asked)
    assert (run.returncode, run.stderr) == (0, "building\n")
    assert run.stdout == what_if(asked, "--json", *VARIED)
    run = ran(tool, "--program", program, asked)
    assert (run.returncode, run.stderr) == (0, "")
    program_of("echo no kit >&2; exit 3", program)
    run = ran(tool, asked)
    assert (run.returncode, run.stdout) == (1, "") and run.stderr.startswith("no kit\nwhat-if: ")


def test_an_interrupt_ends_what_if_without_a_traceback(program_of, asked, tmp_path):
    """While it reads the trace, and while the program replays it."""
    begun = tmp_path / "begun"
    words = "bin/what-if", "--program", program_of(f"touch {begun}; exec sleep 600")
    assert interrupted(*words, "/dev/stdin") == (130, "", "")
    assert interrupted(*words, asked, is_begun=lambda _: begun.exists()) == (130, "", "")
