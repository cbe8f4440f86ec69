# SPDX-License-Identifier: MIT
"""Tests of bin/why: what it says of small traces follows from docs/RULES.md."""
import json
import re

import pytest

from tests.tools.made_messages import DENIED, SOA, message
from tests.tools.shared import OPTIONS, WRONG_ARGUMENTS, interrupted, ran

PUT = "put 100 a.example. 1 4 60 c0000201"
ALIAS = "put 100 a.example. 5 4 60 016200"
# A response whose alias leads to b., and one that a.example. has no CNAME record.
LED = message(0x1234, 0x8400, "a.example. A", ["a.example. 60 CNAME b."]).hex()
NO_CNAME = message(0x1234, 0x8400, "a.example. CNAME", [], [SOA]).hex()
WHY = [
    # the lines, of which the last is asked about, what has to be said, and options
    ([PUT],
     ["rank 4 (authoritative answer), for 60 seconds", "answers until 159",
      "stale until 86559 (RFC 8767 section 4)"]),
    ([PUT, "put 159 A.example. 1 3 60 c0000202"],
     ["Less:", "line 0 stored at 100", "until 159", "RFC 2181 section 5.4.1"]),
    ([PUT, "put 160 a.example. 1 3 60 c0000202"],
     ["Kept: it replaces", "expired at 160", "RFC 2181 section 5"]),
    ([PUT, "put 120 a.example. 1 4 60 c0000202"], ["unexpired until 159 but of the same rank"]),
    ([PUT, "put 120 a.example. 1 4 0 c0000202", "ask 121 a.example. 1 any none"],
     ["line 0 stored it at 100 for 60 seconds, and line 1 cleared it by a TTL of 0"]),
    ([PUT, "put 120 a.example. 1 3 0 c0000202"], ["Less:"]),
    ([PUT, "ask 159 a.example. 1 answer none"],
     ["Fresh: at 159 its age is 59 of 60 seconds, so the remaining TTL is 1"]),
    ([PUT, "ask 160 a.example. 1 answer none"],
     ["expired at 160, 0 seconds before 160", "Miss: in the mode none there is no stale answer"]),
    ([PUT, "ask 160 a.example. 1 answer failed"], ["Miss:", "only after a recent failure"]),
    ([PUT, "fail 165 a.example. 1", "ask 170 a.example. 1 answer failed"],
     ["Stale: it is within max-stale, 86,400 seconds, and a failure is recent",
      "line 1 stored at 165", "RFC 8767 sections 4 and 5"]),
    ([PUT, "fail 165 a.example. 1", "ask 170 a.example. 1 answer none"],
     ["it may be tried again from 195 on"]),
    ([PUT, "ask 170 a.example. 1 answer now"],
     ["past max-stale, 10 seconds", "good until 169"], "--stale=10"),
    (["put 100 a.example. 1 1 60 c0000201", "ask 110 a.example. 1 answer now"],
     ["Miss: it is glue, and glue answers no question (RFC 2181 section 5.4.1)"]),
    ([PUT, "put 110 b.example. 1 4 60 c0000201"],
     ["held 1 key, as many as it may", "last by line 0", "that line 0 stored"], "--capacity=1"),
    ([PUT, "ask 101 a.example. 1 any none", "put 110 b.example. 1 4 60 c0000201"],
     ["touched least recently, last by line 1"], "--capacity=1"),
    ([PUT, "put 110 b.example. 1 4 60 c0000201", "ask 111 a.example. 1 any none"],
     ["line 1 evicted it to make room",
      "No line before stored anything under a.example./nx"], "--capacity=1"),
    ([PUT, f"response 110 example. {DENIED}", "ask 120 a.example. 1 any none"],
     ["line 1 stored at 110 for 300 seconds",
      "It also holds the set a.example. A (1 record) that line 0", "the later one governs",
      "No such name (RFC 2308 section 2.1)"]),
    ([PUT, f"response 110 example. 123480{DENIED[6:]}", "ask 120 a.example. 1 any none"],
     ["rank 2", "came later; but the earlier one is unexpired at 120 and of higher rank"]),
    # stored later goes by the number of the event, not by the moment
    ([PUT, f"response 90 example. {DENIED}", "ask 120 a.example. 1 any none"],
     ["line 1 stored at 90", "the later one governs"]),
    ([f"response 110 example. {DENIED}"],
     ["RCODE 3", "the lower of the TTL and the MINIMUM", "for 300 seconds",
      "no alias was followed", "RFC 2308 section 5"]),
    ([f"response 110 other. {DENIED}"], ["offers nothing", "not at or below the zone"]),
    ([f"response 110 example. {DENIED[:-2]}"], ["Refused 1", "ends too early"]),
    (["fetch 100 a.example. 1 example. -", "fetch 110 a.example. 1 example. -"],
     ["Held: nothing is fetched before 130"]),
    (["fetch 100 a.example. 1 example. -"], ["No message came", "the failure of a.example. A"]),
    ([PUT, "put 100 b.example. 1 4 900000 c0000202", "sweep 86560"],
     ["fully expired at 86560: 1.", "that line 0 stored"]),
    (["checkpoint"], ["no event"]),
    # an ask follows no CNAME record ("CNAME in look-ups"), also where that was stored by a fetch
    ([ALIAS, "ask 110 a.example. 1 answer none"],
     ["No line before stored anything under a.example./1.",
      "The cache holds the set a.example. CNAME (1 record) that line 0 stored at 100 for 60"
      " seconds, rank 4 (authoritative answer); but an ask follows no CNAME record",
      "bin/from-capture --follow-aliases"]),
    ([ALIAS, "ask 170 A.example. 1 answer none"],
     ["which expired at 160; but an ask follows no CNAME record"]),
    ([ALIAS, "put 90 a.example. 1 4 10 c0000201", "ask 110 a.example. 1 answer none"],
     ["Miss: in the mode none", "line 0 stored at 100", "an ask follows no CNAME record"]),
    ([f"fetch 110 a.example. 1 example. {LED}"],
     ["anything under a.example./nx. - It fetches:",
      "anything under a.example./nx. - The cache holds the set a.example. CNAME (1 record) that"
      " line 0 stored at 110 for 60 seconds"]),
]
# The lines, and the number of one of which nothing is to be said of an alias: a fresh answer; an
# ask for the alias; one for its NSEC record, for which no alias is followed (RFC 4035 section 2.5);
# one in another class; one for a name that has no CNAME record (RFC 2308 section 2.2); and one
# before the alias was stored.
NO_ALIAS = [
    ([ALIAS, PUT, "ask 110 a.example. 1 answer none"], 2),
    ([ALIAS, "ask 170 a.example. 5 answer none"], 1),
    ([ALIAS, "ask 110 a.example. 47 answer none"], 1),
    ([ALIAS, "ask 110 a.example. 16/3 answer none"], 1),
    ([f"response 100 example. {NO_CNAME}", "ask 110 a.example. 1 answer none"], 1),
    (["ask 110 a.example. 1 answer none", ALIAS], 0),
]


@pytest.mark.parametrize("case", WHY)
def test_why_says_what_follows_from_the_rules(trace_of, case):
    lines, wanted, *options = case
    run = ran("bin/why", len(lines) - 1, trace_of([*lines, "sweep 0"]), *options)
    text = re.sub(r"\s+", " ", run.stdout)
    assert [it for it in wanted if it not in text] == [], text + run.stderr


@pytest.mark.parametrize("case", WHY)
def test_why_says_the_same_in_JSON(trace_of, case):
    """As one object in a line, of the fields that docs/CAPTURES.md names; no sentence is cut."""
    lines, wanted, *options = case
    run = ran("bin/why", "--json", len(lines) - 1, trace_of([*lines, "sweep 0"]), *options)
    assert (run.returncode, run.stderr, run.stdout.count("\n")) == (0, "", 1)
    told = json.loads(run.stdout)
    assert [*told] == ["line", "trace", "report", "reasons"]
    assert (told["line"], told["trace"]) == (len(lines) - 1, lines[-1])
    assert told["report"].startswith(f"{len(lines) - 1} {lines[-1].split()[0]}")
    text = " ".join(told["reasons"])
    assert [it for it in wanted if it.replace(" - ", " ") not in text] == []


def test_why_tells_a_long_line_whole_in_JSON(trace_of):
    """The words for people cut it."""
    item = "fa" + "61" * 250
    path = trace_of([f"put 100 a. 16 4 60 {item}", "ask 101 a. 16 any none"])
    told = json.loads(ran("bin/why", "--json", 1, path).stdout)
    assert told["report"] == f"1 ask fresh 59 a. {item}"
    assert json.loads(ran("bin/why", "--json", 0, path).stdout)["trace"].endswith(item)
    assert item not in ran("bin/why", 1, path).stdout


@pytest.mark.parametrize("number, line", [(1, PUT), (0, "put")])
def test_why_tells_a_fault_in_JSON_as_else(trace_of, number, line):
    run = ran("bin/why", "--json", number, trace_of([line]))
    assert (run.returncode, run.stdout, run.stderr.count("\n")) == (1, "", 1)


@pytest.mark.parametrize("lines, number", NO_ALIAS)
def test_why_tells_of_an_alias_where_an_ask_misses_for_it(trace_of, lines, number):
    run = ran("bin/why", number, trace_of(lines))
    assert run.returncode == 0 and run.stdout and "follows no CNAME" not in run.stdout


ASKED, TXT = "x.example. TXT", ["x.example. 60 TXT a", "x.example. 30 CH TXT a"]
LED_AWAY, CH_SOA = "x.example. 60 CH CNAME x.", SOA.replace(" SOA ", " CH SOA ")
NO_SOA = "It gives no negative answer: its authority section has no SOA record"
# What a response has, with records of another class than its question's; what is to be said of it,
# and what is not.
CLASSES = [
    ((0x8000, ASKED, TXT), "the set x.example. TXT (1 record), for 60 seconds", "left out"),
    ((0x8000, "x.example. CH TXT", TXT[::-1]),
     "the set x.example. TXT of class 3 (1 record), for 30 seconds", "left out"),
    # those of the question's class have two TTLs
    ((0x8000, ASKED, [*TXT, "x.example. 50 TXT b"]), "is left out: its TTLs differ", "Offer"),
    ((0x8403, ASKED, [], [CH_SOA]), NO_SOA, "Offer"),
    ((0x8400, ASKED, [LED_AWAY]), NO_SOA, "Offer"),
    ((0x8403, ASKED, [LED_AWAY], [SOA]), "that x.example. does not exist", NO_SOA),
]


@pytest.mark.parametrize("response, wanted, unwanted", CLASSES)
def test_why_leaves_out_what_is_of_another_class(trace_of, response, wanted, unwanted):
    """Such records do not count (docs/RULES.md, "What a response offers")."""
    octets = message(0x1234, *response)
    run = ran("bin/why", "--json", 0, trace_of([f"response 100 example. {octets.hex()}"]))
    text = " ".join(json.loads(run.stdout)["reasons"])
    assert wanted in text and unwanted not in text, text


@pytest.mark.parametrize("lines, words, status", [
    ([PUT], [1], 1), (["put"], [0], 1), ([PUT], ["--", -1], 1),
    ([PUT], ["--workers=2", 0], WRONG_ARGUMENTS)])
def test_why_refuses_what_it_cannot_tell_of(trace_of, lines, words, status):
    run = ran("bin/why", *words, trace_of(lines))
    assert (run.returncode, run.stdout) == (status, "") and run.stderr


@pytest.mark.parametrize("name", OPTIONS)
def test_why_takes_the_values_that_the_program_takes(trace_of, name):
    """By the table of docs/FORMATS.md; of more than one worker it tells nothing."""
    (least, most, _), path = OPTIONS[name], trace_of([PUT])
    for value in (least - 1, least, most, most + 1, -5, "x"):
        is_taken = value in (least, most) and (name, value) != ("workers", most)
        run = ran("bin/why", 0, path, f"--{name}={value}")
        assert (run.returncode, bool(run.stdout)) == (0 if is_taken else WRONG_ARGUMENTS, is_taken)
        assert "Traceback" not in run.stderr


@pytest.mark.parametrize("path", ["-", "/dev/stdin"])
def test_why_reads_a_trace_that_can_be_read_once(path):
    run = ran("bin/why", 1, path, input=f"{PUT}\nask 159 a.example. 1 answer none\n")
    assert run.returncode == 0 and "its age is 59 of 60 seconds" in run.stdout


def test_an_interrupt_ends_why_without_a_traceback():
    assert interrupted("bin/why", "0", "/dev/stdin") == (130, "", "")
