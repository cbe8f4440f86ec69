# SPDX-License-Identifier: MIT
"""Small random traces replayed by several workers, again and again: each report is one of those
that some schedule of the workers allows. What a schedule allows is told by the model of the rules
(tools/model.py) and by the steps below, which share nothing with the program: they try every order
in which the workers can draw lines, make their calls, and begin and finish marks. Each trace takes
1 to 4 workers and parts. Traces are drawn for --seconds, and are the same each time.
"""
import random
import time
from collections import Counter
from typing import NamedTuple

import dns.message
import pytest

from tools.model import Part, failure, part_of
from tools.traces import line_of, offers_in
from tools.trials import by_program

# How often each trace is replayed.
RUNS = 20
# Of a trace with more states not all schedules are tried.
STATES_MOST = 400_000
NAMES = ["a.example.", "b.example.", "c.example."]
MESSAGE = """id 4660
rcode {}
flags QR AA
;QUESTION
{} IN TYPE{}
{}"""
DENIAL = ";AUTHORITY\nexample. 3600 IN SOA example. example. 1 3600 600 604800 300"

# ---- traces


def message(name, rtype, section="", rcode="NOERROR"):
    """A response of an authority, with a section of records."""
    return dns.message.from_text(MESSAGE.format(rcode, name, rtype, section)).to_wire()


def message_drawn(rng, name, rtype):
    """An answer of one record, a denial (RFC 2308 section 2.1), a server failure (section 7), or
    the beginning of a message, which is none by fault 1."""
    kind = rng.choice(["answer", "answer", "denial", "failure", "short"])
    if kind == "answer":
        data = f"A 192.0.2.{rng.randrange(3)}" if rtype == 1 else f"TXT {rng.choice('ab')}"
        return message(name, rtype, f";ANSWER\n{name} {rng.choice([0, 5, 60])} IN {data}")
    if kind == "denial":
        return message(name, rtype, DENIAL, "NXDOMAIN")
    return message(name, rtype, rcode="SERVFAIL")[:-1 if kind == "short" else None]


def line_drawn(rng):
    """The text of a line."""
    at = rng.choice([100, 103, 130, 161, 90_000])
    name, rtype = rng.choice(NAMES), rng.choice([1, 16])
    kind = rng.choice(["put", "ask", "fail", "response", "sweep", "checkpoint"] + 5 * ["fetch"])
    if kind == "put":
        rank, ttl, data = rng.randrange(1, 5), rng.choice([0, 5, 60]), 98 + rng.randrange(2)
        return f"put {at} {name} {rtype} {rank} {ttl} 01{data:02x}"
    if kind == "ask":
        purpose, mode = rng.choice(["any", "answer"]), rng.choice(["none", "failed", "now"])
        return f"ask {at} {name} {rtype} {purpose} {mode}"
    if kind == "response":
        return f"response {at} example. {message_drawn(rng, name, rtype).hex()}"
    if kind == "fetch":
        octets = message_drawn(rng, name, rtype).hex() if rng.randrange(4) else "-"
        return f"fetch {at} {name} {rtype} example. {octets}"
    return {"fail": f"fail {at} {name} {rtype}", "sweep": f"sweep {at}"}.get(kind, kind)


# ---- schedules


class State(NamedTuple):
    """How far a replay is: its parts, frozen; the questions whose marks are held; the next line to
    be drawn; the workers that are not done, in order since they are alike, each with its line, its
    step and the words of its answer so far, or with nothing; and the answers."""

    parts: tuple
    marks: frozenset
    drawn: int
    workers: tuple
    answers: tuple


def replaced(values, place, value):
    return values[:place] + (value,) + values[place + 1:]


# Steps that call no part.
NOTHING, BEGIN, FINISH = "nothing", "begin the mark", "finish the mark"


def steps_of(line, parts):
    """The words with which the answer to a line begins, and the steps of a worker that has it: each
    calls a part, of which it has the place, or is one of those above."""
    def offer(it):
        return part_of(it.key.name, parts), lambda part: part.offer(it)

    def ask(*words):
        call = line.name, line.rtype, line.at, *words
        return part_of(line.name, parts), lambda part: part.ask(*call)

    if line.word in ("put", "fail"):
        return (), [offer(line.rest[0])]
    if line.word == "ask":
        return (), [ask(*line.rest)]
    if line.word == "sweep":
        return (), [(it, lambda part: len(part.sweep(line.at))) for it in range(parts)]
    if line.word == "checkpoint":
        return (), [NOTHING]
    zone, octets = line.rest
    offers, fault = offers_in(zone, octets, line.at) if octets is not None else ([], True)
    if line.word == "fetch":
        offers = [failure(line.name, line.rtype, line.at)] if fault else offers
        return ("fetched", str(len(offers))), [
            ask("answer", "failed"), BEGIN, *map(offer, offers), ask("answer", "now"), FINISH]
    if fault:
        return ("refused", str(fault.number)), [NOTHING]
    return (str(len(offers)),), [*map(offer, offers)] or [NOTHING]


def stepped(lines, state, mine, capacity):
    """The state behind the next step of a worker, which draws a line where it has none."""
    parts, marks, drawn, workers, answers = state
    workers = [*workers]
    workers.remove(mine)
    if not mine:
        if drawn < len(lines):
            workers.append((drawn, 0, lines[drawn][1]))
        return state._replace(drawn=drawn + 1, workers=tuple(sorted(workers)))
    at, number, words = mine
    line, _, steps = lines[at]
    step, question, is_over = steps[number], (line.name, line.rtype), number + 1 == len(steps)
    if step == BEGIN:
        if question in marks:
            is_over, words = True, ("joined",)
        marks |= {question}
    elif step == FINISH:
        marks -= {question}
    elif step != NOTHING:
        place, call = step
        entries, count = parts[place]
        part = Part(capacity, entries=entries, number=count)
        answer = str(call(part))
        parts = replaced(parts, place, part.frozen())
        if line.word != "fetch" or number:
            words += (answer,)
        elif answer != "miss":
            is_held = answer.startswith("miss")
            is_over, words = True, (f"held{answer[4:]}" if is_held else f"hit {answer}",)
    if is_over:
        answers = replaced(answers, at, " ".join((line.word, *words)))
    workers.append(() if is_over else (at, number + 1, words))
    return State(parts, marks, drawn, tuple(sorted(workers)), answers)


def allowed(texts, workers, parts, capacity):
    """All reports that some schedule allows, or None where there are too many states to try."""
    lines = [(line, *steps_of(line, parts)) for line in (line_of(it.encode()) for it in texts)]
    start = State((((), 0),) * parts, frozenset(), 0, ((),) * workers, ("",) * len(lines))
    seen, todo, reports = {start}, [start], set()
    while todo and len(seen) <= STATES_MOST:
        state = todo.pop()
        if not state.workers:
            lines_told = (f"{number} {it}\n" for number, it in enumerate(state.answers))
            reports.add("".join(lines_told).encode())
        for worker in set(state.workers):
            later = stepped(lines, state, worker, capacity)
            if later not in seen:
                seen.add(later)
                todo.append(later)
    return None if todo else reports


# ---- tests


def test_each_report_is_one_that_a_schedule_allows(program, seconds, capsys):
    rng, end, counts = random.Random(1), time.monotonic() + seconds, Counter()
    while time.monotonic() < end:
        options = {"workers": rng.randint(1, 4), "parts": rng.randint(1, 4),
                   "capacity": rng.choice([1, 2, 8])}
        most = 6 if options["workers"] < 3 else 5
        texts = [line_drawn(rng) for _ in range(rng.randint(2, most))]
        reports = allowed(texts, **options)
        if reports is None:
            continue
        text, got = "".join(f"{it}\n" for it in texts), set()
        for _ in range(RUNS):
            answer = by_program(program, options, text.encode())
            assert answer.status == 0 and answer.report in reports, f"{options}\n{text}{answer}"
            got.add(answer.report)
        counts.update(tried=1, several=len(reports) > 1, seen=len(reports) > 1 and got == reports)
    assert counts["tried"]
    with capsys.disabled():
        print(f"\n{counts['tried']} traces tried; {counts['several']} have several reports; of"
              f" {counts['seen']} of them each was seen")


def fetches_among_sets(sets, fetches):
    """Sets that make it take a while to close a chapter, and so many fetches of one question, each
    of which a chapter is closed behind. What is fetched is not to be kept (RFC 2181 section 8), so
    that each fetch of the question finds nothing."""
    octets = message(NAMES[0], 1, f";ANSWER\n{NAMES[0]} 0 IN A 192.0.2.1").hex()
    puts = [f"put 1 n{number}.example. 1 4 60 c0000201\n" for number in range(sets)]
    return "".join(puts) + f"fetch 100 {NAMES[0]} 1 example. {octets}\ncheckpoint\n" * fetches


@pytest.mark.parametrize("run", range(5))
def test_workers_hold_their_marks_until_they_have_asked_again(program, run):
    """They often wait for the part just before that, since others close its chapter all the while.
    Were the mark free then, another worker would fetch the same in their midst, and the replay
    would stray."""
    answer = by_program(program, {"workers": 4}, fetches_among_sets(100, 2000).encode())
    assert answer.status == 0, answer.fault
