# SPDX-License-Identifier: MIT
"""Archives (docs/FORMATS.md) that the model of the rules makes of drawn traces, and changes of them
in one place: those by which a known event is not legal, those of which the model says what is wrong
(audits.py), and those by which a known line is none.
"""
import functools
import itertools
import random
import re
from typing import NamedTuple

from tools.archive import Rules, archive_of
from tools.grammar import Drawn, moments
from tools.traces import MOMENT_MOST, BadLine, line_of

BASES = ["example."] * 3 + [r"ex\.am\000ple.", r"\\\@\255.b.", "CH."]
CAPACITIES, CHAPTERS = [1, 2, 3, 3, 8, 64], [1, 2, 3, 7, 7, 50, 4096]
STALES = [0, 10, 86_400]
LINES_MOST = 60


# ---- archives that are drawn


def long_lines(rng, at):
    """A put of many octets or many items, and an ask of them."""
    count, size = rng.choice([(1, 4_096), (1, 65_535), (256, 1), (40, 300)])
    items = ",".join(f"{item:02x}" * size for item in range(count))
    return [f"put {at} long. 16 4 90 {items}", f"ask {at} LONG. 16 answer none"]


def texts_drawn(rng):
    """The lines of a trace as text, some of which may be none."""
    drawn = Drawn(rng, rng.choice(BASES))
    for at, _ in zip(moments(rng), range(rng.randint(0, LINES_MOST))):
        yield from long_lines(rng, at) if rng.random() < 0.003 else [drawn.line(at)]


def lines_drawn(rng):
    """The lines of a trace."""
    for text in texts_drawn(rng):
        try:
            yield line_of(text.encode())
        except BadLine:
            continue


@functools.lru_cache(64)
def archive_drawn(run):
    """The archive of a run, the same by the run."""
    rng = random.Random(f"1/{run}")
    return archive_of(lines_drawn(rng), Rules(*map(rng.choice, (CAPACITIES, CHAPTERS, STALES))))


# ---- changes of one place


class Change(NamedTuple):
    """What a place is found by, and what it becomes: a template, or by a call with the place. The
    line that is wrong then is so many lines below that of the place."""

    pattern: str
    put: object
    below: int = 0

    def made(self, rng, text):
        """The text with one place changed, and the line that is wrong, or None where none fits."""
        found = [*re.finditer(self.pattern, text, re.M)]
        if not found:
            return None
        place = rng.choice(found)
        put = place.expand(self.put) if isinstance(self.put, str) else self.put(rng, place)
        line = text.count("\n", 0, place.start()) + self.below
        return text[:place.start()] + put + text[place.end():], line


def changed(name):
    """Archives with a change of this name, each with the line that is wrong then, without end."""
    for run in itertools.count():
        if found := Change(*CHANGES[name]).made(random.Random(f"{run} {name}"), archive_drawn(run)):
            yield found


def to_number(choose):
    """Puts another number behind what it stands behind."""
    return lambda rng, it: f"{it[1]} {choose(rng, int(it[2]))}"


def plus(*steps, least=0):
    return to_number(lambda rng, it: min(max(least, it + rng.choice(steps)), MOMENT_MOST))


def among(*numbers):
    return to_number(lambda rng, it: rng.choice(numbers))


def other_outcome(rng, found):
    return found[1] + rng.choice([it for it in (" kept", " cleared", " less") if it != found[2]])


def without_a_key(rng, found):
    keys = re.findall(r" \S+ \S+", found[2])
    del keys[rng.randrange(len(keys))]
    return found[1] + "".join(keys)


def other_purpose_and_mode(rng, found):
    purpose, mode = rng.choice(["any", "answer"]), rng.choice(["none", "failed", "now"])
    return f"{found[1]} {purpose} {mode}"


def of_bodies(word):
    """Changes of what an offer or an entry has: its TTL, rank or datum is another one."""
    line = f"^({word} .* "
    return {
        f"other TTL of an {word}": (rf"{line}(?:set \d|negative \d|failure)) (\d+)",
                                    plus(-60, -1, 1)),
        f"other rank of an {word}": (rf"{line}(?:set|negative)) (\d)", among(1, 2, 3, 4)),
        f"other datum of an {word}": (rf"{line}(?:set|negative) \d \d+ \S+ )(-|[0-9a-f]*)",
                                      lambda rng, it: f"{it[1]}{it[2].strip('-')}07"),
    }


CALL = "(?:offer|ask|sweep)"
EVENT, ENTRY = rf"{CALL} .*\n", r"entry .*\n"
CHAPTER = r"chapter .*\n(?:(?!chapter).*\n)*"
ANSWER = "(?:fresh|stale|nodata|nxdomain)"
KINDS = {"fresh": "stale", "stale": "fresh", "nodata": "nxdomain", "nxdomain": "nodata"}

# By which the event of the line is not legal.
UNLAWFUL = {
    "longer left": (rf"^(ask .* {ANSWER}) (\d+)", plus(1)),
    "other retry": (r"^(ask .* miss) (\d+)", plus(1)),
    "no retry": (r"^(ask .* miss) \d+", r"\1"),
    "answer lost": (rf"^(ask .*) {ANSWER} .*", r"\1 miss"),
    "other kind": (rf"^(ask .*) ({ANSWER}) ", lambda rng, it: f"{it[1]} {KINDS[it[2]]} "),
    "other answer": (rf"^(ask .* {ANSWER} .*?)-?$", r"\g<1>07"),
    "other spelling": (r"^(ask .* (?:fresh|stale) \d+) ([^ \\]*[A-Za-z][^ \\]*) ",
                       lambda rng, it: f"{it[1]} {it[2].swapcase()} "),
    "other outcome": (r"^(offer .*)( kept| cleared| less)(?= |$)", other_outcome),
    "evicted key left out": (r"^(offer .* kept) \S+ \S+$", r"\1"),
    "other evicted key": (r"^(offer .* (?:kept|cleared|less))(?: \S+ \S+)?$",
                          r"\1 other.invalid. nx"),
    "removed key left out": (r"^(sweep \d+ \d+ \d+)((?: \S+ \S+)+)$", without_a_key),
    "removed keys exchanged": (r"^(sweep \d+ \d+ \d+)( \S+ \S+)(.*)( \S+ \S+)$", r"\1\4\3\2"),
    "removed key that is none": (r"^sweep .*", r"\g<0> other.invalid. nx"),
    "moment too large": (rf"^({CALL} \d+ \d+) (\d+)", among(MOMENT_MOST + 1, 2**64 - 1)),
    **{f"numbers spent behind {count} events": (
        rf"\A(chapter \d+) \d+(.*\n(?:{EVENT}){{{count}}})(?={EVENT})",
        rf"\1 {2**62 - count}\2", count + 1) for count in (0, 1, 5)},
}

# Of which the model says what is wrong, if anything is. No rule depends on the line and the place
# by which an event is called, or on how many events a chapter has.
JUDGED = {
    **{f"event {count} earlier": (rf"^((?:{EVENT}){{{count}}})({EVENT})", r"\2\1")
       for count in (1, 2, 3)},
    "event left out": (rf"^{EVENT}", ""),
    "event twice": (rf"^{EVENT}", r"\g<0>\g<0>"),
    "event to the next chapter": (rf"^({EVENT})(chapter .*\n(?:{ENTRY})*)", r"\2\1"),
    "other moment": (rf"^({CALL} \d+ \d+) (\d+)", plus(-100_000, -60, -1, 1, 60, 100_000)),
    "other line": (rf"^({CALL}) (\d+)", among(2**64 - 1)),
    "other place": (rf"^({CALL} \d+) (\d+)", among(*range(9))),
    "other purpose or mode": (r"^(ask \d+ \d+ \d+ \S+ \S+) \S+ \S+", other_purpose_and_mode),
    **of_bodies("offer"), **of_bodies("entry"),
    "other moment of an entry": (r"^(entry \d+) (\d+)", plus(-1, 1)),
    "other number of an entry": (r"^(entry) (\d+)", plus(-1, 1)),
    "moment of an entry from later": (r"^(entry \d+) (\d+)", among(2**63, MOMENT_MOST + 1)),
    "number of an entry from later": (r"^(entry) (\d+)", among(2**63, MOMENT_MOST + 1)),
    "entry left out": (rf"^{ENTRY}", ""),
    "entry twice": (rf"^{ENTRY}", r"\g<0>\g<0>"),
    "entry behind the last one again": (rf"^({ENTRY})((?:{ENTRY})*)", r"\1\2\1"),
    "entries exchanged": (rf"^({ENTRY})({ENTRY})", r"\2\1"),
    "last entry first": (rf"^((?:{ENTRY})+)({ENTRY})", r"\2\1"),
    "entry of the next one's key": (
        r"^(entry \d+ \d+) \S+ \S+ (.*\nentry \d+ \d+) (\S+ \S+)", r"\1 \3 \2 \3"),
    "entry of the key before it": (
        r"^(entry \d+ \d+) (\S+ \S+) (.*\nentry \d+ \d+) \S+ \S+", r"\1 \2 \3 \2"),
    "keys of entries exchanged": (
        r"^(entry \d+ \d+) (\S+ \S+) (.*\nentry \d+ \d+) (\S+ \S+)", r"\1 \4 \3 \2"),
    "next number of a chapter": (r"^(chapter) (\d+)", plus(1)),
    "other number of a chapter": (r"^(chapter) (\d+)", among(0, 2**62 - 1, 2**62, 2**64 - 1)),
    "first number moved": (r"^(chapter \d+) (\d+)", plus(-1, 1)),
    "other first number": (r"^(chapter \d+) (\d+)", among(0, 2**62, 2**64 - 1)),
    "other capacity": (r"^(chapter \d+ \d+) (\d+)", plus(-1, 1, least=1)),
    "room for an event more": (r"^(chapter \d+ \d+ \d+) (\d+)", plus(1)),
    "other max-stale": (r"^(chapter \d+ \d+ \d+ \d+) (\d+)", plus(-10, 1)),
    "less room for events": (r"\A(?:.*\n)*", lambda rng, it: re.sub(
        r"(?m)^(chapter \d+ \d+ \d+) \d+", r"\1 1", it[0])),
    "chapter left out": (rf"^{CHAPTER}", ""),
    "chapters exchanged": (rf"^({CHAPTER})({CHAPTER})", r"\2\1"),
    "last chapter first": (rf"\A((?:{CHAPTER})+)({CHAPTER})", r"\2\1"),
}

OFFER_OR_ASK = r"(?:offer|ask) \d+ \d+ \d+ "
# By which the line is none.
NO_LINE = {
    "two spaces": (" ", "  "),
    "a space at the end": (r"\n", " \n"),
    "a space in front": (r"^(?=.)", " "),
    "a tab": (" ", "\t"),
    "a CR at the end": (r"\n", "\r\n"),
    "a field more": (r"\n", " x\n"),
    "a word that is none": (r"^(\w+)", r"\1s"),
    "no number": (r"^(\w+ )\d+", r"\1x"),
    "a sign": (r"^(\w+ )(\d)", r"\1+\2"),
    "a zero in front": (r"^(\w+ )(\d)", r"\g<1>0\2"),
    "a number of 65 bits": (r"^(\w+ )\d+", r"\g<1>18446744073709551616"),
    "no rule": (r"^(chapter \d+ \d+ \d+ \d+) \d+", r"\1"),
    "no room for keys": (r"^(chapter \d+ \d+ )\d+", r"\g<1>0"),
    "room for too many keys": (r"^(chapter \d+ \d+ )\d+", r"\g<1>65537"),
    "no room for events": (r"^(chapter \d+ \d+ \d+ )\d+", r"\g<1>0"),
    "stale for too long": (r"^(chapter \d+ \d+ \d+ \d+ )\d+", r"\g<1>604801"),
    "a name without its last dot": (rf"^({OFFER_OR_ASK}\S+)\. ", r"\1 "),
    "a name in upper case": (rf"^({OFFER_OR_ASK}[^ a-z]*)([a-z])",
                             lambda rng, it: it[1] + it[2].upper()),
    "a needless escape": (rf"^({OFFER_OR_ASK}[^ a-z]*)([a-z])",
                          lambda rng, it: rf"{it[1]}\{ord(it[2]):03}"),
    "class IN": (rf"^({OFFER_OR_ASK}\S+ \w+) ", r"\1/1 "),
    "a class of 17 bits": (rf"^({OFFER_OR_ASK}\S+ \w+) ", r"\1/65536 "),
    "a type of 17 bits": (rf"^({OFFER_OR_ASK}\S+) \w+", r"\1 65536"),
    "a slot that is none": (rf"^({OFFER_OR_ASK}\S+) \w+", r"\1 failed"),
    "an ask of a slot": (r"^(ask \d+ \d+ \d+ \S+) \d+", r"\1 nx"),
    "a purpose that is none": (r"^(ask .*) (?:any|answer) (none|failed|now) ", r"\1 none \2 "),
    "a mode that is none": (r"^(ask .*) (any|answer) (?:none|failed|now) ", r"\1 \2 any "),
    "a rank that is none": (r" (set|negative) [1-4] ", r" \1 5 "),
    "a TTL of 32 bits": (r"^(offer .* (?:set \d|negative \d|failure)) \d+ ", r"\1 2147483648 "),
    "a TTL of 33 bits": (r"^(entry .* (?:set \d|negative \d|failure)) \d+", r"\1 4294967296"),
    "a body of another slot": (r"^(offer \d+ \d+ \d+ \S+) (\d+\S*) set", r"\1 failed\2 set"),
    "an owner of another name": (r"^(offer .* set \d \d+) (\S)", r"\1 x.\2"),
    "upper case in hexadecimal": (r" (?=[0-9,-]*[a-f])([0-9a-f,-]+)(?= |$)",
                                  lambda rng, it: it[0].upper()),
    "an odd number of digits": (r"^(entry .* (?:set|negative) \d \d+ \S+ \S+)$", r"\g<1>0"),
    "an item that is none": (r"^(offer .* set \d \d+ \S+ \S+) ", r"\1, "),
    "two items of an SOA record": (r"^(offer .* negative \d \d+ \S+ \S+) ", r"\1,00 "),
    "an outcome that is none": (r" (kept|cleared|less)(?= |$)", " none"),
    "half a key": (r"^(sweep \d+ \d+ \d+)$", r"\1 a."),
    "an answer that is half": (rf"^(ask .*) ({ANSWER}) .*", r"\1 \2 1"),
    "no reply": (r"^(ask .* (?:any|answer) (?:none|failed|now)) .*", r"\1"),
    "an octet above 126": (r"\n", "\xff\n"),
    "an empty line": (r"^", "\n"),
    "no end of a line": (r"\n\Z", ""),
    "no chapter": (r"\Achapter .*\n(?!chapter|\Z)", ""),
    "an entry behind an event": (rf"^{EVENT}", r"\g<0>entry 0 0 a. failed1 failure 30\n", 1),
}
CHANGES = {**UNLAWFUL, **JUDGED, **NO_LINE}


def octet_changed(rng, text):
    """An archive in which an octet is another one, is left out or is there twice."""
    at = rng.randrange(len(text))
    put = rng.choice([rng.choice("019af .,/-\\\n\r\t\0A\xff"), "", text[at] * 2])
    return text[:at] + put + text[at + 1:]
