# SPDX-License-Identifier: MIT
"""Audits of archives (docs/FORMATS.md) by the model of the rules (model.py): whether the history in
an archive is legal, and if not, what is wrong with it first. The Python package reads them.
"""
from typing import NamedTuple

from rrcache.history import MODES, PURPOSES, Ask, Failure, Offer as ToldOffer, Sweep, fits
from tools.archive import Recorder, Rules, entry_text
from tools.model import Body, Entry, Key, Offer
from tools.names import to_wire
from tools.traces import MOMENT_MOST

SPENT = 2**62
NONE_DUE = "none, since the numbers are spent or the moment is above 2^40"
PURPOSE_WORDS, MODE_WORDS = ({number: word for word, number in words.items()}
                             for words in (PURPOSES, MODES))


class Unlawful(NamedTuple):
    """The first event that is not right: the place of its chapter in the archive and its own there,
    and the line, all from 0, the event, and, if its call may be made, what it is to be and what its
    keys held."""

    chapter: int
    event: int
    line: int
    written: str
    due: str | None
    held: list

    def lines(self):
        yield f"not legal: chapter {self.chapter} of the archive, event {self.event}" \
              f" (line {self.line})"
        yield f"written: {self.written}"
        yield f"due: {self.due or NONE_DUE}"
        yield from (f"held: {it}" for it in self.held)


class Fault(NamedTuple):
    """What else is wrong first: the kind, and the place of the chapter in the archive, from 0."""

    kind: str
    chapter: int


# ---- what an archive tells, as the model has it


def key_of(told):
    return Key(to_wire(told.name), told.slot.name.lower(), told.rtype, told.rclass)


def body_of(told):
    if isinstance(told, Failure):
        return Body("failure", b"", (), 0, told.ttl)
    kind, items = ("negative", (told.soa,)) if hasattr(told, "soa") else ("positive", told.data)
    return Body(kind, to_wire(told.owner), items, told.trust, told.ttl)


def entry_of(told):
    return Entry(key_of(told.key), body_of(told.body), told.moment, told.number)


def ask_of(told):
    """What a part is asked, in the order of its call."""
    purpose, mode = PURPOSE_WORDS[told.purpose], MODE_WORDS[told.mode]
    return to_wire(told.name), told.rtype, told.moment, purpose, mode, told.rclass


def keys_of(event):
    """The keys that an event's call looks up."""
    if isinstance(event, ToldOffer):
        return [key_of(event.key)]
    if isinstance(event, Sweep):
        return []
    return [Key(to_wire(event.name), slot, 0 if slot == "nx" else event.rtype, event.rclass)
            for slot in ("set", "nx", "failed")]


def line_due(part, event):
    """Makes an event's call, and tells the line that it writes."""
    part.line, part.place = event.line, event.place
    if isinstance(event, ToldOffer):
        part.offer(Offer(key_of(event.key), body_of(event.body), event.moment))
    elif isinstance(event, Ask):
        part.ask(*ask_of(event))
    else:
        part.sweep(event.moment)
    return part.lines[-1]


# ---- audits


def entry_fault(chapter):
    """What is wrong with the first entry of which anything is (SnapshotFault)."""
    keys, numbers = set(), set()
    for place, entry in enumerate(chapter.entries):
        if place >= chapter.capacity:
            return "TooMany"
        if entry.key in keys:
            return "RepeatedKey"
        if entry.number >= chapter.first or entry.number in numbers:
            return "BadNumber"
        if not fits(entry.key, entry.body):
            return "WrongBody"
        if entry.moment > MOMENT_MOST:
            return "BadMoment"
        keys.add(entry.key)
        numbers.add(entry.number)
    return None


def wrong_event(part, events, lines):
    """Makes the calls of a chapter's events again: the place and the line of the first event that
    is not what its call writes, that, if the call may be made, and what its keys held before it."""
    for place, (event, written) in enumerate(zip(events, lines)):
        if part.number >= SPENT or event.moment > MOMENT_MOST:
            return place, written, None, []
        held = [entry_text(part.held[it]) for it in keys_of(event) if it in part.held]
        if (due := line_due(part, event)) != written:
            return place, written, due, held
    return None


def fault_in(chapter, place, line):
    """What is wrong with a chapter itself, and what it leads to: the number of the next event, and
    the lines of what the keys hold. It stands at a place of the archive, and begins at a line."""
    if kind := entry_fault(chapter):
        return Fault(kind, place), None
    if not 0 < chapter.number < SPENT:
        return Fault("NoNumber", place), None
    entries = [*map(entry_of, reversed(chapter.entries))]
    part = Recorder(rules_of(chapter), entries, chapter.first)
    behind = 1 + len(entries)
    if wrong := wrong_event(part, chapter.events, chapter.text.splitlines()[behind:]):
        event, *told = wrong
        return Unlawful(place, event, line + behind + event, *told), None
    return None, (part.number, part.held_lines())


def rules_of(chapter):
    return Rules(chapter.capacity, chapter.chapter, chapter.max_stale)


def link_fault(before, closing, chapter):
    """Why a chapter does not go on from the one before it."""
    number, held = closing
    if (chapter.number, chapter.first) != (before.number + 1, number):
        return "NumberGap"
    entries = chapter.text.splitlines()[1:1 + len(chapter.entries)]
    is_same = (rules_of(chapter), entries) == (rules_of(before), held)
    return None if is_same else "OtherContents"


def first_fault(chapters):
    """What is wrong with chapters: the first that is none, else the first that does not go on from
    the one before it, else None."""
    if not chapters:
        return Fault("Empty", 0)
    closings, line = [], 0
    for place, chapter in enumerate(chapters):
        fault, closing = fault_in(chapter, place, line)
        if fault:
            return fault
        closings.append(closing)
        line += chapter.text.count("\n")
    for place, (before, closing, chapter) in enumerate(zip(chapters, closings, chapters[1:]), 1):
        if kind := link_fault(before, closing, chapter):
            return Fault(kind, place)
    return None
