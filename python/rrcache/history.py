# SPDX-License-Identifier: MIT
"""The history of a shelf as Python objects, read from archives (docs/FORMATS.md)."""
from __future__ import annotations

import re
from collections.abc import Callable, Iterator
from dataclasses import dataclass, field
from enum import IntEnum
from typing import NoReturn

from .choices import Class, Kind, Mode, Outcome, Purpose, Trust
from .names import NameFault, to_text, to_wire
from .replies import Reply

PURPOSES = {"any": Purpose.ANYTHING, "answer": Purpose.QUESTION}
MODES = {"none": Mode.NO_STALE, "failed": Mode.STALE_IF_FAILED, "now": Mode.STALE_NOW}
TRUSTS = {f"{it:d}": it for it in Trust}
OUTCOMES = {"kept": Outcome.KEPT, "cleared": Outcome.CLEARED, "less": Outcome.OUTRANKED}
KINDS = {"fresh": Kind.FRESH, "stale": Kind.STALE, "nodata": Kind.NODATA,
         "nxdomain": Kind.NXDOMAIN, "miss": Kind.MISS}
SLOT = re.compile("(?:(failed)?(0|[1-9][0-9]*)|nx)(?:/(0|[1-9][0-9]*))?")
NUMBER = re.compile("0|[1-9][0-9]{0,19}")
ITEM = re.compile("-|(?:[0-9a-f]{2})+")
# The ranges of the number of keys of a shelf, of the number of events of a chapter, and of
# max-stale in seconds.
RANGES = {"capacity": (1, 65_536), "chapter": (1, 1_048_576), "max_stale": (0, 604_800)}


class ArchiveFault(ValueError):
    """The text is not an archive. `line` is the number of the first wrong line, counted from 0.

    >>> try:
    ...     read_archive("chapter 1 0 1024 4096\\n")
    ... except ArchiveFault as fault:
    ...     fault.line
    0
    """

    def __init__(self, line: int) -> None:
        super().__init__(line)  # of which a copy is made
        self.line = line

    def __str__(self) -> str:
        return f"line {self.line} is not a line of an archive"


class Slot(IntEnum):
    """What a key is for: SET for an RRset or NODATA of a type, NX for an NXDOMAIN, and FAILED for a
    resolution failure of a type."""

    SET = 0
    NX = 1
    FAILED = 2


@dataclass(frozen=True)
class Key:
    """A key of the cache: a name in lower case, a slot, the type of the slot (0 for NX), and the
    class.

    >>> Key("www.example.", Slot.NX).rtype
    0
    """

    name: str
    slot: Slot
    rtype: int = 0
    rclass: Class | int = Class.IN


@dataclass(frozen=True)
class RRset:
    """All records of one owner, class and type, as an archive lists them. The owner is spelled as
    it was received.

    >>> RRset(Trust.AUTHORITY, 60, "www.Example.", (bytes([192, 0, 2, 1]),)).data[0].hex()
    'c0000201'
    """

    trust: Trust
    ttl: int
    owner: str
    data: tuple[bytes, ...]


@dataclass(frozen=True)
class Negative:
    """A negative answer (RFC 2308), with the owner and the rdata of its SOA record.

    >>> Negative(Trust.AUTHORITATIVE_ANSWER, 300, "example.", b"").owner
    'example.'
    """

    trust: Trust
    ttl: int
    owner: str
    soa: bytes


@dataclass(frozen=True)
class Failure:
    """A resolution failure (RFC 9520).

    >>> Failure(30).ttl
    30
    """

    ttl: int


Body = RRset | Negative | Failure


@dataclass(frozen=True)
class Entry:
    """The entry that a key had when a chapter began, with the number and the timestamp of the event
    that stored the entry.

    >>> Entry(3, 1000, Key("a.", Slot.FAILED, 1), Failure(30)).body.ttl
    30
    """

    number: int
    moment: int
    key: Key
    body: Body


@dataclass(frozen=True)
class Offer:
    """An offer, its outcome, and the key that the offer evicted, if any. `line` and `place` are
    numbers that the caller chose for the call.

    >>> Offer(7, 0, 1000, Key("a.", Slot.FAILED, 1), Failure(30), Outcome.KEPT).evicted is None
    True
    """

    line: int
    place: int
    moment: int
    key: Key
    body: Body
    outcome: Outcome
    evicted: Key | None = None


@dataclass(frozen=True)
class Ask:
    """An ask for a name in lower case, and its reply.

    >>> Ask(7, 1, 1000, "a.", 1, Class.IN, Purpose.QUESTION, Mode.NO_STALE,
    ...     Reply(Kind.MISS)).reply.is_miss
    True
    """

    line: int
    place: int
    moment: int
    name: str
    rtype: int
    rclass: Class | int
    purpose: Purpose
    mode: Mode
    reply: Reply


@dataclass(frozen=True)
class Sweep:
    """A sweep, and the keys that the sweep removed, in canonical order.

    >>> Sweep(7, 2, 1000, (Key("a.", Slot.FAILED, 1),)).removed[0].name
    'a.'
    """

    line: int
    place: int
    moment: int
    removed: tuple[Key, ...] = ()


Event = Offer | Ask | Sweep


@dataclass(frozen=True)
class Chapter:
    """A chapter, which is a segment of a history: its number, the number of its first event
    (`first`), and the rules of the shelf. `entries` are the entries that the shelf had when the
    chapter began, the most recently used first. `events` are the events of the chapter, the oldest
    first. `text` is the chapter as text.

    >>> [chapter] = read_archive("chapter 1 0 1024 4096 86400\\nsweep 7 0 1000\\n")
    >>> chapter.capacity, len(chapter.entries), chapter.events[0].moment
    (1024, 0, 1000)
    """

    number: int
    first: int
    capacity: int
    chapter: int
    max_stale: int
    entries: tuple[Entry, ...]
    events: tuple[Event, ...]
    text: str = field(repr=False)


# ---- the fields of a line


class _NoLine(ValueError):
    """The text is not a line of an archive."""


def _none() -> NoReturn:
    raise _NoLine


class _Fields:
    """Reads the fields of a line, one after another."""

    def __init__(self, text: str) -> None:
        self._left = text.split(" ")[::-1]

    def __bool__(self) -> bool:
        return bool(self._left)

    def word(self) -> str:
        return self._left.pop() if self._left else _none()

    def number(self, end: int = 2 ** 64) -> int:
        return _number(self.word(), end)

    def name(self) -> str:
        """Reads a name in the spelling in which names are printed."""
        text = self.word()
        try:
            return text if text and to_text(to_wire(text)) == text else _none()
        except NameFault as fault:
            raise _NoLine from fault

    def folded(self) -> str:
        """Reads a name in lower case."""
        name = self.name()
        # an escape has digits, or a character that is not a letter
        return name if name == name.lower() else _none()

    def slot(self) -> tuple[Slot, int, Class | int]:
        """Reads a slot, its type and its class. Class IN is not written."""
        found = SLOT.fullmatch(self.word()) or _none()
        rclass = _class(found[3]) if found[3] else Class.IN
        if found[2] is None:
            return Slot.NX, 0, rclass
        return Slot.FAILED if found[1] else Slot.SET, _number(found[2], 2 ** 16), rclass

    def key(self) -> Key:
        return Key(self.folded(), *self.slot())

    def trust(self) -> Trust:
        return TRUSTS.get(self.word()) or _none()

    def data(self) -> tuple[bytes, ...]:
        return tuple(map(_item, self.word().split(",")))

    def body(self) -> Body:
        word = self.word()
        if word == "set":
            return RRset(self.trust(), self.number(2 ** 32), self.name(), self.data())
        if word == "negative":
            return Negative(self.trust(), self.number(2 ** 32), self.name(), _item(self.word()))
        return Failure(self.number(2 ** 32)) if word == "failure" else _none()

    def reply(self, rtype: int) -> Reply:
        """Reads the reply to an ask for a type."""
        kind = KINDS.get(self.word()) or _none()
        if kind == Kind.MISS and self:
            return Reply(Kind.FAILED, retry_from=self.number(), rtype=rtype)
        if kind == Kind.MISS:
            return Reply(kind, rtype=rtype)
        left, owner = self.number(2 ** 32), to_wire(self.name())
        is_set = kind in (Kind.FRESH, Kind.STALE)
        data = self.data() if is_set else (_item(self.word()),)
        return Reply(kind, left, owner, data, rtype=rtype)


def _number(text: str, end: int) -> int:
    """Returns the number in a text, which must be below a limit."""
    return int(text) if NUMBER.fullmatch(text) and int(text) < end else _none()


def _class(text: str) -> Class | int:
    """Returns the class in a text, which must not be IN."""
    number = _number(text, 2 ** 16)
    if number == Class.IN:
        _none()
    return Class(number) if number in (Class.CH, Class.HS) else number


def _item(text: str) -> bytes:
    if not ITEM.fullmatch(text):
        _none()
    return b"" if text == "-" else bytes.fromhex(text)


def fits(key: Key, body: Body) -> bool:
    """Returns whether a body may be offered under a key."""
    if isinstance(body, RRset):
        owner = to_text(to_wire(body.owner).lower())
        return key.slot == Slot.SET and owner == key.name and body.ttl < 2 ** 31
    is_failure = isinstance(body, Failure)
    return is_failure == (key.slot == Slot.FAILED) and body.ttl < 2 ** 31


# ---- lines


def _entry(fields: _Fields) -> Entry:
    return Entry(fields.number(), fields.number(), fields.key(), fields.body())


def _offer(fields: _Fields) -> Offer:
    offer = Offer(fields.number(), fields.number(), fields.number(), fields.key(), fields.body(),
                  OUTCOMES.get(fields.word()) or _none(), fields.key() if fields else None)
    return offer if fits(offer.key, offer.body) else _none()


def _ask(fields: _Fields) -> Ask:
    line, place, moment = fields.number(), fields.number(), fields.number()
    name, (slot, rtype, rclass) = fields.folded(), fields.slot()
    purpose, mode = PURPOSES.get(fields.word()), MODES.get(fields.word())
    if slot != Slot.SET or purpose is None or mode is None:
        _none()
    return Ask(line, place, moment, name, rtype, rclass, purpose, mode, fields.reply(rtype))


def _sweep(fields: _Fields) -> Sweep:
    def keys() -> Iterator[Key]:
        while fields:
            yield fields.key()
    return Sweep(fields.number(), fields.number(), fields.number(), tuple(keys()))


EVENTS: dict[str, Callable[[_Fields], Event]] = {"offer": _offer, "ask": _ask, "sweep": _sweep}


class _Draft:
    """A chapter of which the first lines have been read."""

    def __init__(self, fields: _Fields) -> None:
        self.numbers = [fields.number() for _ in range(5)]
        for number, (least, most) in zip(self.numbers[2:], RANGES.values()):
            if not least <= number <= most:
                _none()
        self.entries: list[Entry] = []
        self.events: list[Event] = []
        self.texts: list[str] = []

    def chapter(self) -> Chapter:
        text = "".join(f"{it}\n" for it in self.texts)
        number, first, capacity, chapter, max_stale = self.numbers
        return Chapter(number, first, capacity, chapter, max_stale, tuple(self.entries),
                       tuple(self.events), text)


def _add(drafts: list[_Draft], text: str) -> None:
    """Adds the next line. In a chapter, entries precede events."""
    fields = _Fields(text)
    word = fields.word()
    if word == "chapter":
        drafts.append(_Draft(fields))
    elif word == "entry" and drafts and not drafts[-1].events:
        drafts[-1].entries.append(_entry(fields))
    elif word in EVENTS and drafts:
        drafts[-1].events.append(EVENTS[word](fields))
    else:
        _none()
    if fields:
        _none()
    drafts[-1].texts.append(text)


def read_archive(text: str) -> list[Chapter]:
    """Returns the chapters of an archive (docs/FORMATS.md). Does not check whether the chapters
    follow the rules: `rrcache --audit-history` does. If the text is not an archive, raises
    `ArchiveFault` with the number of the first wrong line.

    >>> [chapter] = read_archive("chapter 1 0 1024 4096 86400\\n"
    ...                          "ask 7 0 1000 www.example. 1 answer none miss\\n")
    >>> chapter.events[0].name, chapter.events[0].reply.kind.name
    ('www.example.', 'MISS')
    """
    *lines, last = text.split("\n")
    drafts: list[_Draft] = []
    for number, line in enumerate(lines):
        try:
            _add(drafts, line)
        except _NoLine as fault:
            raise ArchiveFault(number) from fault
    if last:
        raise ArchiveFault(len(lines))
    return [it.chapter() for it in drafts]
