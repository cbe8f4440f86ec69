# SPDX-License-Identifier: MIT
"""Traces (docs/FORMATS.md), read strictly and apart from the program, and the calls of a line."""
from binascii import unhexlify
from typing import NamedTuple

from tools.messages import MessageFault, is_kept, offers_of, plain_item, read
from tools.model import CAP, IN, Part, failure, part_of, positive
from tools.names import NameFault, fold, from_text

LINES_MOST, LINE_MOST, MOMENT_MOST, TTL_MOST = 1_000_000, 140_000, 2**40, 2**32 - 1
ITEMS_MOST, ITEM_MOST, QUESTIONS_MOST = 256, 65_535, 4_096
PURPOSES, MODES = (b"any", b"answer"), (b"none", b"failed", b"now")


class TraceFault(ValueError):
    """Why a trace is none, in the program's words."""


class BadLine(ValueError):
    """A line is no line of a trace."""


class Line(NamedTuple):
    """A line: its word; its moment; its name, type and class, where it has them; and what else its
    word has: an `Offer`, a purpose and a mode, or a zone and a message (None where none came)."""

    word: str
    at: int = 0
    name: bytes = b""
    rtype: int = 0
    rest: tuple = ()
    rclass: int = IN


# ---- fields


def number(field, most):
    if not (field.isdigit() and field.isascii()):
        raise BadLine
    value = int(field.lstrip(b"0")[:20] or b"0")
    if value > most:
        raise BadLine
    return value


def name_of(field):
    try:
        return from_text(field)
    except NameFault as fault:
        raise BadLine from fault


def type_of(field):
    """A type and a class, which is IN where none is written, of which records are kept."""
    rtype, slash, rclass = field.partition(b"/")
    rtype, rclass = number(rtype, 65_535), number(rclass, 65_535) if slash else IN
    if not is_kept(rtype, rclass):
        raise BadLine
    return rtype, rclass


def octets(field):
    """The octets that hexadecimal digits of either case spell."""
    try:
        # bytes.fromhex would skip a tab or a CR
        return unhexlify(field)
    except ValueError as fault:
        raise BadLine from fault


def item(field, rtype):
    """An item, and the same with the letters of its names lowered."""
    data = b"" if field == b"-" else octets(field)
    folded = plain_item(rtype, data)
    if not field or len(data) > ITEM_MOST or folded is None:
        raise BadLine
    return folded, data


# ---- lines, by their first word


def put(at, name, rtype, rank, ttl, items):
    name, (rtype, rclass), fields = name_of(name), type_of(rtype), items.split(b",")
    rank, ttl = number(rank, 4), number(ttl, TTL_MOST)
    if not rank or len(fields) > ITEMS_MOST:
        raise BadLine
    once = {}
    for folded, data in [item(it, rtype) for it in fields]:
        once.setdefault(folded, data)
    at = number(at, MOMENT_MOST)
    offer = positive(name, rtype, once.values(), rank, min(ttl, CAP), at, rclass)
    return Line("put", at, name, rtype, (offer,), rclass)


def ask(at, name, rtype, purpose, mode):
    if purpose not in PURPOSES or mode not in MODES:
        raise BadLine
    (rtype, rclass), words = type_of(rtype), (purpose.decode(), mode.decode())
    return Line("ask", number(at, MOMENT_MOST), name_of(name), rtype, words, rclass)


def response(at, zone, message):
    message = b"" if message == b"-" else octets(message)
    return Line("response", number(at, MOMENT_MOST), rest=(name_of(zone), message))


def fail(at, name, rtype):
    name, (rtype, rclass) = name_of(name), type_of(rtype)
    offer = failure(name, rtype, number(at, MOMENT_MOST), rclass)
    return Line("fail", offer.at, name, rtype, (offer,), rclass)


def fetch(at, name, rtype, zone, message):
    message = None if message == b"-" else octets(message)
    at, (rtype, rclass) = number(at, MOMENT_MOST), type_of(rtype)
    return Line("fetch", at, name_of(name), rtype, (name_of(zone), message), rclass)


def sweep(at):
    return Line("sweep", number(at, MOMENT_MOST))


def checkpoint():
    return Line("checkpoint")


WORDS = {it.__name__.encode(): (it, it.__code__.co_argcount)
         for it in (put, ask, response, fail, fetch, sweep, checkpoint)}


def line_of(text):
    """The line that a text without its end is."""
    fields = [it for it in text.split(b" ") if it]
    made, count = WORDS.get(fields[0] if fields else b"", (None, 0))
    if made is None or len(text) > LINE_MOST or len(fields) != 1 + count:
        raise BadLine
    return made(*fields[1:])


def texts_of(stream):
    """The lines of a stream of octets, without their ends, as they come."""
    while text := stream.readline(LINE_MOST + 2):
        if len(text) > LINE_MOST + 1 or len(text) == LINE_MOST + 1 and text[-1:] != b"\n":
            raise BadLine
        if text.endswith(b"\n"):
            # the octets of a line count the CR
            text = text[:-2] if text.endswith(b"\r\n") else text[:-1]
        yield text


def lines_in(stream):
    """The lines of a trace, as they come; TraceFault where it is none."""
    count, questions = 0, set()
    try:
        for text in texts_of(stream):
            if count == LINES_MOST:
                raise TraceFault(f"the trace has more than {LINES_MOST} lines")
            line = line_of(text)
            if line.word == "fetch":
                questions.add((fold(line.name), line.rtype, line.rclass))
                if len(questions) > QUESTIONS_MOST:
                    raise TraceFault(f"line {count} asks one question too many")
            yield line
            count += 1
    except BadLine as fault:
        raise TraceFault(f"line {count} is not a line of a trace") from fault


def read_trace(stream):
    """The lines of a trace; TraceFault where it is none."""
    return list(lines_in(stream))


# ---- the calls of a line, by one worker


def offers_in(zone, message, at):
    """What a message offers, or the fault for which it is refused."""
    try:
        return offers_of(read(message), zone, at), None
    except MessageFault as fault:
        return [], fault


class Told(NamedTuple):
    """A call of a line: the part, and the offer with its outcome or the ask with its reply; of a
    sweep the entries that were removed."""

    part: int
    call: tuple
    answer: object


class Replay:
    """A cache of parts that takes lines one after another, as one worker does."""

    def __init__(self, capacity=1024, parts=1, stale=86_400):
        self.parts = [Part(capacity, stale) for _ in range(parts)]

    def offer(self, offer):
        place = part_of(offer.key.name, len(self.parts))
        return Told(place, offer, self.parts[place].offer(offer))

    def ask(self, *ask):
        place = part_of(ask[0], len(self.parts))
        return Told(place, ask, self.parts[place].ask(*ask))

    def line(self, line):
        """The words of the report about a line, and its calls in their order."""
        return getattr(self, f"on_{line.word}")(line)

    def on_put(self, line):
        told = self.offer(line.rest[0])
        return [str(told.answer)], [told]

    on_fail = on_put

    def on_ask(self, line):
        told = self.ask(line.name, line.rtype, line.at, *line.rest, line.rclass)
        return [str(told.answer)], [told]

    def on_sweep(self, line):
        told = [Told(place, line, it.sweep(line.at)) for place, it in enumerate(self.parts)]
        return [str(len(it.answer)) for it in told], told

    def on_checkpoint(self, line):
        return [], []

    def on_response(self, line):
        offers, fault = offers_in(*line.rest, line.at)
        if fault:
            return [f"refused {fault.number}"], []
        told = [self.offer(it) for it in offers]
        return [str(len(told)), *(str(it.answer) for it in told)], told

    def on_fetch(self, line):
        first = self.ask(line.name, line.rtype, line.at, "answer", "failed", line.rclass)
        if first.answer.word != "miss":
            return ["hit", str(first.answer)], [first]
        if first.answer.failed:
            return ["held", str(first.answer.retry_from)], [first]
        zone, message = line.rest
        offers, fault = offers_in(zone, message, line.at) if message is not None else ([], True)
        told = [self.offer(it) for it in
                ([failure(line.name, line.rtype, line.at, line.rclass)] if fault else offers)]
        last = self.ask(line.name, line.rtype, line.at, "answer", "now", line.rclass)
        words = [str(len(told)), *(str(it.answer) for it in told), str(last.answer)]
        return ["fetched", *words], [first, *told, last]


def report(lines, **rules):
    """The report of a trace by one worker, line by line."""
    replay = Replay(**rules)
    for place, line in enumerate(lines):
        words, _ = replay.line(line)
        yield " ".join([str(place), line.word, *words])
