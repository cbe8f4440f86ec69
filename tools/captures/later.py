# SPDX-License-Identifier: MIT
"""Which data servers sent later, if the cache and the resolver answer otherwise.

Data of a zone change while caches hold them. If two caches differ, one of them may have newer data,
which came with a question of another type, while the other one did not need to ask.
"""
from typing import NamedTuple

from tools.captures.compared import End, Records
from tools.messages import plain_item
from tools.model import GLUE
from tools.names import fold
from tools.traces import lines_in, offers_in


class Doubt(NamedTuple):
    """An ask to which the cache answers otherwise than the resolver: its line and moment, what the
    cache has, whether that is stale, and what the resolver has."""

    number: int
    at: int
    own: tuple
    is_stale: bool
    other: tuple


def piece_of(answer, place, ask):
    """What an answer has at a place of its chain: an RRset or a denial."""
    if place < len(answer.sets):
        return answer.sets[place].identity
    return denial(answer.end, ask.name, ask.rtype)


def denial(end, name, rtype):
    return (end, name) if end is End.NXDOMAIN else (end, name, rtype)


def piece_in(offer):
    """What an offer has."""
    key, body, _ = offer
    if body.kind == "positive":
        data = tuple(plain_item(key.rtype, it) for it in body.items)
        return Records(fold(body.owner), key.rtype, data, body.ttl).identity
    return denial(End.NXDOMAIN if key.slot == "nx" else End.NODATA, key.name, key.rtype)


def newer(trace, doubts):
    """The numbers of the asks to which the cache answers with what a server sent later than what
    the resolver answers."""
    by_line, found, sent = {}, set(), {}
    for it in doubts:
        by_line.setdefault(it.number, []).append(it)
    wanted = {piece for it in doubts for piece in (it.own, it.other)}
    for number, line in enumerate(lines_in(trace)):
        found |= {number for it in by_line.get(number, ()) if is_newer(it, sent)}
        if line.word == "response":
            sent |= sent_in(number, line, wanted)
    return found


def sent_in(number, line, wanted):
    """What a response sends of what is wanted: by which line, and until when it lives."""
    offers, _ = offers_in(*line.rest, line.at)
    ends = {piece_in(it): (number, it.at + it.body.ttl) for it in offers if it.body.rank > GLUE}
    return {piece: end for piece, end in ends.items() if piece in wanted}


def is_newer(doubt, sent):
    """Whether a server sent what the cache has later than what the resolver has, and that lives."""
    if doubt.own not in sent or doubt.other not in sent:
        return False
    (own, until), (other, _) = sent[doubt.own], sent[doubt.other]
    return own > other and (doubt.is_stale or doubt.at < until)
