# SPDX-License-Identifier: MIT
"""Keys of all kinds, short and long, and what the allocator holds of them to what a shelf tells."""
import gc

import rrcache

from tests.hostile.attacks import ROOT, label
from tools.wire import A, SOA, TXT, pointer, question, record, response, wire

AAAA = 28
ADDRESS = bytes(4)
# A SOA record's data have two names and five numbers of four octets.
SHORT_SOA = ROOT + ROOT + bytes(20)


def name(number, size):
    """A name of so many octets for each number, of which the first label has five with its
    length."""
    left = size - 6
    labels = [63] * (left // 64) + [left % 64 - 1]
    return label(number, 4) + wire(".".join("x" * it for it in labels))


def set_of(data, size=20, rtype=A, is_upper=False):
    """Offers of these data, whose owner is spelled in capitals or as the key's name."""
    def offer(shelf, number):
        owner = name(number, size)
        shelf.offer_set(owner.upper() if is_upper else owner, rtype, 4, 600, data, 0)
    return offer


def answer_of(data, size=20, is_upper=False):
    """The same by responses."""
    def offer(shelf, number):
        owner = name(number, size)
        asked = question(owner.upper() if is_upper else owner, A)
        answers = [record(pointer(12), A, 600, it) for it in data]
        shelf.offer_message_unchecked(response(asked, answers), ROOT, 0)
    return offer


def set_of_type(shelf, number):
    """Offers of a name of 3 octets, which has a key for each type."""
    shelf.offer_set(b"\1x\0", 256 + number, 4, 600, [ADDRESS], 0)


def denial(kind, size, owner, soa):
    def offer(shelf, number):
        shelf.offer_negative(name(number, size), A, kind, 4, 600, owner, soa, 0)
    return offer


def denial_of_zone(size):
    """Offers, by responses, that a zone's own name has no data, which is the SOA record's owner."""
    def offer(shelf, number):
        denied = record(pointer(12), SOA, 600, SHORT_SOA)
        message = response(question(name(number, size), A), (), [denied])
        shelf.offer_message_unchecked(message, ROOT, 0)
    return offer


def failure(size):
    return lambda shelf, number: shelf.offer_failure(name(number, size), A, 300, 0)


def addresses(count):
    return [number.to_bytes(4, "big") for number in range(1, count + 1)]


def long_soa(size=255):
    return name(1, size) + name(2, size) + bytes(20)


def kinds():
    """What offers keys of a kind, by what the kind is."""
    yield "A, name of 3", set_of_type
    for size in (20, 40, 100, 255):
        yield f"A, name of {size}", set_of([ADDRESS], size)
    yield "AAAA, name of 20", set_of([bytes(16)], rtype=AAAA)
    for count in (2, 13, 200):
        yield f"{count} A, name of 20", set_of(addresses(count))
    for count in (2, 17, 200):
        yield f"{count} A of a response, name of 20", answer_of(addresses(count))
    for size in (100, 255, 4_000, 16_000):
        yield f"TXT of {size:,}, name of 20", set_of([bytes(size)], rtype=TXT)
    for size in (20, 255):
        yield f"A, name of {size} in capitals", set_of([ADDRESS], size, is_upper=True)
        yield f"A of a response, name of {size} in capitals", answer_of([ADDRESS], size, True)
    for kind in (rrcache.Kind.NODATA, rrcache.Kind.NXDOMAIN):
        for size in (20, 255):
            yield f"{kind.name}, name of {size}, short SOA", denial(kind, size, ROOT, SHORT_SOA)
            yield f"{kind.name}, name of {size}, long SOA", denial(kind, size, name(0, 255),
                                                                   long_soa())
    for size in (20, 255):
        yield f"NODATA of a response, zone's name of {size}", denial_of_zone(size)
    for size in (20, 255):
        yield f"failure, name of {size}", failure(size)


KINDS = dict(kinds())


def ratios(offer, memory, keys, is_swept):
    """The least and the most of what the allocator holds more than before to what is told, of a
    shelf that gets so many keys, from half of them on: a table doubles once in between. It is swept
    after each tenth offer, or never."""
    found = []
    gc.collect()  # what was garbage before does not go meanwhile
    with rrcache.Shelf(keys, keys) as shelf:
        before = memory()
        for number in range(keys):
            offer(shelf, number)
            if is_swept and number % 10 == 0:
                shelf.sweep(0)
            if number >= keys // 2 and number % 8 == 0:
                found.append((memory() - before) / shelf.sizes().octets)
    return min(found), max(found)
