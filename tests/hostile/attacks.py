# SPDX-License-Identifier: MIT
"""What hostile servers and clients send: messages that cost much for their size, and names that
have one hash under a hasher with a known number; and what a hostile archive may begin with.
SECURITY.md tells what they cost."""
import itertools
import random
import string

from tools.names import to_text
from tools.wire import A, CNAME, MINFO, TXT, pointer, question, record, response, wire

RP, PX = 17, 26
# Of a message (RFC 1035 section 4.2.2), and of what pointers reach (section 4.1.4).
MOST_OCTETS, MOST_REACHED = 65_535, 1 << 14
ROOT, ASKED = b"\0", pointer(12)
DIGITS = string.digits + string.ascii_lowercase
# A name of 251 octets in capitals: one more label of three letters makes it one of 255, and its key
# has a folded copy of it.
LONG = ".".join("X" * size for size in (63, 63, 63, 57))
# What names of keys end with: in wire form their first label has five octets.
END = wire("example")
ENDS = {
    "short names": END,
    "names of 255 octets": wire(".".join("x" * size for size in (63, 63, 63, 56))),
    "names of 125 labels": wire(".".join(["xx"] + ["x"] * 123)),
}
# The known number of the kit's fast hasher, by how many bits a word is turned there, and how many
# octets a picked label has.
MULTIPLIER, TURN, LABEL = 0x9E37_79B9_7F4A_7C15, 21, 39
LETTERS = string.ascii_lowercase.encode()


def label(number, digits):
    """A label for each number."""
    return bytes([digits]) + bytes(ord(DIGITS[number // 36**at % 36]) for at in range(digits))


def filled(size, asked, records):
    """A response of no more than `size` octets with as many of the records as fit."""
    fitting, left = [], size - 12 - len(asked)
    for it in records:
        if len(it) > left:
            break
        fitting.append(it)
        left -= len(it)
    return response(asked, fitting)


# ---- Messages that cost memory.


def one_key(size, ttl=600):
    """One RRset of as many rdata as there can be, each of two names of 255 octets."""
    asked = question(LONG, MINFO)
    first = [record(ASKED, MINFO, ttl, ASKED + label(it, 3) + ASKED) for it in range(64)]
    # Each of these names stands behind an owner, ten octets and a pointer.
    names = [pointer(12 + len(asked) + it * len(first[0]) + 14) for it in range(64)]
    pairs = (record(ASKED, MINFO, ttl, a + b) for a, b in itertools.product(names, repeat=2))
    return filled(size, asked, itertools.chain(first, pairs))


def many_keys(size):
    """Three RRsets of one rdata of two such names for each of many owners of 255 octets."""
    asked, records = question(LONG, MINFO), []
    place = 12 + len(asked)
    while place < size:
        owner = label(len(records) // 3, 3).upper() + ASKED
        again = pointer(place) if place < MOST_REACHED else owner
        own = [record(owner, MINFO, 600, ASKED + ASKED), record(again, RP, 600, ASKED + ASKED),
               record(again, PX, 600, bytes(2) + ASKED + ASKED)]
        place += sum(map(len, own))
        records += own
    return filled(size, asked, records)


def many_types(size):
    """An RRset with no octets for each of many types of one name."""
    return filled(size, question("a.example.", A),
                  (record(ASKED, 256 + it, 600, b"") for it in range(65_536 - 256)))


# ---- Messages that cost time.


def many_labels(size):
    """Records with three names of 125 labels and more, where each label is behind a pointer."""
    asked = question(".", MINFO)
    data, start = bytearray(1), 12 + len(asked) + 11
    place = start
    for _ in range(125):
        place, last = start + len(data), place
        data += b"\1x" + pointer(last)
    name = pointer(place)
    owned = (record(label(it, 3) + name, MINFO, 600, name + name) for it in itertools.count())
    return filled(size, asked, itertools.chain([record(".", TXT, 600, bytes(data))], owned))


def chained(count):
    """A record of so many pointers, each to the one before it, and a pointer to the last."""
    # Its data begin with a root at octet 28, to which the first points.
    pointers = b"".join(pointer(26 + 2 * it) for it in range(1, count + 1))
    return record(".", TXT, 60, bytes(2) + pointers), pointer(28 + 2 * count)


def behind_pointers(size, is_direct=False):
    """As many records of three names as fit, each name behind one chain of the most pointers that
    names of a message of this size can be behind; or, where `is_direct`, behind its first one."""
    first, last = chained(min(MOST_REACHED, size // 2) // 2 - 15)
    name = pointer(30) if is_direct else last
    names = record(name, MINFO, 60, name + name)
    return filled(size, question(".", A), itertools.chain([first], itertools.repeat(names)))


def expanding(size):
    """As many records of three names of 255 octets each as fit, each by one pointer."""
    asked = question(".".join("x" * size for size in (63, 63, 63, 61)), A)
    return filled(size, asked, itertools.repeat(record(ASKED, MINFO, 60, ASKED + ASKED)))


# ---- Messages of many small parts.


def many_addresses(size):
    """One RRset of as many addresses as fit, the greatest first."""
    data = (number.to_bytes(4, "big") for number in range(1 << 24, 0, -1))
    return filled(size, question("a.", A), (record(ASKED, A, 60, it) for it in data))


def one_address(size):
    """The same address as often as it fits."""
    return filled(size, question("a.", A), itertools.repeat(record(ASKED, A, 60, bytes(4))))


def many_owners(size):
    """An address of each of as many short names as fit, the last in canonical order first."""
    owners = (label(number, 3) + ROOT for number in range(36**3 - 1, 0, -1))
    return filled(size, question(".", A), (record(it, A, 60, bytes(4)) for it in owners))


def aliases(size):
    """A CNAME chain of as many aliases as fit, the last first."""
    count = (size - 12 - 9) // 19
    names = [label(number, 3) + ROOT for number in range(count + 1)]
    records = [record(one, CNAME, 60, other) for one, other in zip(names, names[1:])]
    return filled(size, question(names[0], A), reversed(records))


MESSAGES = (one_key, many_keys, many_types, many_labels, behind_pointers, expanding, many_addresses,
            one_address, many_owners, aliases)


# ---- Names of one hash.


def labels(number, picked):
    """So many labels of LABEL octets. With the length octet in front they are two blocks of 16
    octets and 8 more. The hasher folds each 16 octets as the product of two words of 8: the lower
    one mixed with what came before, and the upper one mixed with the known number. Where `picked`,
    the upper octets make that factor a power of two, so that the product only turns the lower
    word's bits, and the next lower word undoes what the first one did, whatever a seed was."""
    draw = random.Random(1)
    upper, undone = (MULTIPLIER ^ 1 << TURN).to_bytes(8, "little"), draw.getrandbits(64)
    seen = set()
    while len(seen) < number:
        own = bytes(draw.choices(LETTERS, k=7))
        lower = int.from_bytes(bytes([LABEL]) + own, "little")
        turned = (lower << TURN | lower >> 64 - TURN) & (1 << 64) - 1
        undoing = (undone ^ turned).to_bytes(8, "little")
        # Names are folded, so the octets of capital letters would become others.
        if own in seen or any(65 <= octet <= 90 for octet in undoing):
            continue
        seen.add(own)
        made = own + upper + undoing + upper if picked else (
            own + upper[::-1] + undoing + bytes(draw.choices(LETTERS, k=8)))
        yield made.ljust(LABEL, b"a")


def puts_and_asks(number, picked):
    """A trace of a put of each of so many names, and then an ask for each."""
    names = [to_text(bytes([LABEL]) + label + END) for label in labels(number, picked)]
    puts = [f"put 0 {name} 1 4 86400 c0000201\n" for name in names]
    asks = [f"ask 1 {name} 1 answer none\n" for name in names]
    return "".join(puts + asks)


# ---- Archives (docs/FORMATS.md).


def openings(keys, end):
    """Two chapters of no events, each of which begins with so many entries, put in no order of
    their names. The second has them in another order, so it does not go on from the first."""
    names = (to_text(label(number * 40_507 % 36**4, 4) + end) for number in range(keys))
    entries = [f"entry {number} 0 {name} 1 set 4 60 {name} 00000000\n"
               for number, name in enumerate(names)]
    heads = [f"chapter {number} {keys} {keys} 1 0\n" for number in (1, 2)]
    return "".join([heads[0], *entries, heads[1], *reversed(entries)])
