# SPDX-License-Identifier: MIT
"""Traces (docs/FORMATS.md) and messages (RFC 1035 section 4), drawn at random by their grammars.

Most are correct and some are odd. They have few names and types, so that lines meet each other's
entries.
"""
import struct

from tools.messages import LAYOUTS, NOT_KEPT
from tools.names import WIRE_MOST
from tools.traces import MOMENT_MOST
from tools.wire import CNAME, NS, SOA, pointer, wire

LABELS = ["a.", "a.", "a.", "A.", "b.a.", "c.", "*.", ""]
OTHERS = ["other.", "a.other.", "."]
ODD_NAMES = [r"\000.", r"\255\032.", r"a\.b.", r"a\\.", r"\@.", r"\065.", "a" * 63 + ".", r"[\{]."]
TYPES = [1] * 8 + [2, 5, 5, 6, 6, 16, 16, 28]
RARE_TYPES = [*LAYOUTS, 23, 25, 39, 43, 47, 50, 64, 127, 256, 257, 65_535]
LEFT_OUT = sorted(NOT_KEPT - {*range(129, 249)})
CLASSES = [1] * 20 + [3, 3, 4, 4]
ODD_CLASSES = [0, 2, 5, 254, 255, 65_535]
TTLS = [0, 1, 30, 60, 60, 60, 60, 300, 300, 10_800, 10_801, 604_799, 604_800, 604_801, 2**31 - 1,
        2**31, 2**31 + 60, 2**32 - 1]
STEPS = [0, 0, 0, 0, 1, 1, 5, 29, 30, 31, 59, 60, 61, 300, 10_800, 86_400, 86_460, 604_800, -1, -40]
STARTS = [0, 1, 1_000, 1_000, 2**31 - 100, 2**32 - 100, 2**40 - 700_000, 2**40 - 100]
CHAINS = [1, 1, 2, 3, 15, 16, 17, 18]
WORDS = ["put"] * 5 + ["ask"] * 9 + ["response"] * 6 + ["fetch"] * 2 + ["fail", "fail"]


class Writer:
    """A message as it is written, with the places of its names, so that later ones point there."""

    def __init__(self, rng):
        self.rng, self.octets, self.places = rng, bytearray(12), {}

    def odd_name(self):
        """Octets that are no name, or one that comes from an odd place."""
        here = len(self.octets)
        return self.rng.choice([
            pointer(here), pointer(here + 2), pointer(here - 1), pointer(self.rng.randrange(12)),
            pointer(0x3FFF), b"\1a" + pointer(here), b"\x40", b"\x80a\0", b"\xbf", b"\x3fa",
            b"\xc0", b"\0\0"])

    def name(self, text):
        """A name, at times with a pointer to an earlier one that ends alike (section 4.1.4)."""
        if self.rng.random() < 0.003:
            self.octets += self.odd_name()
            return
        whole, here, at = wire(text), len(self.octets), 0
        while whole[at]:
            place = self.places.get(whole[at:].lower())
            if place is not None and self.rng.random() < 0.7:
                self.octets += whole[:at] + pointer(place)
                return
            if here + at < 0x4000:
                self.places[whole[at:].lower()] = here + at
            at += 1 + whole[at]
        self.octets += whole

    def size(self, at):
        """Writes at a place how many octets stand behind it: RDLENGTH, at times a wrong one."""
        size = len(self.octets) - at - 2
        if self.rng.random() < 0.004:
            size = max(0, size + self.rng.choice([-1, 1, 2, 300]))
        struct.pack_into(">H", self.octets, at, size & 0xFFFF)


class Drawn:
    """Draws names at or below a base, messages of a zone and lines of a trace."""

    def __init__(self, rng, base="example."):
        self.rng, self.base = rng, base
        self.names = [label + base for label in rng.choices(LABELS, k=rng.choice([2, 4, 8]))]
        self.types = rng.choices(TYPES, k=rng.choice([1, 2, 4])) * 8 + [rng.choice(RARE_TYPES)]
        self.classes = rng.choice([[1], [1], [1, 3], CLASSES])

    # ---- names and numbers

    def long_name(self):
        """A name of 254 to 256 octets in wire form, of which 255 are the most."""
        left, labels = self.rng.choice([254, 255, 256]) - len(wire(self.base)), ""
        while left > 0:
            size = 61 if left == 65 else max(1, min(63, left - 1))
            labels += "x" * size + "."
            left -= 1 + size
        return labels + self.base

    def name(self):
        luck = self.rng.random()
        if luck < 0.95:
            return self.rng.choice(self.names)
        if luck < 0.97:
            return self.rng.choice(OTHERS)
        return self.long_name() if luck < 0.98 else self.rng.choice(ODD_NAMES) + self.base

    def rtype(self, odd=0.01):
        luck = self.rng.random()
        if luck < odd:
            return self.rng.choice(LEFT_OUT)
        return self.rng.choice(self.types if luck < 0.97 else TYPES)

    def rclass(self, usual=1):
        luck = self.rng.random()
        if luck < 0.95:
            return usual
        return self.rng.choice(CLASSES if luck < 0.99 else ODD_CLASSES)

    def write_data(self, rtype, octets, write_name):
        """Writes data of a type behind octets, its names by a call for each."""
        if rtype not in LAYOUTS:
            few = bytes(self.rng.randrange(2) for _ in range(self.rng.choice([0, 1, 1, 2, 4])))
            octets += wire(self.name()) if rtype == 39 else few
            return
        before, names, after = LAYOUTS[rtype]
        octets += bytes(before)
        for _ in range(names):
            write_name()
        numbers = 1, 2, 3, 4, self.rng.choice(TTLS)
        octets += struct.pack(">5I", *numbers) if rtype == SOA else bytes(after)

    def plain_data(self, rtype):
        """Data of a type with whole names, as an item has them."""
        octets = bytearray()
        self.write_data(rtype, octets, lambda: octets.extend(wire(self.lawful_name())))
        return bytes(octets)

    # ---- messages

    def record(self, writer, owner, rtype, rclass, target=None, ttl=None):
        """A record; of a CNAME record the target may be given. Answers the data's octets."""
        writer.name(owner)
        ttl = self.rng.choice(TTLS) if ttl is None else ttl
        writer.octets += struct.pack(">HHIH", rtype, rclass, ttl, 0)
        at = len(writer.octets) - 2
        if isinstance(target, bytes):
            writer.octets += target
        elif target is not None:
            writer.name(target)
        else:
            self.write_data(rtype, writer.octets, lambda: writer.name(self.name()))
        writer.size(at)
        return bytes(writer.octets[at + 2:])

    def chain(self, writer, rclass):
        """CNAME records that lead on from the first of them, in any order; some form a ring."""
        count = self.rng.choice(CHAINS)
        owners = [f"n{at}.{self.base}" for at in range(count + 1)]
        if self.rng.random() < 0.15:
            owners[-1] = self.rng.choice(owners).upper()
        pairs = list(zip(owners, owners[1:]))
        if self.rng.random() < 0.5:
            self.rng.shuffle(pairs)
        ttl = self.rng.choice([60, 60, None])
        for owner, target in pairs:
            self.record(writer, owner, CNAME, rclass, target, ttl)
        return count

    def records(self, writer, most, rclass, types=None):
        """Records of a section, of few owners and types so that they make sets; how many."""
        count, ttl = self.rng.randrange(most), self.rng.choice([60, 60, None])
        repeated = 0
        for _ in range(count):
            owner, rtype = self.name(), types and self.rng.choice(types) or self.rtype(0.08)
            data = self.record(writer, owner, rtype, self.rclass(rclass), None, ttl)
            if self.rng.random() < 0.2:
                again = owner if "\\" in owner else owner.swapcase()
                self.record(writer, again, rtype, self.rclass(rclass), data, ttl)
                repeated += 1
        return count + repeated

    def flags(self):
        flags = 0x8000 | self.rng.choice([0, 0x400, 0x400]) | self.rng.choice([0, 0x100, 0x1B0])
        flags |= self.rng.choice([0] * 30 + [0x200, 0x800, 0x7800, 0x40])
        flags |= self.rng.choice([0, 0, 0, 0, 3, 3, 3, 2, 5, 15])
        return flags ^ (0x8000 if self.rng.random() < 0.01 else 0)

    def message(self):
        """A response: an answer, a denial, a referral or a chain, at times with wrong counts."""
        writer, rclass = Writer(self.rng), self.rng.choice(self.classes * 9 + [255, 2])
        has_chain = self.rng.random() < 0.2
        writer.name(f"n0.{self.base}" if has_chain else self.name())
        rtype = self.rng.choice([self.rtype()] * 4 + [1, 5, 255, 255])
        writer.octets += struct.pack(">HH", rtype, rclass)
        answers = self.chain(writer, rclass) if has_chain else 0
        denies = self.rng.random() < 0.45
        answers += self.records(writer, 2 if denies or has_chain else 5, rclass)
        authorities = self.records(writer, 3, rclass, [NS, NS, SOA, 43] if denies else None)
        if denies:
            self.record(writer, self.rng.choice([self.base] * 6 + [self.name()]), SOA,
                        self.rclass(rclass))
            authorities += 1
        counts = [1, answers, authorities, self.records(writer, 4, rclass)]
        if self.rng.random() < 0.02:
            counts[self.rng.randrange(4)] = self.rng.choice([0, 1, 2, 255, 65_535])
        struct.pack_into(">6H", writer.octets, 0, self.rng.randrange(65_536), self.flags(), *counts)
        return bytes(writer.octets) + bytes(self.rng.choice([0] * 40 + [1, 12]))

    # ---- lines

    def kind(self):
        """A type, at times with a class."""
        rtype, rclass = self.rtype(0.0005), self.rng.choice(self.classes)
        if self.rng.random() < 0.001:
            rclass = self.rng.choice(ODD_CLASSES)
        if rtype == 1 and rclass == 3:
            rclass = 4
        return rtype, f"{rtype}/{rclass}" if rclass != 1 or self.rng.random() < 0.05 else f"{rtype}"

    def lawful_name(self):
        return next(it for it in iter(self.name, None) if len(wire(it)) <= WIRE_MOST)

    def zone(self):
        return self.rng.choice([self.base] * 12 + [f"a.{self.base}", ".", self.lawful_name()])

    def line(self, at):
        """A line at a moment."""
        (rtype, kind), name, rng = self.kind(), self.lawful_name(), self.rng
        word = rng.choice(WORDS) if rng.random() < 0.96 else rng.choice(["sweep", "checkpoint"])
        if word == "put":
            datas = [self.plain_data(rtype) for _ in range(rng.choice([1, 1, 1, 2, 3]))]
            items = ",".join(it.hex() or "-" for it in datas)
            return f"put {at} {name} {kind} {rng.randint(1, 4)} {rng.choice(TTLS)} {items}"
        if word == "ask":
            mode = rng.choice(["none", "failed", "now"])
            return f"ask {at} {name} {kind} {rng.choice(['any', 'answer'])} {mode}"
        if word == "response":
            return f"response {at} {self.zone()} {self.message().hex()}"
        if word == "fetch":
            message = self.message().hex() if rng.random() < 0.8 else "-"
            return f"fetch {at} {name} {kind} {self.zone()} {message}"
        return {"sweep": f"sweep {at}", "fail": f"fail {at} {name} {kind}"}.get(word, word)


def moments(rng):
    """Moments that mostly go up, from one that may be near the least or the largest."""
    at = rng.choice(STARTS)
    while True:
        yield at
        at = min(max(0, at + rng.choice(STEPS)), MOMENT_MOST)


def lines_of(rng, most):
    """The lines of a trace, of one base."""
    drawn = Drawn(rng)
    return [drawn.line(at).encode() for at, _ in zip(moments(rng), range(rng.randint(1, most)))]


def lines_apart(rng, most):
    """Lines each of which has names below a base of its own."""
    return [Drawn(rng, f"x{number}.").line(at).encode()
            for number, at in zip(range(rng.randint(2, most)), moments(rng))]
