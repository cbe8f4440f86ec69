# SPDX-License-Identifier: MIT
"""Traces that come from others by small changes of lines, fields, and octets of messages. Many of
them are almost lines of the grammar (docs/FORMATS.md), or almost messages.
"""
import re

from tools.grammar import CLASSES, LEFT_OUT, ODD_CLASSES, RARE_TYPES, TTLS
from tools.traces import LINE_MOST

NUMBERS = [0, 1, 2, 3, 4, 5, 29, 30, 31, 255, 256, 65_535, 65_536, 65_537, 2**31, 2**32 - 1, 2**32,
           2**40 - 1, 2**40, 2**40 + 1, 2**63, 2**64, 2**64 + 1, 10**30, *TTLS]
OCTETS = [0, 1, 2, 3, 5, 6, 12, 63, 64, 128, 191, 192, 255]
MESSAGE = re.compile(rb"(?:[\dA-Fa-f]{2}){12,}")
PIECES = [b"\t", b"\r", b"\0", b" ", b"  ", b",", b"-", b".", b"\\", b"/", b"+1", b"\xb2", b"\xff",
          b"0"]
ITEMS = [b"-", b",", b"-,-", b"00", b"0", b"0g", b"0A,0a", b"00,,00", b"00,", b",00", b"--", b"00-"]
WORDS = [b"put", b"ask", b"fail", b"fetch", b"sweep", b"response", b"checkpoint", b"Put", b"puts"]
TYPE_WORDS = [b"1/1", b"1/3", b"16/3", b"16/4", b"16/", b"/1", b"16//1", b"16/1/1", b"016/003",
              b"16/-1", b"65535/4", b"65536/1", b"0/1", b"16/65537", b"16/0", b"16/ 1"]
ODD_LABELS = [b"a", b"A", b"", b"x" * 61, b"x" * 63, b"x" * 64, b"\\065", b"\\256", b"\\0", b"\\",
              b"\\ ", b"\\.", b"\\127", b"\x7f"]


def changed_octets(rng, octets):
    """Octets with a few changed, put in, taken out, cut off or repeated."""
    octets = bytearray(octets)
    for _ in range(rng.choice([1, 1, 1, 2, 4])):
        at, how = rng.randrange(len(octets) + 1), rng.randrange(6)
        size = rng.choice([1, 1, 2, 4, 12])
        if how == 0:
            octets[at:at + 1] = bytes([rng.choice(OCTETS)])
        elif how == 1 and at < len(octets):
            octets[at] ^= 1 << rng.randrange(8)
        elif how == 2:
            octets[at:at] = bytes(rng.choice(OCTETS) for _ in range(size))
        elif how == 3:
            del octets[at:at + size]
        elif how == 4 and rng.random() < 0.3:
            del octets[at:]
        else:
            octets[at:at] = octets[at:at + size]
    return bytes(octets)


def changed_message(rng, field):
    text = changed_octets(rng, bytes.fromhex(field.decode())).hex() or "-"
    return (text.upper() if rng.random() < 0.05 else text).encode()


def changed_type(rng, field):
    """Another type or class, at its limits or almost one."""
    rtype = rng.choice([1, 16, *RARE_TYPES, *LEFT_OUT])
    rclass = rng.choice(CLASSES + ODD_CLASSES)
    return rng.choice([b"%d" % rtype, b"%d/%d" % (rtype, rclass), b"00" + field,
                       rng.choice(TYPE_WORDS)])


def changed_name(rng, field):
    labels = field.split(b".")
    at = rng.randrange(len(labels))
    labels[at:at + rng.randrange(2)] = [rng.choice(ODD_LABELS)]
    return rng.choice([b".".join(labels), field.swapcase(), field.rstrip(b"."), field + b".", b"."])


def changed_number(rng, field):
    number = rng.choice(NUMBERS)
    if field.isdigit() and len(field) < 16 and rng.random() < 0.6:
        number = max(0, int(field) + rng.choice([-60, -1, 1, 30, 60, 86_400]))
    return rng.choice([b"%d", b"%d", b"%d", b"000%d", b"+%d", b"-%d", b"%d."]) % number


def changed_field(rng, field, others):
    """A field that is changed by what it seems to be, or another line's."""
    if rng.random() < 0.15:
        return rng.choice(others)
    if MESSAGE.fullmatch(field):
        return changed_message(rng, field)
    if field.isdigit():
        return rng.choice([changed_number, changed_number, changed_type])(rng, field)
    if b"/" in field and b"." not in field:
        return changed_type(rng, field)
    if b"." in field:
        return changed_name(rng, field)
    return rng.choice([*rng.sample(ITEMS, 2), rng.choice(WORDS), field.upper(),
                       changed_octets(rng, field)])


def spaced(rng, fields):
    """The fields with odd spaces between and around them, at times up to the length of a line."""
    pads = [b" " * rng.choice([1, 1, 1, 2, 3]) for _ in fields]
    line = b"".join(pad + field for pad, field in zip(pads, fields))
    if rng.random() < 0.02:
        line += b" " * (LINE_MOST - len(line) + rng.choice([-1, 0, 1]))
    return line + rng.choice([b"", b" ", b"\r", b"\r\r", b" \r"])


def changed_line(rng, line, others):
    """A line with a field changed, put in or taken out, or its text."""
    fields = [it for it in line.split(b" ") if it] or [b""]
    at, how, piece = rng.randrange(len(fields)), rng.randrange(20), rng.choice(PIECES)
    if how < 13:
        at = max(at, 1) if len(fields) > 1 and rng.random() < 0.95 else at
        fields[at] = changed_field(rng, fields[at], others)
    elif how == 13:
        del fields[at]
    elif how == 14:
        fields.insert(at, rng.choice(fields))
    elif how == 15:
        return spaced(rng, fields)
    elif how == 16:
        return changed_octets(rng, line)
    elif how == 17:
        return piece.join(fields)
    else:
        fields[at] = fields[at] + piece if how == 18 else piece + fields[at]
    return b" ".join(fields)


def changed(rng, lines, pool):
    """Lines of a trace with some changed, doubled, moved, taken out, or taken from other traces."""
    lines = list(lines)
    others = rng.choice(pool)
    for _ in range(rng.choice([1, 1, 2, 3, 6])):
        at, how = rng.randrange(len(lines) + 1), rng.randrange(8)
        if how < 4 and at < len(lines):
            words = [it for line in (lines[at], rng.choice(others)) for it in line.split(b" ")]
            lines[at] = changed_line(rng, lines[at], words)
        elif how == 4 and lines:
            lines.insert(at, rng.choice(lines))
        elif how == 5:
            del lines[at:at + 1]
        elif how == 6:
            lines[at:at] = rng.choices(others, k=rng.randint(1, 3))
        elif lines:
            lines.insert(at, lines.pop(rng.randrange(len(lines))))
    return lines
