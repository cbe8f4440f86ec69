# SPDX-License-Identifier: MIT
"""Names as text (RFC 1035 section 5.1) and in wire form (section 3.1)."""
from __future__ import annotations

import re

LABEL_MOST, NAME_MOST = 63, 255
# A backslash and the octet that it escapes, or any other octet except a dot. A digit cannot be
# escaped: it begins the number of an octet.
LABEL = re.compile(rb"(?:\\[0-9]{3}|\\[^0-9]|[^.\\])+")
NAME = re.compile(rb"(?:%b\.)*(?:%b)?" % (LABEL.pattern, LABEL.pattern))
ESCAPE = re.compile(rb"\\([0-9]{3}|.)", re.S)


class NameFault(ValueError):
    """The text is not a name.

    >>> try:
    ...     to_wire("www..example.")
    ... except NameFault as fault:
    ...     print(fault)
    a label is empty, or a backslash escapes nothing
    """


def octet_of(escape: re.Match[bytes]) -> bytes:
    """Returns the octet of an escape, \\DDD or \\c."""
    spelled = escape[1]
    if len(spelled) == 1:
        return spelled
    if int(spelled) > 255:
        raise NameFault("a backslash escapes nothing")
    return bytes([int(spelled)])


def labels_of(text: bytes) -> list[bytes]:
    """Returns the labels of a name as text, without the root label. The labels may have any
    size."""
    if text == b".":
        return []
    if not NAME.fullmatch(text):
        raise NameFault("a label is empty, or a backslash escapes nothing")
    return [ESCAPE.sub(octet_of, it) for it in LABEL.findall(text)]


def wire_of(labels: list[bytes]) -> bytes:
    """Returns the wire form of a name with these labels, with the root label at the end."""
    return b"".join(bytes([len(it)]) + it for it in labels) + b"\0"


def to_wire(name: str | bytes) -> bytes:
    """Returns the wire form of a name. In text, the last dot is optional, and each character is one
    octet. A name in octets is returned unchanged: it must be in wire form already.

    >>> to_wire("www.example.")
    b'\\x03www\\x07example\\x00'
    >>> to_wire(".")
    b'\\x00'
    """
    if isinstance(name, bytes):
        return name
    try:
        labels = labels_of(name.encode("latin-1"))
    except UnicodeEncodeError as fault:
        raise NameFault("a character is not an octet: use A-labels (RFC 5890)") from fault
    if any(len(it) > LABEL_MOST for it in labels):
        raise NameFault("a label has more than 63 octets")
    wire = wire_of(labels)
    if len(wire) > NAME_MOST:
        raise NameFault("a name has more than 255 octets")
    return wire


def labels_in(wire: bytes) -> list[bytes]:
    """Returns the labels of a name in wire form, without the root label."""
    labels, place = [], 0
    while size := wire[place]:
        labels.append(wire[place + 1:place + 1 + size])
        place += 1 + size
    return labels


def octet_text(octet: int) -> str:
    if octet in b".\\":
        return "\\" + chr(octet)
    return chr(octet) if 33 <= octet <= 126 else f"\\{octet:03}"


def to_text(wire: bytes) -> str:
    """Returns the text of a name in wire form, with its last dot.

    >>> to_text(b"\\x03w.w\\x07example\\x00")
    'w\\\\.w.example.'
    """
    return "".join("".join(map(octet_text, it)) + "." for it in labels_in(wire)) or "."
