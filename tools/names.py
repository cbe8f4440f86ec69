# SPDX-License-Identifier: MIT
"""DNS names as octets in wire form (RFC 1035 section 3.1): what python/rrcache has of them, which
calls nothing of the library, and what the model needs besides."""
import re

from rrcache.names import NAME_MOST as WIRE_MOST, NameFault, labels_in, to_text, to_wire

__all__ = ["ROOT", "WIRE_MOST", "NameFault", "ancestors", "fold", "from_text", "is_at_or_below",
           "labels_in", "to_text", "to_wire"]
ROOT = b"\0"
# What a name may be spelled with (docs/FORMATS.md); the package takes other octets too.
SPELLED = re.compile(rb"(?:[!-\[\]-~]|\\[0-9]{3}|\\[!-/:-~])+")


def fold(name):
    """The name with A to Z lowered; a length octet is below A, and stays (RFC 4343 section 3)."""
    return name.lower()


def from_text(text):
    """The wire form of the name that a text, given as octets, spells; NameFault where none."""
    if not SPELLED.fullmatch(text):
        raise NameFault("not the text of a name, or a bad escape")
    return to_wire(text.decode("ascii"))


def ancestors(name):
    """A name and the names above it, up to the root, the name itself first."""
    at = 0
    while size := name[at]:
        yield name[at:]
        at += 1 + size
    yield ROOT


def is_at_or_below(name, zone):
    """Whether the zone's labels end the name's, but for case (RFC 1034 section 3.1)."""
    return fold(zone) in ancestors(fold(name))
