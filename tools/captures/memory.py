# SPDX-License-Identifier: MIT
"""How much memory a key of the cache takes, in octets, with what it holds (docs/CAPTURES.md)."""

# An entry, with its places in the list of entries, in the map and in the queue.
ENTRY_OCTETS = 160
# A list of octets, such as a name or rdata, however many it has.
VALUE_OCTETS = 48
# A list of up to so many octets is in the value itself.
INLINE_OCTETS = 32
# A longer list is in a block of memory, which takes so much more than its octets.
BLOCK_OCTETS = 16
# What several may share, a name or the data of a body, takes so much more than its lists.
SHARED_OCTETS = 32


def value_octets(octets):
    """The memory that a list of octets takes."""
    is_inline = len(octets) <= INLINE_OCTETS
    return VALUE_OCTETS + (0 if is_inline else BLOCK_OCTETS + len(octets))


def name_octets(name):
    """The memory that a name in wire form takes."""
    return SHARED_OCTETS + value_octets(name)


def data_octets(items):
    """The memory that data take: one is in their list, several are in a block of their own."""
    block = VALUE_OCTETS + BLOCK_OCTETS if len(items) > 1 else 0
    return SHARED_OCTETS + block + sum(map(value_octets, items))


def key_octets(key, body):
    """The memory that a key takes with its body. An owner that is spelled like the name of the key
    shares that name, and a failure has neither owner nor data."""
    octets = ENTRY_OCTETS + name_octets(key.name)
    if body.kind == "failure":
        return octets
    return octets + (body.owner != key.name) * name_octets(body.owner) + data_octets(body.items)
