# SPDX-License-Identifier: MIT
"""The RRset cache of a recursive DNS resolver (RFC 2181, RFC 2308, RFC 8767), on top of the library
for C.

A `SharedCache` is a cache that threads share. It does its own locking and limits its memory. A
`Shelf` is one shard of a cache. One thread at a time may use a shelf, or any number of threads that
make only read-only calls (`peek`, `peek_alias`, `stored`, `sizes`, `next_expiry`). A `Cache` is
several shelves, each with a Python lock. Names are text, such as "www.example.", or octets in wire
form (RFC 1035 section 3.1). Timestamps (`moment`) and TTLs are in seconds. Rdata (`data`) are
octets in wire form, without compressed names. If the library returns an error, the call raises a
subclass of `Refused`. A text that is not a name raises `NameFault`.

The first call that needs the library loads it. This is the file that the environment variable
RRCACHE_LIBRARY names, if it is set; otherwise the file that was installed with this package;
otherwise build/librrcache.so of the repository that contains this package; otherwise the file that
the system's loader finds.
"""
from .answers import Answer, AnswerSet
from .cache import Cache
from .choices import Class, Kind, MessageFault, Mode, Outcome, Purpose, ResponseKind, Trust
from .composing import ParsedSet, compose_response
from .history import (ArchiveFault, Ask, Body, Chapter, Entry, Event, Failure, Key, Negative, Offer,
                      RRset, Slot, Sweep, read_archive)
from .library import fault, library_version
from .names import NameFault, to_text, to_wire
from .offers import Offers, Summary, octets_of, read_message_unchecked, read_response
from .parts import AnyName, Name, Parts, make_name
from .refusals import (BadChoice, BadData, BadLimits, BadMessage, BadName, BadRules, BadSeed,
                       BadType, HasChapters, HasOffers, HistoryFull, Memory, MomentTooLarge,
                       NoOffers, NoQuestion, NoShelf, OtherQuery, OtherSeed, Refused, Status,
                       TooLarge, Wide, WrongBody)
from .replies import (BLOCK_OCTETS, ENTRY_OCTETS, INLINE_OCTETS, SHARED_OCTETS, VALUE_OCTETS,
                      Counts, Limits, Query, Reply, Sizes, Stored, StoredEntry, Swept, Trimmed)
from .shared import Report, SharedCache, Stats
from .shelf import Shelf

__version__ = "2.1.0"
__all__ = [
    "Answer", "AnswerSet", "AnyName", "ArchiveFault", "Ask", "BLOCK_OCTETS", "BadChoice", "BadData",
    "BadLimits", "BadMessage", "BadName", "BadRules", "BadSeed", "BadType", "Body", "Cache",
    "Chapter", "Class", "Counts", "ENTRY_OCTETS", "Entry", "Event", "Failure", "HasChapters",
    "HasOffers", "HistoryFull", "INLINE_OCTETS", "Key", "Kind", "Limits", "Memory", "MessageFault",
    "Mode", "MomentTooLarge", "Name", "NameFault", "Negative", "NoOffers", "NoQuestion", "NoShelf",
    "Offer", "Offers", "OtherQuery", "OtherSeed", "Outcome", "ParsedSet", "Parts", "Purpose",
    "Query", "RRset", "Refused", "Reply", "Report", "ResponseKind", "SHARED_OCTETS", "SharedCache",
    "Shelf", "Sizes", "Slot", "Stats", "Status", "Stored", "StoredEntry", "Summary", "Sweep",
    "Swept", "TooLarge", "Trimmed", "Trust", "VALUE_OCTETS", "Wide", "WrongBody",
    "compose_response", "fault", "library_version", "make_name", "octets_of", "read_archive",
    "read_message_unchecked", "read_response", "to_text", "to_wire",
]
