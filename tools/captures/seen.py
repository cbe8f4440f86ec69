# SPDX-License-Identifier: MIT
"""What was seen in a capture of packets or of dnstap. Times are whole microseconds since 1970."""
from typing import NamedTuple

from tools.traces import MOMENT_MOST

MICROSECONDS = 1_000_000
CUT = "packet: cut off, as by the capture's snap length"


class NoCapture(ValueError):
    """A file is no capture."""


class Peer(NamedTuple):
    """An address, 4 or 16 octets, and a port."""

    address: bytes
    port: int


class Seen(NamedTuple):
    """What was seen: a `message`; a response that the capture's snap length `cut` off behind its
    header; or that a datagram was `unreachable` (RFC 1122 section 3.2.2.1). `role` and `zone` are
    there if the capture has them: the side of the resolver, `client` or `server`, and the zone for
    which a server was asked. A query `waited` if it had no response within the client response
    timer; None means that this is not known."""

    at: int
    source: Peer
    target: Peer
    octets: bytes
    role: str | None = None
    zone: bytes | None = None
    kind: str = "message"
    waited: bool | None = False

    @property
    def has_moment(self):
        """Whether its time is a moment of a trace."""
        return 0 <= self.at // MICROSECONDS <= MOMENT_MOST
