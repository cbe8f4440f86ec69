# SPDX-License-Identifier: MIT
"""Which clients waited for a response for longer than the client response timer of RFC 8767 section
5, after which a resolver gives them a stale answer."""
from collections import deque

from tools.captures.seen import MICROSECONDS
from tools.messages import HEADER

# How many messages, and how many octets of them, are held back until it is known.
HELD_MOST, OCTETS_MOST = 100_000, 64 * 2**20
# Times that fall by more are of a clock that was set back. Messages of several threads or
# interfaces are out of order by less.
SET_BACK = 60 * MICROSECONDS


class Held:
    """A message that is held back; a query is open until it has a response."""

    def __init__(self, it, key=None):
        self.it, self.key, self.is_open = it, key, key is not None


class Waits:
    """Holds messages back until it is known for each query whether its client waited longer."""

    def __init__(self, limit):
        self.limit, self.held, self.size, self.open = limit, deque(), 0, {}

    def told(self, messages):
        """The messages again, in their order, with the queries marked that `waited`. That is not
        known if the capture ends before, if its clock is set back before, or if too much would be
        held."""
        before = last = 0
        for it in messages:
            if it.has_moment:
                before, last = last, it.at
            self.take(it)
            while self.held and self.is_ready(before, last):
                yield self.first(min(before, last))
        while self.held:
            yield self.first(last)

    def take(self, it):
        """Holds a message back. A response ends the wait of its query."""
        key, is_timed = None, it.has_moment and it.kind != "unreachable"
        if is_timed and it.role != "server" and len(it.octets) >= HEADER.size:
            if it.octets[2] & 128:
                for one in self.open.pop((it.target, it.octets[:2]), ()):
                    waited = it.at - one.it.at >= self.limit
                    one.it, one.is_open = one.it._replace(waited=waited), False
            else:
                key = it.source, it.octets[:2]
        self.held.append(one := Held(it, key))
        self.size += len(it.octets)
        if one.is_open:
            self.open.setdefault(key, deque()).append(one)

    def is_ready(self, before, last):
        """Whether all is known of the first message that is held, or will not be, or too much is
        held. It takes the times of two messages in a row, since that of one may be wrong."""
        one, is_full = self.held[0], len(self.held) > HELD_MOST or self.size > OCTETS_MOST
        is_over = min(before, last) - one.it.at >= self.limit
        return is_full or not one.is_open or is_over or one.it.at - max(before, last) > SET_BACK

    def first(self, now):
        """Takes out the first message that is held."""
        one = self.held.popleft()
        self.size -= len(one.it.octets)
        if not one.is_open:
            return one.it
        # Those of one key are held in the order in which they are open.
        waiting = self.open.get(one.key, ())
        if waiting and waiting[0] is one:
            waiting.popleft()
            if not waiting:
                del self.open[one.key]
        return one.it._replace(waited=True if now - one.it.at >= self.limit else None)
