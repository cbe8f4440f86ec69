# SPDX-License-Identifier: MIT
"""A resolver's messages as lines of a trace: asks, responses and failures.

Who asks the resolver is a client, and whom it asks is a server. Memory is bounded except for what
was learned: zones with the names of their servers, the addresses of all names, and aliases.
"""
from collections import OrderedDict, deque
from functools import lru_cache
from typing import NamedTuple

from tools.captures.seen import CUT, MICROSECONDS
from tools.captures.sides import QR, RD, Sides, guess
from tools.messages import (ALIASES_MOST, ANY, CNAME, HEADER, IN, NOERROR, NOT_FOLLOWED, NS, NSEC,
                            NXDOMAIN, QUESTION, SOA, MessageFault, fields_at, final_name,
                            in_own_class, is_kept, name_at, read, sets_of, why_nothing)
from tools.model import RECHECK
from tools.names import ROOT, ancestors, fold, is_at_or_below, to_text

DS, ADDRESSES = 43, (1, 28)
# IXFR and AXFR (RFC 1995, RFC 5936).
TRANSFERS = (251, 252)
SERVFAIL = 2
# From how many messages the resolver's addresses are guessed.
GUESSED_FROM = 20_000
PENDING_MOST, FAILED_MOST = 100_000, 100_000
# How many names of an NS RRset count: each query asks for the addresses of all of them.
SERVERS_MOST = 100
TWICE_MICROSECONDS, TWICE_MOST = 10_000, 4_096
REMEMBERED = 30 * MICROSECONDS
WAIT_UNKNOWN = "client's query: used in the mode failed, not known whether it waited so long"
BACKWARD = "used, though more than a second earlier than one before: are the files in order?"


class Question(NamedTuple):
    """The first question of a message, its name folded, the message's flags, and how many questions
    it has."""

    flags: int
    name: bytes
    rtype: int
    rclass: int
    spelled: bytes
    count: int

    @classmethod
    def of(cls, octets):
        (_, flags, questions, *_), _ = fields_at(octets, 0, HEADER)
        if not questions:
            return cls(flags, b"", 0, IN, b"", 0)
        name, at = name_at(octets, 12, len(octets))
        (rtype, rclass), _ = fields_at(octets, at, QUESTION)
        return cls(flags, fold(name), rtype, rclass, name, questions)

    @property
    def asked(self):
        return self.name, self.rtype


class Pending(NamedTuple):
    """A query of the resolver's to a server that has no response yet."""

    at: int
    question: Question
    zone: bytes
    is_known: bool


class Alias(NamedTuple):
    """The target of a CNAME record, and the number of the record among those that were learned."""

    target: bytes
    number: int


class Failure(NamedTuple):
    """When a question failed, how many CNAME records were learned before, and whether a server
    responded since."""

    at: int
    learned: int
    is_over: bool = False


text = lru_cache(maxsize=65_536)(to_text)


def drop_first(times, most, is_old):
    """Takes the first times out of an ordered dictionary while they are old or too many."""
    while times and (len(times) > most or is_old(next(iter(times.values())))):
        times.popitem(last=False)


# ---- whose servers are asked


class Zones:
    """The NS RRsets and the addresses of servers in the responses so far."""

    def __init__(self, by_servers):
        self.by_servers, self.servers, self.addresses = by_servers, {}, {}

    def asked_for(self, question, address):
        """The zone whose servers are asked, and whether the server is known as one of it.

        A DS record is in the zone above (RFC 4035 section 3.1.4.1)."""
        above = [it for it in ancestors(question.name) if it in self.servers]
        if question.rtype == DS and above and above[0] == question.name != ROOT:
            above = above[1:]
        for zone in above if self.by_servers else above[:1]:
            if self.is_server_of(zone, address):
                return zone, True
        return (above[0], False) if above else (ROOT, False)

    def is_server_of(self, zone, address):
        return any(address in self.addresses.get(it, ()) for it in self.servers[zone])

    def learn(self, message, zone):
        """Learns the NS RRsets and the addresses in a response for a zone."""
        fresh = {}
        for record in (it for section in message.sections for it in section):
            owner = fold(record.owner)
            if record.rtype == NS and is_at_or_below(owner, zone):
                names = fresh.setdefault(owner, set())
                if len(names) < SERVERS_MOST:
                    names.add(record.folded)
            elif record.rtype in ADDRESSES and is_at_or_below(owner, zone):
                self.addresses.setdefault(owner, set()).add(record.data)
        self.servers.update(fresh)


def told_zone(message):
    """The zone that an authoritative response names as its own, at or above the question."""
    if not message.is_authoritative:
        return None
    owners = (it.owner for it in message.sections[1] if it.rtype in (NS, SOA))
    return next((fold(it) for it in owners if is_at_or_below(message.name, it)), None)


def no_alias(message):
    """The name that a negative answer denies, so that it is no alias, or None (RFC 2308 section 2).

    NS records without an SOA record are a referral, which denies nothing (section 2.2). A name that
    has no NSEC or RRSIG records may still be an alias (RFC 4035 section 2.5)."""
    there = {it.rtype for it in message.sections[1]}
    is_referral = NS in there and SOA not in there
    if message.rtype in (CNAME, ANY):
        return None
    if message.rcode == NOERROR and (is_referral or message.rtype in NOT_FOLLOWED):
        return None
    led = final_name(message)
    return led and led[0]


# ---- lines


class Traffic:
    """Makes lines of a trace from what was seen, in its order."""

    def __init__(self, counts, resolvers=(), by_servers=False, seconds=5, ports=(53,),
                 follows_aliases=False, mode="failed"):
        self.mode, self.has_answers = mode, False
        self.counts, self.sides, self.ports = counts, Sides(resolvers), frozenset(ports)
        self.is_given = bool(resolvers)
        self.aliases, self.learned = {} if follows_aliases else None, 0
        self.zones, self.timeout = Zones(by_servers), seconds * MICROSECONDS
        self.pending, self.open, self.between = OrderedDict(), {}, {}
        self.failed, self.recent, self.latest = OrderedDict(), OrderedDict(), 0

    def lines(self, seen):
        """The lines that messages make."""
        for it in self.guessed(seen):
            if not it.has_moment:
                self.counts["message: its time is no moment of a trace"] += 1
                continue
            if it.at < self.latest - MICROSECONDS:
                self.counts[BACKWARD] += 1
            self.latest = max(self.latest, it.at)
            yield from self.expired(it.at)
            if it.kind == "unreachable":
                yield from self.unreachable(it)
            elif it.kind == "cut":
                self.cut(it)
            elif not self.is_twice(it):
                yield from self.line(it)
        for _ in self.open.values():
            self.counts["query: the capture ends before its response or time-out"] += 1

    def guessed(self, seen):
        """The messages again. If the resolver was not given, it is guessed from the first ones."""
        if self.is_given:
            yield from seen
            return
        first, size = deque(), 0
        for it in seen:
            first.append(it)
            size += len(it.octets)
            if len(first) == GUESSED_FROM or size > 64 * 2**20:
                break
        self.sides = Sides(guess((it for it in first if not it.role), self.ports))
        while first:
            yield first.popleft()
        yield from seen

    def is_twice(self, it):
        """Whether the same packet was seen just before, as on two interfaces."""
        key = hash((it.source, it.target, it.octets))
        drop_first(self.recent, TWICE_MOST, lambda at: it.at - at > TWICE_MICROSECONDS)
        # Where a clock was set back, what is old may be behind a later time, and not yet taken out.
        last = self.recent.get(key)
        if last is not None and abs(it.at - last) <= TWICE_MICROSECONDS:
            self.counts["message: the same again within 10 milliseconds"] += 1
            return True
        self.recent.pop(key, None)
        self.recent[key] = it.at
        return False

    def line(self, it):
        """The lines that one message makes."""
        try:
            question = Question.of(it.octets)
        except MessageFault as fault:
            if self.is_response_of_server(it):
                yield from self.response(it, None)
            else:
                self.counts[f"message: {fault}"] += 1
            return
        is_response = bool(question.flags & QR)
        if (it.source if is_response else it.target).port not in self.ports and it.role is None:
            self.counts["message: from or to a port of which it should not be"] += 1
            return
        side = it.role or self.sides.of(it, is_response)
        if side is None:
            self.counts["message: neither from nor to the resolver"] += 1
        elif is_response:
            yield from (self.answered if side == "client" else self.response)(it, question)
        else:
            yield from (self.ask if side == "client" else self.query)(it, question)

    def is_response_of_server(self, it):
        """Whether a message that cannot be read came as the response of a server does."""
        is_server = it.role == "server" or it.target.address in self.sides.addresses
        return is_server and self.awaited(it)[1]

    # ---- clients

    def ask(self, it, question):
        """A client's query as an ask, or several; with RD clear it takes no stale answer."""
        reason = unusable(question)
        if reason:
            self.counts[f"client's query: {reason}"] += 1
            return
        asks, at = [*self.chain(question)], it.at // MICROSECONDS
        modes = self.modes(asks, question.rtype, at, self.mode_of(it, question))
        for (name, rtype), mode in zip(asks, modes):
            yield f"ask {at} {text(name)} {rtype} answer {mode}"

    def mode_of(self, it, question):
        """The mode of an ask: `now` for a client that waited so long, since a trace has no other
        way to say that."""
        if not question.flags & RD:
            return "none"
        if it.waited is None:
            self.counts[WAIT_UNKNOWN] += 1
        return "now" if it.waited else self.mode

    def modes(self, asks, rtype, at, mode):
        """The modes of the asks for a question of a type, of which all but the last are for
        aliases. If an alias has failed, its CNAME record may be stale, and if that is the name of
        the question, so may all that follows (docs/RULES.md, "The alias rule")."""
        failed = [mode == "failed" and self.has_failed(name, rtype, at) for name, _ in asks[:-1]]
        is_whole = failed[:1] == [True]
        return ["now" if is_whole or it else mode for it in [*failed, False]]

    def has_failed(self, alias, rtype, at):
        """Whether the failure of an alias and a type is recent, and came after the CNAME record.
        The data and denials that mask a failure also end the alias."""
        name = fold(alias)
        failure = self.failed.get((name, rtype))
        return (failure is not None and failure.learned >= self.aliases[name].number
                and at - failure.at // MICROSECONDS < RECHECK)

    def chain(self, question):
        """What a cache is asked for: if aliases are followed, each that is known by now, and the
        target of the last one (RFC 1034 section 3.6.2)."""
        name, rtype = question.spelled, question.rtype
        for _ in range(ALIASES_MOST):
            if not self.aliases or rtype in NOT_FOLLOWED or fold(name) not in self.aliases:
                break
            yield name, CNAME
            name = self.aliases[fold(name)].target
        yield name, rtype

    def answered(self, it, question):
        """A SERVFAIL to a client as a failure: it is the resolver's word that asking failed."""
        self.has_answers |= question.flags & 15 != SERVFAIL
        if question.flags & 15 == SERVFAIL and not unusable(question):
            last = self.failed.get(question.asked)
            if last is None or last.is_over or it.at - last.at >= REMEMBERED:
                yield self.fail(it.at, question)

    # ---- servers

    def query(self, it, question):
        """Awaits the response to a query, also to that for a zone transfer, to recognize it."""
        if question.flags >> 11 & 15 or question.count != 1:
            self.counts["query to a server: not a standard one"] += 1
            return
        if it.zone is not None or question.flags & RD:
            zone, is_known = fold(it.zone or ROOT), True
        else:
            zone, is_known = self.zones.asked_for(question, it.target.address)
        key = it.source, it.target, it.octets[:2]
        self.settle(key)
        self.pending[key] = Pending(it.at, question, zone, is_known)
        self.between.setdefault(key[:2], {})[key] = None
        if question.rtype in TRANSFERS:
            self.counts["query to a server: a zone transfer"] += 1
        else:
            self.open.setdefault(question.asked, set()).add(key)
        if len(self.pending) > PENDING_MOST:
            self.settle(next(iter(self.pending)))
            self.counts["query to a server: too many without a response"] += 1
        yield from ()

    def awaited(self, it):
        """The key of the query to which this may be the response, and the query, if it is open."""
        key = it.target, it.source, it.octets[:2]
        return key, self.pending.get(key)

    def settle(self, key):
        """Closes a query."""
        pending = self.pending.pop(key, None)
        if pending:
            self.is_last(key, pending.question)
            keys = self.between.get(key[:2], {})
            keys.pop(key, None)
            if not keys:
                self.between.pop(key[:2], None)

    def is_last(self, key, question):
        """Gives a query up, and returns whether it was the last open one of its question."""
        keys = self.open.get(question.asked, set())
        was_open = key in keys
        keys.discard(key)
        if not keys:
            self.open.pop(question.asked, None)
        return was_open and not keys

    def response(self, it, question):
        """A server's response, for the zone that it was asked for."""
        key, pending = self.awaited(it)
        if pending is None:
            self.counts["server's response: its query was not seen, or timed out"] += 1
            return
        if pending.question.rtype in TRANSFERS:
            # it may have more messages (RFC 5936 section 2.2)
            self.counts["server's response: of a zone transfer"] += 1
            return
        if question and question.name and question.asked != pending.question.asked:
            self.counts["server's response: to another question than its query"] += 1
            return
        self.answer(key, pending)
        zone = self.learnt(it, pending)
        yield f"response {it.at // MICROSECONDS} {text(zone)} {it.octets.hex() or '-'}"

    def answer(self, key, pending):
        """Closes a query, and those for the same to other servers, which has a response now."""
        self.settle(key)
        self.open.pop(pending.question.asked, None)

    def cut(self, it):
        """A response whose rest is not in the capture: its query has not failed."""
        key, pending = self.awaited(it)
        if pending is None:
            self.counts[CUT] += 1
        else:
            self.counts["server's response: cut off, as by the capture's snap length"] += 1
            self.answer(key, pending)

    def learnt(self, it, pending):
        """Learns what is in a response, if the cache takes data of class IN from it, and returns
        its zone."""
        try:
            message = in_own_class(read(it.octets))
        except MessageFault as fault:
            self.counts[f"used, though the cache will refuse it: {fault}"] += 1
            return pending.zone
        zone = it.zone or pending.zone
        if not pending.is_known and not it.zone:
            told = told_zone(message)
            zone = told if told and is_at_or_below(told, zone) else zone
        if message.rclass == IN and not why_nothing(message, zone):
            self.learn(it.at, pending.question, message, zone)
        return zone

    def learn(self, at, question, message, zone):
        """Learns whether a question failed just now, and if it did not, the zones and aliases in
        the response."""
        if message.rcode not in (NOERROR, NXDOMAIN):
            self.remember(at, question)
            return
        if failure := self.failed.get(question.asked):
            self.failed[question.asked] = failure._replace(is_over=True)
        self.zones.learn(message, zone)
        if self.aliases is not None:
            self.learn_aliases(message, zone)

    def learn_aliases(self, message, zone):
        """Learns which names of an answer are aliases, and which are not. Either may have an NSEC
        record (RFC 4035 section 2.5). Of several CNAME records of a name the first one counts."""
        targets = {owner: records[0].data if rtype == CNAME else None
                   for (owner, rtype), records in sets_of(message.sections[0]) if rtype != NSEC}
        targets[no_alias(message)] = None
        for name, target in targets.items():
            if name and is_at_or_below(name, zone):
                self.aliases.pop(name, None)
                if target:
                    self.learned += 1
                    self.aliases[name] = Alias(target, self.learned)

    # ---- failures

    def remember(self, at, question):
        self.failed.pop(question.asked, None)
        self.failed[question.asked] = Failure(at, self.learned)
        drop_first(self.failed, FAILED_MOST, lambda it: at - it.at >= REMEMBERED)

    def fail(self, at, question):
        self.remember(at, question)
        return f"fail {at // MICROSECONDS} {text(question.spelled)} {question.rtype}"

    def unanswered(self, key, at):
        """The failure of a question, if this was its last open query, which is given up."""
        question = self.pending[key].question
        if self.is_last(key, question) and not unusable(question):
            yield self.fail(at, question)

    def expired(self, now):
        """The failures of queries that have timed out."""
        while self.pending:
            key, oldest = next(iter(self.pending.items()))
            if now - oldest.at < self.timeout:
                return
            yield from self.unanswered(key, oldest.at + self.timeout)
            self.settle(key)

    def unreachable(self, it):
        """The failures of queries that did not reach their server, as the network says. A response
        is awaited all the same, since anyone may send such a message; it ends the failure."""
        keys = self.between.pop((it.source, it.target), {})
        if not keys:
            self.counts["ICMP: of no query to a server"] += 1
        for key in keys:
            yield from self.unanswered(key, it.at)


def unusable(question):
    """Why a question can be no line of a trace, or None."""
    if question.flags >> 11 & 15:
        return "its opcode is not that of a standard query"
    if not question.count:
        return "it has no question"
    if question.count > 1:
        return "it has more than one question"
    if question.rclass != IN:
        return "of a class other than IN"
    if not is_kept(question.rtype):
        return "of type ANY" if question.rtype == ANY else "of a type that the cache does not keep"
    return None
