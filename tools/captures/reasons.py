# SPDX-License-Identifier: MIT
"""The reasons for a line of a report, as sentences, by the rules (docs/RULES.md).

Each sentence names the section of the RFC from which its rule comes, or says `ours` if it is a rule
of this cache.
"""
from tools.messages import (NOT_FOLLOWED, NXDOMAIN, SOA, MessageFault, final_name, in_own_class,
                            is_at_or_below, read, set_offer, sets_of, why_nothing)
from tools.model import (CAP, GLUE, IN, NEGATIVE_CAP, RECHECK, STALE_SECONDS, Key, Offer, part_of)
from tools.names import fold, to_text
from tools.traces import Replay

RANKS = {
    4: "4 (authoritative answer)", 3: "3 (authority section of an authoritative reply)",
    2: "2 (answer that is not authoritative)", 1: "1 (additional data, glue)",
}
PLACES = {
    4: "it was in the answer section of an authoritative reply, under the name that was asked for",
    3: "it was in the authority section of an authoritative reply",
    2: "it was in the answer section, and is not the authoritative answer to the name asked for",
    1: "it was in the additional section, or in the authority section of a reply that is not"
       " authoritative",
}
TYPES = {1: "A", 2: "NS", 5: "CNAME", 6: "SOA", 12: "PTR", 13: "HINFO", 15: "MX", 16: "TXT",
         28: "AAAA", 33: "SRV", 39: "DNAME", 43: "DS", 44: "SSHFP", 47: "NSEC", 48: "DNSKEY",
         50: "NSEC3", 51: "NSEC3PARAM", 52: "TLSA", 64: "SVCB", 65: "HTTPS", 257: "CAA"}
TRUST, RRSETS = "RFC 2181 section 5.4.1", "RFC 2181 section 5"
NEGATIVES, NO_TTL = "RFC 2308 section 5", "RFC 1035 section 3.2.1"
STALENESS, RETRIES = "RFC 8767 sections 4 and 5", "RFC 8767 section 5"
ROOM = "ours: \"Recency, eviction and sweeps\""
SHOWN_MOST = 20


def type_name(rtype):
    return TYPES.get(rtype, f"TYPE{rtype}")


def kind_name(key):
    """A key's type, and its class if that is not IN."""
    name = type_name(key.rtype)
    return name if key.rclass == IN else f"{name} of class {key.rclass}"


def body_name(key, body):
    """What a key holds, in words."""
    name = to_text(key.name)
    if body.kind == "positive":
        records = f"{len(body.items)} record{'s' * (len(body.items) != 1)}"
        return f"the set {name} {kind_name(key)} ({records})"
    if body.kind == "failure":
        return f"the failure of {name} {kind_name(key)}"
    if key.slot == "nx":
        of_class = "" if key.rclass == IN else f" in class {key.rclass}"
        return f"the negative answer that {name} does not exist{of_class}"
    return f"the negative answer that {name} has no {kind_name(key)}"


def seconds(count):
    return f"{count:,} second{'s' * (count != 1)}"


class Story:
    """A replay with one worker that remembers which line did what."""

    def __init__(self, **rules):
        self.replay = Replay(**rules)
        self.stale = self.replay.parts[0].stale
        self.tags = [[] for _ in self.replay.parts]
        # for keys that hold nothing any more, which line did that and what they held; for others
        # the line that touched them last
        self.gone, self.touched = {}, {}

    def go_on(self, place, line):
        """Replays a line, and remembers."""
        for told in self.replayed(place, line)[1]:
            self.note(place, told)

    def explain(self, place, line):
        """Replays a line, and returns its line of the report and the sentences about it."""
        words, calls = self.replayed(place, line)
        calls = self.one_by_one(place, calls)
        sentences = list(getattr(self, f"tell_{line.word}")(line, words, calls))
        # A call is noted when the next is asked for, and nobody asks behind a response's last.
        for _ in calls:
            pass
        return " ".join([str(place), line.word, *words]), sentences

    def replayed(self, place, line):
        words, calls = self.replay.line(line)
        for told in calls:
            self.tags[told.part].append(place)
        return words, calls

    def one_by_one(self, place, calls):
        """The calls of a line, each noted before the next one is explained."""
        for told in calls:
            yield told
            self.note(place, told)

    def note(self, place, told):
        """Remembers which keys a call left empty, and which it touched."""
        call, answer = told.call, told.answer
        if isinstance(answer, list):
            how = f"the sweep of line {place} removed it"
            self.gone.update((it.key, (how, it)) for it in answer)
        elif not isinstance(call, Offer):
            if answer.word != "miss":
                self.touched[answer.governing.key] = place
        elif answer.word == "kept":
            self.gone.pop(call.key, None)
            self.touched[call.key] = place
            if answer.evicted:
                how = f"line {place} evicted it to make room"
                self.gone[answer.evicted.key] = how, answer.evicted
        elif answer.word == "cleared" and answer.old:
            self.gone[call.key] = f"line {place} cleared it by a TTL of 0", answer.old

    def line_of(self, entry):
        """The line that stored an entry."""
        return self.tags[part_of(entry.key.name, len(self.tags))][entry.number]

    # ---- entries and keys

    def stored(self, entry):
        """Which line stored an entry, when, with which TTL and rank."""
        body = entry.body
        rank = f", rank {RANKS[body.rank]}" if body.rank else ""
        return (f"{body_name(entry.key, body)} that line {self.line_of(entry)} stored at {entry.at}"
                f" for {seconds(body.ttl)}{rank}")

    def empty(self, key):
        """Why a key holds nothing."""
        if key not in self.gone:
            return f"No line before stored anything under {key}."
        how, entry = self.gone[key]
        return (f"Nothing is held under {key}: line {self.line_of(entry)} stored it at {entry.at}"
                f" for {seconds(entry.body.ttl)}, and {how}.")

    # ---- offers

    def offer(self, told, where):
        """Why an offer had its outcome."""
        (key, body, at), (word, old, _) = told.call, told.answer
        yield body_name(key, body) + self.offered_with(body, where)
        if word == "less":
            yield (f"Less: the key holds {self.stored(old)}; at {at} that is unexpired, as it is"
                   f" until {old.at + old.body.ttl - 1}, and its rank is higher, so it stays"
                   f" ({TRUST}).")
        elif word == "cleared":
            yield f"Cleared: with a TTL of 0 nothing is stored ({NO_TTL})."
            yield f"It clears {self.stored(old)}." if old else "The key held nothing."
        else:
            yield from self.kept(told)

    def offered_with(self, body, where):
        """The rank and the TTL of an offer, and where they come from."""
        if body.kind == "failure":
            return f", for {seconds(body.ttl)} ({RETRIES}; ours: {RECHECK} seconds)."
        lives = f"for {seconds(body.ttl)}"
        if where == "put":
            return f", rank {RANKS[body.rank]}, {lives}{capped(body)}, as the line says."
        if body.kind == "positive":
            return (f", {lives}, the lowest TTL of its records{capped(body)} (RFC 2181 section"
                    f" 5.2), with rank {body.rank}: {PLACES[body.rank]} ({TRUST}).")
        most = f", at most {NEGATIVE_CAP:,}" if body.ttl == NEGATIVE_CAP else ""
        rank = ("the reply is authoritative and no alias was followed" if body.rank == 4 else
                "the reply is not authoritative, or an alias was followed")
        return (f", {lives}, the lower of the TTL and the MINIMUM field of the SOA record of"
                f" {to_text(body.owner)}{most} ({NEGATIVES}), with rank {body.rank}: {rank}"
                " (ours).")

    def kept(self, told):
        """What a kept offer found and evicted, and for how long it is good."""
        (key, body, at), (_, old, evicted) = told.call, told.answer
        if body.kind == "failure":
            yield "Kept: a failure is always kept (ours)."
        if old:
            it = "Kept: it" if body.rank else "It"
            yield f"{it} replaces {self.stored(old)}{replaced(old, body, at)}"
        elif body.rank:
            yield f"Kept: the key held nothing. {self.empty(key)}"
        if evicted:
            held, last = self.replay.parts[0].capacity, self.touched.get(evicted.key)
            yield (f"Its part held {held:,} key{'s' * (held != 1)}, as many as it may, so the one"
                   f" touched least recently, last by line {last}, is evicted:"
                   f" {self.stored(evicted)} ({ROOM}).")
        yield until(key, body, at, self.stale)

    # ---- asks

    def ask(self, told):
        """Why an ask was answered as it was."""
        (name, rtype, at, purpose, mode, rclass), reply = told.call, told.answer
        yield from self.governs(reply, fold(name), rtype, at, rclass)
        if reply.governing:
            yield from self.good(reply, at, purpose, mode)
        yield from self.failure(reply, at)
        if reply.word == "miss" and rtype not in NOT_FOLLOWED:
            yield from self.alias(reply.alias, at)

    def governs(self, reply, name, rtype, at, rclass):
        """What the two keys that may answer hold, and which of them governs."""
        entry, other = reply.governing, reply.other
        if entry is None:
            yield self.empty(Key(name, "set", rtype, rclass))
            yield self.empty(Key(name, "nx", 0, rclass))
            return
        yield f"The cache holds {self.stored(entry)}."
        if other and entry.number > other.number:
            yield (f"It also holds {self.stored(other)}; of the two the later one governs, since"
                   " the earlier one is not both unexpired and of higher rank"
                   f" ({TRUST}, {NEGATIVES}).")
        elif other:
            yield (f"It also holds {self.stored(other)}, which came later; but the earlier one is"
                   f" unexpired at {at} and of higher rank, so it governs ({TRUST}).")

    def good(self, reply, at, purpose, mode):
        """Whether the governing entry may answer, and as what."""
        entry, body = reply.governing, reply.governing.body
        end = entry.at + body.ttl
        if body.rank == GLUE and purpose == "any":
            yield f"It is glue, and the purpose is any: glue serves the resolver itself ({TRUST})."
        if purpose == "answer" and body.rank == GLUE:
            yield f"Miss: it is glue, and glue answers no question ({TRUST})."
        elif entry.is_unexpired(at):
            word = {"fresh": "Fresh", "nodata": "No data (RFC 2308 section 2.2)",
                    "nxdomain": "No such name (RFC 2308 section 2.1)"}[reply.word]
            yield (f"{word}: at {at} its age is {entry.age(at):,} of {seconds(body.ttl)}, so the"
                   f" remaining TTL is {reply.left:,} (RFC 1035 section 3.2.1).")
        else:
            yield f"It expired at {end}, {seconds(at - end)} before {at}."
            yield self.stale_or_not(reply, at, mode)

    def stale_or_not(self, reply, at, mode):
        """Why something expired is answered as stale, or not."""
        entry = reply.governing
        if entry.body.kind == "negative":
            return "Miss: negative answers are never stale (ours)."
        if entry.is_fully_expired(at, self.stale):
            return (f"Miss: that is past max-stale, {seconds(self.stale)}, so it was good"
                    f" until {entry.at + entry.body.ttl + self.stale - 1} (RFC 8767 section 4).")
        if reply.word == "stale":
            cause = "a failure is recent" if mode == "failed" else "the mode is now"
            return (f"Stale: it is within max-stale, {seconds(self.stale)}, and {cause}, so"
                    f" it answers for {STALE_SECONDS} seconds ({STALENESS}).")
        if mode == "none":
            return "Miss: in the mode none there is no stale answer (RFC 8767 section 4)."
        return f"Miss: in the mode failed it answers only after a recent failure ({RETRIES})."

    def alias(self, entry, at):
        """That the cache holds a CNAME record, which leads to no answer."""
        if entry is None or entry.body.kind != "positive":
            return
        end = entry.at + entry.body.ttl
        expired = "" if entry.is_unexpired(at) else f", which expired at {end}"
        yield (f"The cache holds {self.stored(entry)}{expired}; but an ask follows no CNAME record"
               ' (ours: "CNAME in look-ups"). A trace of bin/from-capture --follow-aliases asks for'
               " that type too, and for the target.")

    def failure(self, reply, at):
        """What is known of a failed attempt to ask."""
        if reply.word not in ("miss", "stale"):
            return
        if reply.failed:
            more = f"; it may be tried again from {reply.retry_from} on" * (reply.word == "miss")
            yield (f"Asking failed: the cache holds {self.stored(reply.failed)}, and nothing later"
                   f"{more} ({RETRIES}).")
        elif reply.past and reply.word == "miss":
            end = reply.past.at + reply.past.body.ttl
            cause = f"it ended at {end}" if at >= end else "something was stored later"
            yield (f"The cache holds {self.stored(reply.past)}, which is not recent: {cause}"
                   f" ({RETRIES}).")

    # ---- lines: the sentences, and the calls as they are explained

    def tell_put(self, line, words, calls):
        for told in calls:
            first, *others = self.offer(told, line.word)
            yield f"It offers {first}"
            yield from others

    tell_fail = tell_put

    def tell_ask(self, line, words, calls):
        for told in calls:
            yield from self.ask(told)

    def tell_response(self, line, words, calls):
        yield from message_told(*line.rest, words[0])
        yield from self.tell_offers(calls, words[1:])

    def tell_offers(self, calls, outcomes):
        for number, _ in enumerate(outcomes):
            first, *others = self.offer(told := next(calls), "response")
            yield f"Offer {number} ({told.answer}): {first}"
            yield from others

    def tell_fetch(self, line, words, calls):
        yield "It asks first, for a client's answer, which may be stale after a failure:"
        first = next(calls)
        yield from self.ask(first)
        if words[0] == "held":
            yield f"Held: nothing is fetched before {first.answer.retry_from} ({RETRIES})."
        if words[0] == "hit":
            yield "Hit: so nothing is fetched."
        if words[0] != "fetched":
            return
        zone, octets = line.rest
        yield "It fetches:"
        if octets is None:
            yield f"No message came, which is a failure ({RETRIES})."
        else:
            yield from message_told(zone, octets, words[1])
        yield from self.tell_offers(calls, words[2:-1])
        yield "It asks again, for an answer that may be stale:"
        yield from self.ask(next(calls))

    def tell_sweep(self, line, words, calls):
        for place, told in enumerate(calls):
            yield (f"Part {place}: keys that are fully expired at {line.at}: {len(told.answer):,}."
                   " An RRset is fully expired past max-stale, and anything else past its TTL"
                   " (RFC 8767 section 4).")
            yield from (f"It removes {self.stored(it)}." for it in told.answer[:SHOWN_MOST])
            if len(told.answer) > SHOWN_MOST:
                yield f"And {len(told.answer) - SHOWN_MOST:,} more."

    def tell_checkpoint(self, line, words, calls):
        yield "It closes the chapter of each part, which is no event and changes no answer (ours)."


# ---- sentences that need no replay


def capped(body):
    return ", no more than a week" if body.ttl == CAP else ""


def replaced(old, body, at):
    """Why the old entry is replaced."""
    end = old.at + old.body.ttl
    if old.body.kind == "failure":
        return "."
    if not old.is_unexpired(at):
        return f", which expired at {end}; a set is replaced whole ({RRSETS})."
    rank = "the same" if old.body.rank == body.rank else "a lower"
    return (f", which is unexpired until {end - 1} but of {rank} rank; a set is replaced whole"
            " (RFC 2181 sections 5 and 5.4.1).")


def until(key, body, at, stale):
    """Until when a kept offer is good."""
    end = at + body.ttl
    if body.kind == "failure":
        return f"It is recent until {end - 1}, unless something is stored later ({RETRIES})."
    if body.kind == "negative":
        return f"It answers until {end - 1} (RFC 2308 section 5)."
    limit = f", and may be stale until {end + stale - 1} (RFC 8767 section 4)" if stale else ""
    return f"It answers until {end - 1}{limit}."


def message_told(zone, octets, count):
    """The fault of a message, or what of it is left out and why."""
    try:
        message = read(octets)
    except MessageFault as fault:
        yield f"Refused {fault.number}: {fault} (RFC 1035 section 4.1)."
        return
    asked = f"{to_text(message.name)} {type_name(message.rtype)}"
    kind = "an authoritative" if message.is_authoritative else "a"
    yield (f"The message is {kind} response to {asked} with RCODE {message.rcode}, read for the"
           f" zone {to_text(zone)}; it makes {count} offer{'s' * (count != '1')}.")
    nothing = why_nothing(message, zone)
    if nothing:
        yield f"It offers nothing: {nothing}."
    elif message.rcode in (0, NXDOMAIN):
        message = in_own_class(message)
        yield from left_out(message, zone)
        yield from no_negative(message, zone)
    else:
        yield f"Its RCODE says that asking failed, and only that is used ({RETRIES})."


def left_out(message, zone):
    """The sets of a response that it does not offer."""
    for section, records in enumerate(message.sections):
        for key, of_key in sets_of(records):
            name = f"The set {to_text(key[0])} {type_name(key[1])} is left out"
            if not is_at_or_below(key[0], zone):
                yield f"{name}: it is not at or below the zone (ours)."
            elif set_offer(message, section, key, of_key, 0) is None:
                yield f"{name}: its TTLs differ and AA is clear (RFC 2181 section 5.2)."


def no_negative(message, zone):
    """Why a response that denies something gives no negative answer, if that may surprise."""
    if message.rcode != NXDOMAIN and message.sections[0]:
        return
    led = final_name(message)
    if led is None:
        yield "It gives no negative answer: more than 16 aliases would be followed (ours)."
        return
    owners = [it.owner for it in message.sections[1] if it.rtype == SOA]
    if not any(is_at_or_below(it, zone) and is_at_or_below(led[0], it) for it in owners):
        yield ("It gives no negative answer: its authority section has no SOA record with an owner"
               f" at or below the zone and at or above {to_text(led[0])} ({NEGATIVES}).")
