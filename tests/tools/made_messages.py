# SPDX-License-Identifier: MIT
"""Messages for the tests, made with dnspython."""
import dns.message
import dns.rrset

OTHER_CLASSES = ("CH", "HS")


def message(number, flags, asked="", answer=(), authority=(), additional=()):
    """A message with a question such as "www.example. A", unless that is empty, and records as zone
    files have them, such as "www.example. 60 A 192.0.2.1" or "www.example. 60 CH TXT a". Its flags
    are all of the header's second 16 bits."""
    made = dns.message.Message(number)
    made.flags = flags
    if asked:
        name, *rclass, rtype = asked.split()
        made.question.append(dns.rrset.from_text(name, 0, *rclass or ["IN"], rtype))
    for section, records in zip(made.sections[1:], (answer, authority, additional)):
        for record in records:
            name, ttl, rtype, data = record.split(maxsplit=3)
            rclass = "IN"
            if rtype in OTHER_CLASSES:
                rclass, (rtype, data) = rtype, data.split(maxsplit=1)
            section.append(dns.rrset.from_text(name, int(ttl), rclass, rtype, data))
    return made.to_wire()


def query(asked="www.example. A", number=7, flags=0x100):
    """A query, which wishes for recursion where its flags do not say otherwise."""
    return message(number, flags, asked)


SOA = "example. 3600 SOA example. example. 1 3600 600 604800 300"
# A response that there is no name a.example., as digits.
DENIED = message(0x1234, 0x8403, "a.example. A", [], [SOA]).hex()
