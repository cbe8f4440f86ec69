# SPDX-License-Identifier: MIT
"""The man pages of the C library, made of the headers' own comments (include/), so that the two
cannot differ. bin/install-c installs them.

`pages()` returns each page by the name of its file: rrcache(3) and rrcache_shelf(3), each of the
whole of one header, and one page for each group of calls, under the name of its first call.
`command_pages()` does the same for the commands, in section 1.
"""
import re
from pathlib import Path

from tools.command_manual import command_pages
from tools.roff import filled, listed, page, verbatim

__all__ = ["EXAMPLES", "calls", "command_pages", "pages"]
TOP = Path(__file__).resolve().parent.parent
# What the page of each header is about.
ABOUT = {
    "rrcache": "an RRset cache for recursive DNS resolvers",
    "rrcache_shelf": "the shelves of an RRset cache for recursive DNS resolvers",
}
HEADERS = {name: (TOP / "include" / f"{name}.h").read_text() for name in ABOUT}
# Each group of calls of a header: their names without rrcache_, and what its page is about.
CACHE_GROUPS = {
    "open close": "open and close a cache that threads share",
    "lookup lookup_delegation next": "look up the answer to a question",
    "store store_set store_negative store_failure": "store a response, or an RRset",
    "forget sweep_all": "remove the data of a name, or expired data",
    "stats stats_of stats_text": "get the statistics of a cache",
    "record_all stop_recording_all dump": "record histories, or write the contents of a cache",
}
SHELF_GROUPS = {
    "make free": "make and free a shelf",
    "make_name": "make a name to look up in shelves",
    "compose_response read_response tell_response tell_offer tell_octets offer_read offer_one "
    "free_offers":
        "read a response once, list its offers, and offer it to several shelves",
    "offer_set offer_negative offer_failure": "offer an RRset, a negative answer or a failure",
    "read_message_unchecked offer_message_unchecked offer_part_unchecked":
        "offer the data of a response, without comparing it with a query",
    "ask ask_alias peek peek_alias tell_stored": "look up a question in a shelf",
    "sweep next_expiry sweep_some trim sizes": "sweep or trim a shelf, get its sizes",
    "record stop_and_drop drop_chapters": "record the history of a shelf, or drop it",
    "take_chapters stop_recording write_chapter write_line chapter_line free_chapters":
        "take the chapters of the history of a shelf, and write them",
    "fault status_text version":
        "get the fault of a message, the text of a status, the version of the library",
}
GROUPS = {"rrcache": CACHE_GROUPS, "rrcache_shelf": SHELF_GROUPS}
# The example of each header's page, behind the line of its licence.
EXAMPLES = {header: (TOP / "examples" / name).read_text().partition("\n")[2]
            for header, name in (("rrcache", "stub.c"), ("rrcache_shelf", "first.c"))}
# How a point of a list in a comment begins.
POINT = re.compile(r"(?:^| )- (?=[A-Z`])")
# What is said of the value of a call that returns no status, by its type.
VALUES = {"void": "nothing", "bool": "true or false", "uint32_t": "a number",
          "const char *": "a text"}
# A status, its number and its comment.
STATUS = r"^    (RRCACHE_\w+) = (\d+),? +/\* (.*?) \*/"
# A call with a comment of its own, by the first words of its declaration: that comment, the rest of
# its prototype, and its name. Inline functions that look at what others are handed, rrcache_can_..,
# are no calls.
COMMENT = r"/\* ((?:(?!\*/).)*?) \*/\n"
CALLS = {
    "static inline ": COMMENT + r"static inline ((?:uint32_t|enum rrcache_status|const char \*)\s*"
                                r"(rrcache_(?!can_)\w+)\([^)]*\))\n\{",
    "RRCACHE_API ": COMMENT + r"RRCACHE_API ([^(;]*?\b(rrcache_\w+)\([^;]*\));",
}
# The enums and structs of a header, which stand before its calls.
TYPES = {
    "rrcache": r'extern "C" \{\n#endif\n(.*?)'
               r"(?:/\* ---- |/\* (?:(?!\*/).)*? \*/\nRRCACHE_API |#ifdef __cplusplus)",
    "rrcache_shelf": r"(/\* The statuses that calls return\. \*/.*?)"
                     r"/\* ---- The functions of the library",
}


def shown(prototype, first_words):
    """A prototype without its first words. Where its name stands on its first line, its next lines
    stand farther in."""
    inset = "\n" + " " * len(first_words)
    is_inset = "(" in prototype.partition("\n")[0]
    return (prototype.replace(inset, "\n") if is_inset else prototype) + ";"


def calls(header):
    """A header's calls that have a comment of their own: prototype and comment by name."""
    return {name: (shown(prototype, first_words), comment) for first_words, call in CALLS.items()
            for comment, prototype, name in re.findall(call, HEADERS[header], re.S)}


def blocks(comment):
    """A comment's parts between empty lines, each as its lines."""
    return [[it.strip() for it in block.strip().splitlines()]
            for block in re.split(r"\n\s*\n", comment)]


def paragraphs(comment):
    """A comment's paragraphs, among which are the points of its lists."""
    return [it for lines in blocks(comment) for it in POINT.split(" ".join(lines)) if it]


def overview(header):
    """The sections of a header's first comment: titles with points, the first untitled."""
    sections, title = {"": []}, ""
    for lines in blocks(re.search(rf"/\* {header}\.h: (.*?)\*/", HEADERS[header], re.S)[1]):
        if len(lines) > 1 and lines[1].startswith("- "):
            title = lines[0]
            sections[title] = [it for it in POINT.split(" ".join(lines[1:])) if it]
        else:
            sections.setdefault(title, []).append(" ".join(lines))
    first, *others = sections[""]
    return {**sections, "": [first[0].upper() + first[1:], *others]}


def page_of(name, about, header, synopsis, sections):
    """A page of a header's: its head, these sections, and the names of the other pages."""
    names = [*HEADERS, *(f"rrcache_{it.split()[0]}" for groups in GROUPS.values() for it in groups)]
    others = " ,\n".join(f".BR {it} (3)" for it in names if it != name)
    return page(name, 3, {
        "NAME": f"{about}\n",
        "LIBRARY": "The RRset cache of a DNS resolver (\\fIlibrrcache\\fR, "
                   "\\fI\\-lrrcache\\fR)\n",
        "SYNOPSIS": f".B #include <{header}.h>\n{synopsis}", **sections,
        "SEE ALSO": f"{others}\n"})


def prototypes(names, found):
    """The calls of these names as they are declared."""
    return "".join(f".PP\n{verbatim(found[it][0])}" for it in names)


def returns(names, found):
    """What calls return: most return a status."""
    kinds = {it: found[it][0].partition(it)[0].strip() for it in names}
    others = [f"`{it}` returns {VALUES[kind]}" for it, kind in kinds.items() if kind in VALUES]
    if len(others) == len(names):
        return f"{' and '.join(others)}."
    but = f"; {' and '.join(others)}" if others else ""
    return f"A status, which is RRCACHE_DONE (0) or an error{but}."


def statuses():
    """The reasons of refusals, each with its meaning."""
    enum = re.search(r"enum rrcache_status \{\n(.*?)\n\};", HEADERS["rrcache_shelf"], re.S)[1]
    return [(f"\\fB{name}\\fR ({number})", " ".join(meaning.split()))
            for name, number, meaning in re.findall(STATUS, enum, re.M | re.S)]


def group_page(names, about, header):
    """The page of a group of a header's calls."""
    found = calls(header)
    described = "".join(f".SS {name}\n" + filled(paragraphs(found[name][1])) for name in names)
    returned = returns(names, found)
    if returned.startswith("A status"):
        returned += f" `{header}`(3) has all statuses, and says what an error leaves unmodified."
    return page_of(names[0], f"{', '.join(names)} \\- {about}", header, prototypes(names, found),
                   {"DESCRIPTION": described, "RETURN VALUE": filled([returned])})


def whole_page(header):
    """The page of the whole of a header."""
    found = calls(header)
    described = "".join((f".SS {title}\n" if title else "") + filled(points)
                        for title, points in overview(header).items())
    types = re.search(TYPES[header], HEADERS[header], re.S)[1].strip()
    returned = filled([returns(list(found), found), "The errors are these:"])
    return page_of(header, f"{header} \\- {ABOUT[header]}", header, prototypes(found, found), {
        "DESCRIPTION": described, "RETURN VALUE": returned + listed(statuses()),
        "TYPES": verbatim(types), "EXAMPLES": verbatim(EXAMPLES[header])})


def pages():
    """The man pages by the names of their files; calls behind the first of a group are links."""
    made = {f"{header}.3": whole_page(header) for header in HEADERS}
    for header, groups in GROUPS.items():
        for group, about in groups.items():
            names = [f"rrcache_{it}" for it in group.split()]
            made[f"{names[0]}.3"] = group_page(names, about, header)
            made.update({f"{it}.3": f".so man3/{names[0]}.3\n" for it in names[1:]})
    return made
