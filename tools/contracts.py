#!/usr/bin/env python3
# SPDX-License-Identifier: MIT
"""tools/contracts.py [--check]: writes docs/CONTRACTS-LIST.md, the list of all public clauses.

The list is read from the Rattle sources of the library crates. A call is public if the crate's
lib.rt exports the call, its type or its trait. In rrc_c, the C library, a call is public if the
object file exports it. The list begins with all preconditions, each in the words of MEANINGS. With
--check, nothing is written, and the status is 1 if the list is out of date. The sources must have
the layout of `rt fmt`, which writes each clause on one line.
"""
import re
import sys
import textwrap
from pathlib import Path
from typing import NamedTuple

TOP = Path(__file__).resolve().parent.parent
sys.path.insert(0, str(TOP))

from tools.commands import reader, say, status_of  # noqa: E402

LIST = TOP / "docs" / "CONTRACTS-LIST.md"
COLUMNS = 100
HEAD = """# List of contracts

`tools/contracts.py` writes this list from the sources; do not edit it. It has every public call of
the library crates, by crate and file. [CONTRACTS.md](CONTRACTS.md) says what the clauses mean.

An entry has the call, its preconditions after *requires*, and its clauses after *ensures*. Each
clause has its name, and in parentheses the definitions that it cites.
[DEFINITIONS.md](DEFINITIONS.md) lists the files of these definitions, with the most important terms
of each file. A clause without parentheses cites only terms of the kit's standard library. What a
type owes to a trait, such as `Clone`, is listed only if the type's source writes clauses for it.

## Preconditions

Most calls have no precondition. This list has all preconditions. Each has its statement in the
source, in parentheses, and the calls that require it. In a statement, `x.now` is the value to which
a shared reference `x` refers, and `x.old` is the value to which a mutable reference `x` refers when
the call begins. A caller in Rattle also has to meet the invariants of the types of the arguments
([DEFINITIONS.md](DEFINITIONS.md#what-public-types-show)), and a caller in C the conditions in
[CONTRACTS.md](CONTRACTS.md#the-c-library-rrc_shelf-rrc_c).
"""
# What preconditions say: a statement with the old or new value of an argument says the same of it.
MEANINGS = {
    "IsWireForm octets": "the octets are the wire form of a name",
    "1 ≤ parts": "there is at least one part",
    "parts ≤ 64": "there are at most 64 parts",
    "part < self": "the part is below the number of parts",
    "part < count self": "the part is below the number of parts of the cache",
    "place < length self": "the index is below the length of the list",
    "chain_fault chapters.items ≡ None": "each chapter continues the one before it",
    "map image_of_entry (map entry_without_class snapshot.entries) ≡ snapshot.entries":
        "each entry is the image of a classless entry",
    "stale ≤ 604800": "max-stale is at most 604,800",
    "IfSome (option_map held_in failure) IsTimely": "a failure has a timestamp of at most 2^40",
    "moment ≤ LAST_MOMENT": "the timestamp is at most 2^40",
    "IfErr made (λ refusal. refusal ≢ Refusal.MomentTooLarge)":
        "the call was not refused for its timestamp",
    "IsHashOf hash (ask_in ask).name": "the hash is that of the name",
    "IsLeanOpen self (ask_in ask).moment":
        "the event numbers are not spent, and the timestamp is at most 2^40",
    "IsPick self (ask_in ask) pick":
        "to move the entry of the pick to the front is to move the entry that answers the ask",
    "self.records ≡ false": "the shelf does not record",
    "AreLasting self": "the part holds no entry that is fully expired at every timestamp",
    "IsPassOf self pass": "the pass belongs to this table of marks",
    "IsPassOf self other": "the other pass belongs to this table of marks, too",
    "0 < pass.view.turns": "the pass has a turn left",
    "mark < self.marks": "the table has the mark",
    "Holds pass.view mark": "the pass holds the mark",
    "0 < turns": "the pass gives away at least one turn",
    "turns ≤ pass.view.turns": "the pass has as many unused turns as it gives away",
    "turns < all_turns pass.view": "the pass keeps at least one turn, used or unused",
    "IsAlone pass.view": "the pass has all turns, used or unused",
    "pass.view.held ≡ []": "the pass holds no mark",
    "most < 2 ^ 60": "the maximum number to read is below 2^60",
    "length word ≤ 4096": "the word has at most 4,096 octets",
    "has_items put.items ≡ true": "the put has the rdata of at least one record",
    "IsLawful line": "the line is lawful, as all lines of a trace are",
    "All (λ task. task.worker < workers) tasks": "each task names one of the workers",
    "All (λ task. All (λ operation. operation.part < length wholes) task.operations) tasks":
        "each operation names one of the parts",
    "All (λ task. IsNumbered questions task.fate) tasks": "each task names one of the questions",
}
# Arguments whose name says nothing that the statement's meaning needs.
ALIKE = {"wire": "octets", "offer.moment": "moment", "ask.moment": "moment",
         "fetch.moment": "moment", "self.shelf.part": "self"}
# An item of `pub use`, the block of a type's functions, the head of a function and a clause of it.
EXPORT = re.compile(r"^pub use ([\w:]+?)(?:::\{([^}]*)\})?;", re.M)
MODULE = re.compile(r"^pub mod (\w+);", re.M)
BLOCK = re.compile(r"^impl(?:<.*?>)? (?:(\w+)(?:<.*>)? for )?&?(?:'\w+ )?(\w+)")
TRAIT = re.compile(r"^pub trait (\w+)")
FUNCTION = re.compile(r"^(?:    )?(pub )?(?:const )?(?:unsafe )?(extern \"C\" )?fn (\w+)")
CLAUSE = re.compile(r"^\s+(requires|ensures) (?:(\w+) )?\{ (.*) \};?$")
IMPORT = re.compile(r"ghost use Rattle\.rrc_\w+\.specs\.[\w.]+?\.\{([^}]*)\};")


class Clause(NamedTuple):
    """A clause: its name or None, its statement, and the definitions that it cites."""

    name: str
    statement: str
    cited: list


class Call(NamedTuple):
    """A function with its clauses."""

    file: str
    owner: str
    name: str
    is_public: bool
    is_export: bool
    requires: list
    ensures: list


def crates():
    """The library crates, in the order in which they are built."""
    for line in (TOP / "crates.txt").read_text().splitlines():
        name = line.partition(":")[0].split()[0]
        if name.startswith("rrc_") and not name.endswith(("_tests", "_fakes")):
            yield name


def exported(folder, path):
    """Pairs of a source file and a name that a file of a crate exports, or None for all of it."""
    text = (folder / path).read_text()
    for module in MODULE.findall(text):
        yield f"{module}.rt", None
        yield from exported(folder, f"{module}.rt")
    for where, names in EXPORT.findall(text):
        parts = where.removeprefix("crate::").split("::")
        if not names:
            names = parts.pop()
        for name in re.findall(r"\w+", names):
            yield f"{'/'.join(parts)}.rt", name


def imported(text):
    """The definitions of the repository that a source imports into its contracts."""
    return {name.strip() for names in IMPORT.findall(text) for name in names.split(",")}


def cited(statement, definitions):
    words = re.findall(r"[\w◌]+", statement)
    return list(dict.fromkeys(it for it in words if it in definitions))


def clauses(lines, definitions):
    """What a function requires and ensures, from its head on."""
    found = {"requires": [], "ensures": []}
    for line in lines:
        clause = CLAUSE.match(line)
        if clause:
            what, name, statement = clause.groups()
            found[what].append(Clause(name, statement, cited(statement, definitions)))
        if line.rstrip().endswith(("{", "{}", ";")):
            return found
    return found


def calls(path, text):
    """The functions of a source that stand at its top or in the block of a type or a trait."""
    definitions, owner, trait = imported(text), "", None
    lines = text.splitlines()
    for number, line in enumerate(lines):
        block = BLOCK.match(line)
        declared = TRAIT.match(line)
        if block:
            trait, owner = block.groups()
        elif declared:
            trait = owner = declared[1]
        elif line == "}":
            trait, owner = None, ""
        head = FUNCTION.match(line)
        if head and head[3] != "main":
            found = clauses(lines[number:], definitions)
            is_public = bool(head[1]) or (trait is not None and bool(found["ensures"]))
            yield Call(path, owner, head[3], is_public, bool(head[2]), **found)


def public_calls(crate):
    """The public calls of a crate, by file."""
    folder = TOP / "crates" / crate / "src"
    exports = set(exported(folder, "lib.rt"))
    whole = {path for path, name in exports if name is None}
    names = {name for _, name in exports if name}
    for source in sorted(folder.rglob("*.rt")):
        path = str(source.relative_to(folder))
        for call in calls(path, source.read_text()):
            is_named = call.owner in names if call.owner else (path, call.name) in exports
            if call.is_export or (call.is_public and (is_named or path in whole)):
                yield call


def name_of(call):
    return f"{call.owner}::{call.name}" if call.owner else call.name


def item(text):
    """An item of a list."""
    return textwrap.fill(f"- {text}", COLUMNS, subsequent_indent="  ", break_long_words=False,
                         break_on_hyphens=False)


def clause_text(clause):
    told = f"`{clause.name}`" if clause.name else "unnamed"
    return told + (f" ({', '.join(f'`{it}`' for it in clause.cited)})" if clause.cited else "")


def line_of(call):
    told = [f"*{what}* " + ", ".join(map(clause_text, found))
            for what, found in (("requires", call.requires), ("ensures", call.ensures)) if found]
    return item(f"`{name_of(call)}`: " + ("; ".join(told) or "no clause"))


def meaning(statement):
    """What a precondition says."""
    plain = re.sub(r"\.(now|old)\b", "", statement)
    for name, other in ALIKE.items():
        plain = re.sub(rf"(?<![\w.]){re.escape(name)}\b(?!\.)", other, plain)
    if plain not in MEANINGS:
        raise SystemExit(f"tools/contracts.py: MEANINGS lacks the precondition {plain!r}")
    return MEANINGS[plain]


def preconditions():
    """The preconditions of all crates, each with the calls that require it."""
    found = {}
    for crate in crates():
        for call in public_calls(crate):
            name = name_of(call) if call.owner else f"{crate}::{call.name}"
            for clause in call.requires:
                found.setdefault(meaning(clause.statement), []).append((clause.statement, name))
    for said, places in found.items():
        statements = " or ".join(dict.fromkeys(f"`{statement}`" for statement, _ in places))
        yield item(f"{said} ({statements}): {', '.join(f'`{name}`' for _, name in places)}")


def section(crate):
    """The lines of a crate."""
    yield f"## `{crate}`"
    file = None
    for call in public_calls(crate):
        if call.file != file:
            file = call.file
            yield f"\n`crates/{crate}/src/{file}`\n"
        yield line_of(call)


def text_of_list():
    return "\n".join([HEAD, *preconditions(), "",
                      *("\n".join(section(it)) + "\n" for it in crates())])


def main(words):
    asked = reader(__doc__)
    asked.add_argument("--check", action="store_true", help="write nothing, and compare")
    text = text_of_list()
    if not asked.parse_args(words).check:
        LIST.write_text(text)
        return 0
    if LIST.exists() and LIST.read_text() == text:
        return 0
    say(f"{LIST.relative_to(TOP)} is out of date: run tools/contracts.py")
    return 1


if __name__ == "__main__":
    sys.exit(status_of(main, sys.argv[1:]))
