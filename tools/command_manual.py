# SPDX-License-Identifier: MIT
"""The man pages of the commands in an installed package, made of what --help prints, so that the
two cannot differ.

`commands()` returns these commands with the parsers of their arguments. A command of bin/ makes its
parser itself. That of the program is made of docs/FORMATS.md, and that of the forwarder of the help
in its source. What a parser holds argparse gives only by `_actions`.
"""
import argparse
import re
import runpy
from pathlib import Path
from typing import NamedTuple
from unittest.mock import patch

from tools.commands import Reader, reader
from tools.roff import filled, listed, page, roff, verbatim

TOP = Path(__file__).resolve().parent.parent
PROGRAM, FORWARDER = "rrcache", "rrcache-forwarder"
# The commands of bin/ that need no kit, and what comes before their names where they are installed.
INSTALLED = ("from-capture", "what-if", "why", "compare-capture")
PREFIX = "rrcache-"
FORMATS = (TOP / "docs" / "FORMATS.md").read_text()
EXAMPLE = TOP / "examples" / "forwarder"
OF_PROGRAM = """Replay a trace of DNS cache operations.

Reads a trace from standard input, replays it on an RRset cache with one or more workers, and writes
a report with the result of each line to standard output. The cache stores RRsets, negative answers
and resolution failures by the rules of RFC 2181, RFC 2308, RFC 8767 and, in part, RFC 9520.

Examples:
  %(prog)s --capacity 10000 < resolver.trace > report
      Replay a trace on a cache of 10,000 keys.
  %(prog)s --audit-history < archive
      Audit the history of a cache that a resolver recorded.
"""
OF_FORWARDER = """Answer DNS queries from a cache and from resolvers upstream.

This is an example of the library `rrcache`(3). It answers from its cache, and sends a query to an
upstream resolver if the cache has no answer. It does not validate.

Examples:
  %(prog)s 127.0.0.1 5300 192.0.2.1 53 192.0.2.2 53
      Answer at port 5300, with two upstream resolvers.
"""
FORWARDER_STATUSES = {0: "SIGTERM or SIGINT ended it, or it printed its help or version",
                      1: "a fault, such as an address in use; standard error says which",
                      2: "wrong arguments"}


class Command(NamedTuple):
    """A command: its name, its docstring, the parser of its arguments, its lines of usage and its
    statuses; and what else its page has: more of its description, and sections by their titles.
    What is printed only there is text in roff."""

    name: str
    doc: str
    reader: argparse.ArgumentParser
    usage: list
    statuses: str
    more: str = ""
    sections: tuple = ()


class HelpAsked(Exception):
    """A command was asked for its help."""


# ---- the text of --help


def blocks(text):
    return [it for it in re.split(r"\n\s*\n", text.strip("\n")) if it.strip()]


def items_of(block):
    """The items of a list: each term, and its explanation, which follows it behind two spaces or
    more and in lines that begin farther in."""
    found = []
    for line in block.splitlines():
        if not line.startswith("   "):
            term, _, text = line.strip().partition("  ")
            found.append((term, [text]))
        else:
            found[-1][1].append(line)
    return [(term, " ".join(" ".join(texts).split())) for term, texts in found]


def described(text):
    """Paragraphs and lists, in roff."""
    made = ""
    for block in blocks(text):
        if block.startswith("  "):
            made += listed((f"\\fB{roff(term)}\\fR", it) for term, it in items_of(block))
        else:
            made += filled([" ".join(block.split())])
    return made


def marked(words):
    """A usage with options in bold and what stands for values in italics."""
    words = re.sub(r"(?<![\w\\])((?:\\-){1,2}[a-zA-Z][\w\\-]*)", r"\\fB\1\\fR", roff(words))
    return re.sub(r"\b([A-Z]+)\b(?!\\fR)", r"\\fI\1\\fR", words)


def option_items(asked):
    """The arguments of a command, options last, each with its help."""
    actions = [it for it in asked._actions if it.help != argparse.SUPPRESS]
    for action in sorted(actions, key=lambda it: bool(it.option_strings)):
        value = "" if action.nargs == 0 else value_of(action)
        names = ", ".join(f"\\fB{roff(it)}\\fR" for it in action.option_strings)
        yield " ".join(filter(None, [names, value])), action.help


def value_of(action):
    """What stands for the value of an option, or for an argument."""
    if action.choices:
        return "|".join(f"\\fB{roff(it)}\\fR" for it in action.choices)
    return f"\\fI{roff(action.metavar)}\\fR"


# ---- the commands


def reader_of(name):
    """The parser of the arguments of a command of bin/: that whose help the command prints."""
    command, asked = runpy.run_path(str(TOP / "bin" / name)), []

    def stop(made, file=None):
        asked.append(made)
        raise HelpAsked
    with patch.object(Reader, "print_help", stop):
        try:
            command["main"](["--help"])
        except HelpAsked:
            asked[0].prog = PREFIX + name
    return asked[0]


def of_bin(name):
    """A command of bin/."""
    asked = reader_of(name)
    usage = " ".join(asked.format_usage().removeprefix("usage: ").split())
    statuses = items_of(asked.epilog.partition("\n")[2])
    return Command(asked.prog, asked.description, asked, [usage], listed(statuses))


def section(title):
    """A section of docs/FORMATS.md, as plain text but for the marks of code."""
    text = re.search(rf"^## {title}\n(.*?)(?=^## |\Z)", FORMATS, re.M | re.S)[1]
    text = re.sub(r"\s*\(\[[^]]*\]\([^)]*\)\)|, see below(?= \|)", "", text)
    return re.sub(r"\[([^]]*)\]\([^)]*\)", r"\1", text)


def rows(title, first):
    """The rows of a table of docs/FORMATS.md, whose head begins with this cell."""
    table = re.search(rf"^\| {first} \|.*\n\|[-|]+\|\n((?:\|.*\n)+)", section(title), re.M)[1]
    return [[cell.strip().replace(r"\|", "|") for cell in re.split(r"(?<!\\)\|", line)[1:-1]]
            for line in table.splitlines()]


def table(title, first):
    """The same as a list: the first cell, and the last, which explains it."""
    return listed((roff(it[0]), it[-1]) for it in rows(title, first))


def program():
    """The program. Its options are those of the table in docs/FORMATS.md."""
    asked = reader(OF_PROGRAM, prog=PROGRAM)
    for name, values, usual, meaning in rows("The program", "Option"):
        option, _, value = name.strip("`").partition(" ")
        how = {"metavar": value} if value else {"action": "store_true"}
        more = f": {values} (default: {usual})" if values else ""
        asked.add_argument(option, help=meaning + more, **how)
    text = section("The program")
    usage = re.search(r"^```text\n(.*?)\n```", text, re.M | re.S)[1].splitlines()
    behind = re.search(r"^\| `--[^\n]*\n\n(.*?)\n\n\| Status", text, re.M | re.S)[1]
    traces = filled(["A trace has these lines:"]) + table("Traces", "Line")
    traces += filled(["Their fields are:"]) + table("Traces", "Field")
    reports = filled(["A report has one line for each line of the trace: its number, its first"
                      " word, and this:"]) + table("Reports", "Line")
    reports += filled(["A reply is one of these:"]) + table("Reports", "Reply")
    return Command(PROGRAM, OF_PROGRAM, asked, usage, table("The program", "Status"),
                   described(behind), (("TRACES", traces), ("REPORTS", reports)))


def usage_of_forwarder():
    """The lines of usage, the options and the paragraphs that the forwarder prints as its help."""
    sources = "".join(it.read_text() for it in sorted(EXAMPLE.glob("*.c")))
    literals = re.search(r'\bUSAGE\[\] =((?:\s*"[^"]*")+)', sources)[1]
    text = "".join(re.findall(r'"([^"]*)"', literals)).replace(r"\n", "\n")
    usage, others = re.fullmatch(r"usage: (.*?\n)((?:\n|  -).*)", text, re.S).groups()
    options = re.search(r"^ {2}-.*\n(?: {2}.*\n)*", others, re.M)[0]
    return re.sub(r"\n {10,}", " ", usage).splitlines(), options, others.replace(options, "\n")


def forwarder():
    """The forwarder. Its options are those of its help."""
    usage, options, paragraphs = usage_of_forwarder()
    asked = reader(OF_FORWARDER, FORWARDER_STATUSES, prog=FORWARDER)
    for term, meaning in items_of(options):
        *names, last = term.split(", ")
        option, _, value = last.partition(" ")
        how = {"metavar": value} if value else {"action": "store_true"}
        if option not in ("--help", "--version"):
            asked.add_argument(*names, option, help=meaning, **how)
    return Command(FORWARDER, OF_FORWARDER, asked,
                   [it.strip().replace("forwarder", FORWARDER, 1) for it in usage],
                   listed((str(it), meaning) for it, meaning in FORWARDER_STATUSES.items()),
                   described(paragraphs))


def commands():
    """The commands that an installed package has."""
    return [program(), *map(of_bin, INSTALLED), forwarder()]


# ---- pages


def command_page(command, names):
    """The page of a command."""
    doc = command.doc.replace("%(prog)s", command.name).replace("%%", "%")
    summary, _, text = doc.strip().partition("\n")
    text, _, examples = text.partition("\nExamples:\n")
    about = summary[0].lower() + summary[1:].rstrip(".")
    name = roff(command.name)
    usage = "\n.br\n".join(marked(it).replace(name, f"\\fB{name}\\fR", 1) for it in command.usage)
    others = [".BR rrcache (3)", *(f".BR {roff(it)} (1)" for it in names if it != command.name)]
    return page(command.name, 1, {
        "NAME": f"{name} \\- {roff(about)}\n",
        "SYNOPSIS": f"{usage}\n",
        "DESCRIPTION": described(text) + command.more,
        "OPTIONS": listed(option_items(command.reader)),
        **dict(command.sections),
        "EXIT STATUS": command.statuses,
        "EXAMPLES": "".join(f".PP\n{verbatim(line)}.RS 4\n{roff(it)}\n.RE\n"
                            for line, it in items_of(examples)),
        "SEE ALSO": " ,\n".join(others) + "\n"})


def command_pages():
    """The man pages of the commands by the names of their files."""
    found = commands()
    names = [it.name for it in found]
    return {f"{it.name}.1": command_page(it, names) for it in found}
