# SPDX-License-Identifier: MIT
"""docs/PERFORMANCE.md, of which each suite with a TITLE writes a section of its own."""
import os
import re
import textwrap
from pathlib import Path

from bench.setup import TOP

PAGE = TOP / "docs" / "PERFORMANCE.md"


def machine():
    """What the machine is, in words."""
    models = re.findall(r"^model name\s*: (.*)$", Path("/proc/cpuinfo").read_text(), re.MULTILINE)
    size = os.sysconf("SC_PAGE_SIZE") * os.sysconf("SC_PHYS_PAGES")
    kind = models[0] if models else os.uname().machine
    return f"{os.cpu_count()} processors ({kind}) and {round(size / 2**30)} GiB of memory"


def of_threads(count):
    return f"{count} {'thread' if count == 1 else 'threads'}"


def table(head, rows):
    """A table of these cells."""
    lines = [f"| {' | '.join(map(str, row))} |" for row in (head, *rows)]
    return "\n".join([lines[0], "|" + "---|" * len(head), *lines[1:]])


def filled(text):
    """A text in lines of at most 100 columns, none of which ends within code."""
    whole = re.sub("`.*?`", lambda it: it[0].replace(" ", "\0"), text)
    return textwrap.fill(whole, 100, break_on_hyphens=False).replace("\0", " ")


def write_section(args, title, text, *parts):
    """Where the words of a suite ask for it, puts a section in the place of the one with this
    title, or behind all others: what wrote it and where, with this text behind that, and then
    these parts."""
    if not args.write:
        return
    text = (f"`bench/run {args.suite} --write` wrote this section on a machine with "
            f"{machine()}{text}")
    section = "\n\n".join([f"## {title}", filled(text), *parts]) + "\n"
    before, *sections = re.split(r"^(?=## )", PAGE.read_text(), flags=re.MULTILINE)
    found = {it.split("\n", 1)[0][3:]: it.rstrip("\n") + "\n" for it in sections} | {title: section}
    PAGE.write_text("\n".join([before.rstrip("\n") + "\n", *found.values()]))
