# SPDX-License-Identifier: MIT
"""The rows, tests/rows/TOPIC/NAME: traces with the answers that the program has to give
(tests/rows/README.md)."""
import re
from pathlib import Path

ROWS = Path(__file__).resolve().parent.parent / "tests" / "rows"


class RepeatedName(Exception):
    """Two topics have a row of one name."""


def rows():
    """The folders of all rows by their names, in the order of names."""
    found = {}
    for row in sorted((it for it in ROWS.glob("*/*") if it.is_dir()), key=lambda it: it.name):
        if found.setdefault(row.name, row) != row:
            raise RepeatedName(f"{found[row.name]} and {row} have one name")
    return found


def content(row, name, default=b""):
    """What a file of a row has, if it is there."""
    path = row / name
    return path.read_bytes() if path.exists() else default


def traces_of(row):
    """The traces that a row is about: one, or each line of it alone."""
    text = content(row, "trace")
    if (row / "each").exists():
        return re.findall(rb"[^\n]*\n|[^\n]+$", text)
    return [text * int(content(row, "repeat", b"1"))]


def options_of(row):
    """The options of a row that its report depends on."""
    found = re.findall(r"--(capacity|parts|stale)[\s=](\d+)", content(row, "args").decode())
    return {name: int(value) for name, value in found}
