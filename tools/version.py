# SPDX-License-Identifier: MIT
"""The version of the C library, which the file VERSION has, and the name under which a program
looks for a shared library of that major version."""
from pathlib import Path

VERSION = (Path(__file__).resolve().parent.parent / "VERSION").read_text().strip()
SONAME = f"librrcache.so.{VERSION.split('.')[0]}"
