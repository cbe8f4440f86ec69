# SPDX-License-Identifier: MIT
"""Debian's libraries for Python, which apt-get installs for Debian's own Python alone."""
import importlib.util
import os
import sys
from pathlib import Path

DEBIAN = "/usr/bin/python3"
AGAIN = "RRCACHE_TOOL_AGAIN"


def has(module):
    return importlib.util.find_spec(module) is not None


def go_to_debian(module):
    """Goes on in Debian's Python, if this one lacks a library."""
    if not has(module) and os.path.exists(DEBIAN) and not os.environ.get(AGAIN):
        os.environ[AGAIN] = "1"
        os.execv(DEBIAN, [DEBIAN, *sys.argv])


def needs(module, package):
    """Ends the command with one line, if a library is in neither."""
    go_to_debian(module)
    if not has(module):
        sys.exit(f"{Path(sys.argv[0]).name}: {sys.executable} has no {module}:"
                 f" apt-get install {package}, or pip install {module}")
