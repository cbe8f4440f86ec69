# SPDX-License-Identifier: MIT
"""What bin/from-capture, bin/what-if and bin/why have in common: files, the ranges of settings, and
how they show their progress."""
import errno
import os
import shutil
import sys
import tempfile
from contextlib import contextmanager, nullcontext

from tools import trials
from tools.commands import whole_number
from tools.model import NEGATIVE_CAP

STANDARD_INPUT = "-"
# Those of the program's options, and of the TTL of negative answers.
RANGES = {**trials.RANGES, "negative": (0, NEGATIVE_CAP)}


def number(setting):
    """What reads one value of a setting."""
    return whole_number(*RANGES[setting])


def show(text):
    """Shows on a terminal how far a command is, in place of what it showed before."""
    if sys.stderr.isatty():
        print(f"\r{text}\033[K", end="", file=sys.stderr, flush=True)


def is_same(path, other):
    """Whether two paths are of one file, which is there."""
    return os.path.exists(path) and os.path.exists(other) and os.path.samefile(path, other)


def name_of(path):
    """What a file is called in messages."""
    return "standard input" if path == STANDARD_INPUT else path


@contextmanager
def opened(path):
    """A file, or standard input, which is read once and never sought in. If nothing can be read of
    it, as of a folder, the fault names it."""
    is_input = path == STANDARD_INPUT
    if is_input and sys.stdin is None:
        raise OSError(errno.EBADF, os.strerror(errno.EBADF), name_of(path))
    with nullcontext(sys.stdin.buffer) if is_input else open(path, "rb") as stream:
        try:
            stream.peek(1)
        except OSError as fault:
            raise OSError(fault.errno, fault.strerror, name_of(path)) from fault
        yield stream


@contextmanager
def file_of(trace):
    """The path of a trace, which is read more than once: that of a copy if it is no regular file.
    """
    if trace != STANDARD_INPUT and os.path.isfile(trace):
        with opened(trace):
            pass
        yield trace
        return
    with tempfile.NamedTemporaryFile() as copy:
        with opened(trace) as stream:
            shutil.copyfileobj(stream, copy)
        copy.flush()
        yield copy.name
