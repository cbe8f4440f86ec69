# SPDX-License-Identifier: MIT
"""The Rattle kit's command `rt` as a module, for bin/build and tools/proof-times.

It says which crates there are, lowest first, with which words each is checked and how much memory
that takes, so that no word of the prover's command line is repeated here. Nothing of it is
replaced.
"""
import importlib.machinery
import importlib.util
import shutil
import sys
from pathlib import Path

TOP = Path(__file__).resolve().parent.parent


class NoKit(Exception):
    """There is no kit on this machine."""


def load():
    """The kit's command `rt`, loaded as a module."""
    command = shutil.which("rt")
    if command is None:
        raise NoKit("the Rattle kit is not installed: there is no command rt")
    loader = importlib.machinery.SourceFileLoader("rt", str(Path(command).resolve()))
    module = importlib.util.module_from_spec(importlib.util.spec_from_loader("rt", loader))
    wrote, sys.dont_write_bytecode = sys.dont_write_bytecode, True
    loader.exec_module(module)
    sys.dont_write_bytecode = wrote
    return module


def is_left_by_ci(crate):
    """Whether a crate has a library as `rt ci` leaves it, with no stamp, that came to its place
    behind all of its sources."""
    made, folder = Path(crate.rlib), Path(crate.folder)
    if not (made / "format").is_file() or (made.parent / "stamp").exists():
        return False
    sources = [it for part in ("src", "specs", "proofs") for it in (folder / part).rglob("*")]
    # The time of the folder, since what is in it may be an older file of another checkout, of which
    # `rt ci` knows that it is the same.
    moment = made.stat().st_mtime
    return all(it.stat().st_mtime <= moment for it in [TOP / "crates.txt", *sources])


def made_by_ci(crate):
    """Whether a crate and all crates below it have such libraries. If a crate below has changed
    since, or was built again, the library was made over another one than the one that is there."""
    return all(map(is_left_by_ci, [*crate.below(), crate]))


def stamp_of(rt, crate, stamp):
    """The file beside a program, or the archive of a static library, that tells what it was made
    of, and what it says where that were files of this stamp and nothing changed since."""
    made = f"{crate.folder}/out/{crate.name if crate.is_program else f'lib{crate.name}.a'}"
    return f"{made}.stamp", stamp + rt.rtlib.sum_of(made)


def is_made(rt, crate):
    """Whether the program or the archive stands there that was made of a crate's present files,
    once they were proved."""
    path, wanted = stamp_of(rt, crate, crate.stamp())
    return rt.rtlib.text_of(path) == wanted


def stamp_archive(rt, crate, stamp):
    """Writes beside the archive of a static library what `rt run` writes beside a program."""
    path, text = stamp_of(rt, crate, stamp)
    Path(path).write_text(text)
