# SPDX-License-Identifier: MIT
"""The sources of a release, of which a C compiler, binutils and make alone build the library, for
this machine or another one, and the Rust crate."""
import re
import subprocess
from pathlib import Path
from tempfile import TemporaryDirectory

from tools.dist.files import (PROGRAM_MODE, TEXT_MODE, TOP, File, Tree, below, copy, listed, text,
                              write)

MAKEFILE = "packaging/Makefile"
PROVED = "proved"


def exports(shared):
    """The names that a shared library exports, a line each."""
    told = subprocess.run(["nm", "-D", "--defined-only", shared], check=True, capture_output=True,
                          text=True).stdout
    return "".join(f"{it}\n" for it in sorted(re.findall(r" T (\w+)$", told, re.M)))


def proved(shared, assemblers) -> Tree:
    """What stands for the kit: the proved code in assembler, by machine, and what is exported."""
    return {f"{PROVED}/exports": text(exports(shared)),
            **{f"{PROVED}/rrc_c-{machine}.s": File(it) for machine, it in assemblers.items()}}


def sources(root, shared, assemblers) -> Tree:
    """The repository's files below a folder, with the proved code in assembler by machine."""
    modes = {it: PROGRAM_MODE if (TOP / it).stat().st_mode & 0o100 else TEXT_MODE
             for it in listed()}
    return below(root, {**{it: copy(TOP / it, mode) for it, mode in modes.items()},
                        "Makefile": copy(TOP / MAKEFILE), **proved(shared, assemblers)})


def crate(root) -> Tree:
    """The Rust crate below a folder, without the tests that need the repository around it."""
    named = [it for it in listed() if it.startswith("rust/") and not it.startswith("rust/tests/")]
    return below(root, {**{it.removeprefix("rust/"): copy(TOP / it) for it in named},
                        "LICENSE": copy(TOP / "LICENSE")})


def built(folder, shared, assemblers, cross):
    """Builds the library in a folder by another machine's compiler."""
    with TemporaryDirectory() as room:
        write(Path(room), proved(shared, assemblers), 0)
        subprocess.run(["make", "--silent", "-f", MAKEFILE, f"CC={cross}gcc", f"CROSS={cross}",
                        f"BUILD={folder}", f"PROVED={room}/{PROVED}"], cwd=TOP, check=True)
