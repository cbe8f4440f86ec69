# SPDX-License-Identifier: MIT
"""What is installed of the program and the forwarder: both compiled, the commands that need no
Rattle kit, the Python that these need, the man pages of section 1 and the completion for bash."""
import posixpath
import subprocess
from modulefinder import ModuleFinder
from pathlib import Path
from tempfile import TemporaryDirectory

from tools.command_manual import FORWARDER, INSTALLED, PREFIX, command_pages
from tools.completion import completion
from tools.dist.files import PROGRAM_MODE, TOP, Link, Tree, copy, required, stripped, text
from tools.dist.library import man_pages

PROGRAM = TOP / "crates" / "rrcache" / "out" / "rrcache"
COMPILED = ["-std=gnu11", "-D_GNU_SOURCE", "-O2", "-D_FORTIFY_SOURCE=2", "-fstack-protector-strong",
            "-pie", "-fPIE", "-pthread", "-Wl,-z,relro,-z,now"]


def forwarder(archive):
    """The forwarder of examples/, with the library in it."""
    sources = sorted(TOP.glob("examples/forwarder/*.c"))
    with TemporaryDirectory() as folder:
        made = Path(folder, FORWARDER)
        subprocess.run(["cc", *COMPILED, "-Iinclude", *sources, archive, "-o", made], cwd=TOP,
                       check=True)
        return stripped(made, "--strip-unneeded", mode=PROGRAM_MODE)


def programs(archive) -> Tree:
    """What is compiled of a package, by name."""
    program = required(PROGRAM, "bin/build")
    return {"rrcache": stripped(program, "--strip-unneeded", mode=PROGRAM_MODE),
            FORWARDER: forwarder(archive)}


def sources(command):
    """The repository's files of Python that a command imports."""
    finder = ModuleFinder([str(TOP), str(TOP / "python")])
    finder.run_script(str(TOP / "bin" / command))
    return {it.__file__ for it in finder.modules.values() if it.__file__}


def commands(prefix) -> Tree:
    """The commands, in a folder that is laid out as the repository, with links to them from where
    the program is."""
    home = f"{prefix}/share/rrcache"
    back = posixpath.relpath(f"{prefix}/bin", f"{home}/bin")
    tree: Tree = {f"{home}/VERSION": copy(TOP / "VERSION"),
                  f"{home}/bin/rrcache": Link(f"{back}/rrcache")}
    for name in INSTALLED:
        tree[f"{home}/bin/{name}"] = copy(TOP / "bin" / name, PROGRAM_MODE)
        tree[f"{prefix}/bin/{PREFIX}{name}"] = Link(f"../share/rrcache/bin/{name}")
    for path in set.union(*map(sources, INSTALLED)):
        name = posixpath.relpath(path, TOP)
        if not name.startswith("bin/"):
            tree[f"{home}/{name}"] = copy(TOP / name)
    return tree


def help_of_commands(prefix) -> Tree:
    """Man pages of section 1 and the completion for bash."""
    folder = f"{prefix}/share/bash-completion/completions"
    names = [*(f"{PREFIX}{it}" for it in INSTALLED), FORWARDER]
    return {**man_pages(prefix, command_pages()), f"{folder}/rrcache": text(completion()),
            **{f"{folder}/{it}": Link("rrcache") for it in names}}
