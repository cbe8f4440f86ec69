# SPDX-License-Identifier: MIT
"""The packages for Debian, which dpkg-deb makes of trees: the shared library, what compiles with
it, and the program with its commands."""
import os
import re
import subprocess
import tempfile
from datetime import datetime, timezone
from email.utils import format_datetime
from hashlib import md5
from pathlib import Path
from typing import NamedTuple

from tools.dist.documents import documents, examples
from tools.dist.files import (PROGRAM_MODE, TEXT_MODE, TOP, File, Tree, below, copy, folders,
                              template, text, write, zipped)
from tools.dist.library import MAJOR, development, man_pages, shared_library
from tools.dist.program import commands, help_of_commands
from tools.manual import pages
from tools.version import SONAME, VERSION

REVISION = f"{VERSION}-1"
LIBRARY, DEVELOPMENT, PROGRAM = f"librrcache{MAJOR}", "librrcache-dev", "rrcache"
PREFIX = "/usr"
# The version of the C library that has the functions of threads in itself, which what is linked
# here takes for granted.
THREADS = 2, 34
# One thread and several compress to other octets.
ONE_THREAD = {"DPKG_DEB_THREADS_MAX": "1"}
# Who answers for the packages, unless Debian's variables for it say otherwise.
NAME, ADDRESS = "rrcache authors", "rrcache@packages.example.org"
# Commands that Debian's packages name by this path.
PYTHON = b"#!/usr/bin/env python3\n", b"#!/usr/bin/python3\n"


class Machine(NamedTuple):
    """A processor that packages are made for: its name, Debian's name of it and of its folders, and
    how commands for it begin that are not this machine's own."""

    name: str
    architecture: str
    folder: str
    cross: str = ""

    @property
    def libdir(self):
        return f"{PREFIX}/lib/{self.folder}"


X86_64 = Machine("x86_64", "amd64", "x86_64-linux-gnu")
AARCH64 = Machine("aarch64", "arm64", "aarch64-linux-gnu", "aarch64-linux-gnu-")


def maintainer():
    name, address = os.environ.get("DEBFULLNAME") or NAME, os.environ.get("DEBEMAIL") or ADDRESS
    return address if "<" in address else f"{name} <{address}>"


def packed(it):
    """A document as Debian has it."""
    return File(zipped(it.octets), it.mode)


def needed_libc(compiled, machine):
    """The oldest version of the C library that compiled files run with."""
    found = [THREADS]
    for it in compiled:
        with tempfile.NamedTemporaryFile() as made:
            made.write(it.octets)
            made.flush()
            told = subprocess.run([f"{machine.cross}objdump", "-T", made.name], check=True,
                                  capture_output=True, text=True).stdout
        found += re.findall(r"GLIBC_(\d+)\.(\d+)", told)
    return ".".join(map(str, max((int(major), int(minor)) for major, minor in found)))


def with_packed_manual(tree) -> Tree:
    return {f"{path}.gz" if "/share/man/" in path else path:
            packed(it) if "/share/man/" in path else it for path, it in tree.items()}


def by_debians_python(tree) -> Tree:
    """Commands name Debian's Python, and not the first one of the user's path."""
    return {path: it._replace(octets=it.octets.replace(*PYTHON, 1)) if isinstance(it, File) else it
            for path, it in tree.items()}


def notices(name, moment) -> Tree:
    """What each package says of its license and its changes."""
    date = format_datetime(datetime.fromtimestamp(moment, timezone.utc))
    terms = (TOP / "LICENSE").read_text().partition("\n\n")[2].partition("\n\n")[2].strip()
    changed = template("debian/changelog", VERSION=REVISION, UPSTREAM=VERSION, DATE=date,
                       MAINTAINER=maintainer())
    folder = f"{PREFIX}/share/doc/{name}"
    return {f"{folder}/copyright": text(template("debian/copyright", LICENSE=terms)),
            f"{folder}/changelog.Debian.gz": packed(text(changed)),
            f"{folder}/changelog.gz": packed(copy(TOP / "CHANGELOG.md"))}


def kilobytes(tree):
    """What a package takes on a disk, as dpkg-gencontrol reckons it."""
    sizes = [len(it.octets) if isinstance(it, File) else 1 for it in tree.values()]
    return sum(-(-it // 1024) for it in sizes) + len(folders(tree))


def control(name, machine, tree, libc):
    """The package's paragraph of packaging/debian/control, with the values of this one."""
    told = template("debian/control", MAJOR=MAJOR, VERSION=REVISION, LIBC=libc,
                    ARCHITECTURE=machine.architecture, MAINTAINER=maintainer(),
                    SIZE=str(kilobytes(tree)))
    return text(re.search(rf"^Package: {name}\n(?:.+\n)+", told, re.M)[0])


def sums(tree):
    """The checksums that a package has of its files."""
    return text("".join(f"{md5(it.octets).hexdigest()}  {path.lstrip('/')}\n"
                        for path, it in sorted(tree.items()) if isinstance(it, File)))


def script(name):
    return text(template(f"debian/{name}"), PROGRAM_MODE)


def package(name, machine, tree, moment, folder, libc="", **controls):
    """Makes a package in a folder, and returns its path."""
    tree = {**with_packed_manual(tree), **notices(name, moment)}
    controls = {"control": control(name, machine, tree, libc), "md5sums": sums(tree), **controls}
    made = folder / f"{name}_{REVISION}_{machine.architecture}.deb"
    with tempfile.TemporaryDirectory() as room:
        root = Path(room, "root")
        write(root, {**{path.lstrip("/"): it for path, it in tree.items()},
                     **below("DEBIAN", controls)}, moment)
        subprocess.run(["dpkg-deb", "--root-owner-group", "-Zxz", "--build", root, made],
                       check=True, stdout=subprocess.DEVNULL,
                       env={**os.environ, **ONE_THREAD, "SOURCE_DATE_EPOCH": str(moment)})
    return made


def of_library(machine, shared, moment, folder):
    controls = {
        "shlibs": text(f"librrcache {MAJOR} {LIBRARY} (>= {VERSION})\n"),
        "symbols": text(template("debian/symbols", SONAME=SONAME, MAJOR=MAJOR)),
        "triggers": text("activate-noawait ldconfig\n"),
    }
    tree = shared_library(machine.libdir, shared._replace(mode=TEXT_MODE))
    return package(LIBRARY, machine, tree, moment, folder, needed_libc([shared], machine),
                   **controls)


def of_development(machine, archive, moment, folder):
    tree = {**development(PREFIX, machine.libdir, archive), **man_pages(PREFIX, pages()),
            **below(f"{PREFIX}/share/doc/{DEVELOPMENT}", examples())}
    return package(DEVELOPMENT, machine, tree, moment, folder)


def of_programs(machine, programs, proofs, moment, folder):
    told = {**documents(), **below("proofs", proofs)}
    del told["LICENSE"]  # `copyright` has it
    tree = {**below(f"{PREFIX}/bin", programs), **by_debians_python(commands(PREFIX)),
            **help_of_commands(PREFIX), **below(f"{PREFIX}/share/doc/{PROGRAM}", told)}
    scripts = {it: script(f"rrcache.{it}") for it in ("postinst", "prerm")}
    return package(PROGRAM, machine, tree, moment, folder, needed_libc(programs.values(), machine),
                   **scripts)
