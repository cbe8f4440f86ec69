# SPDX-License-Identifier: MIT
"""The files of a release: archives, packages for Debian and for Python, and their checksums."""
import hashlib
import os
import shutil
import subprocess
from pathlib import Path
from tempfile import TemporaryDirectory
from unittest import mock

import backend  # of python/, which tools/ has on its path
from tools.dist.documents import documents, examples
from tools.dist.files import TOP, Missing, Tree, below, tarball, template, text
from tools.dist.library import SHARED, library
from tools.dist.program import commands, help_of_commands
from tools.version import VERSION

EPOCH = "SOURCE_DATE_EPOCH"


def moment():
    """The time of all that is packed: that of the last commit, if the environment has no other."""
    if named := os.environ.get(EPOCH):
        if not named.isdigit():
            raise Missing(f"{EPOCH} has to be a number of seconds, not {named!r}")
        return int(named)
    told = subprocess.run(["git", "log", "-1", "--format=%ct"], cwd=TOP, capture_output=True,
                          text=True)
    if told.returncode:
        raise Missing(f"there is no commit here, so {EPOCH} has to name the time of the release")
    return int(told.stdout)


def library_below(root, archive, shared) -> Tree:
    """The library in a folder that can be moved. The words that name this folder are not quoted,
    since pkgconf has already escaped the spaces of `pcfiledir`."""
    pc = template("rrcache.pc", PREFIX="${pcfiledir}/../..", LIBDIR="${prefix}/lib",
                  VERSION=VERSION).replace('"', "")
    return {**library(root, f"{root}/lib", archive, shared),
            f"{root}/lib/pkgconfig/rrcache.pc": text(pc)}


def compiled(machine, archive, shared, programs, proofs) -> Tree:
    """What the archive of compiled files has: the library, the programs if there are any, and the
    documents, all below one folder."""
    root = f"rrcache-{VERSION}-{machine}-linux"
    told = {**documents(), **examples(), **below("proofs", proofs)}
    tree = {**library_below(root, archive, shared),
            **below(f"{root}/share/doc/rrcache", told),
            f"{root}/README": text(template("README", VERSION=VERSION, MACHINE=machine)),
            f"{root}/LICENSE": told["LICENSE"]}
    if programs:
        tree |= {**below(f"{root}/bin", programs), **commands(root), **help_of_commands(root)}
    return tree


def wheel(shared, folder):
    """Makes the Python package, with this library."""
    with TemporaryDirectory() as room:
        named = Path(room, SHARED)
        named.write_bytes(shared.octets)
        with mock.patch.dict(os.environ, RRCACHE_LIBRARY=str(named)):
            return folder / backend.build_wheel(str(folder))


def page(file, folder):
    """Puts the page that bin/build-page made into a folder."""
    if not file.is_file():
        raise Missing(f"there is no {file}: bin/build-page makes the page")
    return Path(shutil.copyfile(file, folder / f"rrcache-{VERSION}-try.html"))


def archive_of(tree, folder, at, end=""):
    """Packs a tree, all of which is below one folder, under that folder's name and this end."""
    [root] = {it.split("/")[0] for it in tree}
    made = folder / f"{root}{end}.tar.gz"
    made.write_bytes(tarball(tree, at))
    return made


def checksums(files):
    """What `sha256sum --check` reads."""
    return "".join(f"{hashlib.sha256(it.read_bytes()).hexdigest()}  {it.name}\n"
                   for it in sorted(files))
