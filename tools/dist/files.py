# SPDX-License-Identifier: MIT
"""Files and links by their paths, as they are installed and packed.

A `Tree` has no folders: those above its files are made as they are needed. What is packed depends
on paths, octets, modes and the moment alone, so that the same sources give the same octets.
"""
import gzip
import io
import os
import shutil
import subprocess
import tarfile
import tempfile
from pathlib import Path, PurePosixPath
from typing import NamedTuple, Union

TOP = Path(__file__).resolve().parents[2]
FOLDER_MODE, TEXT_MODE, PROGRAM_MODE = 0o755, 0o644, 0o755


class File(NamedTuple):
    """What a file has, and its mode."""

    octets: bytes
    mode: int = TEXT_MODE


class Link(NamedTuple):
    """A symbolic link, and where it leads."""

    target: str


# By path, with / between its parts. (bin/install-c also runs under Python 3.9, which has no `|`.)
Tree = dict[str, Union[File, Link]]


class Missing(Exception):
    """Something is not there that has to be packed or installed; the text says what makes it."""


def git(*words):
    """What git prints of the repository."""
    return subprocess.run(["git", *words], cwd=TOP, check=True, capture_output=True,
                          text=True).stdout


def listed():
    """The repository's files. Others that lie beside them are packed nowhere."""
    return [it for it in git("ls-files", "-z").split("\0") if it and (TOP / it).is_file()]


def text(told, mode=TEXT_MODE):
    """A file of this text."""
    return File(told.encode(), mode)


def copy(path, mode=TEXT_MODE):
    """A file as it is in the repository."""
    return File(path.read_bytes(), mode)


def template(name, **values):
    """A text of packaging/, with these values in place of their names between @ signs."""
    told = (TOP / "packaging" / name).read_text()
    for key, value in values.items():
        told = told.replace(f"@{key}@", value)
    return told


def required(path, made_by):
    """A path, of which a command makes the file that has to be there."""
    if not path.is_file():
        raise Missing(f"there is no {os.path.relpath(path, TOP)}: {made_by} makes it")
    return path


def stripped(path, *words, cross="", mode=TEXT_MODE):
    """A compiled file without what `strip` removes by these words."""
    with tempfile.TemporaryDirectory() as folder:
        made = Path(shutil.copy(path, folder))
        subprocess.run([f"{cross}strip", *words, made], check=True)
        return copy(made, mode)


def below(folder, tree):
    """A tree with its paths below a folder."""
    return {f"{folder}/{path}": it for path, it in tree.items()}


def folders(tree):
    """The folders above the files of a tree, each behind the one that it is in."""
    found = {str(it) for path in tree for it in PurePosixPath(path).parents}
    return sorted(found - {".", "/"})


def put(path, it):
    """Installs a file or a link as `install` does: a new one takes the place of the old one at
    once. If that fails, nothing is left of the new one."""
    new = path.with_name(f".{path.name}.new")
    new.unlink(missing_ok=True)
    try:
        if isinstance(it, Link):
            new.symlink_to(it.target)
        else:
            new.write_bytes(it.octets)
            new.chmod(it.mode)
        new.replace(path)
    finally:
        new.unlink(missing_ok=True)


def write(root, tree, moment):
    """Writes a tree below a folder, with the modes and the times that it is packed with."""
    for folder in ("", *folders(tree)):
        (root / folder).mkdir(exist_ok=True)
        (root / folder).chmod(FOLDER_MODE)
    for path, it in tree.items():
        put(root / path, it)
    for path in [*tree, *reversed(folders(tree)), ""]:
        os.utime(root / path, (moment, moment), follow_symlinks=False)


def member(path, it, moment):
    """What a tar archive has of a file, of a link, or of a folder, where `it` is None."""
    made = tarfile.TarInfo(path)
    made.mtime = moment
    if it is None:
        made.type, made.mode = tarfile.DIRTYPE, FOLDER_MODE
    elif isinstance(it, Link):
        made.type, made.mode, made.linkname = tarfile.SYMTYPE, 0o777, it.target
    else:
        made.size, made.mode = len(it.octets), it.mode
    return made


def zipped(octets):
    """Octets in the form of gzip, with neither name nor time, as of `gzip -9n`."""
    made = io.BytesIO()
    with gzip.GzipFile("", "wb", 9, made, mtime=0) as stream:
        stream.write(octets)
    return made.getvalue()


def tarball(tree, moment):
    """The octets of a .tar.gz of a tree."""
    made = io.BytesIO()
    entries = {**tree, **dict.fromkeys(folders(tree))}
    with tarfile.open(fileobj=made, mode="w", format=tarfile.GNU_FORMAT) as archive:
        for path, it in sorted(entries.items()):
            octets = io.BytesIO(it.octets) if isinstance(it, File) else None
            archive.addfile(member(path, it, moment), octets)
    return zipped(made.getvalue())
