# SPDX-License-Identifier: MIT
"""What a release has, as those see it who pack it further: its license is in each file of it, modes
and owners are those of a system's files, programs and libraries name no folder of the machine that
made them, and only files of the repository are packed."""
import io
import re
import subprocess
import tarfile
import zipfile
from pathlib import Path, PurePosixPath
from typing import NamedTuple

import pytest

from tests.install.places import TOP, said

# What LICENSE has, and `copyright` of a package.
TERMS = "Permission is hereby granted, free of charge"


class Packed(NamedTuple):
    """A file or a folder that is packed: its octets if it is a file, its mode, and its owner's and
    its group's numbers."""

    octets: bytes | None
    mode: int
    owners: tuple[int, int] = (0, 0)


def of_tar(stream):
    """What is in a tar archive but for links, by path."""
    with tarfile.open(fileobj=stream) as archive:
        return {it.name: Packed(archive.extractfile(it).read() if it.isfile() else None, it.mode,
                                (it.uid, it.gid)) for it in archive if not it.issym()}


def of_zip(path):
    with zipfile.ZipFile(path) as archive:
        return {it.filename: Packed(archive.read(it), it.external_attr >> 16 & 0o7777)
                for it in archive.infolist()}


def of_package(path):
    told = subprocess.run(["dpkg-deb", "--fsys-tarfile", path], check=True, capture_output=True)
    return of_tar(io.BytesIO(told.stdout))


READERS = {".gz": lambda path: of_tar(path.open("rb")), ".whl": of_zip, ".deb": of_package}


@pytest.fixture(scope="module")
def packed(release):
    """What each file of the release has that has others in it."""
    return {it.name: READERS[it.suffix](it) for it in release.iterdir() if it.suffix in READERS}


def test_license(packed):
    lacking = [name for name, files in packed.items()
               if not any(PurePosixPath(path).name in ("LICENSE", "copyright")
                          and TERMS in it.octets.decode()
                          for path, it in files.items() if it.octets is not None)]
    assert len(packed) >= 6 and lacking == []


def modes(path, octets):
    """The modes that a file may have, or a folder, which has no octets: what is in bin/ runs, and
    elsewhere scripts and what is compiled may."""
    if octets is None:
        return [0o755]
    if not octets.startswith((b"#!", b"\x7fELF")):
        return [0o644]
    return [0o755] if "/bin/" in path else [0o755, 0o644]


def test_modes(packed):
    """None but root writes anything, and all may read it."""
    for files in packed.values():
        for path, it in files.items():
            assert it.mode in modes(path, it.octets) and it.owners == (0, 0), (path, it.mode)


def test_compiled(packed, tmp_path):
    """Nothing compiled looks for libraries in folders of its own, has code that is written to, or
    names the folders in which it was made."""
    compiled = [it.octets for files in packed.values() for it in files.values()
                if it.octets and it.octets.startswith(b"\x7fELF")]
    assert len(compiled) >= 6
    for octets in compiled:
        (tmp_path / "it").write_bytes(octets)
        told = said("readelf", "-dlW", tmp_path / "it")
        assert not re.search(r"RPATH|RUNPATH|TEXTREL|GNU_STACK.* RWE ", told), told
        assert [it for it in (TOP, Path.home()) if bytes(it) in octets] == []
