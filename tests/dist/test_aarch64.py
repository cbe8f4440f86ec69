# SPDX-License-Identifier: MIT
"""What a release has for aarch64, under an emulator: the tests in C pass with the library of the
archive, and the example with that of the packages. It is collected only if `bin/dist --for-aarch64`
was run."""
import shutil
import subprocess

import pytest

from tests.c.builds import FLAGS, run
from tests.install.places import EXAMPLES, FIRST, TOP, said

TRIPLE = "aarch64-linux-gnu"
ROOT = f"/usr/{TRIPLE}"
EMULATED = ["qemu-aarch64", "-L", ROOT]
pytestmark = pytest.mark.skipif(
    not (shutil.which("qemu-aarch64") and shutil.which(f"{TRIPLE}-gcc")),
    reason="there is no emulator or compiler here: Debian's qemu-user and gcc-aarch64-linux-gnu")


@pytest.fixture(scope="module")
def place(release, tmp_path_factory):
    """The unpacked archive."""
    [archive] = release.glob("*-aarch64-linux.tar.gz")
    folder = tmp_path_factory.mktemp("aarch64")
    subprocess.run(["tar", "-xzf", archive, "-C", folder], check=True)
    [root] = folder.iterdir()
    return root


def script(folder, program, *words):
    """A program that runs another one under the emulator."""
    made = folder / "run"
    made.write_text(f'#!/bin/sh\nexec {" ".join([*EMULATED, *words])} {program}\n')
    made.chmod(0o755)
    return made


def program(name, place, folder):
    """A file of tests/c, compiled with the archive of the library."""
    words = [f"-I{place}/include" if it.startswith("-I") else it for it in FLAGS]
    made = folder / "program"
    said(f"{TRIPLE}-gcc", "-std=c11", *words, TOP / "tests" / "c" / name,
         place / "lib" / "librrcache.a", "-o", made)
    return made


@pytest.mark.parametrize("name", ["tests.c", "cache_tests.c"])
def test_library(name, place, tmp_path, capsys):
    run(script(tmp_path, program(name, place, tmp_path)), "aarch64", capsys)


@pytest.mark.parametrize("cache", [["1", "small"], ["8", "large"]])
def test_threads(cache, place, tmp_path):
    """Eight threads for two seconds, with 1 or 8 shelves that record."""
    made = program("cache_threads.c", place, tmp_path)
    seconds, rounds, record = "2", str(1 << 60), "1"
    assert " faults 0\n" in said(*EMULATED, made, seconds, rounds, *cache, record, tmp_path)


def test_packages(release, tmp_path):
    root = tmp_path / "root"
    for name in ("librrcache2", "librrcache-dev"):
        [package] = release.glob(f"{name}_*_arm64.deb")
        said("dpkg-deb", "--extract", package, root)
    lib = root / "usr" / "lib" / TRIPLE
    said(f"{TRIPLE}-gcc", EXAMPLES / "first.c", f"-I{root}/usr/include", f"-L{lib}", "-lrrcache",
         "-o", tmp_path / "first")
    assert said(*EMULATED, "-E", f"LD_LIBRARY_PATH={lib}", tmp_path / "first") == FIRST
