# SPDX-License-Identifier: MIT
"""The sources of a release, built by make and installed: the tests in C pass, also if memory is
refused, the example runs, and the assembler is the code of the archive that the kit made."""
import os
import re
import subprocess

import pytest

from tests.c.builds import built, run
from tests.install.places import FIRST, HAS_PKG_CONFIG, LINKAGES, TOP, Place, said
from tools.dist import modules


@pytest.fixture(scope="module")
def source(release, tmp_path_factory):
    """The folder in which make built the library, with none of the kit's commands on its path."""
    archives = [*release.glob("*-src.tar.gz")]
    if not archives:
        pytest.skip(f"there is no {modules.assembler()}: bin/build rrc_c makes it anew")
    folder = tmp_path_factory.mktemp("source")
    subprocess.run(["tar", "-xzf", *archives, "-C", folder], check=True)
    [root] = folder.iterdir()
    said("make", "-C", root, f"-j{os.cpu_count()}", "--silent", PATH="/usr/bin:/bin")
    return root


def test_library(source, tmp_path, capsys):
    run(built("tests.c", "refused", source / "build", tmp_path), "refused", capsys)


@HAS_PKG_CONFIG
@pytest.mark.parametrize("linkage", LINKAGES)
def test_example(linkage, source, tmp_path):
    said(source / "bin" / "install-c", tmp_path / "installed")
    assert Place(tmp_path / "installed").first("C", linkage, tmp_path) == FIRST


# What an assembler pads code with, and how far behind a name a jump leads, which padding changes.
PADDING = re.compile(r"\s+((data16|cs) )*(nop|xchg +%ax,%ax)")
DISTANCE = re.compile(r"\+0x[0-9a-f]+>")


def instructions(*words):
    """The code of an object, an instruction a line, without padding."""
    told = said("objdump", "-d", "--no-addresses", "--no-show-raw-insn", *words).splitlines()
    return [DISTANCE.sub(">", it) for it in told
            if it and not PADDING.match(it) and "file format" not in it]


def test_code(source, tmp_path):
    """The object of the archive that the kit made and that of its assembler are the same code."""
    said("ar", "x", "--output", tmp_path, TOP / "crates" / "rrc_c" / "out" / "librrc_c.a")
    [compiled] = tmp_path.iterdir()
    assert instructions(compiled) == instructions(source / "build" / "rrc_c.o")
