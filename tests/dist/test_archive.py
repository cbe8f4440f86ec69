# SPDX-License-Identifier: MIT
"""The archive of compiled files, unpacked somewhere: examples, program and commands run from
there, with nothing of the repository."""
import re
import subprocess

import pytest

from tests.dist.clean_root import typed
from tests.install.places import (FIRST, HAS_CMAKE, HAS_PKG_CONFIG, LANGUAGES, LINKAGES, TOP, Place,
                                  said)
from tools.command_manual import INSTALLED
from tools.version import VERSION

ROW = TOP / "tests" / "rows" / "trust" / "first-trace"
CAPTURE = TOP / "tests" / "captures" / "small.pcap"


@HAS_PKG_CONFIG
@pytest.mark.parametrize("linkage", LINKAGES)
@pytest.mark.parametrize("language", LANGUAGES)
def test_example(language, linkage, unpacked, tmp_path):
    assert Place(unpacked).first(language, linkage, tmp_path) == FIRST


@HAS_PKG_CONFIG
def test_the_commands_of_the_document(release, tmp_path):
    """Those of docs/PACKAGES.md, as they are typed."""
    said("cp", *release.glob("*-x86_64-linux.tar.gz"), tmp_path)
    assert said("sh", "-ec", f"cd {tmp_path}\n{typed('x86_64-linux.tar.gz')}") == FIRST


@HAS_CMAKE
def test_cmake(unpacked, tmp_path):
    assert set(Place(unpacked).by_cmake(VERSION, tmp_path).values()) == {FIRST}


@HAS_PKG_CONFIG
def test_it_can_be_moved(unpacked, tmp_path):
    prefix = tmp_path / "a-folder" / "elsewhere"
    prefix.parent.mkdir()
    said("cp", "-a", unpacked, prefix)
    told = Place(prefix).told("--variable=includedir").strip()
    assert (prefix / "lib" / "pkgconfig" / told).resolve() == prefix / "include"


@HAS_PKG_CONFIG
def test_folder_with_a_space(unpacked, tmp_path):
    prefix = tmp_path / "a folder"
    said("cp", "-a", unpacked, prefix)
    assert Place(prefix).first("C", "shared", tmp_path) == FIRST


def alone(unpacked, command, *words, **more):
    """How a command of the unpacked folder ends, with no more in its environment than a path."""
    return subprocess.run([unpacked / "bin" / command, *words], capture_output=True, text=True,
                          cwd="/", env={"PATH": "/usr/bin:/bin"}, **more)


def test_program(unpacked):
    assert alone(unpacked, "rrcache", "--version").stdout.startswith(f"rrcache {VERSION}\n")
    with (ROW / "trace").open() as trace:
        ran = alone(unpacked, "rrcache", stdin=trace)
    assert (ran.returncode, ran.stdout) == (0, (ROW / "report").read_text())


def test_forwarder(unpacked):
    assert VERSION in alone(unpacked, "rrcache-forwarder", "--version").stdout


@pytest.mark.parametrize("command", INSTALLED)
def test_help(command, unpacked):
    told = alone(unpacked, f"rrcache-{command}", "--version")
    assert (told.stdout, told.stderr) == (f"rrcache-{command} {VERSION}\n", "")
    assert f"usage: rrcache-{command} " in alone(unpacked, f"rrcache-{command}", "--help").stdout


def test_why(unpacked):
    ran = alone(unpacked, "rrcache-why", "1", ROW / "trace")
    assert ran.returncode == 0 and "report: 1 ask fresh 1 www.Example." in ran.stdout


def test_what_if(unpacked):
    """The row has two asks, and both are answered by fresh data."""
    ran = alone(unpacked, "rrcache-what-if", "--capacity", "16", "--csv", ROW / "trace")
    [names, values] = [line.split(",") for line in ran.stdout.splitlines()]
    told = dict(zip(names, values))
    assert (ran.returncode, told["asks"], told["fresh"]) == (0, "2", "2")


def test_from_capture(unpacked):
    pytest.importorskip("dpkt", reason="bin/setup installs dpkt")
    ran = alone(unpacked, "rrcache-from-capture", CAPTURE)
    assert ran.returncode == 0 and re.search(r"^response \d+ ", ran.stdout, re.M)


def test_documents(unpacked):
    """Each document that a man page names is there."""
    for page in unpacked.glob("share/man/man*/*"):
        for name in re.findall(r"docs/([A-Z]+\.md)", page.read_text()):
            assert (unpacked / "share" / "doc" / "rrcache" / "docs" / name).exists()
