# SPDX-License-Identifier: MIT
"""The packages for Debian, installed by dpkg to a fresh root: the example is compiled with them,
the program runs, lintian finds no error, and nothing is left once they are purged."""
import os
import re
import shutil
import subprocess
from pathlib import Path

import pytest

from tests.install.places import (FIRST, HAS_CMAKE, HAS_PKG_CONFIG, LANGUAGES, LINKAGES, TOP, Place,
                                  said)
from tools.command_manual import INSTALLED
from tools.dist.files import template
from tools.version import SONAME, VERSION

NAMES = ["librrcache2", "librrcache-dev", "rrcache"]
LIB = "lib/x86_64-linux-gnu"
pytestmark = pytest.mark.skipif(shutil.which("dpkg-deb") is None, reason="there is no dpkg-deb")


def dpkg(root, *words):
    """What dpkg says with a root of its own, in which no other package is, so that their scripts
    run outside of it."""
    return said("dpkg", f"--root={root}", f"--log={root}/log", "--force-not-root",
                "--force-depends", "--force-script-chrootless", *words)


def below(root):
    return {str(it.relative_to(root)) for it in root.rglob("*")}


@pytest.fixture(scope="module")
def packages(release):
    return [next(release.glob(f"{it}_*_amd64.deb")) for it in NAMES]


@pytest.fixture(scope="module")
def root(packages, tmp_path_factory):
    if os.geteuid():
        pytest.skip("dpkg installs as root alone")
    made = tmp_path_factory.mktemp("root")
    for name in ("info", "updates", "triggers"):
        (made / "var" / "lib" / "dpkg" / name).mkdir(parents=True)
    for name in ("status", "available"):
        (made / "var" / "lib" / "dpkg" / name).touch()
    dpkg(made, "--install", *packages)
    return made


@HAS_PKG_CONFIG
@pytest.mark.parametrize("linkage", LINKAGES)
@pytest.mark.parametrize("language", LANGUAGES)
def test_example(language, linkage, root, tmp_path):
    assert Place(root / "usr", LIB, root).first(language, linkage, tmp_path) == FIRST


@HAS_CMAKE
def test_cmake(root, tmp_path):
    assert set(Place(root / "usr", LIB).by_cmake(VERSION, tmp_path).values()) == {FIRST}


def test_program(root):
    for command in ("rrcache", *(f"rrcache-{it}" for it in INSTALLED)):
        told = said(root / "usr" / "bin" / command, "--version")
        assert told.startswith(f"{command} {VERSION}\n")


def test_removal_leaves_nothing_that_python_wrote(tmp_path):
    """It succeeds even if the folder is gone."""
    made = tmp_path / "usr" / "share" / "rrcache" / "tools" / "__pycache__"
    made.mkdir(parents=True)
    for _ in range(2):
        subprocess.run(["sh", TOP / "packaging" / "debian" / "rrcache.prerm", "remove"], check=True,
                       env={**os.environ, "DPKG_ROOT": str(tmp_path)})
        assert not made.exists()
        shutil.rmtree(tmp_path / "usr", ignore_errors=True)


def test_symbols(root):
    """Those that a package says that the library has are those that it exports."""
    told = template("debian/symbols", SONAME=SONAME, MAJOR=VERSION.split(".")[0])
    exported = said("nm", "-D", "--defined-only", root / "usr" / LIB / SONAME)
    assert set(re.findall(r"^ (\w+)@Base [\d.]+$", told, re.M)) == \
        set(re.findall(r" T (\w+)$", exported, re.M))


def test_control(packages):
    for package, name in zip(packages, NAMES):
        told = said("dpkg-deb", "--field", package, "Package", "Version", "Architecture")
        assert told == f"Package: {name}\nVersion: {VERSION}-1\nArchitecture: amd64\n"
        assert "@" not in re.sub(r"<[^>]*>", "", said("dpkg-deb", "--field", package))


def test_no_two_packages_have_one_file(packages):
    paths = [line.split(maxsplit=5)[5].split(" -> ")[0] for package in packages
             for line in said("dpkg-deb", "--contents", package).splitlines()
             if not line.startswith("d")]
    assert len(paths) == len(set(paths))


def test_they_can_be_installed_together_here(packages):
    """On this machine apt-get finds all that they depend on."""
    if not (shutil.which("apt-get") and Path("/var/lib/dpkg/status").exists()):
        pytest.skip("this is no Debian")
    told = said("apt-get", "install", "--simulate", "--no-install-recommends", *packages)
    assert all(f"Inst {it} " in told for it in NAMES)


def test_lintian(release):
    if not shutil.which("lintian"):
        pytest.skip("there is no lintian here (bin/setup installs it)")
    ran = subprocess.run(["lintian", "--allow-root", "--fail-on", "error,warning",
                          "--suppress-tags", "initial-upload-closes-no-bugs",
                          *release.glob("*.deb")],
                         capture_output=True, text=True)
    assert ran.returncode == 0, ran.stdout + ran.stderr


def test_purge(packages, root, tmp_path):
    """Last, since the others need what it removes."""
    said("cp", "-a", root, tmp_path / "root")
    dpkg(tmp_path / "root", "--purge", *NAMES)
    left = {it for it in below(tmp_path / "root") if not it.startswith("var/")}
    assert left <= {"usr", "var", "log", "usr/share", "usr/share/doc", "usr/lib"}
    assert (TOP / "bin").is_dir()
