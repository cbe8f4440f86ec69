# SPDX-License-Identifier: MIT
"""A release as a whole: the same sources give the same octets, its checksums hold, the package for
Python is installed with no network, and what it says of the proofs."""
import importlib.util
import os
import re
import shutil
import subprocess
import sys
import time
from types import SimpleNamespace
from unittest.mock import Mock

import pytest

from tests.conftest import TOP
from tests.install.places import copy_repository, said
from tools.dist import debian, documents, files, proofs
from tools.dist.files import Missing
from tools.kit import NoKit
from tools.version import VERSION

DIST = TOP / "bin" / "dist"
# The last lines of a gate that passed, and of one that did not.
PASSED = "rt: ok; handles allowed: Threads, Wait; every proof was done\n12 passed, 0 failed\n"
REFUSED = "rt: FAILED: rrc_name\n11 passed, 1 failed\n"
ASKED = """
import rrcache
with rrcache.Shelf() as shelf:
    shelf.offer_set("www.example.", 1, 4, 60, [bytes([192, 0, 2, 1])], moment=1000)
    print(shelf.ask("www.example.", 1, moment=1010).left, rrcache.__version__)
"""


def refused(checkout, *words, **more):
    """What bin/dist of a checkout says that makes no release."""
    ran = subprocess.run([checkout / "bin" / "dist", *words], capture_output=True, text=True,
                         env={**os.environ, **more})
    assert ran.returncode == 1 and not ran.stdout
    return ran.stderr


def octets(folder):
    return {it.name: it.read_bytes() for it in folder.iterdir()}


def test_the_same_sources_give_the_same_octets(release, tmp_path):
    """Whatever the folder, the user's mask, the zone of time and the language. All may read it, and
    what an older release left in the folder is told."""
    again = tmp_path / "again"
    again.mkdir()
    (again / "older.deb").touch()
    made = subprocess.run(["sh", "-c", f"umask 077; exec {DIST} --to {again}"], check=True,
                          capture_output=True, text=True,
                          env={**os.environ, "TZ": "Asia/Kathmandu", "LC_ALL": "C"})
    assert made.stderr.endswith("also has what is not of this release: older.deb\n")
    (again / "older.deb").unlink()
    first, second = octets(release), octets(again)
    assert set(first) == set(second) and len(first) >= 6
    assert [it for it in first if first[it] != second[it]] == []
    assert {it.stat().st_mode & 0o777 for it in again.iterdir()} == {0o644}


def test_time(release):
    """What is packed has the time of the last commit, and root as its owner."""
    [archive] = release.glob("*-x86_64-linux.tar.gz")
    told = said("tar", "--utc", "--full-time", "--numeric-owner", "-tvzf", archive).splitlines()
    moment = said("git", "-C", TOP, "log", "-1", "--format=%cd", "--date=format-local:%F %T",
                  TZ="UTC").strip()
    assert {it.split()[1] for it in told} == {"0/0"}
    assert {" ".join(it.split()[3:5]) for it in told} == {moment}


def test_checksums(release):
    told = subprocess.run(["sha256sum", "--check", "--strict", "SHA256SUMS"], cwd=release,
                          capture_output=True, text=True)
    assert told.returncode == 0
    assert len(told.stdout.splitlines()) == len([*release.iterdir()]) - 1


def test_proofs(unpacked):
    """The checksums are those of the sources, and the kit is the one that README.md names."""
    folder = unpacked / "share" / "doc" / "rrcache" / "proofs"
    said("sh", "-c", f"cd {TOP} && sha256sum --check --quiet --strict {folder}/sources.sha256")
    named = set(re.findall(r"^\w{64}  (.*)$", (folder / "sources.sha256").read_text(), re.M))
    listed = said("git", "-C", TOP, "ls-files", "crates/*.rt", "crates/*.antt", "crates.txt",
                  "HANDLES").split()
    assert set(listed) <= named
    kit = re.search(r"^Kit \(rt version\): +(.*)$", (folder / "PROOFS").read_text(), re.M)[1]
    assert f"Proved with `{kit}`" in (TOP / "README.md").read_text()


@pytest.mark.parametrize("log", [PASSED, f"{REFUSED}more\n{PASSED}after it\n"])
def test_a_gate_that_passed_is_told(log, tmp_path):
    (tmp_path / "log").write_text(log)
    told = proofs.proofs(VERSION, tmp_path / "log")["PROOFS"].octets.decode()
    assert "rt: ok; handles allowed" in told and "12 passed, 0 failed" in told


@pytest.mark.parametrize("log", [REFUSED, f"{PASSED}{REFUSED}", "rt: rrc_name proved\n", ""])
def test_a_gate_that_did_not_pass_is_refused(log, tmp_path):
    (tmp_path / "log").write_text(log)
    with pytest.raises(Missing, match="does not end with a passed gate"):
        proofs.proofs(VERSION, tmp_path / "log")


@pytest.fixture
def committed(tmp_path, monkeypatch):
    """A repository with a document, a source and what is compiled of it, in place of this one; and
    whether the kit says that the program is of the source."""
    for it in (documents, files, proofs):
        monkeypatch.setattr(it, "TOP", tmp_path)
    told = SimpleNamespace(top=tmp_path, source=tmp_path / "crates" / "rrcache" / "src" / "main.rt",
                           is_made=False)
    crate = SimpleNamespace(name="rrcache")
    monkeypatch.setattr(proofs, "load", lambda: SimpleNamespace(
        rtlib=SimpleNamespace(crates_below=lambda top: [crate])))
    monkeypatch.setattr(proofs, "is_made", lambda rt, it: it is crate and told.is_made)
    for it in (told.source, tmp_path / "docs" / "RULES.md", *map(tmp_path.joinpath,
                                                                 proofs.COMPILED)):
        it.parent.mkdir(parents=True, exist_ok=True)
        it.write_text("something")
    (tmp_path / ".gitignore").write_text("/build/\nout/\n")
    said("git", "init", "--quiet", tmp_path)
    said("git", "-C", tmp_path, "add", ".")
    said("git", "-C", tmp_path, "-c", "user.name=a", "-c", "user.email=a@b.example", "commit",
         "--quiet", "--message=one")
    os.utime(told.source, (1, 1))
    return told


def test_a_change_that_is_not_committed_is_refused(committed):
    proofs.refuse_changes()
    (committed.top / "docs" / "RULES.md").write_text("something else")
    with pytest.raises(Missing, match="^1 files are not as in the last commit, as docs/RULES.md$"):
        proofs.refuse_changes()


def test_what_was_made_of_older_sources_is_refused(committed, monkeypatch):
    """The program is not, if a kit can tell that it would be made of the same once more."""
    later = time.time() + 1000
    os.utime(committed.source, (later, later))
    with pytest.raises(Missing, match="are newer than build/librrcache.so: bin/build-c makes it"):
        proofs.refuse_changes()
    monkeypatch.setattr(proofs, "COMPILED", {proofs.PROGRAM: "bin/build"})
    with pytest.raises(Missing, match=f"are newer than {proofs.PROGRAM}: bin/build makes it"):
        proofs.refuse_changes()
    committed.is_made = True
    proofs.refuse_changes()
    monkeypatch.setattr(proofs, "load", Mock(side_effect=NoKit))
    with pytest.raises(Missing):
        proofs.refuse_changes()


def test_only_files_of_the_repository_are_packed(committed):
    (committed.top / "docs" / "RULES.md~").write_text("rules before")
    assert set(documents.documents()) == {"docs/RULES.md"}


@pytest.mark.parametrize("name, address, named", [
    ("", "", "rrcache authors <rrcache@packages.example.org>"),
    ("A. Packager", "a@b.example", "A. Packager <a@b.example>"),
    ("A. Packager", "A. Person <a@b.example>", "A. Person <a@b.example>")])
def test_maintainer(name, address, named, monkeypatch):
    """By Debian's variables, of which DEBEMAIL may have the name too."""
    monkeypatch.setenv("DEBFULLNAME", name)
    monkeypatch.setenv("DEBEMAIL", address)
    assert debian.maintainer() == named


def test_what_is_missing_is_told(library, tmp_path):
    """In a copy of the repository with no crates, and then with no build, or no time."""
    checkout, place = copy_repository(tmp_path / "checkout"), tmp_path / "release"
    for it in (library, library.with_name("librrcache.a")):
        shutil.copy2(it, checkout / "build")
    missing = {"crates/rrcache/out/rrcache": "bin/build", "build/librrcache.a": "bin/build-c"}
    for path, command in missing.items():
        assert refused(checkout, "--to", place, SOURCE_DATE_EPOCH="1") == \
            f"dist: there is no {path}: {command} makes it\n"
        shutil.rmtree(checkout / "build", ignore_errors=True)
    assert "SOURCE_DATE_EPOCH" in refused(checkout, "--to", place)
    assert "SOURCE_DATE_EPOCH" in refused(checkout, "--to", place, SOURCE_DATE_EPOCH="today")


@pytest.mark.skipif(importlib.util.find_spec("pip") is None,
                    reason="there is no pip here (bin/setup installs it)")
def test_wheel(release, tmp_path):
    place = tmp_path / "venv"
    said(sys.executable, "-m", "venv", "--without-pip", place)
    [wheel] = release.glob("*.whl")
    said(sys.executable, "-m", "pip", "--quiet", "--disable-pip-version-check", "--python",
         place / "bin" / "python", "install", "--no-index", wheel)
    assert said(place / "bin" / "python", "-I", "-c", ASKED) == f"50 {VERSION}\n"
