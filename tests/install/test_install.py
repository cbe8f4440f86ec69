# SPDX-License-Identifier: MIT
"""The C library as bin/install-c installs it to a fresh folder.

What pkg-config prints, and what CMake finds, is enough to compile the examples: that of shelves in
C and in C++, with the shared library and with the archive, which is run too, two resolvers (tests/c
runs those) and the forwarder. README.md has a part of lookup.c. Versions, soname,
exports and man pages have to fit. What is uninstalled leaves the folder as it was.
"""
import os
import re
import resource
import shutil
import subprocess

import pytest

from tests.install.places import (EXAMPLES, FIRST, HAS_CMAKE, HAS_PKG_CONFIG, LANGUAGES, LINKAGES,
                                  TOP, WARNINGS, Place, copy_repository, said)
from tools.manual import calls, pages
from tools.version import SONAME, VERSION

INSTALL = TOP / "bin" / "install-c"
# The headers, each of which has a page.
HEADERS = ["rrcache", "rrcache_shelf"]


@pytest.fixture(scope="module")
def it(tmp_path_factory):
    prefix = tmp_path_factory.mktemp("installed")
    said(INSTALL, prefix)
    return Place(prefix)


@HAS_PKG_CONFIG
@pytest.mark.parametrize("linkage", LINKAGES)
@pytest.mark.parametrize("language", LANGUAGES)
def test_example(language, linkage, it, tmp_path):
    assert it.first(language, linkage, tmp_path) == FIRST


@HAS_PKG_CONFIG
@pytest.mark.parametrize("linkage", LINKAGES)
@pytest.mark.parametrize("name", ["stub", "iterate"])
def test_resolvers(name, linkage, it, tmp_path):
    said("cc", "-std=gnu11", *WARNINGS, EXAMPLES / f"{name}.c", *it.linked(linkage), "-lresolv",
         "-o", tmp_path / name)


@HAS_PKG_CONFIG
def test_forwarder(it, tmp_path):
    sources = sorted((EXAMPLES / "forwarder").glob("*.c"))
    said("cc", "-std=gnu11", "-D_GNU_SOURCE", "-pthread", *sources, *it.flags(), "-o",
         tmp_path / "forwarder")


@HAS_CMAKE
@pytest.mark.parametrize("version", [VERSION, f"{VERSION.partition('.')[0]}.0...{VERSION}"])
def test_cmake(version, it, tmp_path):
    assert set(it.by_cmake(version, tmp_path).values()) == {FIRST}


@HAS_CMAKE
@pytest.mark.parametrize("version", ["1.9", "3.0", "2.999", "2.0...2.0.9", f"2.0...<{VERSION}"])
def test_cmake_refuses_another_version(version, it, tmp_path):
    with pytest.raises(subprocess.CalledProcessError):
        it.by_cmake(version, tmp_path)


@HAS_CMAKE
@pytest.mark.parametrize("below", ["", "usr"])
def test_cmake_with_libraries_below_a_link(below, tmp_path):
    """A link that changes the depth, as /lib does that leads to /usr/lib. CMake finds the library
    without the link, and with it after all was moved."""
    root, moved = tmp_path / "root", tmp_path / "farther" / "moved"
    (root / "usr" / "lib").mkdir(parents=True)
    (root / "lib").symlink_to("usr/lib")
    said(INSTALL, "--libdir", root / "lib", root / below)
    for it in (tmp_path / "before", tmp_path / "after", moved.parent):
        it.mkdir()
    assert set(Place(root / "usr").by_cmake(VERSION, tmp_path / "before").values()) == {FIRST}
    root.rename(moved)
    assert set(Place(moved).by_cmake(VERSION, tmp_path / "after").values()) == {FIRST}


def test_readme():
    shown = re.findall(r"^```c\n(.*?)^```", (TOP / "README.md").read_text(), re.M | re.S)
    assert len(shown) == 1 and shown[0] in (EXAMPLES / "lookup.c").read_text()


@HAS_PKG_CONFIG
def test_versions(it, tmp_path):
    assert it.told("--modversion").strip() == VERSION
    parts = [re.search(rf"RRCACHE_VERSION_{name} (\d+)", it.header("rrcache_shelf"))[1]
             for name in ("MAJOR", "MINOR", "PATCH")]
    assert ".".join(parts) == VERSION
    source = '#include <rrcache.h>\nint main(void) { return rrcache_version() != RRCACHE_VERSION; }'
    it.run(source, tmp_path, LANGUAGES["C"], it.flags())


def test_library(it):
    told = said("readelf", "-dW", it.lib / "librrcache.so")
    assert f"[{SONAME}]" in told and "NOW" in told
    assert os.readlink(it.lib / "librrcache.so") == SONAME
    assert os.readlink(it.lib / SONAME) == f"librrcache.so.{VERSION}"
    stack = re.search(r"GNU_STACK.*", said("readelf", "-lW", it.lib / "librrcache.so"))[0]
    assert " RW " in stack and "RWE" not in stack


@pytest.mark.skipif(shutil.which("man") is None,
                    reason="there is no man here (bin/setup installs it)")
def test_manual(it):
    named = {header: set(calls(header)) for header in HEADERS}
    assert set(pages()) == {f"{name}.3" for name in [*HEADERS, *set.union(*named.values())]}
    for header, names in named.items():
        assert names == set(re.findall(
            r"^(?:static inline (?:uint32_t|enum rrcache_status|const char \*)|RRCACHE_API [^(;]*?)"
            r"\s*\b(rrcache_(?!can_)\w+)\(", it.header(header), re.M))
    man = it.prefix / "share" / "man" / "man3"
    for page in man.glob("*.3"):
        told = subprocess.run(["man", "--warnings", "-E", "UTF-8", "-l", "-Tutf8", "-Z", page.name],
                              cwd=man, capture_output=True, text=True,
                              env={**os.environ, "MANPATH": str(man.parent)})
        assert told.returncode == 0 and not told.stderr


@HAS_PKG_CONFIG
def test_again(it, tmp_path):
    said(INSTALL, "--strip", it.prefix)
    assert it.first("C", "shared", tmp_path) == FIRST


@HAS_PKG_CONFIG
@pytest.mark.parametrize("linkage", LINKAGES)
def test_folder_with_a_space(linkage, tmp_path):
    prefix = tmp_path / "a folder"
    said(INSTALL, prefix)
    assert Place(prefix).first("C", linkage, tmp_path) == FIRST


def test_below_destdir(tmp_path):
    said(INSTALL, "--libdir", "/usr/lib64", "/usr", DESTDIR=str(tmp_path))
    pc = (tmp_path / "usr/lib64/pkgconfig/rrcache.pc").read_text()
    assert "prefix=/usr\n" in pc and "libdir=${prefix}/lib64\n" in pc
    assert (tmp_path / "usr/lib64/cmake/rrcache/rrcache-config.cmake").exists()
    for header in HEADERS:
        assert (tmp_path / "usr" / "include" / f"{header}.h").exists()
    said(INSTALL, "--uninstall", "--libdir", "/usr/lib64", "/usr", DESTDIR=str(tmp_path))
    assert not [path for path in tmp_path.rglob("*") if not path.is_dir()]


def content(folder):
    """The paths below a folder."""
    return {str(path.relative_to(folder)) for path in folder.rglob("*")}


def test_uninstall_leaves_what_was_there(tmp_path):
    (tmp_path / "share" / "man").mkdir(parents=True)
    (tmp_path / "include").mkdir()
    (tmp_path / "include" / "another.h").touch()
    before = content(tmp_path)
    for words in ([], ["--strip"]):
        said(INSTALL, *words, tmp_path)
        assert f"lib/{SONAME}" in content(tmp_path)
    said(INSTALL, "--uninstall", tmp_path)
    assert content(tmp_path) == before


def test_all_may_read_it(tmp_path):
    """Whatever the mask of who installs it."""
    tmp_path.chmod(0o755)
    said("sh", "-c", f"umask 077; exec {INSTALL} {tmp_path}/all/may")
    modes = {it.stat().st_mode & 0o777 for it in tmp_path.rglob("*") if it.is_dir()}
    assert modes == {0o755}
    assert {it.stat().st_mode & 0o044 for it in tmp_path.rglob("*")} == {0o044}


def test_uninstall_removes_an_older_version(tmp_path):
    prefix = tmp_path / "new"
    said(INSTALL, prefix)
    older = prefix / "lib" / "librrcache.so.1.9.9"
    older.touch()
    with (prefix / "share" / "rrcache" / "installed").open("a") as record:
        record.write(f"{older}\n")
    said(INSTALL, "--uninstall", prefix)
    assert content(tmp_path) == set()


def test_uninstall_that_failed_can_be_repeated(tmp_path):
    """Its list goes last, in whichever order the other files go."""
    prefix = tmp_path / "new"
    said(INSTALL, prefix)
    older, record = prefix / "lib" / "librrcache.so.1.9.9", prefix / "share/rrcache/installed"
    older.touch()
    listed = f"{record.read_text()}{older}\n"
    record.write_text(f"{listed}/proc/version\n")  # which nobody can remove
    for seed in range(8):
        ran = subprocess.run([INSTALL, "--uninstall", prefix], capture_output=True, text=True,
                             env={**os.environ, "PYTHONHASHSEED": str(seed)})
        assert ran.returncode == 2 and ran.stderr.startswith("install-c: /proc/version: ")
        assert record.exists()
    record.write_text(listed)
    said(INSTALL, "--uninstall", prefix)
    assert content(tmp_path) == set()


@pytest.mark.parametrize("most", [0, 1 << 16], ids=["list", "library"])
def test_uninstall_removes_what_a_run_made_that_failed(most, tmp_path):
    """Where no file can have more octets than these, as on a disk that is full: the list cannot be
    written, or the library, which is larger."""
    def fail():
        ran = subprocess.run([INSTALL, prefix], capture_output=True, text=True,
                             preexec_fn=lambda: resource.setrlimit(resource.RLIMIT_FSIZE,
                                                                   (most, most)))
        assert ran.returncode == 1 and ran.stderr == "install-c: File too large\n"

    prefix = tmp_path / "new"
    for words in ([], ["--strip"]):
        fail()
        said(INSTALL, *words, prefix)
        said(INSTALL, "--uninstall", prefix)
        assert content(tmp_path) == set()
    fail()
    assert (content(tmp_path) == set()) is (most == 0)
    said(INSTALL, "--uninstall", prefix)
    assert content(tmp_path) == set()


def refused(checkout, prefix):
    """What bin/install-c of a checkout says that installs nothing."""
    ran = subprocess.run([checkout / "bin" / "install-c", prefix], capture_output=True, text=True)
    assert ran.returncode == 1 and not ran.stdout and not prefix.exists()
    return ran.stderr


def test_nothing_is_built(tmp_path):
    checkout, prefix = copy_repository(tmp_path / "checkout"), tmp_path / "installed"
    assert refused(checkout, prefix) == \
        "install-c: there is no build/librrcache.a: bin/build-c makes it\n"
    for name in ("librrcache.a", "librrcache.so"):
        shutil.copy(TOP / "build" / name, checkout / "build")
    (checkout / "include" / "rrcache.h").write_text("newer")
    os.utime(checkout / "build" / "librrcache.so", (0, 0))
    assert refused(checkout, prefix) == (
        "install-c: include/rrcache.h is newer than the library: bin/build-c makes it again\n")
