# SPDX-License-Identifier: MIT
"""A place that the C library was installed to, and programs that are compiled with it as its
users do: by what pkg-config prints, and by CMake."""
import os
import shlex
import shutil
import subprocess
from pathlib import Path

import pytest

TOP = Path(__file__).resolve().parents[2]
EXAMPLES = TOP / "examples"
# In C++ `{0}` is told to leave fields out, which it fills with zeros all the same.
LANGUAGES = {
    "C": ["cc", "-std=c99", "-xc"],
    "C++": ["c++", "-std=c++11", "-Wno-missing-field-initializers", "-xc++"],
}
LINKAGES = ("shared", "static")
WARNINGS = ["-Wall", "-Wextra", "-Werror"]
# What examples/first.c prints: its set has a TTL of 60 and is asked for 10 seconds later.
FIRST = "TTL 50\n"
# The example in both languages with both libraries, and the stub resolver.
PROJECT = """\
cmake_minimum_required(VERSION 3.16)
project(examples C CXX)
find_package(rrcache {version} REQUIRED)
add_executable(C_shared first.c)
add_executable(C_static first.c)
add_executable(C++_shared first.cc)
add_executable(C++_static first.cc)
add_executable(stub stub.c)
foreach(language C C++)
    target_link_libraries(${{language}}_shared PRIVATE rrcache::rrcache)
    target_link_libraries(${{language}}_static PRIVATE rrcache::rrcache_static)
endforeach()
target_link_libraries(stub PRIVATE rrcache::rrcache)
"""
HAS_PKG_CONFIG = pytest.mark.skipif(shutil.which("pkg-config") is None,
                                    reason="there is no pkg-config here (bin/setup installs it)")
HAS_CMAKE = pytest.mark.skipif(shutil.which("cmake") is None,
                               reason="there is no cmake here (bin/setup installs it)")


def copy_repository(folder):
    """Copies the repository but for its crates, its rows and what is built."""
    left_out = {TOP: {"crates", ".git", "build"}, TOP / "tests": {"rows"}}
    shutil.copytree(TOP, folder, ignore=lambda at, names: left_out.get(Path(at), set())
                    | {it for it in names if it == "__pycache__"})
    (folder / "build").mkdir()
    return folder


def said(*words, source=None, **more):
    """What a command prints, that reads this text, and has further words in its environment."""
    return subprocess.run(words, check=True, stdout=subprocess.PIPE, text=True, input=source,
                          env={**os.environ, **more}).stdout


class Place:
    """A prefix, and the folder of libraries below it; `root` is the folder that stands for / in the
    paths of rrcache.pc, if that is another one."""

    def __init__(self, prefix, lib="lib", root=None):
        self.prefix, self.lib, self.root = prefix, prefix / lib, root
        self.around = {"PKG_CONFIG_LIBDIR": f"{self.lib}/pkgconfig"}
        if root:
            self.around["PKG_CONFIG_SYSROOT_DIR"] = str(root)

    def told(self, *words):
        """What pkg-config prints."""
        return said("pkg-config", *words, "rrcache", **self.around)

    def flags(self, *words):
        return shlex.split(self.told("--cflags", "--libs", *words))

    def linked(self, linkage):
        """The words that link with the shared library or with the archive, as in PACKAGES.md."""
        if linkage == "shared":
            return self.flags()
        told = self.told("--variable=libdir").strip().replace("\\ ", " ")
        folder = self.lib if self.root else told
        return [*shlex.split(self.told("--cflags")), f"{folder}/librrcache.a", "-pthread"]

    def header(self, name):
        return (self.prefix / "include" / f"{name}.h").read_text()

    def run(self, source, folder, compiler, words):
        """What a program prints, compiled so."""
        said(*compiler, *WARNINGS, "-", "-xnone", *words, "-o", folder / "program", source=source)
        return said(folder / "program", LD_LIBRARY_PATH=f"{self.lib}")

    def first(self, language, linkage, folder):
        """What examples/first.c prints, compiled by what pkg-config prints."""
        return self.run((EXAMPLES / "first.c").read_text(), folder, LANGUAGES[language],
                        self.linked(linkage))

    def by_cmake(self, version, folder):
        """What examples/first.c prints, compiled by CMake for this version or a later one, by
        language and linkage."""
        for name, source in (("first.c", "first.c"), ("first.cc", "first.c"), ("stub.c", "stub.c")):
            shutil.copy(EXAMPLES / source, folder / name)
        (folder / "CMakeLists.txt").write_text(PROJECT.format(version=version))
        made = folder / "made"
        said("cmake", "-S", folder, "-B", made, f"-DCMAKE_PREFIX_PATH={self.prefix}")
        said("cmake", "--build", made, "--parallel")
        assert (made / "stub").exists()
        return {(language, linkage): said(made / f"{language}_{linkage}")
                for language in LANGUAGES for linkage in LINKAGES}
