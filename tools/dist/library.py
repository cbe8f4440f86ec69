# SPDX-License-Identifier: MIT
"""What is installed of the C library: headers, the archive and the shared library, what
pkg-config and CMake read, and the man pages of section 3."""
import posixpath

from tools.dist.files import (PROGRAM_MODE, TOP, Link, Missing, Tree, copy, required,
                              stripped, template, text)
from tools.manual import pages
from tools.version import SONAME, VERSION

SHARED = f"librrcache.so.{VERSION}"
MAJOR = VERSION.split(".")[0]
BUILDER = "bin/build-c"
# What `strip` removes of the shared library and of the archive for a package. Sections .comment
# stay: they name the logic in which the library is proved.
OF_SHARED = ["--strip-unneeded"]
OF_ARCHIVE = ["--strip-debug", "--enable-deterministic-archives"]


class Built:
    """The library as a command built it in a folder."""

    def __init__(self, folder=TOP / "build", made_by=BUILDER):
        self.archive = required(folder / "librrcache.a", made_by)
        self.shared = required(folder / "librrcache.so", made_by)
        self.made_by = made_by

    def refuse_old(self):
        """Raises Missing if a source of the library's C is newer than the library."""
        made = self.shared.stat().st_mtime
        for it in [*headers(), *sorted((TOP / "lib").glob("*.[ch]"))]:
            if it.stat().st_mtime > made:
                raise Missing(f"{it.relative_to(TOP)} is newer than the library:"
                              f" {self.made_by} makes it again")

    def files(self, is_stripped=False):
        """Archive and shared library, the latter perhaps with the symbols alone that it exports."""
        shared = (stripped(self.shared, *OF_SHARED, mode=PROGRAM_MODE) if is_stripped
                  else copy(self.shared, PROGRAM_MODE))
        return copy(self.archive), shared

    def packed(self, cross=""):
        """Archive and shared library as packages have them."""
        return (stripped(self.archive, *OF_ARCHIVE, cross=cross),
                stripped(self.shared, *OF_SHARED, cross=cross))


def headers():
    return sorted((TOP / "include").glob("*.h"))


def shared_library(libdir, shared) -> Tree:
    """The shared library under its version, and the link by which programs find it."""
    return {f"{libdir}/{SHARED}": shared, f"{libdir}/{SONAME}": Link(SHARED)}


def for_pkg_config(prefix, libdir):
    told = template("rrcache.pc", PREFIX=prefix, LIBDIR=libdir, VERSION=VERSION)
    return text(told.replace(f"libdir={prefix}/", "libdir=${prefix}/"))


def for_cmake(prefix, libdir, real=str) -> Tree:
    """What `find_package(rrcache)` reads. It goes to the headers from its own folder as that is
    without links, so `real` has to follow the links of a path, if there may be some."""
    folder = f"{libdir}/cmake/rrcache"
    include = posixpath.relpath(f"{real(f'{prefix}/')}/include", real(folder))
    config = template("rrcache-config.cmake", INCLUDE=include, SHARED=SHARED, SONAME=SONAME)
    version = template("rrcache-config-version.cmake", VERSION=VERSION, MAJOR=MAJOR)
    return {f"{folder}/rrcache-config.cmake": text(config),
            f"{folder}/rrcache-config-version.cmake": text(version)}


def man_pages(prefix, made) -> Tree:
    """Man pages by the names of their files, each in the folder of its section."""
    return {f"{prefix}/share/man/man{name[-1]}/{name}": text(told) for name, told in made.items()}


def development(prefix, libdir, archive) -> Tree:
    """What compiles and links programs with the library, but for the man pages."""
    return {f"{libdir}/librrcache.a": archive,
            f"{libdir}/librrcache.so": Link(SONAME),
            f"{libdir}/pkgconfig/rrcache.pc": for_pkg_config(prefix, libdir),
            **for_cmake(prefix, libdir),
            **{f"{prefix}/include/{it.name}": copy(it) for it in headers()}}


def library(prefix, libdir, archive, shared) -> Tree:
    """All of it below a prefix."""
    return {**shared_library(libdir, shared), **development(prefix, libdir, archive),
            **man_pages(prefix, pages())}
