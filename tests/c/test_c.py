# SPDX-License-Identifier: MIT
"""tests.c on the C library as bin/build-c makes it: on the archive, on the shared library, on
the archive with each malloc and realloc refused in turn and those of calls that only look counted,
and under the sanitizers of addresses and of undefined behaviour. Each header by itself, with the
warnings that resolvers are compiled with."""
import shutil
import subprocess

import pytest

from tests.c.builds import BUILDS, TOP, built, run

WARNINGS = ["-Wall", "-Wextra", "-Werror", "-pedantic", "-Wconversion", "-Wshadow", "-Wcast-align"]
LANGUAGES = {
    "C99": ["cc", "-std=c99", "-xc"],
    "C11": ["cc", "-std=c11", "-xc"],
    "C++11": ["c++", "-std=c++11", "-xc++"],
    "C++20": ["c++", "-std=c++20", "-xc++"],
}


@pytest.mark.parametrize("build", BUILDS)
def test_library(build, libraries, tmp_path, capsys):
    run(built("tests.c", build, libraries, tmp_path), build, capsys)


@pytest.mark.parametrize("header", ["rrcache.h", "rrcache_shelf.h"])
@pytest.mark.parametrize("language", LANGUAGES)
def test_header(language, header):
    compiler, *words = LANGUAGES[language]
    if shutil.which(compiler) is None:
        pytest.skip(f"there is no {compiler} here (bin/setup installs it)")
    subprocess.run([compiler, *words, *WARNINGS, f"-I{TOP / 'include'}", "-fsyntax-only", "-"],
                   check=True, input=f'#include "{header}"\n'.encode())
