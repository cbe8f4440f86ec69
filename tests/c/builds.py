# SPDX-License-Identifier: MIT
"""How the tests in C are compiled with the C library, and run."""
import re
import subprocess
from pathlib import Path

import pytest

TOP = Path(__file__).resolve().parents[2]
FLAGS = ["-O1", "-g", "-Wall", "-Wextra", "-Werror", "-pthread", f"-I{TOP / 'include'}"]
# Each build: its library, and further words for the compiler.
BUILDS = {
    "archive": ["librrcache.a"],
    "shared": ["librrcache.so", f"-Wl,-rpath,{TOP / 'build'}"],
    "refused": ["librrcache.a", "-DREFUSE",
                *(f"-Wl,--wrap={it}" for it in ("malloc", "calloc", "realloc", "free"))],
    "sanitized": ["librrcache.a", "-fsanitize=address,undefined", "-fno-sanitize-recover=all"],
}
SECONDS = 120
# The words for the compiler with which an example is tested.
OF_EXAMPLES = ["-std=gnu11", *FLAGS, "-fsanitize=address,undefined", "-fno-sanitize-recover=all"]


def has(words, folder):
    """Whether the compiler makes a program with these words that runs."""
    program = folder / "program"
    made = subprocess.run(["cc", *words, "-xc", "-", "-o", program], capture_output=True,
                          input=b"int main(void) { return 0; }")
    return made.returncode == 0 and subprocess.run([program]).returncode == 0


def built(name, build, libraries, folder, *more, standard="c99"):
    """The program of a file of this folder in one of the builds, with more words for the compiler.
    """
    library, *words = BUILDS[build]
    if build == "sanitized" and not has(words, folder):
        pytest.skip("the compiler has no sanitizers (bin/setup installs gcc, which has)")
    program = folder / "tests"
    subprocess.run(["cc", f"-std={standard}", *FLAGS, TOP / "tests" / "c" / name, *more,
                    libraries / library, *words, "-o", program], check=True)
    return program


def example(name, library, folder):
    """The program of a file of examples/, under the sanitizers."""
    program = folder / name
    subprocess.run(["cc", *OF_EXAMPLES, TOP / "examples" / f"{name}.c",
                    library.with_name("librrcache.a"), "-o", program], check=True)
    return program


def run(program, build, capsys):
    """Runs the tests of a program, and prints how many checks passed, which are to be all."""
    ran = subprocess.run([program], capture_output=True, text=True, errors="replace",
                         timeout=SECONDS)
    checks = re.search(r"^([1-9]\d*) passed, 0 failed\n\Z", ran.stdout, re.M)
    assert checks and ran.returncode == 0, ran.stdout + ran.stderr
    with capsys.disabled():
        print(f"\n{build}: {checks[1]} checks")
