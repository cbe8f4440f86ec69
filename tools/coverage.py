#!/usr/bin/env python3
# SPDX-License-Identifier: MIT
"""tools/coverage.py: counts, with gcov, the lines of lib/ and of the inline functions of
rrcache_shelf.h that the C tests of PROGRAMS execute, and prints those that none of them executes.
Run bin/build-c first. It takes about a minute."""
import json
import subprocess
import sys
import tempfile
from pathlib import Path

TOP = Path(__file__).resolve().parent.parent
sys.path.insert(0, str(TOP))

from tests.c.builds import BUILDS, FLAGS  # noqa: E402

LIB = sorted((TOP / "lib").glob("*.c"))
COUNTED = [*LIB, TOP / "include" / "rrcache_shelf.h"]
# Each program of tests, its builds, and further words for the compiler.
PROGRAMS = {
    "tests.c": (["archive", "refused"], []),
    "cache_tests.c": (["archive", "refused"], []),
    "owner_tests.c": (["archive"], []),
    "memo_tests.c": (["archive"], []),
    "forget_tests.c": (["archive"], ["-Wl,--wrap=pthread_mutex_unlock"]),
    "drop_tests.c": (["archive"], ["-Wl,--wrap=rrc_free_chapters,--wrap=rrc_stop_and_drop"]),
    "cancel_tests.c": (["archive"], ["-Wl,--wrap=nanosleep"]),
    "wait_tests.c": (["archive"], ["-Wl,--wrap=nanosleep"]),
    "turn_tests.c": (["archive"], ["-Wl,--wrap=rrc_sizes"]),
}


def executed(name, build, words, folder):
    """Runs a program of tests, and yields each file that gcov reports, with its lines."""
    library, *more = BUILDS[build]
    program = folder / "program"
    subprocess.run(["cc", "-std=c11", *FLAGS, "-w", "-O0", "--coverage", "-fprofile-update=atomic",
                    f"-I{TOP / 'lib'}", TOP / "tests" / "c" / name, *LIB, *more, *words,
                    "-Wl,--allow-multiple-definition", TOP / "build" / library, "-o", program],
                   check=True, cwd=folder)
    subprocess.run([program], check=True, cwd=folder, stdout=subprocess.DEVNULL)
    for data in folder.glob("*.gcda"):
        told = subprocess.run(["gcov", "--json-format", "--stdout", data], check=True, cwd=folder,
                              capture_output=True, text=True).stdout
        for line in told.splitlines():
            for file in json.loads(line)["files"]:
                yield Path(folder, file["file"]).resolve(), file["lines"]


def main():
    counts = {file: {} for file in COUNTED}
    for name, (builds, words) in PROGRAMS.items():
        for build in builds:
            with tempfile.TemporaryDirectory() as folder:
                for file, lines in executed(name, build, words, Path(folder)):
                    for it in lines if file in counts else ():
                        seen = counts[file]
                        number = it["line_number"]
                        seen[number] = seen.get(number, 0) + it["count"]
    for title, files in (("lib/", LIB), ("inline functions", COUNTED[-1:])):
        lines = [count for file in files for count in counts[file].values()]
        print(f"{title}: {sum(map(bool, lines)):,} of {len(lines):,} lines")
        for file in files:
            if missed := sorted(number for number, count in counts[file].items() if not count):
                print(f"  {file.name}: {', '.join(map(str, missed))}")


if __name__ == "__main__":
    main()
