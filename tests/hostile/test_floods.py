# SPDX-License-Identifier: MIT
"""A shelf that is trimmed after each offer holds its memory, whatever floods it (flood.c): its
octets never stay above the limit, and the memory of the process stays within a bar, in percent of
the limit, as the kernel tells it.

Floods of one kind stay next to the limit. Where data of another size come, the allocator cannot use
all the room again that the smaller ones left."""
import subprocess
from pathlib import Path

import pytest

TOP = Path(__file__).resolve().parents[2]
FLAGS = ["-std=c99", "-O1", "-g", "-Wall", "-Wextra", "-Werror", "-pthread",
         f"-I{TOP / 'include'}"]
SECONDS = 300
# The bars.
ALONE, IN_TURN = 125, 250
# How many offers of each kind are made where no other kind comes.
OFFERS = {"short-names": 10_000_000, "long-names": 1_000_000, "large-sets": 100_000,
          "many-records": 2_000, "failures": 1_000_000}
# So many fill a shelf several times.
FILLING = {"short-names": 200_000, "long-names": 100_000, "large-sets": 10_000,
           "many-records": 500, "failures": 100_000}


@pytest.fixture(scope="module")
def flood(library, tmp_path_factory):
    """Runs floods, and returns the status and the lines of the program."""
    made = tmp_path_factory.mktemp("flood") / "flood"
    subprocess.run(["cc", *FLAGS, TOP / "tests" / "hostile" / "flood.c",
                    library.with_name("librrcache.a"), "-o", made], check=True)

    def run(percent, floods):
        words = [str(word) for it in floods for word in it]
        ran = subprocess.run([made, str(percent), *words], capture_output=True, text=True,
                             timeout=SECONDS)
        return ran.returncode, ran.stdout
    return run


def filling(*floods):
    return [(it, FILLING[it]) for it in floods]


@pytest.mark.parametrize("percent, floods", [
    *((ALONE, [it]) for it in OFFERS.items()),
    (IN_TURN, filling("short-names", "large-sets", "many-records", "long-names", "short-names")),
    (IN_TURN, filling("failures", "short-names", "failures", "large-sets", "long-names"))],
    ids=[*OFFERS, "data in turn", "failures and data in turn"])
def test_memory_in_floods(percent, floods, flood, capsys):
    status, told = flood(percent, floods)
    assert status == 0, told
    with capsys.disabled():
        print("\n" + told, end="")


def test_a_bar_that_is_too_low(flood):
    """The program does tell: half of the limit is too little."""
    status, told = flood(50, filling("short-names"))
    assert status == 1 and told.endswith("FAIL: memory stays near the limit\n"), told
