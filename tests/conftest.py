# SPDX-License-Identifier: MIT
"""What tests in Python share. They run under pytest: `pytest tests/PART -k NAME`."""
import subprocess
import sys
from pathlib import Path

import pytest

TOP = Path(__file__).resolve().parents[1]
PROGRAM = TOP / "crates" / "rrcache" / "out" / "rrcache"
LIBRARY = TOP / "build" / "librrcache.so"

sys.dont_write_bytecode = True
pytest.register_assert_rewrite("tests.forwarder.harness")


def pytest_addoption(parser):
    parser.addoption("--seconds", type=int, default=60,
                     help="how long tests go on that draw what they try (60)")
    parser.addoption("--program", type=lambda it: Path(it).absolute(), default=PROGRAM,
                     metavar="PATH", help="the program that is tested (the one built last)")
    parser.addoption("--failures", type=Path, metavar="PATH",
                     help="a file to which the ids of the tests that fail are written")


def pytest_terminal_summary(terminalreporter, config):
    if path := config.getoption("failures"):
        failed = [it.nodeid for kind in ("failed", "error")
                  for it in terminalreporter.stats.get(kind, ())]
        path.write_text("".join(f"{it}\n" for it in dict.fromkeys(failed)))


@pytest.fixture(scope="session")
def program(request):
    """The program that is tested: the one that was built last, where no other is named."""
    path = request.config.getoption("program")
    assert path.exists(), f"there is no {path}: bin/build builds the program"
    return path


@pytest.fixture(scope="session")
def library():
    """The shared C library that was built last, or is built now."""
    if not LIBRARY.exists():
        subprocess.run([TOP / "bin" / "build-c"], check=True)
    return LIBRARY


@pytest.fixture(scope="session")
def seconds(request):
    """How long a test goes on that draws what it tries."""
    return request.config.getoption("seconds")
