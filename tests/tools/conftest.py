# SPDX-License-Identifier: MIT
"""Fixtures of the tests of tools."""
import sys

import pytest

from tests.tools.shared import TOP, ran

MODEL = f"""#!{sys.executable}
import sys
sys.dont_write_bytecode = True
sys.path.insert(0, {str(TOP)!r})
from tools.trials import by_model
options = dict(it.removeprefix("--").split("=") for it in sys.argv[1:])
answer = by_model({{it: int(value) for it, value in options.items()}}, sys.stdin.buffer.read())
sys.stdout.buffer.write(answer.report)
sys.stderr.buffer.write(answer.fault)
sys.exit(answer.status)
"""


@pytest.fixture
def trace_of(tmp_path):
    """Writes lines as a trace, and answers its path."""
    def write(lines):
        path = tmp_path / "trace"
        path.write_text("".join(f"{it}\n" for it in lines))
        return path
    return write


@pytest.fixture(scope="session")
def replayer(request, tmp_path_factory):
    """What replays: the program, or the model where that is not built."""
    program = request.config.getoption("program")
    if program.exists():
        return program
    path = tmp_path_factory.mktemp("model") / "model"
    path.write_text(MODEL)
    path.chmod(0o755)
    return path


@pytest.fixture
def program_of(tmp_path, program):
    """Makes a program of a script, in which $real is the program that was built last."""
    def make(body, path=tmp_path / "wrong"):
        path.write_text(f"#!/bin/bash\nset -o pipefail\nreal={program}\n{body}\n")
        path.chmod(0o755)
        return path
    return make


@pytest.fixture
def what_if(program):
    """Runs bin/what-if on a trace, and answers what it prints."""
    def run(path, *words):
        run = ran("bin/what-if", "--program", program, *words, path)
        assert (run.returncode, run.stderr) == (0, "")
        return run.stdout
    return run
