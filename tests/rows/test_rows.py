# SPDX-License-Identifier: MIT
"""Each row on the program, as each of the two compilers built it. README.md tells what a row is."""
import difflib
import subprocess

import pytest

from tools.rows import content, rows, traces_of

SECONDS = 120
WRONG_ARGUMENTS = 2
# How much of a long line is shown at each of its ends.
END = 140


def lines_of(text):
    return [line if len(line) < 2 * END + 20 else f"{line[:END]} .. {line[-END:]}"
            for line in text.decode("latin-1").splitlines()]


def differences(row, run):
    """The lines that tell how a run differs from what the row wants of it."""
    status = int(content(row, "status", b"0"))
    if run.returncode != status:
        yield f"status {run.returncode}, wanted {status}"
    streams = [("report", content(row, "report"), run.stdout)]
    if status != WRONG_ARGUMENTS:
        streams.append(("standard error", content(row, "stderr"), run.stderr))
    elif not run.stderr:
        yield "nothing on standard error"
    for name, wanted, got in streams:
        if wanted != got:
            yield from difflib.unified_diff(lines_of(wanted), lines_of(got), f"wanted {name}",
                                            f"got {name}", lineterm="")


@pytest.fixture(params=["rrcache", "rrcache.by-rattle"])
def compiled(request, program):
    """The program as LLVM made it, and as Rattle's own compiler did."""
    path = program.with_name(program.name + request.param.removeprefix("rrcache"))
    assert path.exists(), f"{path} was not built"
    return path


@pytest.mark.parametrize("row", rows().values(), ids=lambda it: it.name)
def test_row(row, compiled):
    words, wrong = content(row, "args").splitlines(), []
    for number, trace in enumerate(traces_of(row)):
        run = subprocess.run([compiled, *words], input=trace, capture_output=True, timeout=SECONDS)
        wrong += [f"trace {number}: {line}" for line in differences(row, run)]
    assert not wrong, "\n".join(wrong)
