# SPDX-License-Identifier: MIT
"""What tests of the tools share with those of archives, refusals and the Python package."""
import fcntl
import io
import os
import re
import signal
import subprocess
import sys
import termios
import time
from pathlib import Path

from tools.archive import Rules, archive_of
from tools.rows import content, options_of, rows, traces_of
from tools.traces import lines_in

TOP = Path(__file__).resolve().parents[2]
# How many seconds a tool may take, also on a machine that does much else.
LIMIT = 600
WRONG_ARGUMENTS = 2


def ran(tool, *words, **others):
    """A run of a command, by its path in the repository."""
    return subprocess.run([sys.executable, TOP / tool, *map(str, words)],
                          capture_output=True, text=True, timeout=LIMIT, **others)


# What makes a wrong program of the right one, by a change of its report.
REPORT = '"$real" "$@" | sed "{}"'
# The options that take a number, in the table of docs/FORMATS.md: the least, the most, the default.
OPTIONS = {name: [int(it.replace(",", "")) for it in numbers] for name, *numbers in re.findall(
    r"^\| `--(\w+) N` \| ([\d,]+) to ([\d,]+) \| (\d+) \|",
    (TOP / "docs" / "FORMATS.md").read_text(), re.M)}
# What keys take in memory, by the table in docs/CAPTURES.md: an entry; what is shared; a list of up
# to 32 octets, such as a name or rdata; and a longer one beside its octets.
ENTRY, SHARED, SHORT_LIST, LONG_LIST, SEVERAL = 160, 32, 48, 48 + 16, 48 + 16


def pytest_ran(*words, **others):
    """The status and the last line of a run of tests."""
    run = ran("/usr/bin/pytest", *words, cwd=TOP, **others)
    return run.returncode, run.stdout.splitlines()[-1]


def is_all_read(pipe):
    """Whether all that was written into a pipe is read."""
    return not any(fcntl.ioctl(pipe, termios.FIONREAD, bytes(4)))


def sleeps(process):
    """Whether a process waits for something."""
    stat = Path(f"/proc/{process}/stat").read_text()
    return stat.rpartition(")")[2].split()[0] == "S"


def heeds_interrupts():
    """What a process does first so that an interrupt ends it. One that a shell runs in the
    background ignores them, as do the processes that it begins."""
    signal.signal(signal.SIGINT, signal.default_int_handler)


def interrupted(*words, octets=b"sweep 0\n", is_read=True, is_begun=is_all_read):
    """The status of a tool that is interrupted where it waits for more than these octets on
    standard input, and what it writes and says; its lines are read, or nobody is there who would.
    """
    buffered = {it: value for it, value in os.environ.items() if it != "PYTHONUNBUFFERED"}
    with subprocess.Popen(
            [sys.executable, *words], cwd=TOP, stdin=subprocess.PIPE, stdout=subprocess.PIPE,
            stderr=subprocess.PIPE, env=buffered, preexec_fn=heeds_interrupts) as run:
        run.stdin.write(octets)
        run.stdin.flush()
        while run.poll() is None and not (is_begun(run.stdin) and sleeps(run.pid)):
            time.sleep(0.01)
        if not is_read:
            run.stdout.close()
        run.send_signal(signal.SIGINT)
        out, said = run.stdout.read() if is_read else b"", run.stderr.read()
        return run.wait(LIMIT), out.decode(), said.decode()


def counted(result):
    """What bin/what-if says of a setting, and what of its asks."""
    setting = tuple(int(result[it]) for it in ("capacity", "stale", "negative"))
    return setting, tuple(int(result[it]) for it in (
        "fresh", "stale_answers", "negative_answers", "missed", "evictions", "octets"))


# ---- rows

# Lines of a row that are explained, at most.
EXPLAINED_MOST = 400


def rows_to_read():
    """The rows that the program is to read."""
    return [it for it in rows().values() if int(content(it, "status", b"0")) != WRONG_ARGUMENTS]


def rows_to_explain():
    """Those of one trace that is not refused and not long."""
    return [it for it in rows_to_read()
            if not content(it, "stderr") and not (it / "each").exists()
            and content(it, "report").count(b"\n") <= EXPLAINED_MOST]


def history_of(row):
    """The archive that the model makes of a row's trace, of chapters of seven events at most."""
    options = options_of(row)
    rules = Rules(options.get("capacity", 1024), 7, options.get("stale", 86_400))
    return archive_of(lines_in(io.BytesIO(*traces_of(row))), rules)


# ---- an archive

SOA = "076578616d706c6500" * 2 + "0000000100000e100000025800093a800000012c"
# The archive of the trace in test_model.py, by hand from docs/RULES.md and docs/FORMATS.md.
ARCHIVE = rf"""
chapter 1 0 2 4 100
offer 0 0 100 a.example. 1 set 4 60 a.Example. c0000201,c0000202 kept
ask 1 0 150 a.example. 1 answer none fresh 10 a.Example. c0000201,c0000202
offer 2 0 150 a.example. 1 set 1 60 a.example. c0000203 less
offer 3 0 150 a\.b\000. 16/3 set 2 0 a\.b\000. - cleared
chapter 2 4 2 4 100
entry 0 100 a.example. 1 set 4 60 a.Example. c0000201,c0000202
offer 4 0 160 b. failed28 failure 30 kept
ask 5 0 161 b. 28 any failed miss 190
offer 6 0 170 c. 16/4 set 3 5 c. 00,- kept a.example. 1
ask 7 0 180 c. 16/4 answer now stale 30 c. 00,-
chapter 3 8 2 4 100
entry 6 170 c. 16/4 set 3 5 c. 00,-
entry 4 160 b. failed28 failure 30
sweep 8 0 300 b. failed28 c. 16/4
offer 9 0 400 example. 6 set 3 3600 example. {SOA} kept
offer 9 1 400 a.example. nx negative 4 300 example. {SOA} kept
ask 10 0 500 a.example. 1 answer none nxdomain 200 example. {SOA}
chapter 4 12 2 4 100
entry 10 400 a.example. nx negative 4 300 example. {SOA}
entry 9 400 example. 6 set 3 3600 example. {SOA}
ask 12 0 600 x. 1 answer failed miss
offer 12 1 600 x. failed1 failure 30 kept example. 6
ask 12 2 600 x. 1 answer now miss 630
sweep 13 0 0
""".lstrip()
