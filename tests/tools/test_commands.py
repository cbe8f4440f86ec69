# SPDX-License-Identifier: MIT
"""Tests of what all commands of bin/ have in common: help, the version, and how they end."""
import os
import re
import shutil
import signal
import subprocess
import sys
import time
from contextlib import suppress
from pathlib import Path

import pytest

from tests.tools import shared
from tests.tools.shared import LIMIT, OPTIONS, TOP, WRONG_ARGUMENTS

COMMANDS = sorted(it.name for it in (TOP / "bin").iterdir() if it.is_file())
VERSION = (TOP / "VERSION").read_text().strip()
PCAP = TOP / "tests" / "captures" / "small.pcap"
# Behind the words of each a trace or a capture is named.
READERS = [["from-capture"], ["why", 0], ["what-if", "--program=true"]]
# 128 and the number of the signal that ended it, as a shell has it: SIGPIPE is 13.
UNREAD, INTERRUPTED = 141, 130


def ran(name, *words, **others):
    """A run of a command as a shell starts it."""
    others = {"stdout": subprocess.PIPE, "stdin": subprocess.DEVNULL, **others}
    return subprocess.run([TOP / "bin" / name, *map(str, words)], stderr=subprocess.PIPE, text=True,
                          timeout=LIMIT, **others)


def ran_unread(name, *words):
    """A run of which nobody reads what it prints."""
    reading, writing = os.pipe()
    os.close(reading)
    try:
        return ran(name, *words, stdout=writing)
    finally:
        os.close(writing)


@pytest.mark.parametrize("word", ["-h", "--help"])
@pytest.mark.parametrize("name", COMMANDS)
def test_each_command_tells_its_usage(name, word):
    run = ran(name, word)
    assert (run.returncode, run.stderr) == (0, "")
    assert re.search(r"(?i)^usage: \w", run.stdout, re.M)


@pytest.mark.parametrize("name", COMMANDS)
def test_each_command_tells_its_version(name):
    """The program, where it is built, tells behind it of the kit that proved it."""
    run = ran(name, "--version")
    assert (run.returncode, run.stderr) == (0, "")
    line, _, more = run.stdout.partition("\n")
    assert line == f"{name} {VERSION}" and (not more or name == "rrcache")


@pytest.mark.parametrize("name", [it for it in COMMANDS if it not in ("rrcache", "try")])
def test_each_command_refuses_words_that_it_does_not_know(name):
    """These two hand their words to the program."""
    run = ran(name, "--no-such-word")
    assert (run.returncode, run.stdout) == (WRONG_ARGUMENTS, "")
    assert re.fullmatch(rf"{name}: .+ \(see {name} --help\)\n", run.stderr)


def test_the_program_tells_its_usage_before_it_is_built(tmp_path):
    """The options are those of docs/FORMATS.md. The command is copied to where no program is, and
    where a build would fail."""
    (tmp_path / "bin").mkdir()
    command = shutil.copy(TOP / "bin" / "rrcache", tmp_path / "bin")
    shutil.copy(TOP / "VERSION", tmp_path)
    told = subprocess.run([command, "--stale", "5", "--help"], capture_output=True, text=True)
    assert (told.returncode, told.stderr) == (0, "")
    text = re.sub(r"\s+", " ", told.stdout)
    for name, (least, most, usual) in OPTIONS.items():
        assert re.search(rf"--{name} N [^:]*: {least} to {most:,} \(default: {usual}\)", text), name
    told = subprocess.run([command, "-V"], capture_output=True, text=True)
    assert (told.returncode, told.stdout, told.stderr) == (0, f"rrcache {VERSION}\n", "")


# ---- paths


@pytest.mark.parametrize("path", ["/nonexistent", "/", "/dev/null/x", "/proc/self/mem"])
@pytest.mark.parametrize("words", READERS, ids=lambda it: it[0])
def test_a_path_that_cannot_be_read_is_one_line(words, path):
    """Nothing is there, or a folder; a file is taken for a folder; of another no octet can be
    read."""
    run = ran(*words, path)
    assert (run.returncode, run.stdout) == (WRONG_ARGUMENTS, "")
    assert re.fullmatch(rf"{words[0]}: {path}: .+\n", run.stderr)


@pytest.mark.parametrize("is_closed", [False, True])
@pytest.mark.parametrize("words", READERS, ids=lambda it: it[0])
def test_standard_input_that_cannot_be_read_is_one_line(words, is_closed):
    """It is open for writing alone, or closed."""
    with open(os.devnull, "w") as stdin:
        run = ran(*words, "-", stdin=stdin, preexec_fn=lambda: os.close(0) if is_closed else None)
    assert (run.returncode, run.stdout) == (WRONG_ARGUMENTS, "")
    assert re.fullmatch(rf"{words[0]}: standard input: .+\n", run.stderr)


# ---- ends


@pytest.mark.parametrize("name", [it for it in COMMANDS if it != "rrcache"])
def test_a_command_that_nobody_reads_ends_by_its_status(name):
    run = ran_unread(name, "--help")
    assert (run.returncode, run.stderr) == (UNREAD, "")


def test_a_tool_whose_output_nobody_reads_ends_by_its_status(trace_of):
    pytest.importorskip("dpkt")
    trace = trace_of(["put 100 a. 1 4 60 c0000201"])
    for words in (["from-capture", PCAP], ["why", 0, trace]):
        run = ran_unread(*words)
        assert (run.returncode, run.stderr) == (UNREAD, "")


def test_a_tool_of_which_a_part_is_read_ends_by_its_status():
    """The first line of many, as by `head -n 1`: the trace has more than a pipe holds."""
    pytest.importorskip("dpkt")
    with subprocess.Popen([TOP / "bin" / "from-capture", PCAP], stdout=subprocess.PIPE,
                          stderr=subprocess.PIPE, text=True) as run:
        assert run.stdout.readline().startswith("ask ")
        run.stdout.close()
        assert (run.wait(LIMIT), run.stderr.read()) == (UNREAD, "")


def script(path, body):
    """Writes a command, and returns its path."""
    path.write_text(f"#!/bin/sh\n{body}\n")
    path.chmod(0o755)
    return path


@pytest.fixture(params=["from-capture", "why", "what-if", "help"])
def words_of_output(request, trace_of, tmp_path):
    """The words of commands that print something."""
    trace = trace_of(["checkpoint"])
    program = script(tmp_path / "program", "echo 0 checkpoint")
    return {"from-capture": ["from-capture", PCAP], "why": ["why", 0, trace],
            "what-if": ["what-if", f"--program={program}", trace],
            "help": ["build", "--help"]}[request.param]


def test_what_cannot_be_written_is_one_line(words_of_output):
    """As on a disk that is full."""
    with open("/dev/full", "w") as full:
        run = ran(*words_of_output, stdout=full)
    assert (run.returncode, run.stderr.count("\n")) == (1, 1)
    assert run.stderr.startswith(f"{words_of_output[0]}: ")


def test_standard_output_that_is_closed_is_one_line(words_of_output):
    run = ran(*words_of_output, preexec_fn=lambda: os.close(1))
    assert (run.returncode, run.stderr) == (
        1, f"{words_of_output[0]}: standard output is closed\n")


def test_standard_error_that_is_closed_changes_nothing(words_of_output):
    """No shell starts it, which might open a file in the place of standard error."""
    name, *words = words_of_output
    whole, run = (shared.ran(f"bin/{name}", *words, preexec_fn=it)
                  for it in (None, lambda: os.close(2)))
    assert (run.returncode, run.stdout) == (0, whole.stdout) and whole.stdout


@pytest.mark.parametrize("name, words", [
    ("from-capture", ["--lines=0", PCAP]), ("from-capture", ["--timeout=0", PCAP]),
    ("from-capture", ["--timeout=1e3", PCAP]), ("from-capture", ["--port=65536", PCAP]),
    ("from-capture", ["--port=+53", PCAP]), ("from-capture", [f"--lines={10**30}", PCAP]),
    ("why", ["one", PCAP]), ("why", [f"--capacity={'9' * 5_000}", 0, PCAP]),
    ("what-if", ["--capacity=1,,2", PCAP]), ("what-if", [f"--capacity={10**30}", PCAP]),
    ("what-if", ["--csv", "--json", PCAP]), ("install-c", ["usr"]),
    ("from-capture", ["--client-timer=inf", PCAP]), ("from-capture", ["--client-timer=1s", PCAP]),
    ("fuzz", ["--seconds=nan"]), ("fuzz", ["--seconds=0"]), ("fuzz", ["--runs=-1"]),
    ("build", ["no-such-crate"])])
def test_wrong_values_are_one_line(name, words):
    run = ran(name, *words)
    assert (run.returncode, run.stdout, run.stderr.count("\n")) == (WRONG_ARGUMENTS, "", 1)
    assert run.stderr.startswith(f"{name}: ") and len(run.stderr) < 200


@pytest.mark.parametrize("words", READERS, ids=lambda it: it[0])
@pytest.mark.parametrize("octets", [b"", b"\x7fELF\0\1\2\xff" * 99, PCAP.read_bytes()[:-9]],
                         ids=["empty", "binary", "capture"])
def test_what_is_no_trace_or_no_capture_is_one_line(tmp_path, words, octets):
    """An empty file is a trace without lines, and a capture that is cut off one of what it has."""
    (tmp_path / "file").write_bytes(octets)
    run = ran(*words, tmp_path / "file")
    is_read = words[0] == ("from-capture" if len(octets) > 1_000 else "" if octets else "what-if")
    assert (run.returncode, bool(run.stdout)) == (0 if is_read else 1, is_read)
    assert "Traceback" not in run.stderr and (is_read or run.stderr.count("\n") == 1)


def test_a_file_that_is_not_there_is_told_before_others_are_read(tmp_path):
    run = ran("from-capture", PCAP, tmp_path / "none")
    assert (run.returncode, run.stdout) == (WRONG_ARGUMENTS, "")
    assert run.stderr == f"from-capture: {tmp_path / 'none'}: No such file or directory\n"


def test_what_if_says_with_which_status_its_program_ended(trace_of):
    run = ran("what-if", "--program=false", trace_of(["checkpoint"]))
    assert (run.returncode, run.stderr) == (1, "what-if: the program ended with status 1\n")


def test_fuzz_says_that_no_program_was_built(tmp_path):
    """In a checkout in which nothing was built, this is no difference from the model."""
    for it in ("VERSION", "bin", "tools", "python/rrcache", "tests/rows/trust",
               "tests/captures/small.pcap"):
        (tmp_path / it).parent.mkdir(parents=True, exist_ok=True)
        (shutil.copytree if (TOP / it).is_dir() else shutil.copyfile)(TOP / it, tmp_path / it)
    run = shared.ran(tmp_path / "bin" / "fuzz", "--runs=1")
    assert (run.returncode, run.stdout) == (WRONG_ARGUMENTS, "")
    assert run.stderr == "fuzz: there is no crates/rrcache/out/rrcache: bin/build makes it\n"
    assert not (tmp_path / "build").exists()


def wait_until(is_so):
    """Waits until something is so."""
    end = time.monotonic() + LIMIT
    while not is_so():
        assert time.monotonic() < end
        time.sleep(0.01)


def interrupted(begun, *words, **others):
    """The status of a command, and what it says, that is interrupted once this file is there. The
    interrupt comes to all of its processes, as Ctrl-C does."""
    with subprocess.Popen(
            [sys.executable, *words], stdin=subprocess.DEVNULL, stdout=subprocess.DEVNULL,
            stderr=subprocess.PIPE, text=True, start_new_session=True, **others,
            preexec_fn=shared.heeds_interrupts) as run:
        wait_until(lambda: begun.exists() or run.poll() is not None)
        os.killpg(run.pid, signal.SIGINT)
        said = run.stderr.read()
        return run.wait(LIMIT), said


def test_an_interrupt_ends_the_processes_of_fuzz_without_a_traceback(tmp_path):
    begun = tmp_path / "begun"
    program = script(tmp_path / "program", f"touch {begun}\nexec cat >{os.devnull}")
    words = TOP / "bin" / "fuzz", "--seconds=60", "--most=1000", program
    assert interrupted(begun, *words) == (INTERRUPTED, "")


def test_an_interrupt_comes_while_the_processes_of_fuzz_begin(tmp_path):
    """Each takes half a second for that, as on a machine that does much else."""
    begun = tmp_path / "begun"
    code = ("import os, runpy, sys, time\n"
            f"os.register_at_fork(after_in_child=lambda: (open({str(begun)!r}, 'w').close(),"
            " time.sleep(0.5)))\n"
            f"sys.argv = ['fuzz', '--runs=9', '/bin/true']\n"
            f"runpy.run_path({str(TOP / 'bin' / 'fuzz')!r}, run_name='__main__')\n")
    assert interrupted(begun, "-c", code) == (INTERRUPTED, "")


def processes_in(session):
    """The processes of a session that have not ended."""
    found = []
    for stat in Path("/proc").glob("[0-9]*/stat"):
        with suppress(OSError):  # it has ended meanwhile
            state, _, _, its, *_ = stat.read_text().rpartition(")")[2].split()
            found += [stat.parent.name] * (its == str(session) and state != "Z")
    return found


def test_the_processes_of_fuzz_end_with_it(tmp_path):
    """Even if it is killed, so that it cannot end them."""
    begun = tmp_path / "begun"
    program = script(tmp_path / "program", f"touch {begun}\nexec cat >{os.devnull}")
    with subprocess.Popen([sys.executable, TOP / "bin" / "fuzz", program], start_new_session=True,
                          stdin=subprocess.DEVNULL, stdout=subprocess.DEVNULL) as run:
        wait_until(lambda: begun.exists())
        run.kill()
    try:
        wait_until(lambda: not processes_in(run.pid))
    finally:
        with suppress(ProcessLookupError):
            os.killpg(run.pid, signal.SIGKILL)


@pytest.mark.parametrize("name", [it for it in COMMANDS if it != "rrcache"])
def test_an_interrupt_of_the_imports_ends_a_command_without_a_traceback(tmp_path, name):
    """The signal itself ends it, as a shell reports by the same status; one that a shell runs in
    the background goes on. `rrcache` is a shell script."""
    begun, more = tmp_path / "begun", tmp_path / "more"
    (tmp_path / "argparse.py").write_text(
        f"import os, time\nopen({str(begun)!r}, 'w').close()\n"
        f"while not os.path.exists({str(more)!r}): time.sleep(0.01)\nos._exit(77)\n")
    around = {**os.environ, "PYTHONPATH": str(tmp_path)}
    assert interrupted(begun, TOP / "bin" / name, env=around) == (-signal.SIGINT, "")
    begun.unlink()
    with subprocess.Popen(
            ["sh", "-c", 'trap "" INT; exec "$@"', "sh", sys.executable, TOP / "bin" / name],
            env=around) as run:
        wait_until(begun.exists)
        run.send_signal(signal.SIGINT)
        more.touch()
        assert run.wait(LIMIT) == 77


def test_a_second_interrupt_ends_what_if_at_once(tmp_path, trace_of):
    """It waits for who has the standard error of its program, which was killed at the first."""
    begun = tmp_path / "begun"
    program = script(tmp_path / "program", f"sleep 600 & echo $$ >{begun}.new\n"
                                           f"mv {begun}.new {begun}; wait")
    with subprocess.Popen([sys.executable, TOP / "bin" / "what-if", f"--program={program}",
                           trace_of(["checkpoint"])], start_new_session=True, text=True,
                          stdout=subprocess.DEVNULL, stderr=subprocess.PIPE,
                          preexec_fn=shared.heeds_interrupts) as run:
        try:
            wait_until(begun.exists)
            run.send_signal(signal.SIGINT)
            wait_until(lambda: begun.read_text().strip() not in processes_in(run.pid))
            assert run.poll() is None
            run.send_signal(signal.SIGINT)
            assert (run.wait(LIMIT), run.stderr.read()) == (-signal.SIGINT, "")
        finally:
            os.killpg(run.pid, signal.SIGKILL)


@pytest.mark.parametrize("name, runs, said", [
    ("try", "rt", "try: nothing is proved"), ("format", "clang-format", ""), ("setup", "cc", "")])
def test_an_interrupt_ends_a_command_that_runs_another(tmp_path, name, runs, said):
    begun = tmp_path / "begun"
    script(tmp_path / runs, f": >{begun}\nexec sleep 60")
    path = f"{tmp_path}:{os.environ['PATH']}"
    status, told = interrupted(begun, TOP / "bin" / name, env={**os.environ, "PATH": path})
    assert status == INTERRUPTED and told.startswith(said) and told.count("\n") == bool(said)


@pytest.mark.parametrize("name", ["build", "build-c"])
def test_an_interrupt_ends_a_build_without_a_traceback(tmp_path, name):
    """While the kit's command is loaded, as Python. bin/build is ended by the signal itself."""
    begun = tmp_path / "begun"
    script(tmp_path / "rt", "").write_text(
        f"import time\nopen({str(begun)!r}, 'w').close()\ntime.sleep(60)\n")
    path = f"{tmp_path}:{os.environ['PATH']}"
    status, told = interrupted(begun, TOP / "bin" / name, env={**os.environ, "PATH": path})
    assert (status, told) == (-signal.SIGINT if name == "build" else INTERRUPTED, "")


def test_a_build_in_the_background_of_a_shell_goes_on(tmp_path):
    """The interrupt comes while the kit's command is loaded."""
    script(tmp_path / "rt", "").write_text(
        "import os, signal\nos.kill(os.getpid(), signal.SIGINT)\nos._exit(77)\n")
    run = subprocess.run(
        ["sh", "-c", 'trap "" INT; exec "$@"', "sh", sys.executable, TOP / "bin" / "build"],
        env={**os.environ, "PATH": f"{tmp_path}:{os.environ['PATH']}"})
    assert run.returncode == 77


@pytest.mark.parametrize("name, said", [
    ("build", "the Rattle kit is not installed"),
    ("try", "the Rattle kit is not installed"), ("format", "clang-format: No such file")])
def test_a_command_says_in_one_line_that_another_is_not_there(tmp_path, name, said):
    run = subprocess.run([sys.executable, TOP / "bin" / name], capture_output=True, text=True,
                         stdin=subprocess.DEVNULL, env={**os.environ, "PATH": str(tmp_path)})
    assert (run.returncode, run.stdout, run.stderr.count("\n")) == (WRONG_ARGUMENTS, "", 1)
    assert run.stderr.startswith(f"{name}: {said}")
