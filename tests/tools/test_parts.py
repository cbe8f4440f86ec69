# SPDX-License-Identifier: MIT
"""Tests of how bin/test runs its parts: side by side, each told by itself, and of the archive that
is built beside the gate."""
import importlib.machinery
import importlib.util
import os
import re
import shutil
import signal
import subprocess
import sys
import time
from collections import Counter
from contextlib import suppress
from pathlib import Path
from types import SimpleNamespace

import pytest

from tests.tools.shared import LIMIT, TOP, heeds_interrupts
from tools import beside, kit, parts
from tools.beside import Archive
from tools.parts import Part, run_again, run_lanes
from tools.running import Commands, NoMore

# A command of a part prints so many lines, each a moment behind the one before.
LINES = 5


def python(text):
    """The words of a command in Python, quoted for a part."""
    return f"""{sys.executable} -c "{text}" """


def slow(name, said):
    return python(f"import sys, time\nfor it in range({LINES}): print('{name}', it, flush=True);"
                  f" time.sleep(0.02)\nprint('{said}', flush=True)\nprint('!', file=sys.stderr)")


@pytest.fixture(scope="module")
def test_command():
    """bin/test as a module."""
    loader = importlib.machinery.SourceFileLoader("test_command", str(TOP / "bin" / "test"))
    module = importlib.util.module_from_spec(importlib.util.spec_from_loader("test_command",
                                                                             loader))
    loader.exec_module(module)
    return module


# ---- parts


def test_each_part_runs_once(test_command):
    """The gate comes first, and the last part runs alone."""
    beside_the_others = [name for lane in test_command.LANES for name in lane]
    assert sorted(["gate", *beside_the_others, "alone"]) == sorted(test_command.PARTS)


def test_each_test_that_is_left_out_is_run_alone(test_command):
    parts = test_command.PARTS
    left = {folder for words in parts.values() for it in words if "not alone" in it
            for folder in re.findall(r"tests/\w+", it)}
    marked = {f"tests/{it.parent.name}" for it in TOP.glob("tests/*/test_*.py")
              if re.search(r"^(@|pytestmark = )pytest.mark.alone$", it.read_text(), re.M)}
    alone = {it.split()[0] for it in parts["alone"]}
    assert alone == marked and marked <= left


def test_lines_of_a_part_stand_together(capfd):
    """What a command says on standard error stands behind what it prints."""
    parts = [Part(name, [slow(name, f"{number} passed, 0 failed")], True)
             for number, name in enumerate("abcd", 1)]
    with Commands() as commands:
        run_lanes([parts[:2], parts[2:3], parts[3:]], commands)
    blocks = capfd.readouterr().out.split("== ")[1:]
    assert sorted(blocks) == [
        "\n".join([name, *(f"{name} {it}" for it in range(LINES)), f"{number} passed, 0 failed",
                   "!", f"{name}: {number} passed, 0 failed\n"])
        for number, name in enumerate("abcd", 1)]
    assert [it.counts["passed"] for it in parts] == [1, 2, 3, 4]


def test_processor_seconds_are_those_of_each_part(capfd):
    busy = python("import time\nwhile time.process_time() < 0.5: pass\nprint('1 passed, 0 failed')")
    idle = python("import time\ntime.sleep(0.5)\nprint('1 passed, 0 failed')")
    parts = [Part("busy", [busy], True), Part("idle", [idle], True)]
    with Commands() as commands:
        run_lanes([[it] for it in parts], commands)
    assert parts[0].processor >= 0.5 > 0.4 > parts[1].processor
    assert all(it.wall >= 0.5 for it in parts)


@pytest.mark.parametrize("command, told", [
    (python("print('FAILED it')\nprint('1 failed, 2 passed in 3.4s')"), ["FAILED it"]),
    (python("raise SystemExit(3)"), ["FAIL", "status 3"]),
    (python("print('2 passed in 1.0s')\nraise SystemExit(3)"), ["FAIL", "status 3"])])
def test_a_part_that_failed_is_told(command, told, capfd):
    part = Part("it", [command, python("print('5 passed, 0 failed')")])
    with Commands() as commands:
        part.run(commands)
    assert part.counts["failed"] == 1 and part.counts["passed"] >= 5
    [line] = part.told
    assert line.startswith("failed in it: ") and all(it in line for it in told)


# Each test fails as often as its file says, and has one letter more in a file at each run.
UNSTEADY = """
from pathlib import Path
import pytest

@pytest.mark.parametrize("name, failures", [("good", 0), ("once", 1), ("once more", 1),
                                            ("bad", 9)])
def test_it(name, failures):
    path = Path(__file__).with_name(name)
    runs = len(path.read_text()) if path.exists() else 0
    path.write_text("x" * (runs + 1))
    assert runs >= failures
"""


@pytest.fixture
def unsteady(tmp_path, monkeypatch):
    """A part of four tests, of which two fail once and one always."""
    (tmp_path / "tests").mkdir()
    shutil.copy(TOP / "setup.cfg", tmp_path)
    (tmp_path / "tests" / "conftest.py").write_text((TOP / "tests" / "conftest.py").read_text())
    (tmp_path / "tests" / "test_it.py").write_text(UNSTEADY)
    monkeypatch.setattr(parts, "TOP", tmp_path)
    return Part("it", ["tests/"])


def test_what_failed_once_is_told_as_unsteady(unsteady, capfd):
    with Commands() as commands:
        unsteady.run(commands)
        assert unsteady.counts == Counter(passed=1, failed=3) and len(unsteady.told) == 3
        run_again([unsteady], commands)
    assert unsteady.counts == Counter(passed=3, failed=1)
    bad, *others = unsteady.told
    assert bad.startswith("failed in it: FAILED tests/test_it.py::test_it[bad-9]")
    assert [it.startswith(f"UNSTEADY in it: tests/test_it.py::test_it[{name}-1]")
            for it, name in zip(others, ("once", "once more"), strict=True)] == [True, True]


def test_many_that_failed_are_not_run_again(unsteady, capfd, monkeypatch):
    monkeypatch.setattr(parts, "MOST_AGAIN", 2)
    with Commands() as commands:
        unsteady.run(commands)
        run_again([unsteady], commands)
    assert unsteady.counts == Counter(passed=1, failed=3)


def test_an_interrupt_ends_all_commands(tmp_path):
    """Also one that goes on at an interrupt, as `rt ci` does. No part behind them begins."""
    script = tmp_path / "script"
    script.write_text(f"""
import os, sys
sys.path.insert(0, {str(TOP)!r})
from tools.parts import Part, run_lanes
from tools.running import Commands
from tools import running
running.PATIENCE = 0.3
os.sched_getaffinity = lambda _: range(3)  # all three lanes at once, on any machine
with Commands() as commands:
    run_lanes([[Part("a", ["sleep 600", "touch {tmp_path}/begun"], True)],
               [Part("b", ["sh -c 'trap : INT; echo; while sleep 1; do :; done'"], True)],
               [Part("c", ["touch {tmp_path}/ready", "sleep 600"], True)]], commands)
""")
    with subprocess.Popen([sys.executable, script], stderr=subprocess.DEVNULL,
                          stdout=subprocess.DEVNULL, preexec_fn=heeds_interrupts) as run:
        children = set()
        while run.poll() is None and not (len(children) == 3 and (tmp_path / "ready").exists()):
            time.sleep(0.01)
            children = processes_of(run.pid)
        run.send_signal(signal.SIGINT)
        run.wait(LIMIT)
    assert len(children) == 3 and not (tmp_path / "begun").exists()
    assert children.isdisjoint(processes_of())


def processes_of(parent=None):
    """The children of a process, or all processes: each with its parent, and with the moment when
    it began, since another may get its number later."""
    found = set()
    for stat in Path("/proc").glob("[0-9]*/stat"):
        with suppress(OSError):  # it has ended meanwhile
            _, of, *fields = stat.read_text().rpartition(")")[2].split()
            if parent is None or of == str(parent):
                found.add((stat.parent.name, fields[17]))
    return found


def test_no_command_starts_behind_the_end():
    commands = Commands()
    commands.end()
    with pytest.raises(NoMore):
        commands.run(["true"], print)


# ---- the archive

MADE = ("libit.a", "libit.a.stamp", "it-x86_64.s")
WRITES = f"""
import os
for name in {MADE}:
    with open(f"crates/it/out/{{name}}", "w") as made:
        made.write(f"{{name}} by {{os.environ['RT_JOBS']}} at {{os.nice(0)}}")
"""


@pytest.fixture
def archive(tmp_path, monkeypatch):
    """Archives of which the copy has nothing but a script for bin/build."""
    (tmp_path / "crates" / "it" / "out").mkdir(parents=True)
    monkeypatch.setattr(Archive, "copy", lambda it, folder: it.copies(folder))

    def made(script):
        def copies(folder):
            (folder / "bin").mkdir()
            (folder / "bin" / "build").write_text(script)
            (folder / "crates" / "it" / "out").mkdir(parents=True)
        archive = Archive("it", Commands(), tmp_path)
        archive.copies = copies
        return archive
    return made


def taken(archive, *lines):
    """What is told behind these lines of the gate, and the files of the archive that then stand."""
    told = []
    for line in lines:
        archive.hear(line)
    archive.take(told.append)
    return told, {it.name: it.read_text() for it in archive.top.glob("crates/it/out/*")}


@pytest.mark.parametrize("said", [["rt: it proved"], 2 * [
    "rt: it is kept: an earlier run on this machine proved the same files"]])
def test_the_archive_is_built_where_the_gate_proved_its_crate(said, archive):
    """By one job, and at a priority that is lower, where there is a lower one; also if an earlier
    run proved the crate, and once if the gate says so twice."""
    made = f"by 1 at {min(os.nice(0) + 10, 19)}"
    assert taken(archive(WRITES), "rt: other proved", *said) == (
        [], {name: f"{name} {made}" for name in MADE})


def test_no_archive_is_built_where_the_gate_did_not_prove_its_crate(archive):
    lines = "rt: it NOT PROVED", "rt: it: its tests are proved", "rt: FAILED: it"
    assert taken(archive(WRITES), *lines) == ([], {})


def test_a_build_that_failed_is_told_and_leaves_no_archive(archive):
    failing = archive(WRITES + "raise SystemExit('no room')")
    assert taken(failing, "rt: it proved") == (
        ["no room", "it was not built beside the gate: status 1"], {})


def test_a_build_that_lacks_memory_is_tried_again_until_the_gate_ends(archive, monkeypatch):
    monkeypatch.setattr(beside, "LATER", 0.01)
    lines = "rt: it proved", "rt: ok; handles allowed: none"
    assert taken(archive("raise SystemExit(2)"), *lines) == (
        ["it was not built beside the gate: status 2"], {})
    lacking = archive("import os\nif not os.path.exists('begun'):\n"
                      "    open('begun', 'w').close()\n    raise SystemExit(2)" + WRITES)
    lacking.hear("rt: it proved")
    lacking.thread.join()
    told, made = taken(lacking)
    assert not told and len(made) == len(MADE)


@pytest.mark.parametrize("stale", ["stamp", "source"])
def test_libraries_that_the_gate_did_not_make_are_not_taken(stale, tmp_path, monkeypatch):
    """The one below has what bin/build leaves, or a source that is newer."""
    library = tmp_path / "crates" / "low" / "out" / "rlib" / "low.rlib"
    library.mkdir(parents=True)
    (library / "format").touch()
    (library.parent / "stamp" if stale == "stamp" else tmp_path / "crates.txt").touch()
    os.utime(library, (0, 0))
    low, it = (SimpleNamespace(name=name, rlib=library, folder=tmp_path, below=lambda: [low])
               for name in ("low", "it"))
    rtlib = SimpleNamespace(crates_below=lambda _: [low, it])
    monkeypatch.setattr(kit, "load", lambda: SimpleNamespace(rtlib=rtlib))
    monkeypatch.setattr(kit, "TOP", tmp_path)
    told, made = taken(Archive("it", Commands(), tmp_path), "rt: it proved")
    assert told == ["it was not built beside the gate: the gate left no library of low"]
    assert not made
