# SPDX-License-Identifier: MIT
"""The documents, which are the repository's *.md files, and how its sources are laid out.

A line has at most 100 columns, and a row of a table 120; README.md has at most 130 lines. Every
link leads to a file, and to a heading where it names one. Every path that a document names exists.
Every definition that a row of docs/DEFINITIONS.md names behind its first cell stands in the file
that the row names. Every name in code, of letters in both cases or of words joined by _, occurs in
some source outside of comments, or in a path. docs/decisions/README.md links every topic.
"""
import re
import shutil
import subprocess
import sys
from functools import cache
from pathlib import Path

import pytest

TOP = Path(__file__).resolve().parents[2]
COLUMNS, TABLE_COLUMNS, README_LINES = 100, 120, 130
FOLDERS = {it.name for it in TOP.iterdir() if it.is_dir()}
CRATES = {it.name for it in (TOP / "crates").iterdir()}
# What commands make, and words of a path that stand for any name.
MADE = re.compile(r"^build/|/out(/|$)")
PLACEHOLDER = re.compile(r"[*<>{}]|\.\.$|\b[A-Z]{3,}\b(?!\.(md|tsv))|rrc_x")
# A name in code, and what is a comment in the sources where it is to occur.
NAME = re.compile(r"\b(?:[A-Z]\w*[a-z]\w*|[a-z]\w*_\w+)\b")
COMMENTS = {".rt": r"//[^\n]*", ".antt": r"--[^\n]*", ".c": r"/\*.*?\*/", ".h": r"/\*.*?\*/"}
DEFINED = r"^\s*(?:pub |abbrev |unfoldable |record |data )*{}\b"


def listed(*patterns):
    """The repository's files of these patterns, or all."""
    command = ["git", "ls-files", "--cached", "--others", "--exclude-standard", *patterns]
    found = subprocess.run(command, cwd=TOP, capture_output=True, text=True, check=True).stdout
    return sorted(it for it in set(found.split("\n")) - {""} if (TOP / it).exists())


def slug(heading):
    """The anchor of a heading, as the usual renderers of Markdown make it."""
    return re.sub(r"[^\w\- ]", "", heading.replace("`", "").lower()).strip().replace(" ", "-")


def anchors(path):
    return {slug(it) for it in re.findall(r"^#+ (.*)$", path.read_text(), re.M)}


def wide_lines(text):
    for number, line in enumerate(text.split("\n"), 1):
        most = TABLE_COLUMNS if line.startswith("|") else COLUMNS
        if len(line) > most:
            yield f"line {number} has {len(line)} columns, and {most} are the most"


def bad_links(path, text):
    for target in re.findall(r"\]\(([^)\s]+)\)", re.sub(r"`[^`\n]*`", "", text)):
        name, _, anchor = target.partition("#")
        if re.match(r"https?:", target):
            continue
        led = (path.parent / name).resolve() if name else path
        if not led.exists():
            yield f"the link {target} leads nowhere"
        elif anchor and anchor not in anchors(led):
            yield f"no heading has the anchor of the link {target}"


def named_paths(text):
    """The paths in code: those that begin with a folder of the repository or with a crate."""
    shell = re.findall(r"^```sh\n(.*?)^```", text, re.M | re.S)
    for span in re.findall(r"`([^`\n]+)`", text) + shell:
        for word in re.split(r"[\s,;:()\"']+", span):
            if word.split("/")[0] in FOLDERS | CRATES and "/" in word:
                yield word.rstrip(".")


def exists(name):
    return any((TOP / it / name).exists() for it in ("", "crates"))


def missing_paths(text):
    for name in sorted(set(named_paths(text))):
        if not MADE.search(name) and not PLACEHOLDER.search(name) and not exists(name):
            yield f"there is no {name}"


@cache
def known_words():
    """The words of all paths, and those of the sources without their comments."""
    words = set()
    for name in listed():
        words |= set(re.findall(r"\w+", name))
        if not name.endswith(".md") and not name.startswith(("tests/rows/", "tests/captures/")):
            text = (TOP / name).read_text(errors="replace")
            bare = re.sub(COMMENTS.get(Path(name).suffix, r"(?!)"), "", text, flags=re.S)
            words |= set(re.findall(r"\w+", bare))
    return words


def unknown_names(text):
    prose = re.sub(r"^```.*?^```", "", text, flags=re.M | re.S)
    for span in re.findall(r"`([^`\n]+)`", prose):
        for name in NAME.findall(span):
            if name not in known_words():
                yield f"no source has {name}"


def missing_definitions(text):
    for row in re.findall(r"^\|.*\.antt`.*$", text, re.M):
        files = [it for it in re.findall(r"`([\w/]+\.antt)`", row) if exists(it)]
        defined = "\n".join((TOP / "crates" / it).read_text() for it in files)
        for word in re.findall(r"`(\w+)`", row.split("|", 2)[2]):
            if not re.search(DEFINED.format(word), defined, re.M):
                yield f"{' and '.join(files)} do not define {word}"


def faults(path):
    text = path.read_text()
    yield from wide_lines(text)
    yield from bad_links(path, text)
    yield from missing_paths(text)
    yield from unknown_names(text)
    if path.name == "DEFINITIONS.md":
        yield from missing_definitions(text)
    lines = text.count("\n")
    if path == TOP / "README.md" and lines > README_LINES:
        yield f"it has {lines} lines, and {README_LINES} are the most"


@pytest.mark.parametrize("name", listed("*.md"))
def test_document(name):
    found = list(faults(TOP / name))
    assert not found, "\n".join(found)


def test_index_of_decisions_has_each_topic():
    folder = TOP / "docs" / "decisions"
    linked = set(re.findall(r"\]\((\w[\w-]*\.md)\)", (folder / "README.md").read_text()))
    assert linked == {it.name for it in folder.iterdir()} - {"README.md"}


def python_files():
    """The Python sources. Commands have no ending, and tell it in their first line."""
    for name in listed():
        with (TOP / name).open("rb") as source:
            if name.endswith(".py") or re.match(rb"#!.*python", source.readline()):
                yield name


def test_sources_name_their_licence():
    found = [name for name in [*listed("*.rt", "*.antt", "*.c", "*.h", "*.rs"), *python_files()]
             if "SPDX-License-Identifier: MIT" not in
             "".join((TOP / name).read_text().splitlines()[:2])]
    assert not found, "\n".join(found)


def test_comments_of_rattle_are_narrow():
    found = [f"{name}:{number}: {len(line)} columns" for name in listed("*.rt")
             for number, line in enumerate((TOP / name).read_text().split("\n"), 1)
             if line.lstrip().startswith("//") and len(line) > COLUMNS]
    assert not found, "\n".join(found)


def said(*words):
    """The status of a command, and what it prints."""
    ran = subprocess.run(words, cwd=TOP, stdout=subprocess.PIPE, stderr=subprocess.STDOUT,
                         text=True)
    return ran.returncode, ran.stdout


def test_python_passes_flake8():
    pytest.importorskip("flake8", reason="bin/setup installs flake8")
    status, text = said(sys.executable, "-m", "flake8", *python_files())
    assert status == 0, text


def test_c_is_formatted():
    if not shutil.which("clang-format") or " version 14." not in said(
            "clang-format", "--version")[1]:
        pytest.skip("there is no clang-format of version 14 here (bin/setup installs it)")
    status, text = said("bin/format", "--check")
    assert status == 0, text


@pytest.mark.parametrize("source", [
    pytest.param(it, id=str(it.relative_to(TOP)))
    for folder in ("lib", "examples") for it in sorted((TOP / folder).rglob("*.c"))])
def test_c_passes_clang_tidy(source):
    if not shutil.which("clang-tidy"):
        pytest.skip("there is no clang-tidy here (bin/setup installs it)")
    status, text = said("clang-tidy", "--quiet", source, "--", "-std=gnu11", "-D_GNU_SOURCE=",
                        "-Iinclude", "-Ilib")
    assert status == 0, text
