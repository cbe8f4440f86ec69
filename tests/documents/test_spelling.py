# SPDX-License-Identifier: MIT
"""The spelling of the documents, by aspell's dictionary of American English and by words.txt.

What is in code, a link's target, a file's name and a word with a digit are not looked at. words.txt
has the words that aspell does not know: a word there may begin with a capital in a document, and
may have 's behind it.
"""
import re
import shutil
import subprocess
from pathlib import Path

import pytest

from tests.documents.test_documents import TOP, listed

OWN = {line for line in (Path(__file__).parent / "words.txt").read_text().split("\n")
       if line and not line.startswith("#")}
COMMAND = ["aspell", "list", "--lang=en_US", "--encoding=utf-8", "--mode=none"]
# What is not prose: blocks of code, code, targets of links, names of files, words with digits.
SKIPPED = re.compile(r"^```.*?^```|`[^`]*`|\]\([^)]*\)|\b[\w/.-]+\.(?:md|c|h|py)\b|\w*\d\w*",
                     re.M | re.S)


def has_dictionary():
    return shutil.which("aspell") is not None and "en_US" in subprocess.run(
        ["aspell", "dicts"], capture_output=True, text=True).stdout.split()


needs_aspell = pytest.mark.skipif(
    not has_dictionary(), reason="bin/setup installs aspell and its English dictionary")


def misspelled(text):
    """The words of a document that neither aspell nor words.txt knows."""
    prose = SKIPPED.sub(" ", text).replace("'s", "")
    found = subprocess.run(COMMAND, input=prose, capture_output=True, text=True, check=True).stdout
    return [it for it in sorted(set(found.split())) if not {it, it[0].lower() + it[1:]} & OWN]


@needs_aspell
def test_a_text_by_hand():
    text = "A `part_of` the cahce holds [two](lnk.md) NODATA.\n```\nmispeled\n```\nRdata's, rdta\n"
    assert misspelled(text) == ["cahce", "rdta"]


@needs_aspell
@pytest.mark.parametrize("name", listed("*.md"))
def test_spelling(name):
    assert not misspelled((TOP / name).read_text()), "mend them, or add them to words.txt"


def test_words_are_in_order_and_once():
    lines = (Path(__file__).parent / "words.txt").read_text().split("\n")
    words = [it for it in lines if it and not it.startswith("#")]
    assert words == sorted(OWN, key=lambda it: (it.lower(), it))
