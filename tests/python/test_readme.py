# SPDX-License-Identifier: MIT
"""The examples of python/README.md, one after another, each with what it prints: the comments that
stand behind what is printed. Of a line a comment may have the beginning, with .. behind it, and it
may give a reason behind a comma or a colon."""
import re

from tests.forwarder.harness import BUILD

TEXT = (BUILD.parent / "python" / "README.md").read_text()
EXAMPLES = re.findall(r"^```python\n(.*?)^```", TEXT, re.M | re.S)


def no_server(*_):
    """The upstream of the examples."""
    raise OSError


def is_as_told(line, comment):
    """Whether a line is what a comment says."""
    if comment.endswith(" .."):
        return line.startswith(comment.removesuffix(" .."))
    return comment == line or comment.startswith((f"{line}: ", f"{line}, "))


def test_examples(tmp_path, monkeypatch, capsys):
    monkeypatch.chdir(tmp_path)
    names = {"ask": no_server}
    for example in EXAMPLES:
        exec(compile(example, "python/README.md", "exec"), names)
        printed = capsys.readouterr().out.splitlines()
        told = re.findall(r"print\(.*\) +# (.*)", example)
        assert len(printed) == len(told) == example.count("print(")
        for line, comment in zip(printed, told):
            assert is_as_told(line, comment), (line, comment)


def test_there_are_examples():
    assert len(EXAMPLES) == 9
