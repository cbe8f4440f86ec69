# SPDX-License-Identifier: MIT
"""Which libraries that `rt ci` left bin/build uses again (tools/kit.py)."""
import os
import time
from types import SimpleNamespace

from tools import kit

HOUR = 3600


def crate(folder, name, below=()):
    """A crate with one source, an hour old, and with the library that `rt ci` left."""
    source, made = folder / name / "src" / "lib.rt", folder / name / "out" / "rlib" / f"{name}.rlib"
    source.parent.mkdir(parents=True)
    made.mkdir(parents=True)
    source.touch()
    (made / "format").touch()
    for it in (source, source.parent):
        os.utime(it, (time.time() - HOUR,) * 2)
    return SimpleNamespace(folder=str(folder / name), rlib=str(made), below=lambda: list(below),
                           source=source, stamp=made.parent / "stamp")


def test_library_is_used_again(tmp_path):
    low = crate(tmp_path, "low")
    assert kit.made_by_ci(crate(tmp_path, "high", [low]))


def test_library_is_older_than_a_source_of_its_crate(tmp_path):
    high = crate(tmp_path, "high")
    os.utime(high.source, (time.time() + HOUR,) * 2)
    assert not kit.made_by_ci(high)


def test_source_of_a_crate_below_has_changed(tmp_path):
    low = crate(tmp_path, "low")
    high = crate(tmp_path, "high", [low])
    os.utime(low.source, (time.time() + HOUR,) * 2)
    assert not kit.made_by_ci(high)


def test_crate_below_was_built_again(tmp_path):
    low = crate(tmp_path, "low")
    high = crate(tmp_path, "high", [low])
    low.stamp.touch()
    assert not kit.made_by_ci(high)
