# SPDX-License-Identifier: MIT
"""tools/coverage.py on one program of tests, that of the memos."""
from tests.c.builds import TOP
from tools.coverage import executed


def test_lines_that_a_test_executes(libraries, tmp_path):
    counts = dict(executed("memo_tests.c", "archive", [], tmp_path))
    memos, dnames = ([it["count"] for it in counts[TOP / "lib" / name]]
                     for name in ("memos.c", "dnames.c"))
    assert sum(map(bool, memos)) > len(memos) / 2
    assert not all(dnames)
