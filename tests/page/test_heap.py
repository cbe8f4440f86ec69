# SPDX-License-Identifier: MIT
"""The heap of the page's module, in a program under the address and undefined sanitizers."""
import shutil
import subprocess
from pathlib import Path

import pytest

HERE = Path(__file__).resolve().parent
# gcc has no names for the exports of WebAssembly, of which it warns.
WORDS = ["-std=gnu11", "-g", "-O1", "-Wall", "-Wextra", "-Werror", "-Wno-attributes",
         "-fsanitize=address,undefined", "-fno-sanitize-recover=all",
         "-Wl,--defsym=__heap_base=memory"]


@pytest.mark.skipif(shutil.which("gcc") is None, reason="there is no gcc here (bin/setup)")
def test_heap(tmp_path):
    program = tmp_path / "heap_tests"
    subprocess.run(["gcc", *WORDS, HERE / "heap_tests.c", "-o", program], check=True)
    run = subprocess.run([program], capture_output=True, text=True)
    assert run.returncode == 0, run.stdout + run.stderr
