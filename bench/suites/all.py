# SPDX-License-Identifier: MIT
"""Measures anew all that docs/PERFORMANCE.md tells, and writes it, in about 40 minutes."""
import subprocess
import sys

from bench.setup import ARCHIVE, BENCH, REPLAY, TOP

NEEDS, OPTIONS = (REPLAY, BENCH, ARCHIVE), {}
SUITES = ("unbound", "share", "c", "one-reading", "latency", "memory")


def main(_):
    for name in SUITES:
        words = [sys.executable, TOP / "bench" / "run", name, "--write"]
        if status := subprocess.run(words).returncode:
            return status
