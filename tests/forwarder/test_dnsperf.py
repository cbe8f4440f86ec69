# SPDX-License-Identifier: MIT
"""Debian's dnsperf asks at a steady rate, with names that are asked for often and names that are
not: no answer is lost, and memory stays flat. This test runs alone."""
import contextlib
import multiprocessing
import random
import re
import shutil
import subprocess

import pytest

from tests.forwarder.harness import under
from tests.forwarder.test_shares import Upstream, answer

pytestmark = pytest.mark.alone
RATE, QUESTIONS, NAMES = 1500, 7500, 5000
# What the answers of all names may take in memory, and what is beside them.
MOST_MEMORY = 8 << 20
# After so many seconds dnsperf takes an answer for lost.
LOST = 60


def questions():
    """The lines of questions, of which the first names come often, by Zipf's law."""
    dice = random.Random(8)
    ranks = (min(NAMES, int(dice.paretovariate(0.7))) for _ in range(QUESTIONS))
    return "".join(f"a{rank}.example TXT\n" for rank in ranks)


def serve(sock):
    while True:
        octets, client = sock.recvfrom(4096)
        sock.sendto(answer(octets), client)


@contextlib.contextmanager
def serving(upstream):
    """Answers what the forwarder asks, in a process of its own, so that it keeps up."""
    process = multiprocessing.Process(target=serve, args=(upstream.socket,), daemon=True)
    process.start()
    try:
        yield
        assert process.is_alive()
    finally:
        process.kill()
        process.join()


def dnsperf(port, file, *words):
    """What dnsperf says of questions from a file, of which it has 100 unanswered at most, so that
    they have room in the sockets however late the forwarder is."""
    command = ["dnsperf", "-s", "127.0.0.1", "-p", str(port), "-d", file, "-Q", str(RATE),
               "-c", "20", "-T", "1", "-e", "-q", "100", "-t", str(LOST), *words]
    return subprocess.run(command, capture_output=True, text=True).stdout


@under("forwarder")
def test_dnsperf_loses_no_answer(forwarder, tmp_path):
    if shutil.which("dnsperf") is None:
        pytest.skip("there is no dnsperf here (Debian's dnsperf)")
    (tmp_path / "questions").write_text(questions())
    it = forwarder(upstream := Upstream())
    before = it.memory()
    with serving(upstream):
        said = dnsperf(it.port, tmp_path / "questions", "-n", "1")
    completed, lost = (int(re.search(rf"Queries {it}: +(\d+) ", said + " ")[1])
                       for it in ("completed", "lost"))
    assert (completed, lost) == (QUESTIONS, 0), said
    assert re.search(r"Response codes: +NOERROR \d+ \(100.00%\)", said), said
    assert it.memory() - before < MOST_MEMORY
