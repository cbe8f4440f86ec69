# SPDX-License-Identifier: MIT
"""The libraries that the tests in C are linked with, and the name server that examples ask."""
import subprocess

import pytest

from tests.c.builds import TOP
from tests.forwarder.harness import Server


@pytest.fixture(scope="session")
def libraries():
    """The folder of the libraries for C, made anew."""
    subprocess.run([TOP / "bin" / "build-c"], check=True)
    return TOP / "build"


@pytest.fixture
def server():
    """A name server on loopback, over UDP."""
    made = Server(tcp=False)
    yield made
    made.stop()
