# SPDX-License-Identifier: MIT
"""The library that is installed has to be built."""
import pytest


@pytest.fixture(autouse=True, scope="session")
def built(library):
    """bin/install-c builds nothing, so bin/build-c did, or does."""
