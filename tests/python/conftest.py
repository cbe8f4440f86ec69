# SPDX-License-Identifier: MIT
"""The package loads the shared library as it is imported, so that has to be there before."""
import pytest

from tests.forwarder.harness import BUILD

if not (BUILD / "librrcache.so").exists():
    raise pytest.UsageError("bin/build-c builds the library that the Python package loads")
