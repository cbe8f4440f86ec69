# SPDX-License-Identifier: MIT
"""The page that the tests open."""
import subprocess

import pytest

from tests.conftest import TOP
from tests.page import browser


@pytest.fixture(scope="session")
def page():
    """The page that was built last, or is built now."""
    if not browser.PAGE.exists():
        built = subprocess.run([TOP / "bin" / "build-page"], stderr=subprocess.PIPE, text=True)
        if built.returncode:
            pytest.skip(f"bin/build-page makes no page: {built.stderr.strip()[-200:]}")
