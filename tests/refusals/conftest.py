# SPDX-License-Identifier: MIT
"""What tests of refusals share. CC names the C compiler that makes the library which refuses."""
import concurrent.futures
import os
import time

import pytest

from tests.refusals.refusing import PROCESSORS, Refuser, refuser


@pytest.fixture(scope="session")
def refusals(request, tmp_path_factory):
    """What refuses. At the end it tells how much it tried."""
    library = refuser(tmp_path_factory.mktemp("refuser"), os.environ.get("CC", "cc"))
    with concurrent.futures.ThreadPoolExecutor(PROCESSORS) as pool:
        refusals = Refuser(library, pool)
        yield refusals
    with request.config.pluginmanager.getplugin("capturemanager").global_and_fixture_disabled():
        print(f"\n{refusals.verdicts.total()} requests refused, of which"
              f" {refusals.verdicts[None]} ended in an assertion that does not name the refusal")


@pytest.fixture(scope="module")
def share(request, seconds):
    """What tells a test its share of the time, which is as much as that of each behind it."""
    count = sum(it.path == request.path and "share" in it.fixturenames
                for it in request.session.items)
    end = time.monotonic() + seconds
    return ((end - time.monotonic()) / left for left in range(count, 0, -1)).__next__
