# SPDX-License-Identifier: MIT
"""Calls of the C library are made with little stack."""
import concurrent.futures
import threading

import pytest


@pytest.hookimpl(hookwrapper=True)
def pytest_pyfunc_call(pyfuncitem):
    """Runs a test in a thread whose stack has 64 KB."""
    test, usual = pyfuncitem.obj, threading.stack_size(64 << 10)
    with concurrent.futures.ThreadPoolExecutor(1) as pool:
        pyfuncitem.obj = lambda **arguments: pool.submit(test, **arguments).result()
        yield
    threading.stack_size(usual)
