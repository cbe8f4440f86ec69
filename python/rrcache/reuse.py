# SPDX-License-Identifier: MIT
"""Objects that calls use again, since it takes time to make them with their buffers."""
from __future__ import annotations

from collections.abc import Callable
from typing import TypeVar

T = TypeVar("T")


def reused(make: Callable[[], T]) -> tuple[Callable[[], T], Callable[[T], None]]:
    """Returns two functions: one returns an object that no other call uses, and the other puts an
    object back. Two calls never use the same object, even if they are in different threads, or one
    is in a signal handler that interrupts the other, because each list operation is atomic. A call
    that fails may drop its object."""
    idle: list[T] = []

    def taken() -> T:
        try:
            return idle.pop()
        except IndexError:
            return make()
    return taken, idle.append
