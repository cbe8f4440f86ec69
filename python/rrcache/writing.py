# SPDX-License-Identifier: MIT
"""Gets the texts that a shared cache writes for each shelf: histories and dumps."""
from __future__ import annotations

import functools
import os
import sys
from _thread import start_new_thread
from collections.abc import Callable
from contextlib import ExitStack
from ctypes import string_at
from pathlib import Path
from threading import Lock, current_thread
from typing import BinaryIO

from .handles import Handle, done
from .library import SINK, library

# A function that gets the number of a shelf and octets of that shelf.
Take = Callable[[int, bytes], object]


def made_apart(call: Callable[[], None], faults: list[BaseException]) -> bool:
    """Makes a call in a thread of its own, and waits until the call has ended. Returns False if no
    thread can be started. In the main thread, the handler of a signal may raise an exception as
    soon as a callback begins, before the `try` of the callback. ctypes would drop this exception
    together with the octets, and return an arbitrary number to the library. Objects of `threading`
    that are written in Python cannot handle such an exception either, so plain locks are used.

    A handler may also raise an exception at any point of this function. Before the thread starts,
    and after the call has ended, this exception is raised. In between, it is appended to `faults`:
    a call that has not begun is then never made, and a call that has begun should end."""
    go, running, ended = Lock(), Lock(), [False]

    def run() -> None:
        go.acquire()
        if not faults:
            call()
        ended[0] = True
        running.release()

    def wait() -> None:
        if go.locked():  # perhaps by `run`, which acquires it only once
            go.release()
        while not ended[0]:
            running.acquire()

    go.acquire()
    running.acquire()
    runs = iter([run])
    threads: list[int] = []
    try:
        # A single call in C takes `run`, starts the thread and notes it in `threads`. No handler
        # runs in between, so `runs` and `threads` always tell whether the thread was started.
        threads.extend(map(start_new_thread, runs, [()]))
        wait()
    except BaseException as fault:
        if threads:
            faults.append(fault)
        elif isinstance(fault, RuntimeError) and not next(runs, None):
            return False
        else:
            raise
    finally:
        while threads and not ended[0]:
            try:
                wait()
            except BaseException as fault:
                faults.append(fault)
    return True


def made(call: Callable[[], None], faults: list[BaseException]) -> None:
    """Makes a call in a thread of its own, unless the current thread is a daemon thread, which
    makes the call itself. While a daemon thread runs, the interpreter may end, and a thread that
    begins at that time may crash the interpreter. No handler of a signal runs in a daemon thread.
    Raises RuntimeError once the interpreter finalizes its modules, because no callback can run
    then."""
    if sys.is_finalizing():
        raise RuntimeError("nothing can be written while the interpreter ends")
    if current_thread().daemon:
        call()
    elif not made_apart(call, faults):  # in a function of atexit, Python 3.12 may start no thread
        call()


def written(export: str, cache: Handle, take: Take) -> None:
    """Makes a call of the library that passes octets, with the number of their shelf, to the
    function `take`. An exception of this function ends the call, and is raised again."""
    faults: list[BaseException] = []
    statuses: list[int] = []
    caches = [cache]

    def sink(_: int | None, shelf: int, octets: int, size: int) -> bool:
        try:
            if not faults:
                take(shelf, string_at(octets, size))
        except BaseException as fault:
            faults.append(fault)
        return bool(faults)

    def call() -> None:
        try:
            # Once the call has ended, this thread holds no reference to the cache.
            statuses.append(getattr(library(), export)(caches.pop(), SINK(sink), None))
        except BaseException as fault:
            faults.append(fault)

    made(call, faults)
    if faults:
        raise faults[0]
    done(statuses[0])


def texts_of(export: str, cache: Handle, shelves: int) -> list[str]:
    """Returns the text that a call writes for each shelf."""
    pieces: list[list[bytes]] = [[] for _ in range(shelves)]
    written(export, cache, lambda shelf, octets: pieces[shelf].append(octets))
    return [b"".join(it).decode("ascii") for it in pieces]


def files_of(export: str, cache: Handle, folder: str | os.PathLike[str]) -> list[Path]:
    """Writes the texts of a call to files in a folder, each named after the number of its shelf,
    and returns the paths of the files."""
    paths: list[Path] = []
    with ExitStack() as files:
        @functools.cache
        def file_of(shelf: int) -> BinaryIO:
            paths.append(Path(folder) / f"{shelf:02}")
            return files.enter_context(paths[-1].open("wb"))
        written(export, cache, lambda shelf, octets: file_of(shelf).write(octets))
    return paths
