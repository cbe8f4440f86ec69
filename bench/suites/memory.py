# SPDX-License-Identifier: MIT
"""Tells what allocators hold of keys to the octets that are told, of keys of all kinds, and what a
process holds of a whole cache.

Each kind of keys of tests/hostile/rooms.py is offered to a shelf, KEYS of them, which is never
swept, or after each tenth offer. What is held is what glibc's malloc gave out more than before
(mallinfo2), and in runs of their own what jemalloc did (stats.allocated), where Debian's package
libjemalloc2 is there. Each number is the least or the most while the last half of the keys came,
so that a table doubles once in between. Caches with limits of MEBIBYTES are filled by threads, four
times over, with RRsets of one address that expire and are swept (bench/c/resident.c).
"""
import ctypes
import json
import os
import sys
from pathlib import Path

from bench.page import filled, table, write_section
from bench.setup import ARCHIVE, BUILD, SOURCES, TOP, compiled, ran

NEEDS, TITLE = (BUILD / "librrcache.so", ARCHIVE), "Memory that keys take"
OPTIONS = {"keys": (9_300, "keys of each kind"), "mebibytes": ([64, 512, 1280], "limits of caches"),
           "threads": ([1, 4], "threads that fill a cache")}
# What an RRset of one address counts as, and the most keys of a cache.
SET_OCTETS, MOST_KEYS = 320, 64 * 65_536
OF_CACHES = (
    "The next table is for a `struct rrcache` with the memory limit `octets`, the default limit on "
    "keys, and glibc's malloc. Threads stored RRsets of one address each, for four times as many "
    "names as the limits allow, so most keys were evicted. The threads also swept fully expired "
    "keys. The last three columns contain multiples of `octets`: the counted octets of the keys at "
    "the end; the maximum memory of the process (`VmHWM`), minus the memory that the process had "
    "before it opened the cache; and the memory for which "
    "[SECURITY](../SECURITY.md#the-shared-cache-in-c) says to plan.")


def allocated():
    """How many octets jemalloc has given out. It counts anew where the number of an epoch is
    written."""
    control = ctypes.CDLL(None).mallctl
    number, size = ctypes.c_uint64(1), ctypes.c_size_t(8)
    control(b"epoch", None, None, ctypes.byref(number), size)
    control(b"stats.allocated", ctypes.byref(number), ctypes.byref(size), None, ctypes.c_size_t(0))
    return number.value


def measure(way, keys):
    """Writes the least and the most of each kind, by the allocator that this process has."""
    from tests.hostile.costs import memory
    from tests.hostile.rooms import KINDS, ratios

    found, held = {}, {"glibc": memory, "jemalloc": allocated}[way]
    for what, offer in KINDS.items():
        both = [ratios(offer, held, int(keys), is_swept) for is_swept in (False, True)]
        found[what] = [min(least for least, _ in both), max(most for _, most in both)]
    print(json.dumps(found))


def measured(way, keys, preload):
    """What a process tells that has this allocator. To jemalloc all that a thread's cache has is
    given out, so there is none."""
    path = os.pathsep.join(map(str, (TOP, TOP / "python")))
    return json.loads(ran(sys.executable, "-m", "bench.suites.memory", way, keys, PYTHONPATH=path,
                          LD_PRELOAD=preload, MALLOC_CONF="tcache:false").stdout)


def caches(args):
    """The table of what whole caches hold."""
    program = compiled("resident", SOURCES / "resident.c", ARCHIVE)
    rows = []
    for mebibytes in args.mebibytes:
        limit = mebibytes << 20
        for threads in args.threads:
            names = 4 * min(limit // SET_OCTETS, MOST_KEYS)
            keys, counted, held = map(int, ran(program, threads, mebibytes, names).stdout.split())
            plan = 2.575 * limit + 2 * MOST_KEYS
            rows.append([f"{mebibytes:,} MiB", threads, f"{keys:,}",
                         *(f"{it / limit:.2f}" for it in (counted, held, plan))])
            print(*rows[-1], flush=True)
    return table(["`octets`", "threads", "keys", "counted", "held", "plan"], rows)


def main(args):
    jemalloc = next(Path("/usr/lib").glob("*/libjemalloc.so.2"), None)
    ways = {"glibc": ""} | ({"jemalloc": str(jemalloc)} if jemalloc else {})
    found = {way: measured(way, args.keys, preload) for way, preload in ways.items()}
    said = []
    for way, of in found.items():
        of["all"] = min(least for least, _ in of.values()), max(most for _, most in of.values())
        for what, (least, most) in of.items():
            print(f"{way:10}{what:44}{least:.2f} to {most:.2f}")
        said.append(f"{of['all'][0]:.2f} to {of['all'][1]:.2f} with {way}")
    write_section(
        args, TITLE,
        f". For each of {len(found['glibc']) - 1} kinds of keys, {args.keys:,} keys were offered "
        "to a shelf. While the second half of these keys was offered, the memory of the shelf was "
        "compared with the octets that `rrcache_sizes` returned. Here, the memory of the shelf is "
        "the number of octets in use according to the allocator, minus the number in use before "
        "the shelf was made. As a multiple of the returned octets, this memory was "
        f"{' and '.join(said)}. Names had 3 to 255 octets, and RRsets had 1 to 200 records, each "
        "with 4 to 16,000 octets of rdata. The rdata and the owner of the SOA record of a negative "
        "answer together had 23 to 785 octets. Each kind was measured twice: on a shelf that was "
        "never swept, and on one that was swept after every tenth offer. No key was evicted, and "
        "nothing was recorded.",
        filled(OF_CACHES), caches(args))


if __name__ == "__main__":
    measure(*sys.argv[1:])
