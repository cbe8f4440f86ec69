# SPDX-License-Identifier: MIT
"""Times the C library beside unbound's RRset cache: the same work by the same program.

It takes the library as bin/build-c made it, fetches the source package of Debian's unbound into
build/unbound (apt-get with lists of its own; nothing is installed), builds it (2 minutes; it needs
libssl-dev and libexpat1-dev), and compiles bench/c/beside against both. The two run in turn on
NAMES names with one A record each, in random order, in 64 shards with room for twice the names:
asks that hit and copy, of any name and of Zipf-distributed names, one name that is always asked,
puts that replace, and puts that evict in a cache with no room. It is `struct rrcache`, and in runs
of their own shelves whose locks are mutexes, spin locks, as unbound's are, or locks for readers,
under which asks are peeks. Each ratio is that of the medians of RUNS runs; ratios count, since
machines differ. valgrind counts the instructions and the cache misses of a call. Threads that each
work on shards of their own show what sharing shards costs. Programs of one thread that run side by
side, each with a cache of its own, show what of the rate is the machine's. `--write` writes also
docs/beside-unbound.svg, the rates of `struct rrcache`.
"""
import os
import re
import shutil
import subprocess
import sys
from concurrent.futures import ThreadPoolExecutor
from functools import partial
from itertools import chain
from pathlib import Path
from statistics import median

from bench.page import filled, of_threads, table, write_section
from bench.picture import WIDTH, key, line, rect, svg, text
from bench.setup import ARCHIVE, BUILD, SOURCES, TOP, compiled, in_turn, ran, undisturbed

NEEDS, TITLE = (ARCHIVE,), "Beside unbound"
OPTIONS = {
    "names": (50_000, "names"), "calls": (1_000_000, "calls of each run"),
    "threads": ([1, 2, 4], "threads"), "runs": (5, "runs of each"),
}
FOLDER, BESIDE = BUILD / "unbound", SOURCES / "beside"
# Where this machine gets the packages of Debian's release from that the numbers are of. Sources are
# there too.
ARCHIVES = ["apt-get", "indextargets", "Created-By: Packages", "Codename: bookworm", "--format",
            "deb-src [signed-by=/usr/share/keyrings/debian-archive-keyring.gpg]"
            " $(REPO_URI) $(RELEASE) $(COMPONENT)"]
OF_CACHE = filled("The first table is for `struct rrcache` with its own locks. The look-ups of a"
                  " `struct rrcache` follow aliases, but asks on shelves, as in the later tables,"
                  " do not. In all these runs, however, no name is an alias.")
# What valgrind counts of a run, and the caches of the processor that it simulates: their octets,
# ways and the octets of a line.
EVENTS = ("I +refs", "D1 +misses", "LLd misses")
SIMULATED = ("--cache-sim=yes", "--D1=32768,8,64", "--LL=1048576,16,64",
             "--cachegrind-out-file=/dev/null")
FEW, MANY = 20_000, 120_000
OF_COUNTS = filled(
    "The next table shows how many instructions a call on one thread takes, and how often the call "
    "misses the first-level and the second-level cache of the processor. The counts are those of "
    "valgrind, which simulates a processor with 32 KiB of first-level cache for data and 1 MiB of "
    "second-level cache.")
OF_GROWTH = (
    "The next table shows the rate of {0} threads as a multiple of the rate of one thread. *One "
    "cache*: all threads use one cache. *Own shards*: they use one cache, but no two threads use "
    "the same shard. *jemalloc*: they use one cache, with jemalloc instead of glibc's malloc. *Own "
    "caches*: there are {0} processes instead of {0} threads, and each process has one thread and "
    "its own cache. These processes share only the processors and the memory of the machine.")
BOUNDS = filled(
    "In the runs of asks for one name, memos (saved copies of earlier answers) answer the asks as "
    "long as nothing changes in the shelf of this name. With rrcache, Zipf-distributed asks take "
    "fewer instructions than with unbound's cache, but miss the processor's second-level cache "
    "about as often. Puts, and asks in the row \"asks that hit\", take more instructions than with "
    "unbound's cache, and most of their instructions are in proved code. A look-up folds the "
    "name, hashes it under a secret seed, and then peeks. A store reads and hashes the name a "
    "second time, checks the rdata, and counts the octets of what it stores and evicts. (Shelves "
    "that are never trimmed, as in the later tables, do not count octets.) A store that evicts "
    "also allocates three blocks of memory and frees three, and a store that replaces allocates "
    "two and frees two. A store would take fewer instructions if the proved call accepted a name "
    "that is already folded and hashed. The preceding table shows what limits the speed of "
    "several threads. (Numbers in it that exceed the number of threads show how much the speed of "
    "a virtual machine varies.) The rate of asks that hit grows at least as much in one cache as "
    "when each process has its own cache, so this table shows no cost of sharing a cache for "
    "these asks. The rates of puts grow less in one cache than when each thread has its own "
    "shards. So what limits these rates is that several threads change the same shards: these "
    "threads wait for locks, load cache lines that another processor has changed, and free memory "
    "that another thread allocated. With jemalloc instead of glibc's malloc, the rates of puts "
    "grow about as much, so the allocator is not the main cost. At any time, the three other "
    "threads use at most 3 of the 64 shards, so a put should find its shard locked in at most one "
    "of 20 cases. Most of the cost is therefore probably due to cache lines. Neither this cost "
    "nor the number of puts that find their shard locked was measured. A put misses the "
    "first-level cache 25 to 29 times with rrcache, and 15 times with unbound's cache. So a put "
    "of rrcache uses more cache lines, and each of them may have to come from another processor.")
KINDS = {"hit": "asks that hit", "zipf": "Zipf-distributed asks", "hot": "asks for one name",
         "replace": "puts that replace", "evict": "puts that evict"}
# How tall the picture is, how tall its highest bar, and where the bars stand.
TALL, HIGHEST, BASE = 270, 180, 210


def fetch():
    """The folder of unbound's source."""
    for name in ("lists", "cache/archives"):
        (FOLDER / name / "partial").mkdir(parents=True, exist_ok=True)
    (FOLDER / "unbound.list").write_text(ran(*ARCHIVES).stdout)
    options = {"Dir::Etc::sourcelist": FOLDER / "unbound.list",
               "Dir::Etc::sourceparts": "/dev/null", "Dir::State::lists": FOLDER / "lists",
               "Dir::Cache": FOLDER / "cache"}
    words = ["apt-get", "-q", *(f"-o{name}={value}" for name, value in options.items())]
    for command in (["update"], ["source", "--download-only", "unbound"]):
        subprocess.run([*words, *command], cwd=FOLDER, check=True, stdout=subprocess.DEVNULL)
    archive = next(FOLDER.glob("unbound_*.orig.tar.gz"))
    subprocess.run(["tar", "-xf", archive], cwd=FOLDER, check=True)
    return FOLDER / archive.name.removesuffix(".orig.tar.gz").replace("_", "-")


def built():
    """The folder of unbound's source, built."""
    made = next(FOLDER.glob("unbound-*/.libs/libunbound.a"), None)
    if made is not None:
        return made.parent.parent
    print("fetching and building unbound (2 minutes)", flush=True)
    folder = fetch()
    configure = ["./configure", "--disable-shared", "--with-pthreads", "CFLAGS=-O2"]
    for command in (configure, ["make", f"-j{os.cpu_count()}", "libunbound.la"]):
        run = subprocess.run(command, cwd=folder, capture_output=True, text=True)
        if run.returncode:
            sys.exit(f"{' '.join(command)} failed:\n{run.stdout[-2000:]}{run.stderr[-2000:]}")
    return folder


def programs():
    """The programs, by the name of what is in them."""
    unbound, work = built(), BESIDE / "work.c"
    names = BESIDE / "sets.c"
    own = (BESIDE / "rrcache.c", names, ARCHIVE)
    return {
        "cache": compiled("beside_cache", work, BESIDE / "cache.c", names, ARCHIVE),
        "rrcache": compiled("beside_rrcache", work, *own),
        "spinning": compiled("beside_spinning", "-DSPINS", work, *own),
        "peeking": compiled("beside_peeking", "-DPEEKS", work, *own),
        # Warnings of its headers are nobody's business here.
        "unbound": compiled("beside_unbound", "-w", f"-I{unbound}", work, BESIDE / "unbound.c",
                            unbound / ".libs" / "libunbound.a", "-lssl", "-lcrypto")}


def run(*command, **environment):
    """The nanoseconds of a call by the clock, and those of processor time."""
    calls, took, processor = map(int, ran(*command, **environment).stdout.split())
    return took / calls, processor / calls


def ratios(own, unbound, threads, kind, args, preload):
    """The medians of both, and of rrcache the share of unbound's time and of its rate."""
    environment = {"LD_PRELOAD": preload} if preload else {}
    found = in_turn(args.runs, {
        it: partial(undisturbed, partial(run, it, threads, args.calls, kind, args.names,
                                         **environment)) for it in (own, unbound)})
    (own_took, own_time), (took, time) = (
        [median(column) for column in zip(*each)] for each in found.values())
    which = own.name.removeprefix("beside_")
    print(f"{which}: {kind}, {threads} threads{', jemalloc' if preload else ''}: {own_time:.0f} and"
          f" {time:.0f} ns of processor time a call ({own_time / time:.2f}), rate"
          f" {took / own_took:.2f} of unbound's", flush=True)
    return own_time / time, took / own_took


def picture(rates, threads):
    """The bars of the rates of each kind of call, by threads, with a line at unbound's rate."""
    high = HIGHEST / max(1, *chain.from_iterable(rates.values()))
    across, rows, top = (WIDTH - 40) // len(KINDS), [], TALL - 24
    for group, (kind, found) in enumerate(rates.items()):
        left = 40 + group * across
        for bar, rate in enumerate(found):
            x, y = left + bar * 38, BASE - rate * high
            rows += [rect(x, y, 34, rate * high, bar), text(x + 17, y - 4, f"{rate:.2f}")]
        rows.append(text(left + 55, BASE + 15, KINDS[kind]))
    rows += [line(BASE - high, 20, WIDTH - 20), line(top + 8, 440, 470),
             text(476, top + 12, "the rate of unbound", "")]
    return svg([*rows, *key(map(of_threads, threads), top)], TALL)


def events(program, kind, calls, names):
    """The counts of a whole run with one thread."""
    told = ran("valgrind", "--tool=cachegrind", *SIMULATED, program, 1, calls, kind, names).stderr
    return [int(re.search(rf"{it}: +([\d,]+)", told)[1].replace(",", "")) for it in EVENTS]


def counts(program, kind, names):
    """The counts of one call."""
    few, many = (events(program, kind, it, names) for it in (FEW, MANY))
    return [max(0, more - less) / (MANY - FEW) for less, more in zip(few, many)]


def counted(made, args):
    """The table of what calls of `struct rrcache` and of unbound take."""
    rows = []
    for kind, title in KINDS.items():
        own, other = (counts(made[it], kind, args.names) for it in ("cache", "unbound"))
        rows.append([title, f"{own[0]:,.0f}", f"{other[0]:,.0f}",
                     *(f"{it:.1f}" for it in chain.from_iterable(zip(own[1:], other[1:])))])
        print(*rows[-1], flush=True)
    head = (f"{what}, {whose}" for what in ("instr.", "level 1", "level 2")
            for whose in ("rrcache", "unbound"))
    return table(["What", *head], rows)


def together(program, threads, kind, args, *more, **environment):
    """The rate of threads that share a cache, in calls per nanosecond."""
    return 1 / run(program, threads, args.calls, kind, args.names, *more, **environment)[0]


def on_own_shards(program, threads, kind, args):
    """The same of threads of which no two use the same shard, or None where all use a few names."""
    return None if kind in ("zipf", "hot") else together(program, threads, kind, args, "apart")


def apart(program, processes, kind, args):
    """The rate of so many processes of one thread, each with a cache of its own."""
    with ThreadPoolExecutor(processes) as pool:
        found = pool.map(lambda _: run(program, 1, args.calls // processes, kind, args.names),
                         range(processes))
        return sum(1 / took for took, _ in found)


def ways_to_share(made, jemalloc):
    """How threads share a cache or not, in calls that answer a rate, by the heads of columns."""
    own, other = made["cache"], made["unbound"]
    ways = {"rrcache: one cache": partial(together, own),
            "own shards": partial(on_own_shards, own)}
    if jemalloc:
        ways["jemalloc"] = partial(together, own, LD_PRELOAD=jemalloc)
    return ways | {"own caches": partial(apart, own),
                   "unbound: one cache": partial(together, other),
                   "own shards ": partial(on_own_shards, other),
                   "own caches ": partial(apart, other)}


def grown(rates, most):
    """The rate of the most threads as a multiple of that of one, as text, if there are rates."""
    return f"{median(rates[most]) / median(rates[1]):.2f}" if rates[1][0] else "-"


def growth(made, args, jemalloc):
    """The table of the rates with the most threads, as multiples of the rates with one."""
    rows, most, ways = [], max(args.threads), ways_to_share(made, jemalloc)
    for kind, title in KINDS.items():
        found = in_turn(args.runs, {
            (name, count): partial(undisturbed, way, count, kind, args)
            for name, way in ways.items() for count in (1, most)})
        rows.append([title, *(grown({it: found[name, it] for it in (1, most)}, most)
                              for name in ways)])
        print(*rows[-1], flush=True)
    return table(["What", *map(str.strip, ways)], rows)


def main(args):
    if shutil.which("apt-get") is None:
        return "unbound's source comes by apt-get, which is not on this machine"
    made = programs()
    jemalloc = next(Path("/usr/lib").glob("*/libjemalloc.so.2"), None)
    ways = [(OF_CACHE, "cache", None),
            ("Shelves with mutexes and glibc's malloc:", "rrcache", None),
            ("Shelves with spin locks, like those of unbound:", "spinning", None),
            ("Shelves with readers-writer locks, and with peeks instead of asks:", "peeking", None)]
    if jemalloc:
        ways.append(("Shelves with mutexes and jemalloc:", "rrcache", str(jemalloc)))
    head = [f"{what}, {of_threads(it)}" for it in args.threads for what in ("time", "rate")]
    parts = []
    for way, own, preload in ways:
        found = {kind: [ratios(made[own], made["unbound"], it, kind, args, preload)
                        for it in args.threads] for kind in KINDS}
        parts += [way, table(["What", *head], [[title, *(
            f"{it:.2f}" for it in chain.from_iterable(found[kind]))]
            for kind, title in KINDS.items()])]
        if way == OF_CACHE:
            parts += ["![Rates of `struct rrcache`, as multiples of unbound's](beside-unbound.svg)",
                      OF_COUNTS, counted(made, args), filled(OF_GROWTH.format(max(args.threads))),
                      growth(made, args, jemalloc and str(jemalloc)), BOUNDS]
            rates = {kind: [rate for _, rate in each] for kind, each in found.items()}
    if args.write:
        (TOP / "docs" / "beside-unbound.svg").write_text(picture(rates, args.threads))
    write_section(
        args, TITLE,
        ". rrcache and unbound's RRset cache each had 64 shards. Both were used with "
        f"{args.names:,} names that had one A record each. Each time and each rate is the ratio of "
        f"two medians: one of {args.runs} runs of rrcache, and one of {args.runs} runs of "
        f"unbound's cache. Each run made {args.calls:,} calls, and the runs of the two caches "
        "alternated. "
        "Time is the processor time of a call as a multiple of the processor time of a call of "
        "unbound's cache, so lower is better. Rate is the number of calls per second of elapsed "
        "time as a multiple of unbound's rate, so higher is better.", *parts)
