#!/usr/bin/env python3
"""Measures the engine as a daemon has it that links the library: maps and questions at a steady pace, without workers and with.

    bench/measure_engine.py [--seconds N] [--shards S] [--workers W,W..] [--asked G] [--runs R] [--load PATH]

engine_load is a program over pgp_engine, whose files end in .txt, since the gate takes a source only in its crates. Where
bench/out/engine_load isn't there, or is older than a source, it is built first: in a copy of the crates with that one beside them,
by `rt run`, which takes over what was proved on this machine. PATH is one that was built before.

Its engine of S shards (4) has a map of 16,384 groups of three copies in 16 pools on 256 devices, and each group has been asked
about. Then, for N seconds (10), one thread submits an incremental each millisecond, as those of churn_wide: it takes a device down
or boots one, and has six up_thru values. Another thread asks each millisecond about some group, of all or of G, now sooner and now
later after the incremental. It runs R times (3) with each number of workers (0,1,4), by turns, the first of which the others are compared with.

Prints a table in Markdown, each figure the median of the runs: how many incrementals came in a second, the seconds of the processor
that the process took meanwhile, the threads' sleep and waking included, and in the second after, and the microseconds of a question
from the call to the answer, the median and the 99th percentile; and the ratios to the first row.
"""

import argparse
import os
import pathlib
import random
import shutil
import statistics
import subprocess
import sys
import tempfile
from typing import NamedTuple

from make_inputs import fall_or_boot
from maps import compact, copies, told, tree
from measure import HERE, table

ROOT = pathlib.Path(HERE).parent
CRATE = "engine_load"
TEXTS = ROOT / "bench" / CRATE
BUILT = ROOT / "bench/out" / CRATE
LIBRARIES = "pgp_ids pgp_lines pgp_feed pgp_engine"

POOLS, GROUPS = range(1, 17), 1024  # in each
DEVICES = 256
PACE = 1_000  # incrementals a second


class Run(NamedTuple):
    """What one run took: incrementals a second, seconds of the processor, and microseconds of a question."""

    pace: float
    processor: float
    lull: float
    median: float
    most: float


def sources():
    """Gives the files that the program is built of."""
    yield ROOT / "crates.txt"
    yield from TEXTS.rglob("*.txt")
    for part in ("src", "specs", "proofs"):
        yield from (ROOT / "crates").glob(f"*/{part}/**/*.*t")


def is_fresh():
    return BUILT.exists() and all(it.stat().st_mtime <= BUILT.stat().st_mtime for it in sources())


def build():
    """Builds the program, in a copy of the crates that is let go afterwards."""
    with tempfile.TemporaryDirectory() as folder:
        copy = pathlib.Path(folder)
        shutil.copytree(ROOT / "crates", copy / "crates", ignore=shutil.ignore_patterns("out"))
        for name in ("crates.txt", "HANDLES"):
            shutil.copy(ROOT / name, copy)
        crate = copy / "crates" / CRATE
        for text in TEXTS.rglob("*.txt"):
            place = crate / text.relative_to(TEXTS).with_suffix("")
            place.parent.mkdir(parents=True, exist_ok=True)
            shutil.copy(text, place)
        with open(copy / "crates.txt", "a", encoding="utf-8") as crates:
            crates.write(f"{CRATE}: {LIBRARIES}\n")
        run = subprocess.run(["rt", "run", "--", "1", "0"], cwd=crate, stdin=subprocess.DEVNULL, stdout=subprocess.DEVNULL)
        if run.returncode:
            sys.exit(f"{CRATE} isn't built: `rt run` ended with status {run.returncode}")
        BUILT.parent.mkdir(exist_ok=True)
        shutil.copy(crate / "out" / CRATE, BUILT)
    return str(BUILT)


def incrementals(rng, count):
    """Gives incrementals, each of which takes one device down or boots one."""
    up, down = list(range(DEVICES)), []
    for epoch in range(2, count + 2):
        yield compact({"op": "inc", "epoch": epoch, **fall_or_boot(rng, up, down), "up_thru": told(rng, up, 6, epoch)})


def load(count, asked):
    """Gives the lines of the program: a map, a question about each group, and what is measured, with questions about so many groups."""
    rng = random.Random(count)
    pools = [copies(pool, GROUPS) for pool in POOLS]
    yield compact({"op": "inc", "epoch": 1, "up": list(range(DEVICES)), "pools": pools, "crush": tree(8, 4, 8)})
    questions = [compact({"op": "ask", "pg": [pool, pg]}) for pool in POOLS for pg in range(GROUPS)]
    yield from questions
    yield ""
    yield from incrementals(rng, count)
    yield from rng.choices(questions[:asked], k=count)


def measure(program, shards, workers, lines, count):
    """Runs the program once."""
    words = [program, str(shards), str(workers)]
    run = subprocess.run(words, input=lines, stdout=subprocess.PIPE)
    if run.returncode:
        sys.exit(f"{' '.join(words)}: status {run.returncode}")
    elapsed, processor, lull, *took = (int(it) for it in run.stdout.split())
    if len(took) != count:
        sys.exit(f"{' '.join(words)}: {len(took)} answers to {count} questions")
    most = statistics.quantiles(took, n=100)[98]
    return Run(count / elapsed * 1e9, processor / 1e9, lull / 1e9, statistics.median(took) / 1e3, most / 1e3)


def row(workers, run, first):
    """Gives a row of the table, with the ratios to the first."""
    ratios = [f"{ours / theirs:.2f}" for ours, theirs in ((run.processor, first.processor), (run.median, first.median), (run.most, first.most))]
    return [
        *(str(workers), f"{run.pace:,.0f}", f"{run.processor:.2f}", ratios[0], f"{run.lull:.2f}"),
        *(f"{run.median:,.0f}", ratios[1], f"{run.most:,.0f}", ratios[2]),
    ]


def main(options):
    program = options.load or (str(BUILT) if is_fresh() else build())
    count = round(options.seconds * PACE)
    lines = "".join(f"{line}\n" for line in load(count, options.asked)).encode()
    found = {workers: [] for workers in options.workers}
    for _ in range(options.runs):
        for workers, runs in found.items():
            runs.append(measure(program, options.shards, workers, lines, count))
    medians = {workers: Run(*map(statistics.median, zip(*runs))) for workers, runs in found.items()}
    head = ["workers", "incrementals a second", "processor, s", "ratio", "in the lull, s", "question, µs", "ratio", "99 of 100, µs", "ratio"]
    print(table(head, [row(workers, run, medians[options.workers[0]]) for workers, run in medians.items()]))


def numbers(text):
    return [int(it) for it in text.split(",")]


if __name__ == "__main__":
    parser = argparse.ArgumentParser(description=__doc__, formatter_class=argparse.RawDescriptionHelpFormatter)
    parser.add_argument("--seconds", type=float, default=10, metavar="N")
    parser.add_argument("--shards", type=int, default=4, metavar="S")
    parser.add_argument("--workers", type=numbers, default=[0, 1, 4], metavar="W,W..")
    parser.add_argument("--asked", type=int, default=len(POOLS) * GROUPS, metavar="G")
    parser.add_argument("--runs", type=int, default=3, metavar="R")
    parser.add_argument("--load", type=os.path.abspath, metavar="PATH")
    main(parser.parse_args())
