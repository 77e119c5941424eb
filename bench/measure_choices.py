#!/usr/bin/env python3
"""Measures how long a bucket of 16 items takes to choose one, beside Ceph's crushtool.

    bench/measure_choices.py [--program PATH] [--crushtool PATH] [--runs N]

PATH is the built tests (by default crates/pgp_tests/out/pgp_tests_tests), which choose for a million inputs, and Ceph's tool
(crushtool; Debian: ceph-base), which places one copy of each of 100,000 inputs in a tree of that bucket alone. Each is run N times
(5), by turns. Prints a table in Markdown: nanoseconds of the processor for a choice, the least of the runs and the median, and the
ratio of the least to that of a list bucket.
"""

import argparse
import os
import statistics
import tempfile

from measure import HERE, table
from measure_c_calls import INPUTS, run, spent

from compare_with_ceph import IN, text_of

ALGS = ("list", "straw2")
CHOICES = 0x10_0000  # of one test, as in crates/pgp_tests/src/choices.rt


def by_library(program, alg):
    """Gives the nanoseconds of a choice of the library."""
    return spent(program, f"choices::{alg}_buckets_choose_equal_items_alike") / CHOICES * 1e9


def crush_map(tool, alg, folder):
    """Makes a map of one bucket of 16 items."""
    with open(f"{folder}/{alg}.txt", "w") as file:
        file.write(text_of({-1: (1, alg, list(range(16)), [IN] * 16)}, -1, (0, False)))
    run(tool, "-c", f"{folder}/{alg}.txt", "-o", f"{folder}/{alg}")
    return f"{folder}/{alg}"


def by_crushtool(tool, crush):
    """Gives the nanoseconds of an input that crushtool places."""
    words = [tool, "-i", crush, "--test", "--show-statistics", "--rule", "0", "--num-rep", "1", "--min-x", "0", "--max-x"]
    return (spent(*words, INPUTS) - spent(*words, 0)) / INPUTS * 1e9


def main(options):
    with tempfile.TemporaryDirectory() as folder:
        ways = [("library", alg, lambda alg=alg: by_library(options.program, alg)) for alg in ALGS]
        for alg in ALGS:
            crush = crush_map(options.crushtool, alg, folder)
            ways.append(("`crushtool --test`", alg, lambda crush=crush: by_crushtool(options.crushtool, crush)))
        found = [[] for _ in ways]
        for _ in range(options.runs):
            for (_, _, measure), values in zip(ways, found):
                values.append(measure())
    rows = []
    for at, ((name, alg, _), values) in enumerate(zip(ways, found)):
        of_list = min(found[at - at % len(ALGS)])
        rows.append([f"{name}, {alg}", f"{min(values):,.0f} / {statistics.median(values):,.0f}", f"{min(values) / of_list:.2f}"])
    print(table(["choice of 16 items", "nanoseconds", "of a list bucket"], rows))


if __name__ == "__main__":
    parser = argparse.ArgumentParser(description=__doc__, formatter_class=argparse.RawDescriptionHelpFormatter)
    parser.add_argument("--program", default=f"{HERE}/../crates/pgp_tests/out/pgp_tests_tests", type=os.path.abspath)
    parser.add_argument("--crushtool", default="crushtool")
    parser.add_argument("--runs", type=int, default=5)
    main(parser.parse_args())
