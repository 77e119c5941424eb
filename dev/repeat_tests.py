#!/usr/bin/env python3
"""Runs the tests of a crate again and again, on all processors and on two.

    dev/repeat_tests.py CRATE [--times N]

`rt test CRATE` builds the tests before. Each test is a run of its own: N of them, 200 if not said, on all processors, and N
on two, by `taskset`. What a thread finds of another differs from run to run; a test has to pass each time. Prints a line for
each test, and exits with 1 where a run failed, or had not ended after a minute.
"""

import argparse
import os
import subprocess
import sys
import time

from built import ROOT

LIMIT = 60


def tests_of(program):
    """Gives the names of the program's tests."""
    listed = subprocess.run([program, "--list"], capture_output=True, text=True, check=True).stdout
    return [line.removesuffix(": test") for line in listed.splitlines() if line.endswith(": test")]


def passes(command):
    """Tells whether a run passed, and after how many seconds it ended."""
    start = time.monotonic()
    try:
        run = subprocess.run(command, capture_output=True, timeout=LIMIT)
    except subprocess.TimeoutExpired:
        return False, time.monotonic() - start
    return run.returncode == 0, time.monotonic() - start


def repeated(program, test, before, times):
    """Runs the test so often, and gives how often it failed, and the longest run's seconds."""
    runs = [passes([*before, program, test]) for _ in range(times)]
    return sum(not passed for passed, _ in runs), max(seconds for _, seconds in runs)


def main():
    parser = argparse.ArgumentParser(description=__doc__, formatter_class=argparse.RawDescriptionHelpFormatter)
    parser.add_argument("crate", metavar="CRATE", help="a crate with tests")
    parser.add_argument("--times", metavar="N", type=int, default=200, help="how often each test runs")
    words = parser.parse_args()
    program = ROOT / "crates" / words.crate / "out" / f"{words.crate}_tests"
    if not program.is_file():
        sys.exit(f"{program} isn't there: run `rt test {words.crate}` first")
    processors = sorted(os.sched_getaffinity(0))
    pair = ",".join(map(str, processors[:2]))
    failed = 0
    for test in tests_of(program):
        for name, before in ((f"{len(processors)} processors", []), (f"processors {pair}", ["taskset", "-c", pair])):
            wrong, longest = repeated(program, test, before, words.times)
            failed += wrong
            print(f"{test}: {words.times} runs on {name}, {wrong} failed, the longest {longest:.2f} s", flush=True)
    return 1 if failed else 0


if __name__ == "__main__":
    sys.exit(main())
