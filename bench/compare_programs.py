#!/usr/bin/env python3
"""Measures two builds of pgpeer on large scripts, by turns, and says which is the slower one.

    bench/compare_programs.py [--inputs FOLDER] [--runs N] BEFORE AFTER [NAME...]

BEFORE and AFTER are built programs, FOLDER is what make_inputs.py wrote (by default bench/out), and NAME is one of those that
make_inputs.py names; without one all are run. Both run N times on each script (by default 5), by turns, one at a time, and
print to nowhere. Prints a table in Markdown: the seconds of the processor of each, least and median, and the ratio of the
second to the first, of the least values and the median of the pairs. A script that the two answer with other bytes is told
of and not measured. Needs GNU time (Debian: time).
"""

import argparse
import os
import subprocess
import sys

from measure import HERE, NAMES, alternate, ratio, scripts, seconds, table


def answers(command, script):
    """Gives the bytes that the program answers to the script."""
    with open(script, "rb") as lines:
        return subprocess.run(command, stdin=lines, stdout=subprocess.PIPE).stdout


def row(name, before, after, script, runs):
    """Gives the row of a script, or None where the two answer it with other bytes."""
    if answers(before, script) != answers(after, script):
        print(f"{name}: the answers differ", file=sys.stderr)
        return None
    first, second = alternate([before, after], script, runs)
    return [name, seconds(first), seconds(second), ratio(second, first, "cpu")]


def main(options):
    before, after = ([os.path.abspath(program), "run"] for program in (options.before, options.after))
    rows = [row(name, before, after, script, options.runs) for name, script in scripts(options, NAMES)]
    print(table(["script", "before", "after", "after / before"], [it for it in rows if it]))


if __name__ == "__main__":
    parser = argparse.ArgumentParser(description=__doc__, formatter_class=argparse.RawDescriptionHelpFormatter)
    parser.add_argument("--inputs", default=f"{HERE}/out")
    parser.add_argument("--runs", type=int, default=5)
    parser.add_argument("before", metavar="BEFORE")
    parser.add_argument("after", metavar="AFTER")
    parser.add_argument("names", nargs="*", metavar="NAME")
    main(parser.parse_args())
