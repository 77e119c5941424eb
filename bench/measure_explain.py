#!/usr/bin/env python3
"""Measures `pgpeer explain` over all groups, beside `pgpeer run`.

    bench/measure_explain.py [--program PATH] [--inputs FOLDER] [--runs N] [NAME...]

FOLDER is what make_inputs.py wrote (by default bench/out).
NAME is one of those that make_inputs.py names; without one it is map_asked and down_asked, which ask for each of their 16,384
groups, and map, which asks for none. On each script `run` and `explain` run N times each (by default 5), by turns, one at a
time, and print to nowhere. Prints a table in Markdown: the seconds of the processor, the least and the median, the ratio of
`explain` to `run`, of the least values and the median of the pairs, and what `explain` counted. A script of whose lines one is
refused is told of and not measured. Needs GNU time (Debian: time).
"""

import subprocess

from measure import alternate, command_line_of_scripts, line_count, ratio, scripts, seconds, table

NAMES = ("map_asked", "down_asked", "map")
MOST_VERDICTS = 4  # that a summary names


def summary(command, script):
    """What `explain` says of the script: how many groups, and how many have which verdict; and what it says of lines."""
    with open(script, "rb") as lines:
        ended = subprocess.run(command, stdin=lines, capture_output=True, check=True, text=True)
    head, *verdicts = ended.stdout.split("\n\n")[0].splitlines()
    return ", ".join([head, *(it.strip() for it in verdicts[:MOST_VERDICTS])]), ended.stderr


def row(name, script, options):
    """Gives the row of a script, or None where it isn't measured."""
    run, explain = [options.program, "run"], [options.program, "explain"]
    said, refused = summary(explain, script)
    if refused:
        print(f"{name} isn't measured: {refused.splitlines()[0]}\n")
        return None
    by_run, by_explain = alternate([run, explain], script, options.runs)
    return [name, f"{line_count(script):,}", seconds(by_run), seconds(by_explain), ratio(by_explain, by_run, "cpu"), said]


def main(options):
    found = []
    for name, script in scripts(options, NAMES):
        found.append(row(name, script, options))
    head = ["script", "lines", "run, s", "explain, s", "explain / run", "what explain counts"]
    print(table(head, [it for it in found if it]))


if __name__ == "__main__":
    main(command_line_of_scripts(__doc__).parse_args())
