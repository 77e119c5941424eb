#!/usr/bin/env python3
"""Refuses each allocation of a run, an explanation or a compaction in turn, and says what became of it.

    dev/refuse_allocations.py [--program PATH] SCRIPT SUBCOMMAND [WORD...]

SCRIPT is a file of lines, SUBCOMMAND `run`, `explain` or `compact`, and the WORDs are those behind it, as --workers 2 or 1.0. What
is written where no allocation is refused is what is to be written. Then, for N = 1, 2, .., until there is no Nth allocation, the
Nth is refused. Each may write just that, or end with status 2 before it reads. Or else

  run                   answers one line with a constant text for out of memory, and all others as if that line weren't there; or
                        ends with status 3 and `pgpeer: no engine` before it reads
  explain and compact   end with status 3 and `pgpeer: out of memory`, and write nothing: what comes after a line that is out of
                        memory would lack its entry. `explain` may have named refused lines on standard error by then

Exits with 1 where something else was done, or no end came in a minute. Which allocation is the Nth differs from run to run where
there are workers. Needs a C compiler, `cc`.
"""

import argparse
import collections
import functools
import json
import pathlib
import subprocess
import sys

from built import command_line
from refusing import runs

NO_LINE = b'{"code":41,"refused":"Memory"}'
NO_ENTRY = b'{"code":51,"refused":"Memory"}'
NO_ENGINE = b"pgpeer: no engine\n"
NO_MEMORY = b"pgpeer: out of memory\n"
ENTRIES = ("inc", "info", "entries", "close")
READ_WHOLE = ("explain", "compact")  # what reads a script to its end before it writes


def is_blank(line):
    """Tells whether the line has no answer."""
    return not line.strip(b" \t\r")


def is_entry(line):
    """Tells whether the line is an object whose operation adds an entry to the log."""
    try:
        value = json.loads(line)
    except ValueError:
        return False
    return isinstance(value, dict) and value.get("op") in ENTRIES


def met_memory(lines, script, answers_without):
    """Gives the constant text where the lines are the answers to the script except for one line that was out of memory."""
    for place, line in enumerate(script):
        before = sum(not is_blank(it) for it in script[:place])
        if before >= len(lines) or lines[before] not in (NO_LINE, NO_ENTRY):
            continue
        if lines[before] == NO_ENTRY and not is_entry(line):
            continue
        others = answers_without(place)
        if lines[:before] + lines[before + 1 :] == others:
            return lines[before]
    return None


def verdict_of_run(run, script, answers_without):
    """Names what a run did, or gives None where it did what no run may."""
    lines = run.stdout.splitlines()
    if run.returncode == 2 and not lines:
        return "status 2, nothing read"
    if (run.returncode, run.stderr, lines) == (3, NO_ENGINE, []):
        return "no engine, nothing read"
    if run.returncode != 0:
        return None
    if lines == answers_without(None):
        return "all answers"
    constant = met_memory(lines, script, answers_without)
    return constant and f"a line answered {constant.decode()}"


def verdict_of_whole(subcommand, run, whole):
    """The same of `explain` and `compact`, which would write what `whole` wrote."""
    if (run.returncode, run.stdout, run.stderr) == (whole.returncode, whole.stdout, whole.stderr):
        return "the same"
    if run.stdout:
        return None
    if run.returncode == 2:
        return "status 2, nothing read"
    ends_so = run.stderr.endswith(NO_MEMORY) if subcommand == "explain" else run.stderr == NO_MEMORY
    return "out of memory" if run.returncode == 3 and ends_so else None


def verdicts(command, text):
    """Gives what was done where each allocation was refused in turn."""

    def answered(lines):
        return subprocess.run(command, input=lines, capture_output=True, timeout=60)

    if command[1] in READ_WHOLE:
        whole = answered(text)
        return [verdict_of_whole(command[1], run, whole) for run in runs(command, text)]
    script = text.removesuffix(b"\n").split(b"\n")

    @functools.lru_cache(maxsize=None)
    def answers_without(place):
        return answered(b"".join(it + b"\n" for at, it in enumerate(script) if at != place)).stdout.splitlines()

    return [verdict_of_run(run, script, answers_without) for run in runs(command, text)]


def main():
    parser = command_line(__doc__)
    parser.add_argument("script", metavar="SCRIPT", type=pathlib.Path)
    parser.add_argument("subcommand", choices=("run", *READ_WHOLE), metavar="SUBCOMMAND")
    parser.add_argument("words", nargs=argparse.REMAINDER, metavar="WORD")
    options = parser.parse_args()
    found = verdicts([options.program, options.subcommand, *options.words], options.script.read_bytes())
    wrong = [number for number, name in enumerate(found, 1) if name is None]
    print(f"{len(found)} allocations")
    for name, times in collections.Counter(name or "WRONG" for name in found).most_common():
        print(f"{times:6} {name}")
    if wrong:
        print(f"wrong where these were refused: {wrong}")
    return 1 if wrong else 0


if __name__ == "__main__":
    sys.exit(main())
