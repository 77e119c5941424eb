#!/usr/bin/env python3
"""Measures pgpeer on large scripts, beside two yardsticks on the same ones.

    bench/measure.py [--program PATH] [--inputs FOLDER] [--runs N] [NAME...]

FOLDER is what make_inputs.py wrote (by default bench/out). NAME is one of those that make_inputs.py names; without one all are run. The yardsticks are `jq -c .` and
bench/read_and_write.py, which read and print the same lines. The three run N times each (by default 5), by turns, one at
a time, and print to nowhere; then jq runs N times on the program's answers. Prints three tables in Markdown, of time, of
time beside the answers, and of memory. Needs jq and GNU time (Debian: jq and time).

Seconds are of the processor, in the program and in the system on its behalf, since those change least with what else
the machine does. A script to whose lines the program doesn't answer `ok`, each in turn, is told of and not measured.
"""

import os
import shutil
import statistics
import subprocess
import sys
import tempfile
import time
from typing import NamedTuple

HERE = os.path.dirname(os.path.abspath(__file__))
sys.path.append(f"{HERE}/../dev")

from built import command_line  # noqa: E402

NAMES = (
    *("locate", "incs", "map", "steps", "full", "peering", "peering_wide", "churn", "churn_twice"),
    *("churn_wide", "full_asked", "reweights", "reweights_out", "asks", "untouched", "untouched_twice"),
    *("long_past", "long_log", "traces", "empty"),
)


class Run(NamedTuple):
    """What one run took: seconds of the processor, elapsed seconds, and MiB of memory at its peak."""

    cpu: float
    elapsed: float
    peak: float


def measure(command, script, errors=None):
    """Runs the command on the script; what it says on standard error goes to `errors`, or is shown."""
    with open(script, "rb") as lines, tempfile.NamedTemporaryFile("r") as peak:
        before = time.perf_counter()
        timed = ["/usr/bin/time", "-f", "%M", "-o", peak.name, *command]
        child = subprocess.Popen(timed, stdin=lines, stdout=subprocess.DEVNULL, stderr=errors)
        _, status, usage = os.wait4(child.pid, 0)
        elapsed = time.perf_counter() - before
        child.returncode = os.waitstatus_to_exitcode(status)
        if child.returncode != 0:
            sys.exit(f"{command[0]} ended with status {child.returncode} on {script}")
        return Run(usage.ru_utime + usage.ru_stime, elapsed, int(peak.read()) / 1024)


def line_count(script):
    with open(script, "rb") as lines:
        return sum(1 for _ in lines)


def command_line_of_scripts(about):
    """Gives a script's command line, with options for the program, the folder of scripts and the number of runs, and names."""
    parser = command_line(about)
    parser.add_argument("--inputs", default=f"{HERE}/out")
    parser.add_argument("--runs", type=int, default=5)
    parser.add_argument("names", nargs="*", metavar="NAME")
    return parser


def scripts(options, names):
    """Gives the scripts that are asked for, by name, or those of these names; one that isn't there ends the run."""
    for name in options.names or names:
        script = f"{options.inputs}/{name}.jsonl"
        if not os.path.exists(script):
            sys.exit(f"{script} isn't there. bench/make_inputs.py makes it")
        yield name, script


def answer(command, script, answers):
    """Writes the program's answers to the script to the file `answers`."""
    with open(script, "rb") as lines, open(answers, "wb") as out:
        subprocess.run(command, stdin=lines, stdout=out)


def fault_of(script, answers):
    """Says what is wrong with the answers to the script, or gives None where each line is answered `ok`."""
    with open(answers, "rb") as lines:
        for line in lines:
            if b'"ok":' not in line:
                return line.decode()
    told, expected = line_count(answers), line_count(script)
    return None if told == expected else f"{told} answers to {expected} lines"


def alternate(commands, script, runs, errors=None):
    """Runs the commands by turns, and gives for each the list of its runs."""
    found = [[] for _ in commands]
    for _ in range(runs):
        for command, list_of in zip(commands, found):
            list_of.append(measure(command, script, errors))
    return found


def seconds(runs, part="cpu"):
    """Gives the least seconds, of the processor or elapsed, and the median."""
    values = [getattr(it, part) for it in runs]
    return f"{min(values):.3f} / {statistics.median(values):.3f}"


def ratio(ours, theirs, part):
    """Gives the ratio of the least values, and the median of the ratios of the runs that stood side by side."""
    ours, theirs = [getattr(it, part) for it in ours], [getattr(it, part) for it in theirs]
    pairs = statistics.median(left / right for left, right in zip(ours, theirs))
    return f"{min(ours) / min(theirs):.2f} / {pairs:.2f}"


def time_row(name, script, ours, jq, python):
    """Gives the row of the first table."""
    return [
        name,
        f"{line_count(script):,}",
        f"{os.path.getsize(script):,}",
        seconds(ours),
        seconds(jq),
        seconds(python),
        ratio(ours, jq, "cpu"),
        ratio(ours, python, "cpu"),
        f"{line_count(script) / min(it.cpu for it in ours):,.0f}",
    ]


def both_row(name, answers, ours, on_lines, on_answers):
    """Gives the row of the second table: the least seconds of jq on the lines and on the answers, and the ratio to both."""
    both = min(it.cpu for it in on_lines) + min(it.cpu for it in on_answers)
    least = min(it.cpu for it in ours)
    return [name, f"{os.path.getsize(answers):,}", f"{least:.3f}", f"{both:.3f}", f"{least / both:.2f}"]


def memory_row(name, ours, jq, tenth):
    """Gives the row of the third table: the greatest peaks."""
    return [name] + [f"{max(it.peak for it in runs):.1f}" for runs in (ours, *tenth, jq)]


def table(head, rows):
    """Gives a table in Markdown, its first column to the left."""
    rules = ["---"] + ["---:"] * (len(head) - 1)
    return "\n".join("| " + " | ".join(row) + " |" for row in [head, rules, *rows])


def lacking(options):
    """Says what has to be there before a run and isn't."""
    for command, how in ((options.program, "`rt run` in crates/pgpeer builds it"), ("jq", ""), ("/usr/bin/time", "")):
        if not shutil.which(command):
            return f"{command} isn't there. {how}"
    return None


def main(options):
    if lacking(options):
        sys.exit(lacking(options))
    with tempfile.TemporaryDirectory() as folder:
        print_tables(options, f"{folder}/answers")


def print_tables(options, answers):
    """Measures each script, with the program's answers to it in the file `answers`, and prints the tables."""
    ours, jq = [options.program, "run"], ["jq", "-c", "."]
    python = [sys.executable, "-S", "-E", f"{HERE}/read_and_write.py"]
    times, both, memory = [], [], []
    for name, script in scripts(options, NAMES):
        answer(ours, script, answers)
        fault = fault_of(script, answers)
        if fault:
            print(f"{name} isn't measured: {fault}\n")
            continue
        runs = alternate([ours, jq, python], script, options.runs)
        times.append(time_row(name, script, *runs))
        both.append(both_row(name, answers, *runs[:2], *alternate([jq], answers, options.runs)))
        memory.append(memory_row(name, *runs[:2], alternate([ours], f"{options.inputs}/{name}.tenth.jsonl", 1)))
    head = ["script", "lines", "bytes", "pgpeer, s", "jq, s", "Python, s", "ratio to jq", "ratio to Python"]
    print(table([*head, "lines a second"], times), end="\n\n")
    print(table(["script", "bytes of answers", "pgpeer, s", "jq on lines and answers, s", "ratio"], both), end="\n\n")
    print(table(["script", "pgpeer, MiB", "pgpeer on a tenth, MiB", "jq, MiB"], memory))


if __name__ == "__main__":
    main(command_line_of_scripts(__doc__).parse_args())
