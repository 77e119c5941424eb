#!/usr/bin/env python3
"""Measures pgpeer with workers on large scripts, beside itself without.

    bench/measure_workers.py [--program PATH] [--inputs FOLDER] [--runs N] [--shards S] [--workers W...] [NAME...]

FOLDER is what make_inputs.py wrote (by default
bench/out). NAME is one of those that make_inputs.py names; without one it is those of the table in README.md. Each
script is answered without workers and with each W (by default 1, 2 and 4) and S shards (4), N times each (5), by turns,
one at a time, and the answers go to nowhere. Prints a table in Markdown: the elapsed seconds and those of the processor,
and their ratios to those without workers. A run whose answers differ from those without workers is told of and not
measured. Needs GNU time (Debian: time).

Seconds change with what else the machine does, so each is the least and the median, and the ratio that of the least, and
the median of the ratios of two runs that stood side by side.
"""

import subprocess

from measure import alternate, command_line_of_scripts, line_count, ratio, scripts, seconds, table

NAMES = ("down_asked", "map_asked", "locate", "peering_wide", "churn_wide", "ask_heavy", "submit_heavy", "full_infos", "steps")


def command(program, shards, workers):
    return [program, "run", "--shards", str(shards), "--workers", str(workers)]


def answers(words, script):
    """Gives the answers to the script, and the status."""
    with open(script, "rb") as lines:
        run = subprocess.run(words, stdin=lines, stdout=subprocess.PIPE)
    return run.stdout, run.returncode


def rows(name, script, options):
    """Gives the rows of a script, one for each number of workers."""
    commands = [command(options.program, options.shards, workers) for workers in (0, *options.workers)]
    wanted = answers(commands[0], script)
    for words in commands[1:]:
        if answers(words, script) != wanted:
            print(f"{name} isn't measured: `{' '.join(words[1:])}` answers it otherwise\n")
            return
    without, *others = alternate(commands, script, options.runs)
    for workers, runs in zip((0, *options.workers), (without, *others)):
        times = [it for part in ("elapsed", "cpu") for it in (seconds(runs, part), ratio(runs, without, part))]
        yield [name, f"{line_count(script):,}", str(workers), *times]


def main(options):
    found = []
    for name, script in scripts(options, NAMES):
        found += rows(name, script, options)
    print(table(["script", "lines", "workers", "elapsed, s", "to none", "processor, s", "to none"], found))


if __name__ == "__main__":
    parser = command_line_of_scripts(__doc__)
    parser.add_argument("--shards", type=int, default=4)
    parser.add_argument("--workers", type=int, nargs="+", default=[1, 2, 4])
    main(parser.parse_args())
