#!/usr/bin/env python3
"""Measures whether an incremental costs what it touches, where a shard keeps more and more groups.

    bench/measure_scaling.py [--program PATH] [--runs R] [--instructions]

PATH may also be a program that reads a script where it is called without an
argument, as that of pgp_scripts. Each script makes a number of groups of two copies on a quarter as many devices, so that eight
groups lie on a device on average, and asks about each of them. Then come incrementals of which each takes one device down or
boots one, with a single question at the end or with one after each, about a group on the device. Each script is run R times
(5), and so is what comes before its incrementals, which is taken off. Prints two tables in Markdown, one with a single question
and one with all: for each number of groups the microseconds of the processor that an incremental takes, of the least runs, with
2,000 incrementals and with 4,000, and the ratio of the first to that in the row above. Needs GNU time (Debian: time).

With --instructions it counts by valgrind (Debian: valgrind) how many instructions an incremental takes, once for each script:
what it does, whatever the machine's caches hold.
"""

import json
import os
import random
import re
import subprocess
import tempfile
from functools import partial

from make_inputs import fall_or_boot
from maps import HOST, compact, tree
from measure import alternate, command_line, table

SIZES = (256, 1024, 4096, 16_384)
COUNTS = (2_000, 4_000)
LARGEST_POOL = 1024  # groups
HOST_SIZE = 8  # devices


def pools(size):
    """Gives the pools that have this many groups in all."""
    kind = {"kind": "replicated", "size": 2, "min_size": 1, "leaf": HOST}
    groups = min(size, LARGEST_POOL)
    return [{"id": pool, "pg_num": groups, **kind} for pool in range(1, size // groups + 1)]


def beginning(size):
    """Gives the map and a question about each group."""
    devices = size // 4
    hosts = devices // HOST_SIZE
    racks = min(8, hosts // 4)
    buckets = tree(racks, hosts // racks, HOST_SIZE)
    first = {"op": "inc", "epoch": 1, "up": list(range(devices)), "pools": pools(size), "crush": buckets}
    yield compact(first)
    for pool in first["pools"]:
        for group in range(pool["pg_num"]):
            yield compact({"op": "ask", "pg": [pool["id"], group]})


def some_group(command, script):
    """Gives for each device a group that lies on it, by the answers to the questions at the script's end."""
    found = {}
    with open(script, "rb") as lines:
        for line in subprocess.run(command, stdin=lines, stdout=subprocess.PIPE).stdout.splitlines():
            answer = json.loads(line)
            for osd in answer.get("up", ()):
                found[osd] = answer["pg"]
    return found


def turns(size, count, asked, each):
    """Gives incrementals of which each turns one device, and after each or the last one a question about its group of `asked`."""
    rng = random.Random(size)
    up, down = list(range(size // 4)), []
    for epoch in range(2, count + 2):
        turned = fall_or_boot(rng, up, down)
        yield compact({"op": "inc", "epoch": epoch, **turned})
        (osd,) = turned.get("up") or turned["down"]
        if osd in asked and (each or epoch == count + 1):
            yield compact({"op": "ask", "pg": asked[osd]})


def write(folder, name, lines):
    with open(f"{folder}/{name}", "w") as script:
        script.writelines(line + "\n" for line in lines)
    return script.name


def spent(command, runs, script, start):
    """Gives the microseconds of the processor that the script takes beyond its start, of the least runs."""
    whole, first = (alternate([command], it, runs)[0] for it in (script, start))
    return (min(run.cpu for run in whole) - min(run.cpu for run in first)) * 1e6


def counted(command, script):
    """Gives how many instructions the program takes for the script."""
    command = ["valgrind", "--tool=callgrind", "--callgrind-out-file=/dev/null", *command]
    with open(script, "rb") as lines:
        run = subprocess.run(command, stdin=lines, stdout=subprocess.DEVNULL, stderr=subprocess.PIPE, text=True, check=True)
    return int(re.search(r"Collected : (\d+)", run.stderr)[1])


def instructions(command, script, start):
    """Gives how many instructions the script takes beyond its start."""
    return counted(command, script) - counted(command, start)


def rows(measure, digits, command, folder, each):
    """Gives a row for each number of groups, with what `measure` gives for a script beyond its start."""
    before = None
    for size in SIZES:
        head = list(beginning(size))
        start = write(folder, "start", head)
        asked = some_group(command, start)
        costs = []
        for count in COUNTS:
            script = write(folder, "whole", head + list(turns(size, count, asked, each)))
            costs.append(measure(script, start) / count)
        yield [f"{size:,}", *(f"{cost:,.{digits}f}" for cost in costs), f"{costs[0] / before:.2f}" if before else ""]
        before = costs[0]


def main(options):
    program = options.program
    command = [program, "run"] if os.path.basename(program) == "pgpeer" else [program]
    if options.instructions:
        unit, digits, measure = "instructions", 0, partial(instructions, command)
    else:
        unit, digits, measure = "µs", 1, partial(spent, command, options.runs)
    heads = ["groups", *(f"{count:,} incrementals, {unit} each" for count in COUNTS), "to the row above"]
    with tempfile.TemporaryDirectory() as folder:
        for each in (False, True):
            print("A question after each:" if each else "A question at the end:", end="\n\n")
            print(table(heads, list(rows(measure, digits, command, folder, each))), end="\n\n", flush=True)


if __name__ == "__main__":
    parser = command_line(__doc__)
    parser.add_argument("--runs", type=int, default=5)
    parser.add_argument("--instructions", action="store_true")
    main(parser.parse_args())
