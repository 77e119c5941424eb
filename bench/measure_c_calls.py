#!/usr/bin/env python3
"""Measures calls of the library for C beside the program's lines and beside Ceph's crushtool, on one map.

    bench/measure_c_calls.py [--library FOLDER] [--program PATH] [--crushtool PATH] [--runs N] [--limits]

FOLDER is what tools/build_c_library.sh made (by default crates/pgp_c/out/c)
and Ceph's tool (crushtool; Debian: ceph-base); what isn't there is left out. The map has 256 devices in 32 hosts in 8 racks, and
a pool of 1,024 groups of three copies on different hosts. crushtool places inputs by the same tree and rule. The questions are
about the group of the script `asks`. Each is run N times (by default 5), by turns, one at a time. Prints a table in Markdown:
nanoseconds of the processor for each call, the least of the runs and the median, and the ratio of the least to that of the first
row of its kind. Needs a C compiler, $CC or cc.

With --limits it prints the memory and the time of a session at the limits in place of that: examples/c/outage.c runs on scripts
that make the largest map, ask for each group, tell three infos of each, and fill the log. Needs GNU time (Debian: time) too.
"""

import functools
import itertools
import os
import random
import shutil
import statistics
import subprocess
import sys
import tempfile

from make_inputs import HOST, IN, INPUTS as SCRIPTS, compact, copies, one_group, outage_of_one, tree
from measure import HERE, command_line, measure, table

from compare_with_ceph import text_of

ASKS, KEPT, ROUNDS, INPUTS, LINES = 400_000, 2_000_000, 20, 100_000, 200_000
STEPS = (1, 64)
TURNS = {1: 50_000, 4_000: 1_000}  # how many, by the past intervals of the group


def run(*command, lines=b""):
    """Runs a command, and gives what it prints."""
    done = subprocess.run([str(word) for word in command], input=lines, capture_output=True)
    if done.returncode:
        sys.exit(f"{command[0]}: status {done.returncode}: {done.stderr.decode()[-300:]}")
    return done.stdout


def spent(*command, lines=b""):
    """Runs a command to nowhere, and gives the seconds of the processor that it took."""
    with tempfile.TemporaryFile() as script:
        script.write(lines)
        script.seek(0)
        child = subprocess.Popen([str(word) for word in command], stdin=script, stdout=subprocess.DEVNULL)
        _, status, usage = os.wait4(child.pid, 0)
        child.returncode = os.waitstatus_to_exitcode(status)
    if child.returncode:
        sys.exit(f"{command[0]}: status {child.returncode}")
    return usage.ru_utime + usage.ru_stime


def built(library, source, folder):
    """Builds a C program over the library."""
    program = f"{folder}/{os.path.basename(source)[:-2]}"
    words = ["-O2", "-D_POSIX_C_SOURCE=199309L", f"-I{library}", "-o", program, source, f"{library}/libpgpeer.a"]
    run(os.environ.get("CC", "cc"), *words)
    return program


def map_line():
    """The one line that makes the map."""
    return compact({"op": "inc", "epoch": 1, "up": list(range(256)), "pools": [copies(1, 1024)], "crush": tree(8, 4, 8)}) + "\n"


def by_library(program, mode, count, lines):
    """Gives the seconds of a call of the library."""
    calls, seconds = run(program, mode, count, lines=lines).split()
    return float(seconds) / int(calls)


def by_program(program, lines, count, line):
    """Gives the seconds of a line of the program, those before it taken off."""
    more = "".join(itertools.islice((line(number) + "\n" for number in itertools.count()), count)).encode()
    return (spent(program, "run", lines=lines + more) - spent(program, "run", lines=lines)) / count


def by_crushtool(tool, crush):
    """Gives the seconds of an input that crushtool places."""
    words = [tool, "-i", crush, "--test", "--show-statistics", "--rule", "0", "--num-rep", "3", "--min-x", "0", "--max-x"]
    return (spent(*words, INPUTS) - spent(*words, 0)) / INPUTS


def crush_map(tool, folder):
    """Makes the map of the same tree and rule for crushtool."""
    buckets = {it["id"]: (it["type"], it["alg"], it["items"], it.get("weights", [IN] * len(it["items"]))) for it in reversed(tree(8, 4, 8))}
    with open(f"{folder}/crush.txt", "w") as file:
        file.write(text_of(buckets, -1, (HOST, False)))
    run(tool, "-c", f"{folder}/crush.txt", "-o", f"{folder}/crush")
    return f"{folder}/crush"


def ways(options, folder):
    """Gives of each kind of question its ways: a name, and what measures it once."""
    calls = built(options.library, f"{HERE}/c_calls.c", folder)
    places, asks = map_line().encode(), "".join(line + "\n" for line in outage_of_one([0, 1, 2])).encode()
    first = [("`pgp_locate`, the first of a group", lambda: by_library(calls, "first", ROUNDS, places))]
    if options.crushtool:
        crush = crush_map(options.crushtool, folder)
        first.append(("`crushtool --test`, an input", lambda: by_crushtool(options.crushtool, crush)))
    kept = [("`pgp_locate`, of a group that was placed", lambda: by_library(calls, "kept", KEPT, places))]
    kept.append(("`pgp_line` with a `locate`", lambda: by_library(calls, "line", LINES, places)))
    view = [("`pgp_ask` of a kept view", lambda: by_library(calls, "ask", ASKS, asks))]
    view.append(("`pgp_line` with an `ask`", lambda: by_library(calls, "askline", LINES, asks)))
    if options.program:
        located, asked = (lambda number: compact({"op": "locate", "pool": 1, "name": f"object-{number % 4096}"})), (lambda _: compact({"op": "ask", "pg": [1, 0]}))
        kept.append(("`pgpeer run`, a line with a `locate`", lambda: by_program(options.program, places, LINES, located)))
        view.append(("`pgpeer run`, a line with an `ask`", lambda: by_program(options.program, asks, LINES, asked)))
    full = "".join(line + "\n" for line in made("full")).encode()
    work = [("`pgp_ask`, the first of a full log", lambda: by_library(calls, "opened", 1, full))]
    work += [
        (f"`pgp_work` of {steps} steps there, the longest", functools.partial(by_library, calls, "worked", steps, full)) for steps in STEPS
    ]
    return [first, kept, view, work, *(turns(options, calls, intervals, count) for intervals, count in TURNS.items())]


def turns(options, calls, intervals, count):
    """Gives the ways of an info and a view of a group that has so many past intervals."""
    incs = [compact({"op": "inc", "epoch": 2 + number, "up" if number % 2 else "down": [0]}) for number in range(intervals)]
    lines = "".join(line + "\n" for line in [one_group(), *incs]).encode()
    told = {"stamp": 1 + intervals, "les": 0, "history_les": 0, "last_update": [1, 2], "log_tail": [0, 0], "complete": True}
    info, ask = compact({"op": "info", "pg": [1, 0], "from": [1, 0], **told}), compact({"op": "ask", "pg": [1, 0]})
    names = {
        "turn": "`pgp_submit_info`, `pgp_ask`",
        "turnlist": "the same, and `pgp_intervals`",
        "turnline": "`pgp_line` with an `info`, with an `ask`",
    }
    rows = [(f"{name}, {intervals:,}", functools.partial(by_library, calls, mode, count, lines)) for mode, name in names.items()]
    if options.program:
        piped = lambda number: f"{info}\n{ask}"
        rows.append((f"`pgpeer run`, both lines, {intervals:,}", lambda: by_program(options.program, lines, count, piped)))
    return rows


def made(name):
    """The lines of a script of make_inputs.py."""
    make, count = SCRIPTS[name]
    return list(make(random.Random(name), count))


def infos():
    """Three infos of each group of the largest map, from devices 0 to 2."""
    for pool in range(1, 256):
        for pg in range(128 if pool == 255 else 64):
            for osd in range(3):
                told = {"stamp": 256, "les": 0, "history_les": 0, "last_update": [1, 1], "log_tail": [0, 0], "complete": True}
                yield compact({"op": "info", "pg": [pool, pg], "from": [osd, 0], **told})


def limits(options, folder):
    """Gives a row for each script at the limits: its lines, and what a session of them takes."""
    program = built(options.library, f"{HERE}/../examples/c/outage.c", folder)
    largest = made("map")
    asks = [compact({"op": "ask", "pg": [pool, pg]}) for pool in range(1, 256) for pg in range(128 if pool == 255 else 64)]
    scripts = {
        "no line": [],
        "the largest map": largest,
        "the same, and each of its 16,384 groups is asked for": largest + asks,
        "the same, with three infos of each group before": largest + list(infos()) + asks,
        "a log full of incrementals over 64 devices": made("full"),
        "a log full of small incrementals, and each of 64 groups is asked for": made("full_asked"),
        "4,000 incrementals over 64 devices, and a question about one of 256 groups after each": made("churn_twice"),
    }
    for name, lines in scripts.items():
        with open(f"{folder}/script", "w") as script:
            script.writelines(line + "\n" for line in lines)
        runs = [measure([program], f"{folder}/script") for _ in range(options.runs)]
        yield [name, f"{len(lines):,}", f"{max(it.peak for it in runs):.1f}", f"{min(it.cpu for it in runs):.3f}"]


def main(options):
    if options.limits:
        with tempfile.TemporaryDirectory() as folder:
            print(table(["session", "lines", "MiB", "seconds"], limits(options, folder)))
        return
    for name in ("program", "crushtool"):
        if not shutil.which(getattr(options, name)):
            print(f"{getattr(options, name)} isn't there", file=sys.stderr)
            setattr(options, name, None)
    with tempfile.TemporaryDirectory() as folder:
        kinds = ways(options, folder)
        found = [[[] for _ in kind] for kind in kinds]
        for _ in range(options.runs):
            for kind, lists in zip(kinds, found):
                for (_, measure), list_of in zip(kind, lists):
                    list_of.append(measure() * 1e9)
    rows = []
    for kind, lists in zip(kinds, found):
        for (name, _), values in zip(kind, lists):
            rows.append([name, f"{min(values):,.0f} / {statistics.median(values):,.0f}", f"{min(values) / min(lists[0]):.2f}"])
    print(table(["call", "nanoseconds", "ratio"], rows))


if __name__ == "__main__":
    parser = command_line(__doc__)
    parser.add_argument("--library", default=f"{HERE}/../crates/pgp_c/out/c", type=os.path.abspath)
    parser.add_argument("--crushtool", default="crushtool")
    parser.add_argument("--runs", type=int, default=5)
    parser.add_argument("--limits", action="store_true")
    main(parser.parse_args())
