#!/usr/bin/env python3
"""Measures `pgpeer compact` on full logs, beside `pgpeer run`, and what is saved by it.

    bench/measure_compaction.py [--program PATH] [--inputs FOLDER] [--runs N] [NAME...]

FOLDER is what make_inputs.py wrote (by default
bench/out). NAME is one of those that make_inputs.py names; without one it is full_infos, full_entries and full. On each
script `run` and `compact` run N times each (by default 5), by turns, one at a time, and print to nowhere; then `run`
answers the script, and what `compact` wrote of it, each with a question about group 0 of pool 1 behind it. Prints two
tables in Markdown. The first has the seconds of the processor, the least and the median, the ratio of `compact` to `run`,
of the least values and the median of the pairs, and what stays. The second has the seconds of the processor for the script
and the question, and the milliseconds from the question, which was sent once all lines before it were
answered, to its answer, the least and the median. A script is told of and not measured where the two answers differ in more
than the count, or where what was written is another once it is compacted again. Needs GNU time (Debian: time).
"""

import os
import re
import statistics
import subprocess
import sys
import tempfile
import threading
import time

from measure import alternate, command_line_of_scripts, line_count, ratio, scripts, seconds, table

NAMES = ("full_infos", "full_entries", "full")
QUESTION = b'{"op":"ask","pg":[1,0]}\n'


def written(command, script, target):
    """Writes what the program writes of the script into a file, and gives what it says on standard error."""
    with open(script, "rb") as lines, open(target, "wb") as out:
        return subprocess.run(command, stdin=lines, stdout=out, stderr=subprocess.PIPE, check=True).stderr.decode().strip()


def append(script, line, target):
    """Writes the script and a line into a file."""
    with open(script, "rb") as lines, open(target, "wb") as out:
        out.write(lines.read() + line)


def first_answer(program, script, *options):
    """Gives the answer to the question once the script was answered, and the seconds until it came."""
    count = line_count(script)
    with open(script, "rb") as lines:
        text = lines.read()
    with subprocess.Popen([program, "run", *options], stdin=subprocess.PIPE, stdout=subprocess.PIPE) as process:
        writer = threading.Thread(target=lambda: (process.stdin.write(text), process.stdin.flush()))
        writer.start()
        for _ in range(count):
            process.stdout.readline()
        writer.join()
        before = time.perf_counter()
        process.stdin.write(QUESTION)
        process.stdin.flush()
        answer = process.stdout.readline()
        elapsed = time.perf_counter() - before
        process.stdin.close()
    return answer, elapsed


def first_answers(program, script, runs):
    """Gives the answer to the question, and the milliseconds until it came, the least and the median."""
    found = [first_answer(program, script) for _ in range(runs)]
    values = [1000 * elapsed for _, elapsed in found]
    return found[0][0], f"{min(values):.2f} / {statistics.median(values):.2f}"


def without_count(answer):
    return re.sub(rb'"count":\d+,', b"", answer)


def rows(name, script, options, folder):
    """Gives the rows of a script in both tables, or None where it isn't measured."""
    run, compact = [options.program, "run"], [options.program, "compact"]
    kept, again = f"{folder}/kept", f"{folder}/again"
    said = written(compact, script, kept)
    written(compact, kept, again)
    with open(kept, "rb") as once, open(again, "rb") as twice:
        if once.read() != twice.read():
            print(f"{name} isn't measured: compacted again it is another\n")
            return None
    answer, waited = first_answers(options.program, script, options.runs)
    other, waited_less = first_answers(options.program, kept, options.runs)
    if without_count(answer) != without_count(other):
        print(f"{name} isn't measured: the compacted script has another answer\n")
        return None
    by_run, by_compact = alternate([run, compact], script, options.runs, subprocess.DEVNULL)
    sizes = [f"{size(it):,}" for size in (line_count, os.path.getsize) for it in (script, kept)]
    print(f"{name}: {said.splitlines()[-1]}", file=sys.stderr)
    asked = []
    for it in (script, kept):
        append(it, QUESTION, f"{folder}/asked")
        asked += alternate([run], f"{folder}/asked", options.runs)
    first = [name, *sizes, seconds(by_run), seconds(by_compact), ratio(by_compact, by_run, "cpu")]
    return first, [name, *map(seconds, asked), ratio(asked[1], asked[0], "cpu"), waited, waited_less]


def main(options):
    found = []
    for name, script in scripts(options, NAMES):
        with tempfile.TemporaryDirectory() as folder:
            found.append(rows(name, script, options, folder))
    first, second = zip(*(it for it in found if it)) if any(found) else ((), ())
    head = ["script", "entries", "that stay", "bytes", "that stay", "run, s", "compact, s", "compact / run"]
    print(table(head, first), end="\n\n")
    head = ["script", "whole, s", "compacted, s", "compacted / whole", "question in the whole, ms", "in the compacted, ms"]
    print(table(head, second))


if __name__ == "__main__":
    main(command_line_of_scripts(__doc__).parse_args())
