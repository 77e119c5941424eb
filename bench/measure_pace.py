#!/usr/bin/env python3
"""Measures questions to an engine whose map goes on at a steady pace.

    bench/measure_pace.py [--program PATH] [--seconds N] [--shards S] [--workers W...]

The program gets its lines on a pipe, one at a time, and each is answered before the next is written. First comes a map of 16,384
groups, and a question about each. Then, for N seconds (10), each millisecond brings an incremental that turns one device, as in
measure_scaling.py, and a question about some group. At last, after a second without a line, come questions about 1,000 groups. It
runs without workers and with each W (1 and 4) over S shards (4). Prints a table in Markdown: how many incrementals came in a second,
the program's seconds of the processor while they came and in the second after, the microseconds that a question took, from the write
to the answer, the median and the 99th percentile, and the median of those at last.
"""

import os
import random
import statistics
import subprocess
import time

from maps import compact
from measure import command_line, table
from measure_scaling import beginning, turns

SIZE = 16_384  # groups
LAST = 1_000  # questions
PACE = 0.001  # seconds
TICKS = os.sysconf("SC_CLK_TCK")


class Session:
    """The program on a pipe."""

    def __init__(self, command):
        self.child = subprocess.Popen(command, stdin=subprocess.PIPE, stdout=subprocess.PIPE, bufsize=0)

    def answer(self, line):
        """Gives the seconds from the write of the line to its answer."""
        before = time.perf_counter()
        os.write(self.child.stdin.fileno(), line)
        answer = b""
        while not answer.endswith(b"\n"):
            answer += os.read(self.child.stdout.fileno(), 0x10000)
        assert b'"ok":' in answer, answer
        return time.perf_counter() - before

    def processor(self):
        """Gives the seconds of the processor that the program has taken so far."""
        with open(f"/proc/{self.child.pid}/stat", encoding="utf-8") as file:
            times = file.read().rsplit(")", 1)[1].split()[11:13]
        return sum(map(int, times)) / TICKS

    def end(self):
        self.child.stdin.close()
        assert self.child.wait() == 0


def encoded(lines):
    return [f"{line}\n".encode() for line in lines]


def some_questions(head, rng, count):
    """Gives this many questions of those at the beginning."""
    return rng.choices(head[1:], k=count)


def measure(command, head, incs, rng):
    """Gives a run's cells of the table."""
    session = Session(command)
    for line in head:
        session.answer(line)
    took = []
    before, start = session.processor(), time.perf_counter()
    for at, (inc, question) in enumerate(zip(incs, some_questions(head, rng, len(incs)))):
        time.sleep(max(0.0, start + at * PACE - time.perf_counter()))
        session.answer(inc)
        took.append(session.answer(question))
    pace = len(incs) / (time.perf_counter() - start)
    time.sleep(1)
    spent = session.processor() - before
    last = statistics.median(session.answer(question) for question in some_questions(head, rng, LAST))
    session.end()
    median, most = statistics.median(took), statistics.quantiles(took, n=100)[98]
    return [f"{pace:,.0f}", f"{spent:.2f}", *(f"{it * 1e6:,.0f}" for it in (median, most, last))]


def main(options):
    head = encoded(beginning(SIZE))
    incs = encoded(turns(SIZE, round(options.seconds / PACE), {}, False))
    rows = []
    for workers in (0, *options.workers):
        command = [options.program, "run", "--shards", str(options.shards), "--workers", str(workers)]
        rows.append([str(workers), *measure(command, head, incs, random.Random(SIZE))])
    print(table(["workers", "incrementals a second", "processor, s", "question, µs", "99 of 100", "after a lull"], rows))


if __name__ == "__main__":
    parser = command_line(__doc__)
    parser.add_argument("--seconds", type=float, default=10)
    parser.add_argument("--shards", type=int, default=4)
    parser.add_argument("--workers", type=int, nargs="+", default=[1, 4])
    main(parser.parse_args())
