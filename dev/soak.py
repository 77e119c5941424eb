#!/usr/bin/env python3
"""Runs the program with workers beside the program without, for a time, and compares each answer.

    dev/soak.py [--program PATH] [--shards N] [--workers M] [--minutes T] [--seed S] [--lines L] [--questions Q]
    dev/soak.py --words-left-out [...]

Both get the same scripts, one after the other, each in processes of its own: `PATH run --shards N --workers M` and
`PATH run --workers 0`. A script has L lines that fuzz/grammar.py makes, a Close, and then Q questions, after each of which
the log stands still. Lines go in by blocks, and the answers to a block are compared before the next. Memory is the resident
set of both processes, read after each block. Prints a line for each script and a table in Markdown at the end.

--words-left-out gives the program no options, so that it is run beside itself. --seconds is the longest wait for an answer.
Status 1: an answer differed or didn't come, or a program ended early or by another status than 0.
"""

import argparse
import pathlib
import queue
import random
import subprocess
import sys
import threading
import time
from typing import Any, Dict, Iterator, List, NamedTuple

from built import ROOT, command_line

sys.path.append(str(ROOT / "fuzz"))

import grammar  # noqa: E402
import model  # noqa: E402

BLOCK = 500  # lines


class Wrong(Exception):
    """An answer that differs or is missing."""


class Runner:
    """A program at the other end of two pipes. A thread reads its answers as they come."""

    def __init__(self, words: List[str], seconds: float):
        self.words, self.seconds = words, seconds
        self.process = subprocess.Popen(words, stdin=subprocess.PIPE, stdout=subprocess.PIPE, bufsize=0)
        self.answers: "queue.Queue[bytes]" = queue.Queue()
        threading.Thread(target=self.read, daemon=True).start()

    def read(self) -> None:
        with open(self.process.stdout.fileno(), "rb", closefd=False) as out:
            for line in out:
                self.answers.put(line)
        self.answers.put(b"")

    def write(self, text: bytes) -> None:
        left = memoryview(text)
        while left:
            left = left[self.process.stdin.write(left) :]

    def answer(self) -> bytes:
        try:
            line = self.answers.get(timeout=self.seconds)
        except queue.Empty:
            raise Wrong(f"{' '.join(self.words)}: no answer in {self.seconds} seconds") from None
        if not line:
            raise Wrong(f"{' '.join(self.words)}: ended early, status {self.process.wait()}")
        return line

    def memory(self) -> int:
        """The resident set in KiB."""
        for line in pathlib.Path(f"/proc/{self.process.pid}/status").read_text().splitlines():
            if line.startswith("VmRSS:"):
                return int(line.split()[1])
        return 0

    def end(self) -> None:
        self.process.stdin.close()
        rest = self.answers.get(timeout=self.seconds)
        if rest or self.process.wait(self.seconds) != 0:
            raise Wrong(f"{' '.join(self.words)}: at its end {rest[:200]!r} and status {self.process.wait()}")

    def stop(self) -> None:
        self.process.kill()
        self.process.wait()


class Row(NamedTuple):
    """What one script had, with the memory in KiB of both programs: when the log was closed, at the end, and at its most."""

    lines: int
    entries: int
    at_close: List[int]
    at_end: List[int]
    most: List[int]


def blocks_of(rng: random.Random, log: model.Model, count: int) -> Iterator[List[bytes]]:
    """The lines of a script up to its Close. The model takes what is taken, and answers no question."""
    story, left = grammar.Story(rng, log, 10**9), count
    story.asks = 0.25
    while left > 0:
        block = []
        for _ in range(min(left, BLOCK)):
            line = story.line()
            if line["op"] not in ("ask", "locate", "trace"):
                log.submit(line)
            block.append(grammar.compact(line))
        left -= len(block)
        yield block
    log.submit({"op": "close"})
    yield [b'{"op":"close"}']


def questions_of(rng: random.Random, log: model.Model, count: int) -> Iterator[List[bytes]]:
    """Questions about groups that reports were sent of, and about objects."""
    groups = sorted(log.reports) or [(1, 0)]
    for begin in range(0, count, BLOCK):
        block: List[Dict[str, Any]] = []
        for _ in range(min(BLOCK, count - begin)):
            pool, pg = rng.choice(groups)
            asked = {"op": "ask", "pg": [pool, pg]}
            block.append(asked if rng.random() < 0.5 else {"op": "locate", "pool": pool, "name": str(rng.randrange(10**6))})
        yield [grammar.compact(line) for line in block]


def compare(runners: List[Runner], block: List[bytes]) -> None:
    """Has both programs answer a block, and compares the answers."""
    text = b"".join(line + b"\n" for line in block)
    writers = [threading.Thread(target=runner.write, args=(text,), daemon=True) for runner in runners]
    for writer in writers:
        writer.start()
    for line in block:
        first, second = (runner.answer() for runner in runners)
        if first != second:
            raise Wrong(f"{line!r} is answered {first!r} and {second!r}")
    for writer in writers:
        writer.join()


def soaked(runners: List[Runner], rng: random.Random, options: argparse.Namespace) -> Row:
    """Runs one script on both programs."""
    log, most, lines = model.Model(), [0, 0], 0
    now = [0, 0]
    for blocks in (blocks_of(rng, log, options.lines), questions_of(rng, log, options.questions)):
        at_close = now
        for block in blocks:
            compare(runners, block)
            lines += len(block)
            now = [runner.memory() for runner in runners]
            most = [max(pair) for pair in zip(most, now)]
    for runner in runners:
        runner.end()
    return Row(lines, log.count, at_close, now, most)


def table(rows: List[Row]) -> str:
    """The sums, and the scripts that took the most memory and grew the most after their Close, in Markdown."""
    titles = ("", "lines", "entries", "KiB at Close, with and without", "KiB after the questions", "KiB at most")
    lines = ["| " + " | ".join(titles) + " |", "|---" + "|---:" * 5 + "|"]
    shown = {
        "last": rows[-1],
        "most memory": max(rows, key=lambda row: max(row.most)),
        "grew most": max(rows, key=lambda row: max(end - at for at, end in zip(row.at_close, row.at_end))),
    }
    for name, row in shown.items():
        pairs = [" / ".join(f"{it:,}" for it in pair) for pair in row[2:]]
        lines.append(f"| {name} | {row.lines:,} | {row.entries:,} | {' | '.join(pairs)} |")
    lines.append(f"| all {len(rows)} | {sum(row.lines for row in rows):,} | {sum(row.entries for row in rows):,} | | | |")
    return "\n".join(lines)


def main() -> int:
    parser = command_line(__doc__)
    parser.add_argument("--shards", type=int, default=8, metavar="N")
    parser.add_argument("--workers", type=int, default=4, metavar="M")
    parser.add_argument("--words-left-out", action="store_true")
    parser.add_argument("--minutes", type=float, default=1.0, metavar="T")
    parser.add_argument("--seconds", type=float, default=300.0, metavar="S")
    parser.add_argument("--seed", default="1", metavar="S")
    parser.add_argument("--lines", type=int, default=4000, metavar="L")
    parser.add_argument("--questions", type=int, default=4000, metavar="Q")
    options = parser.parse_args()
    told = [["--shards", str(options.shards), "--workers", str(options.workers)], ["--workers", "0"]]
    words = [[options.program, "run", *([] if options.words_left_out else more)] for more in told]
    end, rows = time.monotonic() + 60 * options.minutes, []
    while not rows or time.monotonic() < end:
        seed = f"{options.seed}/{len(rows)}"
        runners = [Runner(each, options.seconds) for each in words]
        try:
            rows.append(soaked(runners, random.Random(seed), options))
        except Wrong as wrong:
            print(f"script {seed}: {wrong}")
            return 1
        finally:
            for runner in runners:
                runner.stop()
        print(f"script {seed}: {rows[-1]}", flush=True)
    print(table(rows))
    return 0


if __name__ == "__main__":
    sys.exit(main())
