#!/usr/bin/env python3
"""Tries the built program at its edges: scripts that end anywhere, reads and writes that fail, and scripts beyond the bounds.

    fuzz/edges.py [--program PATH] [--large]

Each script of examples/ is cut after each number of bytes, and that of a compaction is compacted then. A read fails where
standard input is a folder, a write where standard output is /dev/full or a pipe that nobody reads, or reads no further; `run`
and `compact` are tried. --large has the scripts of 4 GiB too, for `run` alone, and needs a minute. Prints a line for each check.
Status 1: one failed.
"""

import os
import pathlib
import subprocess
import sys
import tempfile
import threading
from typing import Any, Callable, List, NamedTuple, Tuple

import compact
import fuzz
from fuzz import ROOT, command_line

MOST_LINES, MOST_BYTES = 1_000_000, 4_294_967_296
READ_FAULT, WRITE_FAULT = b"pgpeer: read fault\n", b"pgpeer: write fault\n"
FAILED_READ = READ_FAULT + b"pgpeer: a read failed in line 1\n"
TOO_MANY_LINES = READ_FAULT + b"pgpeer: the script has more than 1000000 lines\n"
TOO_MANY_BYTES = READ_FAULT + b"pgpeer: the script has more than 4294967296 bytes, in line 2\n"
CLOSE, CLOSED = b'{"op":"close"}\n', b'{"count":1,"epoch":0,"ok":"close"}\n'
TOO_LONG = b'{"code":30,"refused":"LineTooLong"}\n'
KEPT = compact.message(1, 1, 0)  # of a Close
SUBCOMMANDS = ("run", "compact")


class End(NamedTuple):
    """What a run wrote, and how it ended."""

    out: bytes
    errors: bytes
    status: int


def ended(program: str, text: bytes, *words: str) -> End:
    run = subprocess.run([program, *(words or ("run",))], input=text, capture_output=True, timeout=300)
    return End(run.stdout, run.stderr, run.returncode)


def cuts(program: str) -> bool:
    """Each example cut after each number of bytes is answered as the model says."""
    for file in examples():
        text = file.read_bytes()
        for length in range(min(len(text), 2500)):
            wanted = fuzz.modelled(text[:length].split(b"\n")).wanted()
            if ended(program, text[:length]) != End(wanted, b"", 0):
                print(f"{file.name} cut after {length} bytes", file=sys.stderr)
                return False
    return True


def compacted_cuts(program: str) -> bool:
    """The example of a compaction cut after each number of bytes is compacted as the model says."""
    text = (ROOT / "examples" / "compact.jsonl").read_bytes()
    for length in range(len(text) + 1):
        if ended(program, text[:length], "compact") != End(*compact.by_model(text[:length]), 0):
            print(f"compact.jsonl cut after {length} bytes", file=sys.stderr)
            return False
    return True


def examples() -> List[pathlib.Path]:
    files = sorted((ROOT / "examples").glob("*.jsonl"))
    return [file for file in files if "." not in file.stem]


def failing_read(program: str) -> bool:
    folder = os.open("/", os.O_RDONLY)
    try:
        runs = [subprocess.run([program, it], stdin=folder, capture_output=True, timeout=60) for it in SUBCOMMANDS]
    finally:
        os.close(folder)
    return all(End(run.stdout, run.stderr, run.returncode) == End(b"", FAILED_READ, 3) for run in runs)


def failing_write(program: str) -> bool:
    def run(subcommand: str) -> bool:
        with open("/dev/full", "wb") as full:
            run = subprocess.run([program, subcommand], input=CLOSE, stdout=full, stderr=subprocess.PIPE, timeout=60)
        return (run.stderr, run.returncode) == (WRITE_FAULT, 3)

    return all(map(run, SUBCOMMANDS))


def nobody_reads(program: str) -> bool:
    """The signal SIGPIPE stays ignored, as it is here, so that the write fails."""

    def run(subcommand: str) -> bool:
        mine, its = os.pipe()
        os.close(mine)
        errors = {"stderr": subprocess.PIPE, "restore_signals": False}
        try:
            run = subprocess.run([program, subcommand], input=CLOSE, stdout=its, timeout=60, **errors)
        finally:
            os.close(its)
        return (run.stderr, run.returncode) == (WRITE_FAULT, 3)

    return all(map(run, SUBCOMMANDS))


def no_further(program: str) -> bool:
    """Of what goes out before a write fails each byte is as it should be: nobody reads after the first thousand."""
    incs = [b'{"op":"inc","epoch":%d}' % epoch for epoch in range(1, 20_001)]
    text, wanted = compact.text_of(incs), (fuzz.modelled(incs).wanted(), compact.text_of(incs))

    def run(subcommand: str, whole: bytes) -> bool:
        mine, its = os.pipe()
        with tempfile.TemporaryFile() as script, tempfile.TemporaryFile() as errors:
            script.write(text)
            script.seek(0)
            streams = {"stdin": script, "stdout": its, "stderr": errors}
            with subprocess.Popen([program, subcommand], **streams, restore_signals=False) as process:
                os.close(its)
                found = os.read(mine, 1000)
                os.close(mine)
                status = process.wait(60)
            errors.seek(0)
            return bool(found) and whole.startswith(found) and (errors.read(), status) == (WRITE_FAULT, 3)

    return all(map(run, SUBCOMMANDS, wanted))


def most_lines(program: str) -> bool:
    text = CLOSE + b"\n" * (MOST_LINES - 1)
    more = [b"\n", b"x", b" ", CLOSE]
    whole = ended(program, text) == End(CLOSED, b"", 0) and ended(program, text, "compact") == End(CLOSE, KEPT, 0)
    return whole and all(
        ended(program, text + it) == End(CLOSED, TOO_MANY_LINES, 3) and ended(program, text + it, "compact") == End(b"", TOO_MANY_LINES, 3)
        for it in more
    )


def streamed(program: str, head: bytes, count: int) -> End:
    """What the program does with the head and this many bytes `x`."""
    pipes = {"stdin": subprocess.PIPE, "stdout": subprocess.PIPE, "stderr": subprocess.PIPE}
    with subprocess.Popen([program, "run"], bufsize=0, **pipes) as process:

        def write() -> None:
            block, left = b"x" * (1 << 20), count
            try:
                process.stdin.write(head)
                while left > 0:
                    left -= process.stdin.write(block[:left])
                process.stdin.close()
            except BrokenPipeError:
                pass

        writer = threading.Thread(target=write)
        writer.start()
        out, errors = process.stdout.read(), process.stderr.read()
        status = process.wait(600)
        writer.join()
    return End(out, errors, status)


def most_bytes(program: str) -> bool:
    left = MOST_BYTES - len(CLOSE)
    whole = streamed(program, CLOSE, left) == End(CLOSED + TOO_LONG, b"", 0)
    return whole and streamed(program, CLOSE, left + 1) == End(CLOSED, TOO_MANY_BYTES, 3)


def by_turns(program: str) -> bool:
    """The answer to a line comes before the next line is sent."""
    pipes = {"stdin": subprocess.PIPE, "stdout": subprocess.PIPE}
    text = (ROOT / "examples" / "outage.jsonl").read_bytes()
    wanted = (ROOT / "examples" / "outage.answers.jsonl").read_bytes()
    with subprocess.Popen([program, "run"], bufsize=0, **pipes) as process:
        out = os.fdopen(os.dup(process.stdout.fileno()), "rb")
        found = []
        for line in text.splitlines(True):
            process.stdin.write(line)
            found.append(out.readline())
        process.stdin.close()
        return b"".join(found) == wanted and process.wait(60) == 0


def words(program: str) -> bool:
    """The command line, by the statuses of docs/FORMAT.md."""
    wrong: List[Tuple[Any, ...]] = [("--nothing",), ("run", "x"), ("walk",), ("run", "--nothing"), (b"\xff",), ("run", b"\xff")]
    wrong += [("run", "--shards", it) for it in ("0", "65", "-1", "1.0", "many", "", "256", "99999999999999999999")]
    wrong += [("run", "--workers", it) for it in ("65", "-1", "0x1", " 1", "320")]
    wrong += [(it, "--format", n) for it in ("run", "explain", "compact") for n in ("0", "1", "4", "-2", "2.0", "three", "")]
    wrong += [("compact", "x"), ("compact", "--json"), ("compact", "--shards", "1"), ("compact", "--", "x"), ("compact", b"\xff")]
    wrong += [("run", "--shards"), ("run", "--workers"), ("--workers", "1", "run"), ("run", "--workers", "1", "--workers", "1")]
    if any(ended(program, b"", *it).status != 2 or ended(program, b"", *it).out for it in wrong):
        return False
    right = [("--shards", "64", "--workers", "0"), ("--shards=1", "--workers=64"), ("--workers", "+1", "--shards", "064")]
    right += [("--format", "2"), ("--format=3",), ("--format", "+3", "--workers", "1")]
    if any(ended(program, CLOSE, "run", *it) != End(CLOSED, b"", 0) for it in right):
        return False
    shown = [ended(program, b"", *it) for it in (("--version",), ("--help",), ("run", "--help"), ("compact", "--help"))]
    return shown[0] == End(b"pgpeer 0.3.0\n", b"", 0) and all(it.status == 0 and it.out and not it.errors for it in shown)


def main() -> int:
    parser = command_line(__doc__)
    parser.add_argument("--large", action="store_true")
    options = parser.parse_args()
    checks: List[Callable[[str], bool]] = [cuts, compacted_cuts, failing_read, failing_write, nobody_reads, no_further]
    checks += [most_lines, by_turns, words]
    is_well = True
    for check in [*checks, *([most_bytes] if options.large else [])]:
        is_so = check(options.program)
        print(f"{check.__name__.replace('_', ' ')}: {'as wanted' if is_so else 'WRONG'}", flush=True)
        is_well = is_well and is_so
    return 0 if is_well else 1


if __name__ == "__main__":
    sys.exit(main())
