#!/usr/bin/env python3
"""Runs scripts with workers and without, and says where the bytes differ.

    dev/compare_workers.py [--program PATH] [--with SHARDSxWORKERS ...] [--folder FOLDER ...] [--stored] [--seconds S]

Each script of examples/ and of each FOLDER, and with --stored each of crates/pgp_scripts/stdin, where each stands under a line
`# NAME`, is run with `--workers 0`, and then with 1 shard and 1 worker, 3 and 2, and 64 and 64, or as --with says: what is written,
what is told on standard error and the status have to be the same. A script is a file whose name ends in .jsonl, but not in
.answers.jsonl, or in .in. A run has S seconds, 120 where nothing is said. Exits with 1 where a run differs or doesn't end.
"""

import argparse
import pathlib
import re
import subprocess
import sys
from typing import List, NamedTuple, Optional, Tuple

from built import ROOT, command_line

STORED = ROOT / "crates" / "pgp_scripts" / "stdin"
COUNTS = [(1, 1), (3, 2), (64, 64)]  # shards and workers


class Script(NamedTuple):
    """A script, and what it is called."""

    name: str
    text: bytes


class End(NamedTuple):
    """What a run wrote, what it told on standard error, and its status."""

    out: bytes
    errors: bytes
    status: int


def ended(program: str, script: bytes, shards: int, workers: int, seconds: float) -> Optional[End]:
    """Runs the script, and gives None where the run doesn't end in time."""
    words = [program, "run", "--shards", str(shards), "--workers", str(workers)]
    try:
        run = subprocess.run(words, input=script, capture_output=True, timeout=seconds)
    except subprocess.TimeoutExpired:
        return None
    return End(run.stdout, run.stderr, run.returncode)


def difference(wanted: Optional[End], found: Optional[End]) -> Optional[str]:
    """Says where a run differs from the one without workers, if it does."""
    if wanted is None or found is None:
        return None if wanted is found else "one of the two runs didn't end in time"
    for place, pair in enumerate(zip(wanted.out.splitlines(), found.out.splitlines())):
        if pair[0] != pair[1]:
            return f"answer {place + 1} is {pair[1].decode()} and not {pair[0].decode()}"
    if found.out != wanted.out:
        return f"{len(found.out)} bytes were written and not {len(wanted.out)}"
    if found != wanted:
        return f"status {found.status} and {found.errors!r}, and not {wanted.status} and {wanted.errors!r}"
    return None


def scripts_in(folder: pathlib.Path) -> List[Script]:
    """The scripts of a folder, by name."""
    files = [file for file in folder.iterdir() if file.suffix in (".jsonl", ".in")]
    return [Script(str(file), file.read_bytes()) for file in sorted(files) if not file.name.endswith(".answers.jsonl")]


def stored_scripts(stored: bytes) -> List[Script]:
    """The scripts that stand each under a line `# NAME`."""
    parts = [part.partition(b"\n") for part in re.split(rb"(?m)^# ", stored)[1:]]
    return [Script(name.decode(), text) for name, _, text in parts]


def counts(text: str) -> Tuple[int, int]:
    """Reads `3x2` as 3 shards and 2 workers."""
    shards, _, workers = text.partition("x")
    return int(shards), int(workers)


def compared(program: str, script: Script, options: argparse.Namespace) -> List[str]:
    """Says for one script in which runs it differs, and how."""
    wrong = []
    wanted = ended(program, script.text, 1, 0, options.seconds)
    if wanted is None:
        wrong.append(f"{script.name}: no end in {options.seconds} seconds without workers")
    for shards, workers in options.counts or COUNTS:
        what = difference(wanted, ended(program, script.text, shards, workers, options.seconds))
        if what:
            wrong.append(f"{script.name} with --shards {shards} --workers {workers}: {what}")
    return wrong


def main(words: Optional[List[str]] = None) -> int:
    parser = command_line(__doc__)
    parser.add_argument("--with", dest="counts", type=counts, nargs="+", metavar="SHARDSxWORKERS")
    parser.add_argument("--folder", type=pathlib.Path, action="append", default=[], metavar="FOLDER")
    parser.add_argument("--stored", action="store_true")
    parser.add_argument("--seconds", type=float, default=120.0, metavar="S")
    options = parser.parse_args(words)
    scripts = [script for folder in [ROOT / "examples", *options.folder] for script in scripts_in(folder)]
    scripts += stored_scripts(STORED.read_bytes()) if options.stored else []
    wrong = [what for script in scripts for what in compared(options.program, script, options)]
    for what in wrong:
        print(what)
    print(f"{len(scripts)} scripts, {len(options.counts or COUNTS)} runs of each with workers, {len(wrong)} wrong")
    return 1 if wrong or not scripts else 0


if __name__ == "__main__":
    sys.exit(main())
