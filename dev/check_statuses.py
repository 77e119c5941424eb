#!/usr/bin/env python3
"""Runs the built program so that it ends in each of its statuses, and says where one differs.

    dev/check_statuses.py [--program PATH]

Each case is a command line with a standard input and output, among
them a script of one line more than it may have, an input that can't be read, and outputs that can't be written or that nobody
reads; and the status, the output and the errors that docs/FORMAT.md promises of it. In some a worker's thread can't be started:
these need a C compiler, `cc`, and are left out where there is none. Exits with 1 where a case ends otherwise, or doesn't end.
"""

import contextlib
import os
import shutil
import subprocess
import sys
import tempfile
from dataclasses import dataclass
from typing import Iterator, Optional

from built import ROOT, command_line
from refusing import library_of

MAX_LINES = 1_000_000
MOST_SECONDS = 120  # that a case takes
CLOSE = b'{"op":"close"}\n'
LONGEST_LINE = CLOSE[:-1].ljust(2**20) + b"\n"
CLOSED = b'{"count":1,"epoch":0,"ok":"close"}\n'
CLOSE_OF_3 = b'{"op":"close","v":3}\n'
BAD_VERSION = b'{"code":34,"key":"v","refused":"BadField"}\n'
OUTAGE = (ROOT / "examples" / "outage.jsonl").read_bytes()
COMPACT = (ROOT / "examples" / "compact.jsonl").read_bytes()
COMPACTED = (ROOT / "examples" / "compact.compacted.jsonl").read_bytes()
LEFT_OUT = b"pgpeer: left out 7 of 13 entries; 1 line was refused\n"
NONE_LEFT_OUT = b"pgpeer: left out 0 of 1 entries\n"
READ_FAULT, WRITE_FAULT = b"pgpeer: read fault\npgpeer: a read failed in line 1\n", b"pgpeer: write fault\n"
READS_INPUT = b"pgpeer compact reads standard input: pgpeer compact < FILE"
NO_ENGINE = b"pgpeer: no engine\n"
NOBODY = "a pipe that nobody reads"
TOO_LARGE = b"pgpeer: read fault\npgpeer: the script has more than 1000000 lines\n"


@dataclass
class Case:
    """A run, and what it has to end with; None stands for any text that isn't empty. The errors have `tells` in them,
    and the output `says`."""

    name: str
    words: list
    status: int
    script: bytes = b""
    output: Optional[bytes] = b""
    errors: Optional[bytes] = b""
    reads: Optional[str] = None
    writes: Optional[str] = None
    tells: bytes = b""
    says: bytes = b""
    refused_thread: int = 0  # which start of a thread is refused, counted from 1


CASES = [
    Case("an empty script", ["run"], 0),
    Case("a script", ["run"], 0, script=CLOSE, output=CLOSED),
    Case("as many lines as may be", ["run"], 0, script=CLOSE + b"\n" * (MAX_LINES - 1), output=CLOSED),
    Case("more workers than shards", ["run", "--shards", "1", "--workers", "3"], 0, script=CLOSE, output=CLOSED),
    Case("no thread for a worker", ["run", "--workers", "1"], 3, script=CLOSE, errors=NO_ENGINE, refused_thread=1),
    Case("one thread for three workers", ["run", "--workers", "3"], 3, script=CLOSE, errors=NO_ENGINE, refused_thread=2),
    Case("as long a line as may be", ["run"], 0, script=LONGEST_LINE, output=CLOSED),
    Case("a longer line", ["run"], 0, script=b" " + LONGEST_LINE, output=b'{"code":30,"refused":"LineTooLong"}\n'),
    Case("one line too many", ["run"], 3, script=CLOSE + b"\n" * MAX_LINES, output=CLOSED, errors=TOO_LARGE),
    Case("an input that can't be read", ["run"], 3, reads="/", errors=READ_FAULT),
    Case("an output that can't be written", ["run"], 3, script=CLOSE, writes="/dev/full", errors=WRITE_FAULT),
    Case("an explanation of a group", ["explain", "1.0"], 0, script=OUTAGE, output=None),
    Case("one in JSON, with losses", ["explain", "--json", "--losses", "1.0", "--epoch-offset", "100"], 0, script=OUTAGE, output=None),
    Case("a summary", ["explain"], 0, script=OUTAGE, output=None),
    Case("a group that isn't there", ["explain", "1.3FF"], 3, script=OUTAGE, errors=b"pgpeer: the map has no group 1.3ff\n"),
    Case("one line too many to explain", ["explain"], 3, script=CLOSE + b"\n" * MAX_LINES, errors=TOO_LARGE),
    Case("an input that can't be read to explain it", ["explain"], 3, reads="/", errors=READ_FAULT),
    Case("an explanation that can't be written", ["explain"], 3, script=OUTAGE, writes="/dev/full", errors=WRITE_FAULT),
    Case("answers that nobody reads", ["run"], 3, script=CLOSE, writes=NOBODY, errors=WRITE_FAULT),
    Case("a compaction", ["compact"], 0, script=COMPACT, output=COMPACTED, errors=LEFT_OUT),
    Case("one of what was compacted", ["compact"], 0, script=COMPACTED, output=COMPACTED, errors=b"pgpeer: left out 0 of 6 entries\n"),
    Case("one of an empty script", ["compact"], 0, errors=b"pgpeer: left out 0 of 0 entries\n"),
    Case("one of a last line without a line feed", ["compact"], 0, script=CLOSE[:-1], output=CLOSE, errors=NONE_LEFT_OUT),
    Case("as many lines as may be to compact", ["compact"], 0, script=CLOSE + b"\n" * (MAX_LINES - 1), output=CLOSE, errors=NONE_LEFT_OUT),
    Case("one line too many to compact", ["compact"], 3, script=CLOSE + b"\n" * MAX_LINES, errors=TOO_LARGE),
    Case("an input that can't be read to compact it", ["compact"], 3, reads="/", errors=READ_FAULT),
    Case("a compaction that can't be written", ["compact"], 3, script=COMPACT, writes="/dev/full", errors=WRITE_FAULT),
    Case("a compaction that nobody reads", ["compact"], 3, script=COMPACT, writes=NOBODY, errors=WRITE_FAULT),
    Case("help", ["--help"], 0, output=None, says=b"pgpeer explain 1.a <"),
    Case("help on a run", ["run", "--help"], 0, output=None, says=b"--workers <N>"),
    Case("help on an explanation", ["explain", "--help"], 0, output=None, says=b"pgpeer explain 1.a <"),
    Case("help on a compaction", ["compact", "--help"], 0, output=None),
    Case("help that can't be written", ["--help"], 3, writes="/dev/full", errors=WRITE_FAULT),
    Case("the version", ["--version"], 0, output=b"pgpeer 0.3.0\n"),
    Case("no command", [], 2, script=CLOSE, errors=None),
    Case("another command", ["peer"], 2, script=CLOSE, errors=None),
    Case("a word too many", ["run", "now"], 2, errors=None, tells=b"reads standard input: pgpeer run < FILE"),
    Case("too many shards", ["run", "--shards", "65"], 2, errors=None, tells=b"Usage: pgpeer run"),
    Case("no group's name", ["explain", "1"], 2, errors=None, tells=b"Usage: pgpeer explain"),
    Case("a run of version 3", ["run", "--format", "3"], 0, script=CLOSE_OF_3, output=CLOSED),
    Case("an explanation of version 3", ["explain", "--format", "3"], 0, script=CLOSE_OF_3, output=None),
    Case("a compaction of version 3", ["compact", "--format", "3"], 0, script=CLOSE_OF_3, output=CLOSE_OF_3, errors=NONE_LEFT_OUT),
    Case("a joined script", ["compact", "--join"], 0, script=CLOSE_OF_3, output=CLOSE_OF_3, errors=NONE_LEFT_OUT),
    Case("a joined script of version 3", ["compact", "--join", "--format", "3"], 0, script=CLOSE_OF_3, output=CLOSE_OF_3, errors=NONE_LEFT_OUT),
    Case("a joined script of version 2", ["compact", "--join", "--format", "2"], 2, errors=None, tells=b"--join writes lines of version 3"),
    Case("a run of version 2", ["run", "--format", "2"], 0, script=CLOSE_OF_3, output=BAD_VERSION),
    Case("no format", ["run", "--format", "1"], 2, errors=None, tells=b"--format takes 2 or 3"),
    Case("no format to explain", ["explain", "--format", "4"], 2, errors=None, tells=b"--format takes 2 or 3"),
    Case("no format to compact", ["compact", "--format", "x"], 2, errors=None, tells=b"--format takes 2 or 3"),
    Case("no offset", ["explain", "--epoch-offset", "-1"], 2, errors=None, tells=b"pgpeer explain"),
    Case("a word too many to explain", ["explain", "1.a", "now"], 2, errors=None, tells=b"pgpeer explain < FILE"),
    Case("a word too many to compact", ["compact", "script.jsonl"], 2, errors=None, tells=READS_INPUT),
    Case("an option that a compaction doesn't have", ["compact", "--json"], 2, errors=None, tells=b"pgpeer compact"),
    Case("an argument that isn't UTF-8", [b"\xff"], 2, errors=b"error: an argument is not UTF-8\n"),
]


def sink_of(case):
    """Gives where a case writes."""
    if case.writes != NOBODY:
        return subprocess.PIPE if case.writes is None else os.open(case.writes, os.O_WRONLY)
    reader, writer = os.pipe()
    os.close(reader)
    return writer


@contextlib.contextmanager
def refusing_threads() -> Iterator[Optional[str]]:
    """A library that refuses a start of a thread in the program into which it is loaded; None where there is no C compiler."""
    if not shutil.which("cc"):
        yield None
        return
    with library_of("refuse_thread.c") as library:
        yield library


def run(program, case, library=None):
    """Runs a case, and gives its status, its output and its errors. A write that nobody reads fails, and sends no signal."""
    with tempfile.TemporaryFile() as script:
        script.write(case.script)
        script.seek(0)
        source = script.fileno() if case.reads is None else os.open(case.reads, os.O_RDONLY)
        streams = {"stdin": source, "stdout": sink_of(case), "stderr": subprocess.PIPE}
        refuses = {"LD_PRELOAD": library, "REFUSE_THREAD": str(case.refused_thread)} if case.refused_thread else {}
        how = {**streams, "env": {**os.environ, **refuses}, "restore_signals": False, "timeout": MOST_SECONDS}
        ended = subprocess.run([program, *case.words], **how)
        return ended.returncode, ended.stdout or b"", ended.stderr


def is_text(found, wanted):
    """Tells whether a text is the wanted one, or any where that is all that is wanted."""
    return found != b"" if wanted is None else found == wanted


def wrong(program, case, library=None):
    """Says what is wrong with how a case ends, if anything."""
    try:
        status, output, errors = run(program, case, library)
    except subprocess.TimeoutExpired:
        return f"not ended after {MOST_SECONDS} seconds"
    if status != case.status:
        return f"status {status} and not {case.status}"
    if not is_text(output, case.output) or case.says not in output:
        return f"output {output[:200]!r}"
    if not is_text(errors, case.errors) or case.tells not in errors:
        return f"errors {errors[:200]!r}"
    return None


def main(program):
    with refusing_threads() as library:
        cases = [case for case in CASES if library or not case.refused_thread]
        found = [(case.name, wrong(program, case, library)) for case in cases]
    if len(cases) < len(CASES):
        print(f"{len(CASES) - len(cases)} runs left out, since cc isn't there")
    differ = [(name, what) for name, what in found if what is not None]
    for name, what in differ:
        print(f"{name}: {what}")
    print(f"{len(found)} runs, {len(differ)} wrong")
    return 1 if differ else 0


if __name__ == "__main__":
    parser = command_line(__doc__)
    sys.exit(main(parser.parse_args().program))
