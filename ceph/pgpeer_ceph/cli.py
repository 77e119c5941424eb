"""The command `pgpeer-ceph`, and its verbs."""

import argparse
import sys
from typing import List, Optional

from . import __doc__ as about, __version__, draw, explain, fetch, plan, record, report, script, single_map, what_if
from .output import COMMAND, ended


def command() -> argparse.ArgumentParser:
    parser = argparse.ArgumentParser(prog=COMMAND, description=about)
    parser.add_argument("--version", "-V", action="version", version=f"{COMMAND} {__version__}")
    verbs = parser.add_subparsers(title="verbs", metavar="VERB", required=True)
    for verb in (fetch, record, script, explain, plan, what_if, draw, report, single_map):
        verb.add_to(verbs)
    return parser


def performed(words: Optional[List[str]]) -> int:
    try:
        options = command().parse_args(words)
    except SystemExit:
        sys.stdout.flush()  # of help, while a fault of it can still be told
        raise
    return options.run(options)


def main(words: Optional[List[str]] = None) -> int:
    """The status of the command with these words, those of the command line where none are given."""
    for stream in (sys.stdout, sys.stderr):
        if hasattr(stream, "reconfigure"):
            stream.reconfigure(errors="backslashreplace")  # for names that a terminal has no marks for
    return ended(lambda: performed(words))
