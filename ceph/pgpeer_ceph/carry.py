"""What the verbs that write scripts have in common: their options, and how they end."""

import argparse
import contextlib
import os
from typing import Callable, Optional

from .epochs import Epochs, side_path, side_text
from .history import Script
from .nodes import Unusable, compact
from .notes import Notes
from .output import is_stream, tell, write, write_files

# Causes of the map that play no part where acting sets are Ceph's.
PLACING = ("primary affinities", "upmaps", "primary_temp")
WHERE = "groups lie as in Ceph with script --groups FILE, of osdmaptool MAP --test-map-pgs-dump-all or ceph pg dump"


def options_of_scripts(parser: argparse.ArgumentParser) -> None:
    parser.add_argument("--pool", type=int, action="append", default=[], metavar="ID",
                        help="carry this pool, and others only where they are named so too")
    parser.add_argument("--straw2", action="store_true",
                        help="carry straw2 buckets as such, in lines that `pgpeer run --format 3` reads")
    parser.add_argument("--keep-epochs", action="store_true",
                        help="keep Ceph's epochs, also where some have no map, in lines that `pgpeer run --format 3` reads")
    parser.add_argument("--ask", action="store_true", help="append a question for each group")
    parser.add_argument("--strict", action="store_true", help="what can't be carried over is an error")
    parser.add_argument("--output", "-o", metavar="SCRIPT", help="the script's file, beside which its epochs are kept")


def is_misplaced(notes: Notes) -> bool:
    """Tells whether groups may lie elsewhere than in Ceph."""
    return any(" so places " in cause or cause.startswith((*PLACING, "the tree,")) for cause in notes.things)


def finish(options: argparse.Namespace, make: Callable[[argparse.Namespace, Notes], Script]) -> int:
    """Makes a script, tells what it lacks, and writes it."""
    notes = Notes()
    made = make(options, notes)
    for told in notes.lines():
        tell(f"not carried: {told}")
    if is_misplaced(notes):
        tell(WHERE)
    if options.strict and notes.things:
        raise Unusable("the map can't be carried over whole, and --strict was given")
    keep(made, options.output)
    return 0


def keep(made: Script, path: Optional[str]) -> None:
    """Writes a script, and beside it how its epochs and Ceph's go together, where it has those: both or neither."""
    text = "".join(f"{compact(line)}\n" for line in made.lines)
    if path is None or is_stream(path):
        if made.epochs is not None and made.epochs.offset:
            tell(f"epochs: Ceph's are those of the script and {made.epochs.offset} more; --output SCRIPT keeps that beside the script")
        write(text, path)
    elif made.epochs is not None or made.numbers.pools:
        write_files({side_path(path): side_text(made.epochs or Epochs(), made.numbers), path: text})
    else:
        write(text, path)
        with contextlib.suppress(FileNotFoundError):
            os.unlink(side_path(path))  # of another script, which stood here
