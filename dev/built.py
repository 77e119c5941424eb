"""Where the built program is, for dev/, fuzz/, bench/ and the tests."""

import argparse
import os
import pathlib
from typing import Optional

ROOT = pathlib.Path(__file__).resolve().parent.parent
BUILT = ROOT / "crates/pgpeer/out/pgpeer"  # by the gate, or by `rt run` there
PROGRAM = os.environ.get("PGPEER") or str(BUILT)
HAS_PROGRAM = os.access(PROGRAM, os.X_OK)


def command_line(about: Optional[str]) -> argparse.ArgumentParser:
    """A script's command line, with an option for the program. `about` is what the script says of itself."""
    parser = argparse.ArgumentParser(description=about, formatter_class=argparse.RawDescriptionHelpFormatter)
    where = f"the built program (by default $PGPEER, or else {BUILT.relative_to(ROOT)})"
    parser.add_argument("--program", default=PROGRAM, type=os.path.abspath, metavar="PATH", help=where)
    return parser
