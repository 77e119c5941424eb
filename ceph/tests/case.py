"""What tests of the package have in common: where things are, and how a verb is called."""

import contextlib
import io
import os
import pathlib
import sys
import tempfile
import unittest

HERE = pathlib.Path(__file__).resolve().parent
ROOT = HERE.parent.parent
sys.path.insert(0, str(HERE.parent))

from pgpeer_ceph import cli, program  # noqa: E402

MAPS = HERE / "maps"
TOOL = [sys.executable, str(HERE.parent / "pgpeer-ceph")]
PROGRAM = program.found()
HAS_PROGRAM = os.access(PROGRAM, os.X_OK)


def written(*words):
    """The status of a call, and what it wrote to standard output and to standard error."""
    out, err = io.StringIO(), io.StringIO()
    with contextlib.redirect_stdout(out), contextlib.redirect_stderr(err):
        try:
            status = cli.main([str(word) for word in words])
        except SystemExit as ended:
            status = ended.code
    return status, out.getvalue(), err.getvalue()


class Room(unittest.TestCase):
    """A case with a folder of its own."""

    def setUp(self):
        folder = tempfile.TemporaryDirectory()
        self.addCleanup(folder.cleanup)
        self.folder = pathlib.Path(folder.name)
