"""What tests of dev/ have in common. Its scripts are found once this was imported."""

import contextlib
import io
import pathlib
import sys
import tempfile
import unittest

HERE = pathlib.Path(__file__).resolve().parent
sys.path.insert(0, str(HERE.parent))

from built import HAS_PROGRAM, PROGRAM, ROOT  # noqa: E402, F401


def written(main, *words):
    """What a call gives, or its status where it ends by itself, and what it wrote to standard output."""
    out = io.StringIO()
    with contextlib.redirect_stdout(out), contextlib.redirect_stderr(io.StringIO()):
        try:
            status = main(*words)
        except SystemExit as ended:
            status = ended.code
    return status, out.getvalue()


class Room(unittest.TestCase):
    """A case with a folder of its own, in whose name there are blanks."""

    def setUp(self):
        room = tempfile.TemporaryDirectory(prefix="room with blanks ")
        self.addCleanup(room.cleanup)
        self.room = pathlib.Path(room.name).resolve()

    def write(self, name, text="", mode=0o644):
        """Writes a file of the folder, and makes the folders in which it lies."""
        file = self.room / name
        file.parent.mkdir(parents=True, exist_ok=True)
        file.write_text(text)
        file.chmod(mode)
        return file

    def patch(self, *patches):
        for it in patches:
            it.start()
            self.addCleanup(it.stop)
