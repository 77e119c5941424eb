"""Tests of the command itself: its verbs, its version, how it is packaged, and terminals that are narrow or gone."""

import os
import re
import subprocess
import sys
import unittest

from case import HERE, MAPS, ROOT, TOOL, Room, written
from pgpeer_ceph import __version__

PROJECT = HERE.parent / "pyproject.toml"


class Command(Room):
    def test_version(self):
        self.assertEqual(written("--version"), (0, f"pgpeer-ceph {__version__}\n", ""))
        run = subprocess.run([sys.executable, "-m", "pgpeer_ceph", "-V"], cwd=HERE.parent, capture_output=True, text=True)
        self.assertEqual((run.returncode, run.stdout), (0, f"pgpeer-ceph {__version__}\n"))

    def test_words_that_are_no_verb(self):
        for words in ((), ("history",), ("fetch",), ("script", "--form", "x", "y")):
            status, out, err = written(*words)
            self.assertEqual((status, out), (2, ""), words)
            self.assertIn("error: ", err.splitlines()[-1])

    def test_the_project_names_the_command(self):
        text = PROJECT.read_text()
        module, function = re.search(r'^pgpeer-ceph = "([\w.]+):(\w+)"$', text, re.M).groups()
        self.assertTrue(callable(getattr(__import__(module, fromlist=[function]), function)))
        self.assertIn('requires-python = ">=3.9"', text)
        self.assertIn("dependencies = []", text)

    def test_each_module_is_read_by_the_oldest_python(self):
        import ast
        for path in sorted((HERE.parent / "pgpeer_ceph").glob("*.py")):
            ast.parse(path.read_text(), feature_version=(3, 9))

    def test_help_to_a_closed_pipe_and_to_a_full_disk(self):
        end, begin = os.pipe()
        os.close(end)
        env = {**os.environ, "PYTHONUNBUFFERED": ""}
        run = subprocess.run([*TOOL, "--help"], stdout=begin, stderr=subprocess.PIPE, text=True, env=env)
        os.close(begin)
        self.assertEqual((run.returncode, run.stderr), (2, "pgpeer-ceph: error: writing: Broken pipe\n"))
        with open("/dev/full", "w") as full:
            run = subprocess.run([*TOOL, "script", "--help"], stdout=full, stderr=subprocess.PIPE, text=True, env=env)
        self.assertEqual((run.returncode, run.stderr), (2, "pgpeer-ceph: error: writing: No space left on device\n"))

    def test_a_terminal_of_ascii_alone(self):
        folder = self.folder / "dümps"
        folder.mkdir()
        env = {**os.environ, "PYTHONIOENCODING": "ascii", "PYTHONUTF8": "0", "LC_ALL": "C"}
        run = subprocess.run([*TOOL, "script", folder], capture_output=True, env=env)
        self.assertEqual((run.returncode, run.stdout, run.stderr.count(b"\n")), (2, b"", 1), run.stderr)
        self.assertNotIn(b"Traceback", run.stderr)

    def test_standard_error_that_is_closed(self):
        run = subprocess.run(["bash", "-c", '"$@" 2>&-', "bash", *TOOL, "script", MAPS / "outage"], capture_output=True)
        self.assertEqual(run.returncode, 0)
        self.assertTrue(run.stdout.startswith(b'{"op":"inc"'))

    def test_the_repository_has_each_verb_once(self):
        names = {it.name for it in (ROOT / "dev").glob("*.py")}
        self.assertFalse(names & {it.name for it in (HERE.parent / "pgpeer_ceph").glob("*.py")})


if __name__ == "__main__":
    unittest.main()
