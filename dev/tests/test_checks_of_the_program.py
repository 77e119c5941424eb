"""Tests of check_statuses.py and run_examples.py, with programs that are small scripts."""

import shutil
import unittest
from unittest import mock

from case import Room

import check_statuses
import run_examples
from check_statuses import NOBODY, WRITE_FAULT, Case

# Starts two threads, and says whether both ran.
THREADS = """#!/usr/bin/env python3
import sys, threading
try:
    for _ in range(2):
        threading.Thread(target=int).start()
except RuntimeError:
    sys.exit(3)
"""

# Writes the lines of standard input; those with `drop` not, where it is to compact.
COMPACTS = "#!/bin/sh\nif test \"$1\" = compact; then grep -v drop; else cat; fi\n"


class WithPrograms(Room):
    def program(self, text):
        return str(self.write("program", text, 0o755))


class Statuses(WithPrograms):
    def wrong(self, text, **parts):
        return check_statuses.wrong(self.program(text), Case("a case", ["run"], **parts))

    def test_an_output_that_nobody_reads(self):
        faulty = "#!/bin/sh\ncat > /dev/null\nif echo a 2>/dev/null; then exit 0; fi\necho 'pgpeer: write fault' >&2\nexit 3\n"
        for writes in (NOBODY, "/dev/full"):
            self.assertIsNone(self.wrong(faulty, status=3, writes=writes, errors=WRITE_FAULT))
        self.assertEqual(self.wrong(faulty, status=3, errors=WRITE_FAULT), "status 0 and not 3")

    def test_what_is_wrong(self):
        said = "#!/bin/sh\necho out\necho said >&2\nexit 2\n"
        self.assertIsNone(self.wrong(said, status=2, output=b"out\n", errors=b"said\n"))
        self.assertIsNone(self.wrong(said, status=2, output=None, errors=None, tells=b"ai"))
        self.assertEqual(self.wrong(said, status=0), "status 2 and not 0")
        self.assertEqual(self.wrong(said, status=2, errors=b"said\n"), "output b'out\\n'")
        self.assertEqual(self.wrong(said, status=2, output=None, errors=None, tells=b"else"), "errors b'said\\n'")

    @unittest.skipUnless(shutil.which("cc"), "needs a C compiler")
    def test_a_thread_that_cannot_be_started(self):
        with check_statuses.refusing_threads() as library:
            for refused, status in ((0, 0), (1, 3), (2, 3), (3, 0)):
                case = Case("a case", [], status, refused_thread=refused)
                self.assertIsNone(check_statuses.wrong(self.program(THREADS), case, library), refused)

    def test_a_run_that_does_not_end(self):
        with mock.patch.object(check_statuses, "MOST_SECONDS", 0.2):
            self.assertEqual(self.wrong("#!/bin/sh\nexec sleep 5\n", status=0), "not ended after 0.2 seconds")

    def test_without_a_compiler(self):
        with mock.patch.object(shutil, "which", return_value=None), check_statuses.refusing_threads() as library:
            self.assertIsNone(library)

    def test_each_subcommand_has_its_cases(self):
        for name in ("run", "explain", "compact"):
            statuses = {case.status for case in check_statuses.CASES if case.words[:1] == [name]}
            self.assertEqual(statuses, {0, 2, 3}, name)
        names = [case.name for case in check_statuses.CASES]
        self.assertEqual(len(names), len(set(names)))


class Examples(WithPrograms):
    def setUp(self):
        super().setUp()
        (self.room / "examples").mkdir()
        for name, text in (("a.jsonl", "1\ndrop\n2\n"), ("a.answers.jsonl", "1\ndrop\n2\n"), ("a.compacted.jsonl", "1\n2\n")):
            (self.room / "examples" / name).write_text(text)
        self.patch(mock.patch.object(run_examples, "ROOT", self.room))

    def names(self, found):
        return [(script.name, wanted.name, *words) for script, wanted, *words in found]

    def test_what_was_compacted_is_no_example_of_its_own(self):
        self.assertEqual([it[:2] for it in self.names(run_examples.examples())], [("a.jsonl", "a.answers.jsonl")])
        wanted = [(name, "a.compacted.jsonl", ["compact"]) for name in ("a.jsonl", "a.compacted.jsonl")]
        self.assertEqual(self.names(run_examples.compactions()), wanted)

    def test_what_compact_writes_is_compared(self):
        program = self.program(COMPACTS)
        for script, wanted, words in run_examples.compactions():
            self.assertIsNone(run_examples.wrong_example(program, script, wanted, *words))
        (self.room / "examples" / "a.jsonl").write_text("1\n2\n3\n")
        script, wanted, words = next(run_examples.compactions())
        self.assertEqual(run_examples.wrong_example(program, script, wanted, *words), "3 lines and not 2")


if __name__ == "__main__":
    unittest.main()
