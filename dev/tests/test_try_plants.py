"""Tests of try_plants.py, with an `rt` that is a script."""

import os
import sys
import unittest
from unittest import mock

from case import Room, written

import try_plants
from try_plants import BadEdit, read_edit

# Runs tests that fail where the text says so: `adds` where two is no 2, `stops` always; no other test is there.
FAKE = """#!{python}
import pathlib, sys
words = sys.argv[1:]
if words[0] == "must-fail":
    for file in sorted(pathlib.Path("crates", words[1], "must-fail").glob("*.edit")):
        what = "refused, as it must be" if "wrong" in file.read_text() else "NOT REFUSED"
        print(f"rt: must-fail {{words[1]}}/{{file.name}}: {{what}}")
    sys.exit(0)
assert words[:3] == ["try", "--test", "--seconds"] and (len(words) == 4 or words[4] == "--" and len(words) == 6), words
text = pathlib.Path("../low/src/lib.rt").read_text()
if "unreadable" in text:
    print("src/lib.rt:1:1: error\\nrun=none proved=no")
    sys.exit(1)
for name in ("adds", "counts", "stops"):
    if words[4:] == [] or words[5] in name:
        fails = name == "stops" or name == "adds" and "two = 2" not in text
        print(f"test sums::{{name}} ... " + ("FAILED\\n    left: 1\\n    right: 3" if fails else "ok"))
"""
LIB = "one = 1\ntwo = 2\nten = 10\n"


class WithTree(Room):
    """A tree of a crate and its tests, and an `rt` that is first on the path."""

    def setUp(self):
        super().setUp()
        self.root = self.room / "root"
        self.write("root/crates/low/src/lib.rt", LIB)
        self.folder = self.root / "crates/low_tests/refused_by_tests"
        self.folder.mkdir(parents=True)
        self.write("bin/rt", FAKE.format(python=sys.executable), 0o755)
        path = {"PATH": f"{self.room}/bin:{os.environ['PATH']}"}
        self.patch(mock.patch.dict(os.environ, path), mock.patch.object(try_plants, "ROOT", self.root))

    def edit(self, name, test="adds", old="two = 2", new="two = 3", more="", crate="low", tests="low_tests"):
        file = self.folder / f"{name}.edit"
        file.write_text(f"crate: {crate}\ntests: {tests}\ntest: {test}\nfile: src/lib.rt\nold: {old}\nnew: {new}\n{more}")
        return file

    def run_tool(self, *words):
        """The status, and what was written."""
        found = written(try_plants.main, list(words))
        self.assertEqual((self.root / "crates/low/src/lib.rt").read_text(), LIB)
        return found


class RefusedByTests(WithTree):
    def test_a_test_that_fails_refuses(self):
        self.edit("adds_three")
        status, out = self.run_tool("--tests")
        self.assertEqual(status, 0)
        self.assertIn("low_tests, unchanged: adds ok\n", out)
        self.assertIn("| low_tests | adds_three | low | adds | failed: left: 1; right: 3 |", out)

    def test_a_test_that_passes_does_not(self):
        self.edit("a_refused")
        self.edit("counts_wrong", test="counts")
        self.edit("z_refused")
        status, out = self.run_tool("--tests", "low_tests")
        self.assertEqual(status, 1)
        self.assertIn("| low_tests | counts_wrong | low | counts | NOT REFUSED |", out)
        self.assertEqual(out.count("| failed: left: 1"), 2)

    def test_several_are_tried_at_a_time(self):
        for name in "abcde":
            self.edit(name)
        self.edit("f_counts", test="counts")
        status, out = self.run_tool("--tests", "--jobs", "3")
        self.assertEqual(status, 1)
        self.assertEqual(out.count("| low | adds | failed: left: 1; right: 3 |"), 5)
        self.assertIn("| low_tests | f_counts | low | counts | NOT REFUSED |", out)

    def test_several_changes_are_made_and_taken_back(self):
        self.edit("both", old="one = 1", new="one = 0", more="old: one = 0\nnew: one = 5\nfile: src/lib.rt\nold: two = 2\nnew:\n")
        status, out = self.run_tool("--tests")
        self.assertEqual(status, 0)
        self.assertIn("| both | low | adds | failed: ", out)

    def test_each_test_has_to_pass_where_nothing_is_changed(self):
        self.edit("stops_early", test="stops")
        status, out = self.run_tool("--tests")
        self.assertEqual(status, 1)
        self.assertIn("fails where nothing is changed: low_tests: stops\n", out)

    def test_edits_that_cannot_be_tried_are_told(self):
        for name, given, why in [
            ("gone", {"old": "three = 3"}, "src/lib.rt has an old text 0 times"),
            ("often", {"old": " = 1"}, "src/lib.rt has an old text 2 times"),
            ("unknown", {"test": "divides"}, "the test didn't run"),
            ("typo", {"new": "unreadable"}, "the test didn't run"),
            ("elsewhere", {"crate": "high"}, "high has no file src/lib.rt"),
        ]:
            file = self.edit(name, **given)
            status, out = self.run_tool("--tests")
            file.unlink()
            self.assertEqual(status, 1)
            self.assertRegex(out, rf"\| low_tests \| {name} \| .* \| BAD EDIT: {why} \|")

    def test_edits_that_cannot_be_read_are_told(self):
        for text, why in [
            ("crate: low\ntests: low_tests\nfile: src/lib.rt\nold: two = 2\nnew: 3\n", "no test line"),
            ("crate: low\ntests: low_tests\ntest: adds\n", "a change has"),
            ("crate: low\ntests: low_tests\ntest: adds\nfile: src/lib.rt\nold: two = 2\n", "a change has"),
            ("crate: low\ntests: others\ntest: adds\nfile: src/lib.rt\nold: a\nnew: b\n", "its tests are of others"),
            ("crate: low\nwhy: none\n", "a line that no edit has"),
        ]:
            file = self.folder / "odd.edit"
            file.write_text(text)
            with self.assertRaisesRegex(BadEdit, why):
                read_edit(file)
            self.assertEqual(self.run_tool("--tests")[0], 1)

    def test_none_at_all_is_no_pass(self):
        self.assertEqual(self.run_tool("--tests")[0], 1)


class Plants(WithTree):
    def test_the_prover_is_asked_without_the_switch(self):
        plants = self.root / "crates/low/plants"
        plants.mkdir()
        (plants / "a.edit").write_text("wrong")
        self.assertEqual(self.run_tool()[0], 0)
        (plants / "b.edit").write_text("right")
        status, out = self.run_tool("low")
        self.assertEqual(status, 1)
        self.assertIn("| low | 2 | 1 | b.edit: NOT REFUSED |", out)


if __name__ == "__main__":
    unittest.main()
