"""Tests of compare_workers.py and repeat_run.py."""

import json
import pathlib
import sys
import unittest
from unittest import mock

from case import HAS_PROGRAM, PROGRAM, Room, written
import compare_workers
import repeat_run
from compare_workers import End, difference


# Answers each line by itself, and goes wrong with workers as its name says.
FAKE = """#!{python}
import pathlib, sys, time
name, workers = pathlib.Path(sys.argv[0]).name, int(sys.argv[sys.argv.index("--workers") + 1])
wrong = workers > 1
if name == "slow" and wrong:
    time.sleep(60)
lines = sys.stdin.buffer.read().splitlines(True)
if name == "short" and wrong:
    lines = lines[:-1]
for place, line in enumerate(lines):
    sys.stdout.buffer.write(b"other\\n" if name == "other" and wrong and place == 1 else line)
if name == "loud" and wrong:
    sys.stderr.write("told\\n")
sys.exit(3 if name == "fails" and wrong else 0)
"""


class WithFakes(Room):
    def fake(self, name):
        """A program that goes wrong as its name says."""
        return str(self.write(name, FAKE.format(python=sys.executable), 0o755))

    def scripts(self, **texts):
        """A folder with these scripts."""
        for name, text in texts.items():
            self.write("scripts/" + name.replace("_", "."), text)
        return self.room / "scripts"


class Differences(unittest.TestCase):
    def test_equal_runs_differ_in_nothing(self):
        self.assertIsNone(difference(End(b"a\n", b"", 0), End(b"a\n", b"", 0)))
        self.assertIsNone(difference(None, None))

    def test_the_first_answer_that_differs_is_told(self):
        what = difference(End(b"a\nb\n", b"", 0), End(b"a\nc\n", b"", 0))
        self.assertEqual(what, "answer 2 is c and not b")

    def test_lengths_statuses_and_runs_without_end_are_told(self):
        whole = End(b"a\nb\n", b"", 0)
        self.assertIn("2 bytes were written and not 4", difference(whole, End(b"a\n", b"", 0)))
        self.assertIn("status 3", difference(whole, End(b"a\nb\n", b"", 3)))
        self.assertIn("told", difference(whole, End(b"a\nb\n", b"told\n", 0)))
        self.assertIn("didn't end", difference(whole, None))


class CompareWorkers(WithFakes):
    def test_a_program_that_heeds_no_workers_is_the_same(self):
        status, out = written(compare_workers.main, ["--program", self.fake("same"), "--folder", str(self.scripts(a_jsonl="x\ny\n"))])
        self.assertEqual(status, 0)
        self.assertTrue(out.endswith("scripts, 3 runs of each with workers, 0 wrong\n"))

    def test_each_way_to_differ_is_found(self):
        folder = self.scripts(a_in="x\ny\n", b_out="left aside", c_answers_jsonl="left aside")
        for name, told in [("other", "answer 2"), ("short", "bytes"), ("loud", "told"), ("fails", "status 3")]:
            words = ["--program", self.fake(name), "--with", "1x1", "3x2", "--folder", str(folder)]
            status, out = written(compare_workers.main, words)
            self.assertEqual(status, 1)
            self.assertIn(f"{folder}/a.in with --shards 3 --workers 2: ", out)
            self.assertNotIn("--shards 1", out)
            self.assertIn(told, out)

    def test_scripts_are_those_without_answers(self):
        folder = self.scripts(b_jsonl="", a_in="", b_answers_jsonl="", a_out="")
        names = [pathlib.Path(script.name).name for script in compare_workers.scripts_in(folder)]
        self.assertEqual(names, ["a.in", "b.jsonl"])

    def test_stored_scripts_stand_under_their_names(self):
        stored = b"# one script\n[]\n # a line of it\n# another\n"
        found = [compare_workers.Script("one script", b"[]\n # a line of it\n"), compare_workers.Script("another", b"")]
        self.assertEqual(compare_workers.stored_scripts(stored), found)

    @unittest.skipUnless(HAS_PROGRAM, f"no program {PROGRAM}")
    def test_the_built_program_writes_the_same_bytes(self):
        self.assertEqual(written(compare_workers.main, ["--program", PROGRAM])[0], 0)


class RepeatRun(WithFakes):
    def test_its_script_asks_about_two_groups_of_each_shard(self):
        lines = [json.loads(line) for line in repeat_run.script().splitlines()]
        asked = {(sum(line["pg"])) % 4 for line in lines if line["op"] == "ask"}
        self.assertEqual(asked, {0, 1, 2, 3})
        self.assertEqual(repeat_run.script(), repeat_run.script())
        self.assertEqual({line["op"] for line in lines}, {"inc", "info", "entries", "ask", "locate", "close"})

    def test_equal_runs_are_counted(self):
        status, out = written(repeat_run.main, ["--program", self.fake("same"), "--times", "3"])
        self.assertEqual(status, 0)
        self.assertIn("3 runs of 304 answers with --shards 4 --workers 4: the same bytes each time", out)

    def test_it_ends_at_the_first_run_that_differs(self):
        for name in ("other", "short", "fails"):
            status, out = written(repeat_run.main, ["--program", self.fake(name), "--times", "3"])
            self.assertEqual(status, 1)
            self.assertTrue(out.startswith("run 1: "))

    def test_a_run_without_end_is_told(self):
        def ended(program, script, shards, workers, seconds):  # a busy machine may take a second to start a program
            return compare_workers.ended(program, script, shards, workers, seconds if workers > 1 else 60)

        with mock.patch.object(repeat_run, "ended", ended):
            status, out = written(repeat_run.main, ["--program", self.fake("slow"), "--seconds", "1"])
        self.assertEqual((status, out), (1, "run 1: one of the two runs didn't end in time\n"))

    def test_a_run_without_workers_that_has_no_end_or_fails_is_told(self):
        for end, told in ((None, "no end in 1.0 seconds"), (compare_workers.End(b"", b"", 3), "status=3")):
            with mock.patch.object(repeat_run, "ended", lambda *words: end):
                status, out = written(repeat_run.main, ["--program", self.fake("same"), "--seconds", "1"])
            self.assertEqual(status, 1)
            self.assertTrue(out.startswith("without workers: ") and told in out, out)

    @unittest.skipUnless(HAS_PROGRAM, f"no program {PROGRAM}")
    def test_the_built_program_writes_the_same_bytes(self):
        self.assertEqual(written(repeat_run.main, ["--program", PROGRAM, "--times", "10"])[0], 0)


if __name__ == "__main__":
    unittest.main()
