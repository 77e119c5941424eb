"""Tests of the clusters that bench/join_sizes.py simulates, with the model in place of the program."""

import json
import random
import subprocess
import sys
import unittest
from unittest import mock

from case import ROOT, written

sys.path.append(str(ROOT / "bench"))

import join_sizes  # noqa: E402


class Ended:
    """A run that ended well."""

    returncode = 0

    def __init__(self, stdout, stderr=""):
        self.stdout, self.stderr = stdout, stderr


def by_model(command, text):
    """What a program does that is the model; it leaves out each second entry where it compacts, and all but two where it joins."""
    lines = text.splitlines()
    if command[1] == "run":
        return subprocess.run([sys.executable, str(ROOT / "fuzz/model.py")], input=text, capture_output=True, text=True)
    left = lines[:2] if "--join" in command else lines[::2]
    return Ended(join_sizes.text_of(left), f"pgpeer: left out {len(lines) - len(left)} of {len(lines)} entries\n")


class Clusters(unittest.TestCase):
    def setUp(self):
        for name, value in (("run", by_model), ("FLAPS", 6), ("CHANGES", 40)):
            patch = mock.patch.object(join_sizes, name, value)
            patch.start()
            self.addCleanup(patch.stop)

    def views(self, it):
        """The view of each group once all lines were taken, which the cluster has to know."""
        asks = [join_sizes.compact({"op": "ask", "pg": group}) for group in it.groups]
        answers = [json.loads(line) for line in by_model(["program", "run"], join_sizes.text_of([*it.lines, *asks])).stdout.splitlines()]
        self.assertEqual([answer for answer in answers if "refused" in answer], [])
        views = dict(zip(it.groups, answers[len(it.lines) :]))
        for group, view in views.items():
            self.assertEqual((view["acting"], view["first"], view["epoch"]), (it.acting[group], it.first[group], it.epoch))
        return views

    def test_groups_of_a_healthy_cluster_serve_since_their_interval_began(self):
        it = join_sizes.healthy(random.Random(1), "program")
        self.assertEqual(it.epoch, 1 + 4 * 6)
        self.assertTrue(all(view["les"] == view["first"] and not view["blocked_by"] for view in self.views(it).values()))

    def test_churn_ends_with_groups_that_serve_where_they_are_placed(self):
        it = join_sizes.churn(random.Random(1), "program")
        self.assertEqual((it.temps, it.acting), ({}, it.placed))
        self.assertTrue(all(view["les"] == view["first"] for view in self.views(it).values()))

    def test_an_outage_lasts(self):
        for make in (join_sizes.elsewhere, join_sizes.inside):
            it = make(random.Random(1), "program")
            group = it.groups[0]
            view = self.views(it)[group]
            self.assertEqual((view["verdict"], view["blocked_by"]), ("Down", sorted(it.placed[group][1:])))
            changes = sum(past["last"] > view["les"] for past in view["intervals"])
            self.assertEqual(changes > 10, make is join_sizes.inside)

    def test_a_table_of_sizes(self):
        status, out = written(join_sizes.print_sizes, "program")
        rows = [row.split(" | ") for row in out.splitlines()[2:]]
        self.assertIsNone(status)
        self.assertEqual([row[0] for row in rows], ["| " + name for name in join_sizes.LOGS])
        self.assertTrue(all(row[4] == "2" for row in rows))

    def test_a_year_is_joined_whenever_the_log_is_full(self):
        fewer = {"large": lambda program: join_sizes.small(program, 8, 6), "first_question": lambda *words: 1.0}
        with mock.patch.multiple(join_sizes, MOST_ENTRIES=60, MINUTES=20, **fewer):
            status, out = written(join_sizes.print_year, "program", 4, random.Random(1))
        self.assertIsNone(status)
        rows = [[int(cell) for cell in row.split("|")[1:5]] for row in out.splitlines()[2:]]
        self.assertGreater(len(rows), 2)
        self.assertTrue(all(40 < before <= 60 and left == 2 for _, before, left, _ in rows[:-1]))
        self.assertEqual(rows[-1][0], 4)


class Runs(unittest.TestCase):
    def test_a_line_that_is_refused_ends_all(self):
        for said in ("left out 1 of 2 entries; 1 line was refused", "left out 1 of 3 entries", "nothing"):
            with mock.patch.object(join_sizes, "run", lambda command, text: Ended("a\n", f"pgpeer: {said}\n")):
                with self.assertRaises(SystemExit, msg=said):
                    join_sizes.shortened(["pgpeer", "compact"], ["a", "b"])

    def test_what_an_info_says(self):
        found = json.loads(join_sizes.compact(join_sizes.info((1, 3), 7, 9, 5, 4)))
        self.assertEqual((found["stamp"], found["les"], found["history_les"], found["last_epoch_clean"]), (9, 5, 5, 4))


if __name__ == "__main__":
    unittest.main()
