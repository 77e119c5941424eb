"""Tests of the laws of peering on generated logs: they hold by the model, and each wrong definition breaks one."""

import pathlib
import subprocess
import sys
import unittest
from typing import List

LAWS = pathlib.Path(__file__).resolve().parent.parent / "laws.py"


def run(*words: str) -> "subprocess.CompletedProcess[str]":
    return subprocess.run([sys.executable, str(LAWS), *words], capture_output=True, text=True, check=False)


class Laws(unittest.TestCase):
    def counts(self, text: str) -> "dict[str, int]":
        """What was counted, by its name."""
        words: List[str] = text.split("\n")[0].split(", ")
        return {name: int(number.replace(",", "")) for number, name in (it.split(" ", 1) for it in words)}

    def test_hold_and_are_not_vacuous(self) -> None:
        done = run("--logs", "20", "--seed", "laws")
        self.assertEqual((done.returncode, done.stderr), (0, ""))
        found = self.counts(done.stdout)
        self.assertEqual(found["logs"], 20)
        closed = "an interval closed", "a clean interval closed"
        cases = {"served": ("past",), "reckoned": ("not served since",), "relief": (*closed, "by a report")}
        for law, names in cases.items():
            for name in (*names, "grouped", "flag raised"):
                self.assertGreater(found[f"{law} ({name})"], 0, (law, name))
        self.assertGreater(found["report raised a flag"], 0)

    def test_wrong_definitions_break_them(self) -> None:
        for wrong, law, seed in (
            ("flag_by_first_epoch", "served", "1"), ("flag_by_clean_epochs", "served", "1"),
            ("probe_without_members", "reckoned", "1"), ("lost_in_its_epoch", "relief", "1"),
            ("parts_just_enough", "relief", "a"), ("relief_of_all_reports", "relief", "1"),
        ):  # fmt: skip
            with self.subTest(wrong):
                done = run("--logs", "300", "--wrong", wrong, "--seed", seed)
                self.assertEqual(done.returncode, 0)
                self.assertIn(f"{law} is broken for group", done.stdout)

    def test_a_law_that_is_not_broken_is_told(self) -> None:
        done = run("--logs", "1", "--wrong", "probe_without_members", "--seed", "none")
        self.assertEqual((done.returncode, done.stdout.split("\n")[1]), (1, "no law is broken"))


if __name__ == "__main__":
    unittest.main()
