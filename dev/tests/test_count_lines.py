"""Tests of what count_lines.py counts."""

import unittest

from case import Room

from count_lines import counted, row

FILES = {
    "pgp_a/src/lib.rt": "mod b;\n\n// a comment\n",
    "pgp_a/src/b/c.rt": "fn f() {}\n",
    "pgp_a/specs/Lib.antt": "pub mod A\n",
    "pgp_a/proofs/b/f/Answers.antt": "one\ntwo\n",
    "pgp_a/out/incremental/kept.antt": "made by a check\n",
    "pgp_b/src/main.rt": "fn main() {}\n",
    "notes/NOTES.md": "no crate\n",
}


class CountLines(Room):
    def test_all_lines_of_each_kind_are_counted(self):
        for name, text in FILES.items():
            self.write(f"crates/{name}", text)
        self.assertEqual(list(counted(self.room)), [("pgp_a", 4, 1, 2), ("pgp_b", 1, 0, 0)])

    def test_a_row_has_the_ratio_of_proofs_to_code(self):
        self.assertEqual(row("pgp_a", 2000, 10, 3000), "| pgp_a | 2,000 | 10 | 3,000 | 1.50 |")


if __name__ == "__main__":
    unittest.main()
