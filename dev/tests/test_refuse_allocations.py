"""Tests of what refuse_allocations.py says of a run in which an allocation was refused."""

import subprocess
import unittest

import case  # noqa: F401
import refuse_allocations

NO_MEMORY = refuse_allocations.NO_MEMORY
A_LINE = b"line 3: Memory (51): there was no memory to take it\n"
REFUSED = b"line 3: NoOp: it has no op, or one that is not known\n"
SAID = b"pgpeer: left out 1 of 3 entries\n"


def verdict(subcommand, status, out, errors):
    """Of a run that ended so, where all that is to be written is `lines` and SAID."""
    whole, run = (subprocess.CompletedProcess([], *it) for it in ((0, b"lines\n", SAID), (status, out, errors)))
    return refuse_allocations.verdict_of_whole(subcommand, run, whole)


class Verdicts(unittest.TestCase):
    def test_of_both(self):
        for subcommand in refuse_allocations.READ_WHOLE:
            for wanted, *end in (
                ("the same", 0, b"lines\n", SAID),
                ("out of memory", 3, b"", NO_MEMORY),
                ("status 2, nothing read", 2, b"", b"pgpeer: usage\n"),
                (None, 3, b"lines\n", NO_MEMORY),
                (None, 2, b"lines\n", NO_MEMORY),
                (None, 3, b"", b""),
                (None, 0, b"", SAID),
                (None, 0, b"lines\n", b""),
                (None, 0, b"lines\n", b"pgpeer: left out 1 of 2 entries\n"),
                (None, -11, b"", NO_MEMORY),
            ):
                self.assertEqual(verdict(subcommand, *end), wanted, (subcommand, *end))

    def test_a_line_that_is_out_of_memory_ends_both(self):
        for subcommand in refuse_allocations.READ_WHOLE:
            for end in ((0, b"other\n", A_LINE), (3, b"", A_LINE), (3, b"other\n", A_LINE)):
                self.assertIsNone(verdict(subcommand, *end), (subcommand, *end))

    def test_an_explanation_may_have_named_refused_lines(self):
        self.assertEqual(verdict("explain", 3, b"", REFUSED + NO_MEMORY), "out of memory")
        self.assertIsNone(verdict("compact", 3, b"", REFUSED + NO_MEMORY))


if __name__ == "__main__":
    unittest.main()
