"""Tests of what time_modules.py reads off the files that a check leaves."""

import os
import unittest

from case import Room

from time_modules import kind, modules

CHECKED = (  # files in the order in which they are written, and when
    ("judged", 0.0),
    ("Rattle-pgp_log.oantt", 10.0),
    ("Rattle-pgp_log-specs.Log.oantt", 10.5),
    ("Rattle-pgp_log-proofs.rows.Rows.set.Lts.oantt", 12.0),
    ("records/Rattle-pgp_log-proofs.rows.Rows.set.Proof.decls.oantt", 15.0),
)


class TimeModules(Room):
    def test_a_module_takes_what_passed_since_the_file_before(self):
        for name, at in CHECKED:
            os.utime(self.write(name, "1234"), (at, at))
        found = list(modules(self.room))
        names = ["specs.Log", "proofs.rows.Rows.set.Lts", "proofs.rows.Rows.set.Proof"]
        self.assertEqual(found, list(zip((0.5, 1.5, 3.0), (4, 4, 4), names)))
        self.assertEqual([kind(name) for name in names], ["specs", "Lts", "Proof"])

    def test_a_crate_that_was_not_checked_has_none(self):
        self.assertEqual(list(modules(self.room)), [])


if __name__ == "__main__":
    unittest.main()
