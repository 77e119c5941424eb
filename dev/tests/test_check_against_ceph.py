"""Tests of check_against_ceph.py, on maps whose groups osdmaptool told."""

import json
import tempfile
import unittest

from case import HAS_PROGRAM, HERE, PROGRAM
import check_against_ceph

MAPS = HERE.parent.parent / "ceph/tests/maps"


@unittest.skipUnless(HAS_PROGRAM, f"no program {PROGRAM}")
class Agreement(unittest.TestCase):
    """The groups of each kept map lie where `osdmaptool` said."""

    def test_groups_agree_as_recorded(self):
        recorded = json.loads((MAPS / "agreement.json").read_text())
        for name, (same, other, left_out) in recorded.items():
            with self.subTest(name), tempfile.TemporaryDirectory() as folder:
                texts = ((MAPS / f"{name}.{kind}").read_text() for kind in ("osdmap.json", "crush.json", "groups.txt"))
                row = check_against_ceph.compared(PROGRAM, name, check_against_ceph.Dumps(*texts), folder)
                self.assertEqual((row.same, len(row.other), row.left_out), (same, other, left_out), row.other[:3])


if __name__ == "__main__":
    unittest.main()
