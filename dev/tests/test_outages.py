"""Tests of the comparison of outages with Ceph, on what a real cluster said in seven steps."""

import copy
import json
import pathlib
import re
import shutil
import tempfile
import unittest

from case import HAS_PROGRAM, HERE, PROGRAM, written
import ceph_check_outages
import ceph_compare
import ceph_operator
import ceph_outages
from pgpeer_ceph.maps import Code

KEPT = HERE.parent.parent / "ceph/tests/maps/outages"
FETCHED = KEPT.parent / "straw2-outage"
WHOLE, CODED = ceph_compare.PoolCode(None), ceph_compare.PoolCode(Code(2))


def devices(up, down=(), lost=None, down_at=None):
    everyone = {*up, *down}
    return ceph_compare.Devices(set(up), everyone, {**dict.fromkeys(everyone, 0), **(lost or {})}, {**dict.fromkeys(everyone, 0), **(down_at or {})})


def members(*osds):
    return tuple((osd, 0) for osd in osds)


class Rules(unittest.TestCase):
    def test_a_later_interval_of_fewer_members_supersedes(self):
        first, second, third = (1, 3, members(0, 1, 2)), (4, 5, members(0, 1)), (6, 9, members(1, 3))
        self.assertEqual(ceph_compare.without_superseded([first, second, third]), [second, third])
        self.assertEqual(ceph_compare.without_superseded([second, first]), [second, first])

    def test_an_interval_blocks_where_too_few_are_up_or_lost_and_one_is_down(self):
        past = [(5, 9, members(0, 1))]
        self.assertEqual(ceph_compare.blocked(past, 0, devices([2], [0, 1]), WHOLE), {0, 1})
        self.assertEqual(ceph_compare.blocked(past, 10, devices([2], [0, 1]), WHOLE), set())
        self.assertEqual(ceph_compare.blocked(past, 0, devices([1], [0]), WHOLE), set())
        self.assertEqual(ceph_compare.blocked(past, 0, devices([2], [0, 1], lost={0: 6}), WHOLE), set())
        self.assertEqual(ceph_compare.blocked(past, 0, devices([2]), WHOLE), set())
        coded = [(5, 9, ((0, 0), (1, 1), (2, 2)))]
        self.assertEqual(ceph_compare.blocked(coded, 0, devices([0], [1]), CODED), {1})
        self.assertEqual(ceph_compare.blocked(coded, 0, devices([0, 2], [1]), CODED), set())

    def test_codes_are_those_of_the_script(self):
        profiles = {"plain": {"k": "2", "m": "1"}, "local": {"plugin": "lrc", "k": "4", "m": "2", "l": "3"}}
        pools = [{"pool": 1, "type": 1, "size": 3}, *({"pool": at, "type": 3, "size": size, "erasure_code_profile": name}
                                                      for at, size, name in ((2, 3, "plain"), (3, 8, "local")))]
        rules = ceph_compare.rules_of({"pools": pools, "erasure_code_profiles": profiles})
        places = [4, None, 5, 6, 7, 8, None, 9]
        self.assertEqual([len(rules[at].members(places)) for at in (1, 2, 3)], [6, 6, 6])
        self.assertEqual([rules[at].are_enough(rules[at].members(places)) for at in (1, 2, 3)], [True, True, True])
        few = [4, None, 5, 6, 7, 8, None, None]
        self.assertEqual([rules[at].are_enough(rules[at].members(few)) for at in (1, 2, 3)], [True, True, False])
        self.assertEqual([rules[at].are_enough(()) for at in (1, 2, 3)], [False, False, False])

    def test_devices_as_they_were_when_the_interval_began(self):
        now = devices([0], [1, 2], down_at={1: 8, 2: 4})
        self.assertEqual(now.as_at(6).up, {0, 1})

    def test_words_of_ceph(self):
        for state, word in (("active+undersized+degraded", "active"), ("undersized+peered", "peered"), ("down", "down"), ("remapped+peering", "peering")):
            self.assertEqual(ceph_compare.ceph_state(state), word)


@unittest.skipUnless(HAS_PROGRAM, f"no program {PROGRAM}")
class KeptRecord(unittest.TestCase):
    @classmethod
    def setUpClass(cls):
        cls.record = ceph_outages.kept(str(KEPT / "107.outage.json"))

    def compared(self, record, at):
        result = ceph_compare.Result()
        ceph_compare.compare_step(PROGRAM, record, at, result)
        return result

    def test_each_difference_has_a_rule(self):
        status, out = written(ceph_check_outages.again, PROGRAM, str(KEPT))
        self.assertEqual(status, 0)
        self.assertIn("1 clusters, 7 steps, 112 states of groups", out)
        self.assertIn("| state | 109 | 3 | heard before 3 |", out)
        self.assertIn("| Down | down | 12 |", out)

    def test_a_wrong_answer_of_either_side_is_found(self):
        """What Ceph said is changed, thing by thing, and each change is a difference without a rule."""
        at = 0
        down = next(name for name, it in self.record.steps[at].queries.items() if it["state"] == "down")
        active = next(name for name, it in self.record.steps[at].queries.items() if it["state"].startswith("active"))

        def peering(record):
            return record.steps[at].queries[down]["recovery_state"][0]

        def interval(record):
            return peering(record)["past_intervals"][0]["intervals"][0]

        for what, change in (
            ("state", lambda it: it.steps[at].queries[down].update(state="peering")),
            ("state", lambda it: it.steps[at].queries[active].update(state="down")),
            ("blocked by", lambda it: peering(it)["peering_blocked_by"].pop()),
            ("probed", lambda it: peering(it).update(probing_osds=["0(0)"])),
            ("past intervals", lambda it: interval(it).update(last=str(int(interval(it)["last"]) - 1))),
            ("past intervals", lambda it: interval(it).update(acting="0(0),1(1)")),
            ("interval since", lambda it: it.steps[at].queries[active]["info"]["history"].update(same_interval_since=5)),
            ("acting", lambda it: setattr(it.steps[at], "groups", it.steps[at].groups.replace("acting ([", "acting ([0,1,"))),
        ):
            record = copy.deepcopy(self.record)
            change(record)
            self.assertIn(what, {it.what for it in self.compared(record, at).unnamed()}, what)
        self.assertEqual(self.compared(self.record, at).unnamed(), [])


@unittest.skipUnless(HAS_PROGRAM, f"no program {PROGRAM}")
class FetchedFolder(unittest.TestCase):
    """A folder that `fetch` filled, beside what Ceph said of each group then."""

    def again(self, **other):
        """The status and the text of a comparison, with other states than those that Ceph said."""
        with tempfile.TemporaryDirectory() as room:
            shutil.copytree(FETCHED, f"{room}/01")
            queries = (json.loads(path.read_text()) for path in FETCHED.glob("*.query.json"))
            states = {**{re.sub(r"s\d+$", "", it["info"]["pgid"]): it["state"] for it in queries}, **other}
            shutil.copytree(FETCHED, f"{room}/recorded")
            epoch = max(int(path.name.split(".")[0]) for path in FETCHED.glob("*.osd.json"))
            record = {"name": "outage", "is_calm": True, "epoch": epoch, "states": states}
            pathlib.Path(room, "01.states.json").write_text(json.dumps(record))
            return written(ceph_operator.again, PROGRAM, room)

    def test_each_state_is_beside_its_verdict(self):
        status, text = self.again()
        self.assertEqual(status, 0, text)
        self.assertIn("| Step | active | down | differ by rule |", text)
        self.assertIn("| outage | 2 | 4 |  |", text)
        self.assertIn("| down | Down | 4 |  |", text)
        self.assertIn("As recorded, in the epochs of calm steps: agree 6.", text)

    def test_a_state_that_no_rule_explains_is_found(self):
        status, text = self.again(**{"3.1": "incomplete"})
        self.assertEqual(status, 1)
        self.assertIn("| incomplete | Serve | 1 | NONE |", text)
        self.assertIn("As recorded, in the epochs of calm steps: agree 5, incomplete is Serve 1.", text)
        self.assertIn("outage: 3.1 is incomplete in Ceph, and Serve [] here", text)


class BadInput(unittest.TestCase):
    def test_no_record(self):
        with tempfile.TemporaryDirectory() as folder:
            for text in ("", "{}", "[]", '{"seed":1,"seconds":1,"maps":{"x":1},"trees":{},"steps":[]}', '{"seed":1,"seconds":1,"maps":{},"trees":{},"steps":[3]}'):
                path = pathlib.Path(folder, "1.outage.json")
                path.write_text(text)
                with self.assertRaisesRegex(ceph_outages.Unusable, "no record of a cluster"):
                    ceph_outages.kept(str(path))


if __name__ == "__main__":
    unittest.main()
