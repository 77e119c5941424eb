"""Tests of scripts of clusters whose pools and groups have other numbers than a script can have."""

import json
import random
import unittest

from broken import broken
from case import HAS_PROGRAM, MAPS, PROGRAM, Room, written
from pgpeer_ceph.maps import named_group
from pgpeer_ceph.numbers import CarriedPool, Numbers, parent

STRAW2 = MAPS / "straw2-outage"


class Renumbered(Room):
    """A cluster with a pool 300 of 2,048 groups, of which all but a few are active and clean."""

    def setUp(self):
        super().setUp()
        self.room, self.script = self.folder / "dumps", self.folder / "s.jsonl"
        self.room.mkdir()
        self.stats = [self.stat(f"300.{pg:x}") for pg in range(2048)]
        self.put(300, 2048, 63, 64)

    def stat(self, name, state="active+clean", osds=(3, 2)):
        return {"pgid": name, "state": state, "version": "50'7", "log_start": "40'2", "last_epoch_clean": 63, "reported_epoch": 64,
                "mapping_epoch": 62, "up": list(osds), "acting": list(osds), "up_primary": osds[0], "acting_primary": osds[0]}

    def put(self, pool, pg_num, *epochs, name="big <b>\x1b[31m"):
        for epoch in epochs:
            osdmap = json.loads((STRAW2 / f"{epoch}.osd.json").read_text())
            made = {**osdmap["pools"][0], "pool": pool, "pool_name": name, "pg_num": pg_num, "pg_placement_num": pg_num}
            (self.room / f"{epoch}.osd.json").write_text(json.dumps({**osdmap, "pools": [made]}))
        self.put_stats()

    def put_stats(self):
        (self.room / "pgs.json").write_text(json.dumps({"pg_map": {"pg_stats": self.stats}}))

    def made(self, *words):
        """The lines of the script, and what was told of it."""
        status, out, err = written("script", "--output", self.script, *words, self.room)
        self.assertEqual((status, out), (0, ""), err)
        return [json.loads(line) for line in self.script.read_text().splitlines()], err

    def explained(self, *words):
        status, out, err = written("explain", "--program", PROGRAM, self.script, *words)
        self.assertEqual((status, err), (0, ""))
        return out

    def test_a_large_pool_becomes_several(self):
        lines, err = self.made()
        pools = [(it["id"], it["pg_num"]) for line in lines for it in line.get("pools", [])]
        self.assertEqual(pools, [(1, 1024), (2, 1024)])
        self.assertNotIn("left out", err)
        self.assertNotIn("\x1b", err)
        self.assertIn("carried without, so which writes a member lacks isn't known (ceph-objectstore-tool --op log): 300.", err)
        side = json.loads((self.folder / "s.epochs.json").read_text())
        self.assertEqual([(it["id"], it["pool"], len(it["groups"])) for it in side["pools"]], [(1, 300, 1024), (2, 300, 1024)])

    @unittest.skipUnless(HAS_PROGRAM, f"no program {PROGRAM}")
    def test_a_folder_is_told_under_ceph_s_numbers(self):
        self.stats = [self.stat(f"300.{pg:x}") for pg in range(3)] + [self.stat("300.3", "down", (2,))]
        self.put(300, 4, 63, 64)
        query = json.loads((STRAW2 / "3.0.query.json").read_text())
        query["info"]["pgid"] = "300.3"
        (self.room / "q.json").write_text(json.dumps(query))
        table = "4 groups in epoch 64: 3 active, 1 not\n\nPG     Ceph  epoch  here  waits             rule\n300.3  down  64     Down  blocked by osd.0\n"
        for words, wanted in ((("explain",), table), (("plan",), "1     osd.0  -     epoch 60    1      0     300.3\n"),
                              (("what-if", "--stop", "osd.3", "--stop", "osd.2"), "3 stop serving (NoPrimary 3)")):
            status, out, err = written(words[0], "--program", PROGRAM, self.room, *words[1:])
            self.assertEqual((status, err), (0, ""))
            self.assertIn(wanted, out)
        status, out, _ = written("explain", "--program", PROGRAM, self.room, "300.3")
        self.assertIn("300.3 in epoch 64: Down, blocked by osd.0\n  Ceph says down in epoch 64, blocked by osd.0\n", out)

    @unittest.skipUnless(HAS_PROGRAM, f"no program {PROGRAM}")
    def test_each_group_has_its_name_and_its_verdict(self):
        self.stats = [self.stat(f"300.{pg:x}") for pg in range(0x405)] + [self.stat("300.405", "down", (2,))]
        self.put(300, 0x406, 63, 64)
        query = json.loads((STRAW2 / "3.0.query.json").read_text())
        (self.room / "q.json").write_text(json.dumps({**query, "info": {**query["info"], "pgid": "300.405"}}))
        self.made()
        told = self.explained("300.405", "300.400", "300.3ff")
        self.assertIn("300.405 in epoch 64: Down, blocked by osd.0\n  It waits for osd.0, which is down: writes may have been taken in epochs 56 to 59,", told)
        self.assertIn("\n  up [], acting [2], led by osd.2", told)
        for name in ("300.400", "300.3ff"):
            self.assertIn(f"{name} in epoch 64: Serve\n  It serves, led by osd.3.\n  up [], acting [3, 2]", told)
        status, _, err = written("explain", "--program", PROGRAM, self.script, "300.406")
        self.assertEqual((status, err), (2, "pgpeer-ceph: error: the script has no group 300.406\n"))

    def test_of_more_groups_than_fit_those_that_matter_are_carried(self):
        self.stats = [self.stat(f"300.{pg:x}", "down" if pg % 1000 == 999 else "active+clean") for pg in range(17_000)]
        self.put(300, 17_000, 64)
        (self.room / "63.osd.json").unlink()
        lines, err = self.made("--pg", "300.4266")
        carried = {seed for it in json.loads((self.folder / "s.epochs.json").read_text())["pools"] for seed in it["groups"]}
        self.assertEqual(len(carried), 16384)
        self.assertLessEqual({0x4266, *range(999, 17_000, 1000)}, carried)
        self.assertIn("pool 300, of which 16,384 of 17,000 are carried\n", err)
        self.assertLess(len(lines), 65_535)

    def test_groups_that_a_split_made_lie_before_it_where_their_parents_lay(self):
        self.stats = []
        self.put(7, 2, 63)
        self.put(7, 4, 64)
        line = "{} raw ([{}], p{}) up ([{}], p{}) acting ([{}], p{})\n"
        first = {"7.0": (2, 3), "7.1": (3, 2)}
        then = {**first, "7.2": (3,), "7.3": (2,)}
        for epoch, sets in ((63, first), (64, then)):
            rows = ((name, ",".join(map(str, osds)), osds[0]) for name, osds in sets.items())
            text = "".join(line.format(name, osds, one, osds, one, osds, one) for name, osds, one in rows)
            (self.room / f"{epoch}.groups.txt").write_text(text)
        lines, err = self.made()
        self.assertNotIn("split", err)
        temps = [(line["epoch"], it) for line in lines for it in line.get("temp", [])]
        made = [it for epoch, it in temps if epoch < lines[-1]["epoch"]]
        self.assertEqual(made, [[1, 0, [2, 3]], [1, 1, [3, 2]], [1, 2, [2, 3]], [1, 3, [3, 2]]])
        self.assertEqual([it for epoch, it in temps if epoch == lines[-1]["epoch"]], [[1, 2, [3]], [1, 3, [2]]])
        if HAS_PROGRAM:
            self.assertEqual([line.split()[0] for line in self.explained().splitlines()], ["7.0", "7.1", "7.2", "7.3"])
            status, out, _ = written("draw", "--program", PROGRAM, self.script, "7.3")
            self.assertEqual((status, "7.3" in out), (0, True))

    def test_merged_groups_are_told(self):
        self.stats = [self.stat("7.0"), self.stat("7.1")]
        self.put(7, 4, 63)
        self.put(7, 2, 64)
        self.assertIn("merged into others, whose past is left out: pool 7 had 4 in epoch 63\n", self.made()[1])

    def test_broken_dumps_end_with_one_line(self):
        rng = random.Random(3)
        self.stats = [self.stat(f"300.{pg:x}") for pg in range(1030)]
        self.put(300, 1030, 63, 64)
        whole = {path.name: path.read_text() for path in self.room.iterdir()}
        for _ in range(8):
            name = rng.choice(sorted(whole))
            (self.room / name).write_bytes(broken(rng, whole[name], whole["64.osd.json"]))
            status, _, err = written("script", "--output", self.script, self.room)
            self.assertIn(status, (0, 2), err)
            self.assertEqual(err.count("error: "), 1 if status else 0, err)
            (self.room / name).write_text(whole[name])


class Names(unittest.TestCase):
    def test_parents(self):
        self.assertEqual([parent(seed, 6) for seed in range(8)], [0, 1, 2, 3, 4, 5, 2, 3])
        self.assertEqual([parent(seed, 1) for seed in range(3)], [0, 0, 0])
        self.assertEqual([parent(seed, 4) for seed in (3, 4, 7, 12)], [3, 0, 3, 0])

    def test_texts_have_the_names_of_ceph(self):
        numbers = Numbers([CarriedPool(1, 300, (5, 2047)), CarriedPool(2, 12, (0,))])
        for text, wanted in (("1.1 in epoch 5", "300.7ff in epoch 5"), ("2.0", "12.0"), ("3.0", "3.0"), ("pool 2 'x' has 1", "pool 12 'x' has 1")):
            self.assertEqual(numbers.named(text), wanted)
        self.assertEqual(numbers.in_script(named_group("300.7ff")), (1, 1))
        self.assertEqual(Numbers().in_script((1, 1)), (1, 1))


if __name__ == "__main__":
    unittest.main()
