"""Tests of scripts that keep Ceph's epochs, and of what is told of scripts that pass over epochs."""

import json
import shutil
import unittest

from case import HAS_PROGRAM, MAPS, PROGRAM, ROOT, Room, written
from pgpeer_ceph.epochs import epochs_of
from pgpeer_ceph.parts import Parts
from pgpeer_ceph.steps import answers

OUTAGE, STRAW2, LOGGED = MAPS / "outage", MAPS / "straw2-outage", MAPS / "logged"
IN_REPORTS = ("stamp", "les", "history_les", "last_epoch_clean")


def with_epochs(line, epoch_of):
    """A line with other epochs, and without those of the map that it changes."""
    found = {**line, **{key: epoch_of(line[key]) for key in (*IN_REPORTS, "epoch") if key in line}}
    found.update({key: [epoch_of(line[key][0]), line[key][1]] for key in ("last_update", "log_tail") if key in line})
    found.update({key: [[osd, epoch_of(it)] for osd, it in line[key]] for key in ("up_thru", "lost") if key in line})
    if "log" in line:
        found["log"] = [[epoch_of(it[0]), *it[1:]] for it in line["log"]]
    return {key: value for key, value in found.items() if key not in ("v", "after")}


class Kept(Room):
    """Histories by epochs of their own and by Ceph's."""

    def setUp(self):
        super().setUp()
        self.thin = self.folder / "thin"  # few maps: no device changes in most epochs
        self.thin.mkdir()
        for path in STRAW2.iterdir():
            if path.name.split(".")[0] not in map(str, (*range(51, 57), *range(58, 64))):
                shutil.copy(path, self.thin)
        self.script = self.folder / "own.jsonl"

    def lines(self, *words):
        status, out, err = written("script", *words)
        self.assertEqual(status, 0, err)
        return [json.loads(line) for line in out.splitlines()]

    def both(self, *words):
        """The lines by epochs of the script's own, how these go with Ceph's, and the lines by Ceph's."""
        self.lines("--output", self.script, *words)
        own = [json.loads(line) for line in self.script.read_text().splitlines()]
        return own, epochs_of(str(self.script)), self.lines("--keep-epochs", *words)

    def test_reports_and_incrementals_are_the_same_in_ceph_s_epochs(self):
        for folder in (OUTAGE, STRAW2, LOGGED, self.thin):
            own, epochs, kept = self.both(folder)
            begin = next(at for at, line in enumerate(own) if line["op"] == "inc" and epochs.in_ceph(line["epoch"]) == epochs.first)
            wanted = [with_epochs(line, epochs.in_ceph) for line in own[begin:]]
            found = [with_epochs(line, int) for line in kept if line["op"] != "inc" or line["epoch"] >= epochs.first]
            self.assertEqual(found, [line for line in wanted if line in found or len(line) > 2], folder)
            self.assertEqual(kept[0]["up"], next(line["up"] for line in own if "up" in line))

    def test_each_incremental_names_the_map_that_it_changes(self):
        for folder in (OUTAGE, STRAW2, LOGGED, self.thin):
            epoch = 0
            for line in self.lines("--keep-epochs", folder):
                if line["op"] == "inc":
                    passes = line["epoch"] > epoch + 1
                    self.assertEqual((line.get("after"), line.get("v")), (epoch, 3) if passes else (None, None))
                    epoch = line["epoch"]
                else:
                    self.assertEqual(line.get("stamp", epoch), epoch)
            self.assertEqual(epoch, {OUTAGE: 26, LOGGED: 25}.get(folder, 64))

    def test_epochs_without_a_map_and_news_are_passed_over(self):
        kept = {line["epoch"]: line for line in self.lines("--keep-epochs", self.thin) if line["op"] == "inc"}
        passed = [epoch for epoch in range(50, 65) if epoch not in kept]
        self.assertTrue(passed and not {50, 57, 64} & set(passed), passed)
        self.assertFalse([it for it in kept.values() if len(it) == 2 and it["epoch"] not in (50, 57, 64)])
        self.assertTrue(set(range(50, 65)) <= {it["epoch"] for it in self.lines("--keep-epochs", STRAW2) if it["op"] == "inc"})

    def test_no_file_stands_beside_it_but_of_its_groups(self):
        self.lines("--output", self.script, OUTAGE)
        self.lines("--keep-epochs", "--output", self.script, OUTAGE)
        self.assertEqual([path.name for path in self.folder.iterdir() if path.is_file()], ["own.jsonl"])
        self.assertEqual(written("script", "--keep-epochs", OUTAGE)[2].count("epochs: "), 0)
        osdmap = json.loads((STRAW2 / "64.osd.json").read_text())
        (self.folder / "64.osd.json").write_text(json.dumps({**osdmap, "pools": [{**osdmap["pools"][0], "pool": 300}]}))
        stat = {"pgid": "300.1", "state": "active", "reported_epoch": 64, "mapping_epoch": 62, "version": "0'0", "log_start": "0'0",
                "up": [0], "acting": [0], "up_primary": 0, "acting_primary": 0}
        (self.folder / "pgs.json").write_text(json.dumps({"pg_stats": [stat]}))
        self.lines("--keep-epochs", "--output", self.script, self.folder / "64.osd.json", self.folder / "pgs.json")
        side = json.loads((self.folder / "own.epochs.json").read_text())
        self.assertEqual((side["offset"], side["first"], side["older"], side["pools"][0]["pool"]), (0, 1, [], 300))
        self.assertEqual(epochs_of(str(self.script)).text(64), "64")

    def test_a_first_map_without_room_before_it(self):
        osdmap = json.loads((OUTAGE / "a-healthy.osd.json").read_text())
        (self.folder / "1.osd.json").write_text(json.dumps({**osdmap, "epoch": 1}))
        for words in (("script",), ("map", "--alone")):
            status, out, err = written(*words, "--keep-epochs", self.folder / "1.osd.json")
            self.assertEqual((status, out, err.splitlines()[-1]), (2, "", "pgpeer-ceph: error: the map of epoch 1 takes 2 incrementals, so --keep-epochs can't begin with it"))

    def test_a_map_alone(self):
        files = [MAPS / f"temps.{kind}.json" for kind in ("osdmap", "crush")]
        last = json.loads(files[0].read_text())["epoch"]
        own, kept = ([json.loads(line) for line in written("map", "--alone", *words, *files)[1].splitlines()] for words in ((), ("--keep-epochs",)))
        self.assertEqual([(it["epoch"], it.get("after")) for it in kept], [(last - 2, 0), (last - 1, None), (last, None)])
        self.assertEqual([with_epochs(line, int) for line in kept], [with_epochs(line, lambda epoch: epoch + last - 3) for line in own])

    def test_a_part_of_the_script_keeps_what_it_passes_over(self):
        lines = [{"op": "inc", "v": 3, "after": 0, "epoch": 9, "up": [0], "pools": [{"id": 1, "pg_num": 2}, {"id": 2, "pg_num": 3}]},
                 {"op": "inc", "v": 3, "after": 9, "epoch": 20, "sizes": [[2, 1, 1]]}]
        part = [json.loads(line) for line in Parts(lines).of([(1, 1)]).lines]
        self.assertEqual([(it["after"], it["epoch"], len(it.get("pools", ()))) for it in part], [(0, 9, 1), (9, 20, 0)])

    @unittest.skipUnless(HAS_PROGRAM, f"no program {PROGRAM}")
    def test_answers_are_the_same_in_ceph_s_epochs(self):
        for folder in (OUTAGE, STRAW2, LOGGED, self.thin):
            own, epochs, kept = self.both("--ask", folder)
            said, found = (answers(PROGRAM, [json.dumps(line) for line in lines]) for lines in (own, kept))
            self.assertTrue(all("ok" in it for it in [*said, *found]))
            views = [[it for it in each if it["ok"] == "ask"] for each in (said, found)]
            for one, other in zip(*views):
                for key in ("epoch", "first", "les"):
                    self.assertEqual(epochs.in_ceph(one.pop(key)), other.pop(key))
                for at in one["intervals"]:
                    at.update(first=epochs.in_ceph(at["first"]), last=epochs.in_ceph(at["last"]))
                for view in (one, other):
                    del view["count"], view["missing"]
                if one["intervals"] and one["intervals"][0]["first"] is None:
                    one["intervals"][0]["first"] = other["intervals"][0]["first"]
                self.assertEqual(one, other)
            self.assertEqual(*map(len, views))

    @unittest.skipUnless(HAS_PROGRAM, f"no program {PROGRAM}")
    def test_it_is_explained_and_drawn_alike(self):
        texts = []
        for words in ((), ("--keep-epochs",)):
            self.lines("--output", self.script, *words, OUTAGE)
            texts += [[written(verb, "--program", PROGRAM, self.script, "1.0") for verb in ("explain", "draw")]]
        self.assertEqual(*texts)
        self.assertEqual(texts[0][1][:2], (0, (ROOT / "docs/ceph_outage.svg").read_text()))


class PassedOver(Room):
    """A script that passes over epochs."""

    SCRIPT = ROOT / "examples/passed_over.jsonl"

    def drawn(self, *words):
        status, out, err = written("draw", "--program", PROGRAM, *words, self.SCRIPT, "1.0")
        self.assertEqual(status, 0, err)
        return out

    @unittest.skipUnless(HAS_PROGRAM, f"no program {PROGRAM}")
    def test_it_is_explained_in_its_epochs(self):
        status, out, _ = written("explain", "--program", PROGRAM, self.SCRIPT, "1.0")
        self.assertEqual(status, 0)
        for words in ("1.0 in epoch 40: Waiting\n", "since epoch 40\n", "  last began to serve in epoch 20\n", "    epochs 20 to 29 on osd.0 osd.1"):
            self.assertIn(words, out)

    @unittest.skipUnless(HAS_PROGRAM, f"no program {PROGRAM}")
    def test_it_is_drawn_in_its_epochs(self):
        text = self.drawn()
        for words in ("epochs 20 to 29: may have gone read-write", "epochs 30 to 30: did not", "epoch 21: passed over, with the map of epoch 20",
                      "epochs 23 to 29: passed over, with the map of epoch 22", "epochs 32 to 39: passed over, with the map of epoch 31"):
            self.assertIn(words, text)

    @unittest.skipUnless(HAS_PROGRAM, f"no program {PROGRAM}")
    def test_an_epoch_that_was_passed_over_is_drawn_by_the_map_before_it(self):
        self.assertEqual(self.drawn("--from", "25", "--to", "28"), self.drawn("--from", "22", "--to", "29"))
        self.assertEqual(self.drawn("--from", "35"), self.drawn("--from", "31"))
        self.assertNotIn(">20<", self.drawn("--from", "25", "--to", "35"))
        status, _, err = written("draw", "--program", PROGRAM, "--from", "41", self.SCRIPT, "1.0")
        self.assertEqual(status, 2)
        self.assertIn("has no entry of the group 1.0 in these epochs", err)


if __name__ == "__main__":
    unittest.main()
