"""Tests of the verbs `script` and `explain`, on dumps of real clusters that were taken through outages."""

import json
import random
import shutil
import unittest

from broken import broken
from case import HAS_PROGRAM, MAPS, PROGRAM, ROOT, Room, written
from pgpeer_ceph import changes as changes_of_maps, epochs as epochs_of_scripts, nodes, reports, steps
from pgpeer_ceph.folder import log_of, stem
from pgpeer_ceph.maps import Device, Pool
from pgpeer_ceph.notes import Notes
from pgpeer_ceph.sets import dumped_sets, printed_sets

OUTAGE, STRAW2, LOGGED = MAPS / "outage", MAPS / "straw2-outage", MAPS / "logged"


class Case(Room):
    def history(self, *words):
        status, out, err = written("script", *words)
        self.assertEqual(status, 0, err)
        return [json.loads(line) for line in out.splitlines()], err

    def told(self, *words):
        """What `explain` says of a history."""
        script = self.folder / "script.jsonl"
        self.history("--output", script, *words)
        status, out, err = written("explain", "--program", PROGRAM, script, *self.groups)
        self.assertEqual((status, err), (0, ""))
        return out

    groups = ()


def incrementals(lines):
    return {line["epoch"]: line for line in lines if line["op"] == "inc"}


def changes(old, new, notes=None):
    """The changes between maps of devices alone, given as epochs and devices."""
    found = changes_of_maps.Changes(old[0], new[0], notes or Notes())
    found.take(*(changes_of_maps.Snapshot(epoch, {it.id: it for it in devices}, {}, {}, {}, 1) for epoch, devices in (old, new)))
    return found


class Outage(Case):
    def test_the_example_is_the_script_of_the_outage(self):
        lines, err = self.history("--ask", OUTAGE)
        kept = (ROOT / "examples/ceph_outage.jsonl").read_text().splitlines()
        self.assertEqual(lines, [json.loads(line) for line in kept])
        self.assertIn("epochs without a map, filled in from the next one (ceph osd dump EPOCH --format json): 18, 20, 22-25", err)
        self.assertIn("Ceph's are those of the script and 15 more", err)

    def test_devices_boot_and_go_down_in_the_epochs_that_the_next_map_tells(self):
        lines = incrementals(self.history(OUTAGE)[0])
        found = {epoch + 15: {key: line[key] for key in ("up", "down") if key in line} for epoch, line in lines.items() if epoch > 2}
        wanted = {18: {"down": [2]}, 20: {"down": [1]}, 22: {"down": [0]}, 23: {"up": [1]}, 25: {"up": [2]}}
        self.assertEqual({epoch: it for epoch, it in found.items() if it}, wanted)

    def test_the_intervals_that_the_query_lists_have_gone_read_write(self):
        lines = incrementals(self.history(OUTAGE)[0])
        self.assertEqual(lines[24 - 15]["up_thru"], [[1, 23 - 15]])

    def test_reports_have_the_stamp_of_their_query(self):
        infos = [line for line in self.history(OUTAGE)[0] if line["op"] == "info"]
        self.assertEqual([(it["from"][0], it["stamp"] + 15) for it in infos], [(0, 17), (1, 17), (2, 17), (0, 19), (1, 19), (0, 21), (1, 26)])
        last = {"op": "info", "pg": [1, 0], "from": [1, 0], "stamp": 11, "les": 4, "history_les": 4, "last_update": [0, 0], "log_tail": [0, 0], "complete": True, "last_epoch_clean": 17 - 15}
        self.assertEqual(infos[-1], last)

    def test_the_last_clean_epoch_is_that_of_the_query(self):
        infos = [line for line in self.history(OUTAGE)[0] if line["op"] == "info"]
        self.assertEqual([it["last_epoch_clean"] + 15 for it in infos], [17] * 7)
        self.assertTrue(all(it["last_epoch_clean"] <= it["stamp"] for it in infos))

    def test_a_last_clean_epoch_before_the_first_map_comes_before_the_pools(self):
        for path in OUTAGE.glob("d-blocked.*"):
            shutil.copy(path, self.folder)
        lines = self.history("--from", 26, self.folder)[0]
        made = next(line["epoch"] for line in lines if "pools" in line)
        clean = next(line["last_epoch_clean"] for line in lines if line["op"] == "info")
        self.assertTrue(0 < clean < made, (clean, made))

    def test_a_part_of_the_epochs(self):
        lines = self.history("--from", 19, "--to", 21, OUTAGE)[0]
        self.assertEqual(max(incrementals(lines)) - min(incrementals(lines)), 21 - 19 + len(incrementals(lines)) - 3)
        self.assertEqual(incrementals(lines)[max(incrementals(lines)) - 1]["down"], [1])

    def test_intervals_before_the_first_epoch_that_is_wanted_are_told(self):
        err = self.history("--from", 24, OUTAGE)[1]
        self.assertIn("begin before --from and so aren't whole in the script: 1.0 in epochs 20 to 21, 1.0 in epochs 23 to 24\n", err)
        self.assertIn("of whose intervals the script knows what queries list alone: those before 24\n", err)
        self.assertNotIn("--from", self.history(OUTAGE)[1])

    def test_the_info_of_a_stopped_device_is_a_report_of_its_last_epoch(self):
        shutil.copytree(OUTAGE, self.folder / "dumps")
        info = json.loads((OUTAGE / "c-osd1-down.query.json").read_text())["info"]
        (self.folder / "dumps/osd.0-1.0.info.json").write_text(json.dumps({**info, "last_epoch_started": 20}))
        before, after = ([it for it in self.history(folder)[0] if it["op"] == "info"] for folder in (OUTAGE, self.folder / "dumps"))
        added = [it for it in after if it not in before]
        self.assertEqual([(it["from"], it["les"] + 15, it["stamp"] + 15) for it in added], [([0, 0], 20, 21)])
        (self.folder / "dumps/osd.0-1.0.info.json").rename(self.folder / "dumps/info.json")
        self.assertIn("the name of an info's file has to tell the device", self.fault(self.folder / "dumps"))

    def test_a_map_without_pools_has_no_groups(self):
        shutil.copytree(OUTAGE, self.folder / "dumps")
        (self.folder / "dumps/17.groups.txt").write_text("#osd\tcount\tfirst\tprimary\tc wt\twt\n in 0\n")
        self.assertNotIn("no dump", self.history(self.folder / "dumps")[1])

    def fault(self, *words):
        status, out, err = written("script", *words)
        return err

    @unittest.skipUnless(HAS_PROGRAM, f"no program {PROGRAM}")
    def test_it_is_told_as_ceph_tells_it(self):
        self.groups = ("1.0",)
        text = self.told(OUTAGE)
        document = (ROOT / "docs/OPERATING.md").read_text()
        ceph, *more = (f"    {line}\n" for line in text.splitlines())
        self.assertTrue(ceph in document and "".join(more) in document)
        peering = json.loads((OUTAGE / "d-blocked.query.json").read_text())["recovery_state"][1]
        for it in peering["past_intervals"][0]["intervals"]:
            self.assertIn(f"epochs {it['first']} to {it['last']} on osd.{it['acting']}", text)
        self.assertIn("Down, blocked by " + " and ".join(f"osd.{it['osd']}" for it in peering["peering_blocked_by"]) + "\n", text)
        self.assertIn("has to hear " + ", ".join(f"osd.{osd}" for osd in peering["probing_osds"]) + "\n", text)

    @unittest.skipUnless(HAS_PROGRAM, f"no program {PROGRAM}")
    def test_the_picture_has_epochs_of_ceph(self):
        status, out, _ = written("draw", "--program", PROGRAM, ROOT / "examples/ceph_outage.jsonl", "1.0")
        self.assertEqual((status, out), (0, (ROOT / "docs/ceph_outage.svg").read_text()))
        self.assertIn("osd.0, epochs 20 to 21: may have gone read-write", out)
        self.assertIn(">17</text>", out)


class OwnSets(Case):
    def test_acting_sets_are_those_that_were_dumped_in_each_epoch(self):
        lines, err = self.history(STRAW2)
        self.assertNotIn("straw2", err)
        self.assertIn("not carried: up sets beside Ceph's acting sets", err)
        epochs = epochs_of_scripts.Epochs(50 - len(incrementals(lines)) + 14, 50)
        up, temps = set(), {}
        for epoch, line in sorted(incrementals(lines).items()):
            self.assertNotIn("crush", line)
            up = (up | set(line.get("up", []))) - set(line.get("down", []))
            temps.update({(pool, pg): osds for pool, pg, osds in line.get("temp", [])})
            if epochs.in_ceph(epoch) is None or not (STRAW2 / f"{epochs.in_ceph(epoch)}.groups.txt").exists():
                continue
            sets = printed_sets((STRAW2 / f"{epochs.in_ceph(epoch)}.groups.txt").read_text(), "")
            for (pool, pg), where in sets.items():
                acting = [osd if osd in up else None for osd in temps.get((pool, pg), [])]
                acting = [osd for osd in acting if osd is not None] if pool == 3 else acting
                self.assertEqual(tuple(acting), where.acting, (epoch, pool, pg))

    @unittest.skipUnless(HAS_PROGRAM, f"no program {PROGRAM}")
    def test_verdicts_are_those_of_the_cluster(self):
        verdicts = dict(line.split(" in epoch 64: ") for line in self.told(STRAW2).splitlines())
        for name, verdict in verdicts.items():
            state = json.loads((STRAW2 / f"{name}.query.json").read_text())["state"]
            wanted = "Down" if state == "down" else "Serve"
            self.assertEqual(verdict.split(",")[0], wanted, name)
        self.assertEqual(len(verdicts), 6)

    def test_sets_of_pg_dump(self):
        for path in STRAW2.glob("*.groups.txt"):
            shutil.copy(path, self.folder)
        dump = json.loads((STRAW2 / "pgs.json").read_text())
        sets = dumped_sets(nodes.Node(dump, "pgs"))
        printed = printed_sets((STRAW2 / "64.groups.txt").read_text(), "")
        same = [group for group, where in sets.where.items() if where.acting == printed[group].acting]
        self.assertGreaterEqual(len(same), 2)
        self.assertTrue(all(since >= 44 for since in sets.since.values()))

    def test_without_groups_straw2_is_told_with_how_to_get_them(self):
        files = [STRAW2 / name for name in ("64.osd.json", "50.crush.json")]
        shutil.copy(files[1], self.folder / "64.crush.json")
        err = self.history(files[0], self.folder / "64.crush.json")[1]
        self.assertIn("straw2 buckets", err)
        self.assertIn("--groups FILE", err)
        lines, err = self.history("--groups", STRAW2 / "64.groups.txt", files[0])
        self.assertNotIn("acting sets of epochs", err)
        several = [STRAW2 / f"{epoch}.osd.json" for epoch in range(60, 65)]
        self.assertIn("except what queries and ceph pg dump tell: 60-63\n", self.history("--groups", STRAW2 / "64.groups.txt", *several)[1])
        self.assertIn([3, 0, [2]], [temp for line in lines for temp in line.get("temp", [])])

    def test_straw2_buckets_are_carried_as_such(self):
        shutil.copy(STRAW2 / "50.crush.json", self.folder / "64.crush.json")
        lines, err = self.history("--straw2", STRAW2 / "64.osd.json", self.folder / "64.crush.json")
        trees = [line for line in lines if line.get("crush")]
        self.assertEqual([(line["v"], {bucket["alg"] for bucket in line["crush"]}) for line in trees], [(3, {"straw2"})])
        self.assertNotIn("straw2", err)

    def test_groups_without_sets_are_named(self):
        (self.folder / "64.groups.txt").write_text("3.0 raw ([2], p2) up ([2], p2) acting ([2], p2)\n")
        err = self.history("--groups", self.folder / "64.groups.txt", STRAW2 / "64.osd.json")[1]
        self.assertIn("acting sets of groups of which no dump tells (osdmaptool MAP --test-map-pgs-dump-all): 3.1, 3.2, 3.3, 4.0, 4.1", err)


class Reports(Case):
    def test_log_entries(self):
        lines = self.history(LOGGED)[0]
        entries = [line for line in lines if line["op"] == "entries"]
        self.assertEqual([it["log"] for it in entries], [[[3, 1, "modify", "obj2"], [3, 2, "modify", "obj4"]]])
        self.assertEqual(entries[0]["from"], [0, 0])

    @unittest.skipUnless(HAS_PROGRAM, f"no program {PROGRAM}")
    def test_a_group_whose_log_is_there_serves(self):
        for path in LOGGED.iterdir():
            shutil.copy(path, self.folder)
        query = json.loads((LOGGED / "1.1.query.json").read_text())
        (self.folder / "1.1.query.json").write_text(json.dumps({**query, "state": "peering"}))
        self.assertIn("1.0 in epoch 25: Serve\n1.1 in epoch 25: NeedLog\n", self.told(self.folder))

    def test_the_log_of_an_active_group_is_left_out_and_told(self):
        lines, err = self.history(LOGGED)
        infos = [(it["pg"], it["last_update"], it["log_tail"]) for it in lines if it["op"] == "info"]
        self.assertTrue(all(tail == last for pg, last, tail in infos if pg == [1, 1]))
        self.assertTrue(all(tail == [0, 0] for pg, _, tail in infos if pg == [1, 0]))
        self.assertIn("so which writes a member lacks isn't known (ceph-objectstore-tool --op log): 1.1\n", err)

    @unittest.skipUnless(HAS_PROGRAM, f"no program {PROGRAM}")
    def test_a_healthy_cluster_of_which_pg_dump_alone_tells_serves(self):
        osdmap = json.loads((STRAW2 / "50.osd.json").read_text())
        devices = [{**it, "up": 1, "up_from": 20, "up_thru": 40, "down_at": 0} for it in osdmap["osds"]]
        (self.folder / "50.osd.json").write_text(json.dumps({**osdmap, "osds": devices}))
        sets = {"3": [0, 1, 2], "4": [3, 1, 0]}
        stats = [{"pgid": f"{pool}.{pg}", "state": "active+clean", "version": "50'7", "log_start": "40'2", "last_epoch_clean": 45,
                  "reported_epoch": 50, "mapping_epoch": 44, "up": osds, "acting": osds, "up_primary": osds[0], "acting_primary": osds[0]}
                 for pool, osds in sets.items() for pg in range(4 if pool == "3" else 2)]
        for state in ("active+clean", "active+undersized+degraded", "active+recovering"):
            stats[1]["state"] = state
            (self.folder / "pgs.json").write_text(json.dumps({"pg_stats": stats}))
            text = self.told(self.folder)
            self.assertEqual([line.split(": ")[1] for line in text.splitlines()], ["Serve"] * 6, text)
        stats[1]["state"] = "down"
        (self.folder / "pgs.json").write_text(json.dumps({"pg_stats": stats}))
        self.assertIn("3.1 in epoch 50: Waiting\n", self.told(self.folder))

    def test_members_of_erasure_groups_have_their_shards(self):
        query = reports.read_query(nodes.load(str(STRAW2 / "4.0.query.json")))
        self.assertEqual(query.infos[0].member, (3, 0))
        self.assertEqual(query.past[0].acting, [(0, 2), (1, 1)])
        self.assertEqual((query.blocked_by, query.probing), ([0, 1], [(3, 0)]))

    def test_infos_of_pg_dump_are_those_of_active_groups(self):
        pools = {3: Pool(3, "", 4, 3, 1, 0, None)}
        stat = {"pgid": "3.1", "state": "active+clean", "version": "50'7", "log_start": "40'2", "last_epoch_clean": 45, "reported_epoch": 52, "acting": [2, 0]}
        infos = reports.infos_of_stats(nodes.Node(stat, ""), pools)
        self.assertEqual([(it.member, it.les, it.last_update, it.log_tail, it.stamp) for it in infos], [((2, 0), 45, (50, 7), (40, 2), 52), ((0, 0), 45, (50, 7), (40, 2), 52)])
        self.assertEqual([it.last_epoch_clean for it in infos], [45, 45])
        unclean = {**stat, "state": "active+undersized", "mapping_epoch": 50, "acting": [0]}
        infos = reports.infos_of_stats(nodes.Node(unclean, ""), pools)
        self.assertEqual([(it.member, it.les, it.last_epoch_clean) for it in infos], [((0, 0), 50, 45)])
        for state in ("down", "peering", "stale+down", "incomplete", "activating"):
            self.assertEqual(reports.infos_of_stats(nodes.Node({**stat, "state": state}, ""), pools), [], state)

    def test_what_a_stale_group_said_holds_of_its_time_where_its_primary_is_down(self):
        shutil.copy(STRAW2 / "64.osd.json", self.folder)
        shutil.copy(STRAW2 / "64.groups.txt", self.folder)
        up = {it["osd"] for it in json.loads((STRAW2 / "64.osd.json").read_text())["osds"] if it["up"]}
        for osd in range(4):
            stat = {"pgid": "3.1", "state": "stale+active+clean", "version": "50'7", "log_start": "40'2", "last_epoch_clean": 45, "mapping_epoch": 44,
                    "reported_epoch": 50, "up": [osd], "acting": [osd], "up_primary": osd, "acting_primary": osd}
            (self.folder / "pgs.json").write_text(json.dumps({"pg_stats": [stat]}))
            status, out, err = written("script", self.folder)
            self.assertEqual(status, 0, err)
            infos = [json.loads(line)["from"] for line in out.splitlines() if '"op":"info"' in line]
            self.assertEqual(infos, [] if osd in up else [[osd, 0]])
        self.assertTrue(0 < len(up) < 4)

    def test_an_info_that_was_clean_after_its_stamp_is_left_out(self):
        info = reports.Info((3, 0), (0, 0), 9, 4, 4, 9, (4, 1), (0, 0), True)
        pools, notes = {3: Pool(3, "", 4, 3, 1, 0, None)}, Notes()
        self.assertTrue(reports.tell_faults(info, pools, [0], 9, notes))
        self.assertFalse(reports.tell_faults(info._replace(last_epoch_clean=10), pools, [0], 9, notes))
        self.assertEqual(list(notes.lines()), ["reports whose versions or epochs can't be, left out: 3.0 of osd.0"])

    def test_names_of_objects(self):
        for text, name in (("1:104778fc:::obj2:head", "obj2"), ("1:0:::a%3ab%25:head", "a:b%"), ("1:0:n::a:head", "1:0:n::a:head"), ("1:0:::a:4", "1:0:::a:4")):
            self.assertEqual(reports.object_name(text), name)

    def test_a_report_later_than_the_last_map_is_told(self):
        err = self.history(OUTAGE / "a-healthy.osd.json", OUTAGE / "a-healthy.crush.json", OUTAGE / "b-osd2-down.query.json")[1]
        self.assertIn("reports of later epochs than the last map, left out (ceph osd dump EPOCH --format json): 1.0 of osd.0, 1.0 of osd.1", err)


class LocalGroups(Case):
    """A cluster whose erasure pool is told to be of lrc, with four chunks."""

    def test_intervals_on_fewer_chunks_than_the_script_wants_are_told(self):
        for path in STRAW2.iterdir():
            text = path.read_text()
            if path.name.endswith(".osd.json"):
                osdmap = json.loads(text)
                osdmap["erasure_code_profiles"]["coded-2-1"] = {"plugin": "lrc", "k": "2", "m": "1", "l": "3"}
                for pool in osdmap["pools"]:
                    pool["size"] = 4 if pool["type"] == 3 else pool["size"]
                text = json.dumps(osdmap)
            (self.folder / path.name).write_text(text)
        lines, err = self.history(self.folder)
        pools = [(line["v"], pool["groups"]) for line in lines for pool in line.get("pools", []) if pool["kind"] == "grouped"]
        self.assertEqual(pools, [(2, [[[0, 1, 2, 3], 3]])])
        self.assertIn("which it takes for intervals without writes: 4.0 in epochs 51 to 55, 4.0 in epochs 58 to 59, 4.1 in epochs 51 to 53", err)


class Told(Case):
    """What `explain` says of past intervals: by a report alone, of a grouped pool, with lost devices."""

    MAP = {"op": "inc", "epoch": 1, "up": [0, 1, 2], "weight": [[1, 0], [2, 0]], "crush": [{"id": -1, "type": 1, "alg": "uniform", "items": [0, 1, 2]}]}
    POOL = {"id": 1, "pg_num": 1, "kind": "replicated", "size": 3, "min_size": 2, "leaf": 0}
    INFO = {"op": "info", "pg": [1, 0], "from": [0, 0], "stamp": 3, "les": 0, "history_les": 0, "last_update": [0, 0], "log_tail": [0, 0], "complete": True}
    LATER = [{"op": "inc", "epoch": 2}, {"op": "inc", "epoch": 3, "down": [1], "up_thru": [[0, 1]]}]

    def lines(self, epoch):
        made = {**self.MAP, "pools": [self.POOL], "temp": [[1, 0, [0, 1, 2]]]}
        return [made, *self.LATER, {**self.INFO, "last_epoch_clean": epoch}]

    def test_the_map_of_the_last_epoch_and_reports_are_told_apart(self):
        history = steps.History(1, 0)
        for line in self.lines(2):
            history.take(line)
        past = {"first": 1, "last": 2, "acting_primary": 0, "rw": True}
        self.assertEqual(history.by_report({"intervals": [past]}), {1})
        self.assertEqual(history.by_report({"intervals": [{**past, "rw": False}]}), set())
        self.assertEqual(history.by_report({"intervals": [{**past, "last": 3}]}), set())
        self.assertEqual(history.by_report({"intervals": [{**past, "first": 2, "last": 3}]}), {2})

    def test_a_boot_within_the_interval_is_no_record_of_it(self):
        history = steps.History(1, 0)
        for line in ({"epoch": 2, "up": [0]}, {"epoch": 4, "down": [0]}, {"epoch": 5, "up": [0], "up_thru": [[0, 5]]}):
            history.take({"op": "inc", **line})
        past = {"first": 3, "last": 4, "acting_primary": 0, "rw": True}
        self.assertEqual(history.by_report({"intervals": [past, {**past, "first": 4, "last": 5}, {**past, "first": 5, "last": 5}]}), {3, 4})

    @unittest.skipUnless(HAS_PROGRAM, f"no program {PROGRAM}")
    def test_it_says_that_only_a_report_says_so(self):
        script = self.folder / "script.jsonl"
        words = "    epochs 1 to 2 on osd.0 osd.1 osd.2"
        for epoch, wanted in ((2, f"{words}; only a report says so: the group was clean in it\n"), (3, "and matter: none\n")):
            script.write_text("".join(f"{json.dumps(line)}\n" for line in self.lines(epoch)))
            status, out, err = written("explain", "--program", PROGRAM, script, "1.0")
            self.assertEqual((status, err), (0, ""))
            self.assertIn(wanted, out)

    @unittest.skipUnless(HAS_PROGRAM, f"no program {PROGRAM}")
    def test_members_of_a_grouped_pool_have_their_shards(self):
        pool = {"id": 2, "pg_num": 1, "kind": "grouped", "groups": [[[0, 1], 1], [[2], 1]], "size": 3, "min_size": 2, "leaf": 0}
        made = {**self.MAP, "v": 2, "up": [0, 1, 2, 3, 4], "pools": [pool], "temp": [[2, 0, [0, 1, 2]]]}
        later = [{"op": "inc", "epoch": 2, "up_thru": [[0, 1]]}, {"op": "inc", "epoch": 3, "down": [1, 2], "temp": [[2, 0, [0, 3, 4]]]}]
        script = self.folder / "script.jsonl"
        script.write_text("".join(f"{json.dumps(line)}\n" for line in (made, *later)))
        status, out, err = written("explain", "--program", PROGRAM, script, "2.0")
        self.assertEqual((status, err), (0, ""))
        self.assertIn("2.0 in epoch 3: Down, blocked by osd.1 and osd.2\n", out)
        self.assertIn("    epochs 1 to 2 on osd.0 (shard 0) osd.1 (shard 1) osd.2 (shard 2); down: osd.1 and osd.2\n", out)


    def test_a_device_is_lost_in_earlier_intervals_until_it_boots_or_is_destroyed(self):
        history = steps.History(1, 0)
        for line, found in (({"up": [0]}, False), ({"down": [0]}, False), ({"lost": [[0, 3]]}, True), ({"up": [0]}, False),
                            ({"down": [0]}, True), ({"lost": [[0, 2]]}, False), ({"lost": [[0, 3]]}, True), ({"gone": [0]}, False)):
            history.take({"op": "inc", "epoch": len(history.boots) + 1, **line})
            self.assertEqual((history.is_lost(0, 2), history.is_lost(0, 3)), (found, False), line)

    @unittest.skipUnless(HAS_PROGRAM, f"no program {PROGRAM}")
    def test_an_interval_with_enough_lost_members_blocks_nothing(self):
        pool = {"id": 2, "pg_num": 1, "kind": "erasure", "k": 2, "size": 3, "min_size": 2, "leaf": 0}
        lines = [{**self.MAP, "up": [0, 1, 2, 3, 4, 5], "pools": [pool], "temp": [[2, 0, [0, 1, 2]]]},
                 {"op": "inc", "epoch": 2, "up_thru": [[0, 1]]},
                 {"op": "inc", "epoch": 3, "down": [1], "temp": [[2, 0, [0, 3, 2]]]},
                 {"op": "inc", "epoch": 4, "up_thru": [[0, 3]]},
                 {"op": "inc", "epoch": 5, "down": [2, 3], "temp": [[2, 0, [0, 4, 5]]]}]
        script, wanted = self.folder / "script.jsonl", "    epochs 1 to 2 on osd.0 (shard 0) osd.1 (shard 1) osd.2 (shard 2)"
        for lost, more in (([], "; down: osd.1 and osd.2"), ([[1, 2]], ""), ([[1, 1]], "; down: osd.1 and osd.2")):
            script.write_text("".join(f"{json.dumps(line)}\n" for line in (*lines, {"op": "inc", "epoch": 6, "lost": lost})))
            status, out, err = written("explain", "--program", PROGRAM, script, "2.0")
            self.assertEqual((status, err), (0, ""))
            self.assertIn(f"{wanted}{more}\n", out)
            self.assertIn("    epochs 3 to 4 on osd.0 (shard 0) osd.2 (shard 2) osd.3 (shard 1); down: osd.2 and osd.3\n", out)


class FromMapToMap(unittest.TestCase):
    UP = Device(1, True, 65536, up_from=5)

    def test_of_the_next_epoch(self):
        found = changes((9, [self.UP]), (10, [self.UP._replace(up=False, down_at=10, weight=0, up_thru=9)])).by_epoch[10]
        self.assertEqual((found.up, found.down, found.weight, found.up_thru), (set(), {1}, {1: 0}, {1: 9}))

    def test_of_a_later_epoch(self):
        found = changes((9, [self.UP]), (20, [self.UP._replace(up_from=15, down_at=12)])).by_epoch
        self.assertEqual({epoch: (it.up, it.down) for epoch, it in found.items()}, {12: (set(), {1}), 15: ({1}, set())})
        found = changes((9, [self.UP._replace(up=False, down_at=8)]), (20, [self.UP._replace(up=False, up_from=13, down_at=17)])).by_epoch
        self.assertEqual({epoch: (it.up, it.down) for epoch, it in found.items()}, {13: ({1}, set()), 17: (set(), {1})})

    def test_lost_and_removed(self):
        down = self.UP._replace(up=False, down_at=8)
        self.assertEqual(changes((9, [down]), (10, [down._replace(lost_at=9)])).by_epoch[10].lost, {1: 9})
        self.assertEqual(changes((9, [down]), (20, [down._replace(lost_at=13)])).by_epoch[14].lost, {1: 13})
        self.assertEqual(changes((9, [down]), (10, [])).by_epoch[10].gone, {1})

    def test_an_up_thru_of_a_gap_is_taken_for_recorded_as_soon_as_it_may_have_been(self):
        found = changes((9, [self.UP]), (14, [self.UP._replace(up_thru=12)]))
        found.guess(lambda since, now: False)
        self.assertEqual({epoch: it.up_thru for epoch, it in found.by_epoch.items()}, {10: {1: 9}, 11: {1: 10}, 12: {1: 11}, 13: {1: 12}})
        found = changes((9, [self.UP]), (14, [self.UP._replace(up_thru=12)]))
        found.guess(lambda since, now: True)
        self.assertEqual({epoch: it.up_thru for epoch, it in found.by_epoch.items()}, {13: {1: 12}})

    def test_what_the_program_would_refuse_is_left_out(self):
        lawful = changes_of_maps.Lawful({1}, {2}, {1: 7}, {}, Notes())
        change = changes_of_maps.Change(up={1, 3}, down={2}, gone={1, 4}, up_thru={1: 6}, weight={3: 9, 8: 1}, lost={1: 3})
        parts = {key: value for key, value in lawful.parts(change, 8, 8, lambda epoch: epoch).items() if value}
        self.assertEqual(parts, {"up": [3], "weight": [[3, 9]]})
        later = lawful.parts(changes_of_maps.Change(up={8}), 9, 9, lambda epoch: epoch)
        self.assertEqual(later["weight"], [[8, 1]])

    def test_too_many_epochs(self):
        with self.assertRaisesRegex(nodes.Unusable, "--from EPOCH begins later"):
            changes_of_maps.Changes(1, 10**6, Notes())


class Pools(Case):
    def test_a_pool_that_is_deleted_with_its_rule_stays(self):
        osdmap = json.loads((OUTAGE / "a-healthy.osd.json").read_text())
        crush = json.loads((OUTAGE / "a-healthy.crush.json").read_text())
        other = {**osdmap["pools"][0], "pool": 2, "pool_name": "other", "crush_rule": 1}
        rules = [*crush["rules"], {**crush["rules"][0], "rule_id": 1}]
        for epoch, pools, version in ((1, [*osdmap["pools"], other], 1), (2, osdmap["pools"], 2)):
            (self.folder / f"{epoch}.osd.json").write_text(json.dumps({**osdmap, "epoch": epoch, "pools": pools, "crush_version": version}))
            (self.folder / f"{epoch}.crush.json").write_text(json.dumps({**crush, "rules": rules[: 3 - epoch]}))
        lines, err = self.history(self.folder)
        self.assertEqual([pool["id"] for line in lines for pool in line.get("pools", [])], [1, 2])
        self.assertIn("pools that were deleted, which stay in the script: pool 2 'other' in epoch 2", err)

    def test_a_pool_that_is_made_and_resized(self):
        osdmap = json.loads((OUTAGE / "a-healthy.osd.json").read_text())
        pool = osdmap["pools"][0]
        for epoch, pools in ((20, []), (21, [{**pool, "min_size": 2}]), (25, [{**pool, "size": 2, "last_change": "23"}])):
            (self.folder / f"{epoch}.osd.json").write_text(json.dumps({**osdmap, "epoch": epoch, "pools": pools}))
        shutil.copy(OUTAGE / "a-healthy.crush.json", self.folder / "20.crush.json")
        lines = incrementals(self.history(self.folder)[0])
        made = next(epoch for epoch, line in lines.items() if "pools" in line)
        self.assertEqual((lines[made]["pools"][0]["min_size"], "crush" in lines[made]), (2, True))
        self.assertEqual(lines[made + 2]["sizes"], [[1, 2, 1]])


class Numbers(Case):
    def test_older_epochs_keep_their_order(self):
        epochs = epochs_of_scripts.numbered(100, 3, [7, 40, 40, 0, 120, 99, 60])
        self.assertEqual([epochs.in_script(it) for it in (0, 7, 40, 60, 99, 100, 103)], [0, 1, 2, 3, 4, 5, 8])
        self.assertEqual([epochs.in_ceph(it) for it in (0, 1, 4, 5, 8)], [0, 7, 99, 100, 103])
        self.assertEqual(epochs_of_scripts.numbered(1, 1, []), epochs_of_scripts.Epochs(0, 1, ()))

    def test_the_file_beside_a_script(self):
        epochs = epochs_of_scripts.numbered(100, 3, [7])
        path = self.folder / "s.epochs.json"
        path.write_text(epochs_of_scripts.side_text(epochs))
        self.assertEqual(epochs_of_scripts.epochs_of(str(self.folder / "s.jsonl")), epochs)
        self.assertEqual(epochs_of_scripts.epochs_of(str(self.folder / "other.jsonl")), epochs_of_scripts.Epochs())
        for text in ("{}", '{"offset":9,"first":4}', '{"offset":2,"first":9,"older":[3,2]}', '{"offset":NaN,"first":1}', "[]"):
            path.write_text(text)
            with self.assertRaises(nodes.Unusable):
                epochs_of_scripts.epochs_of(str(self.folder / "s.jsonl"))

    def test_a_fresh_clusters_epochs_are_those_of_the_script(self):
        osdmap = json.loads((OUTAGE / "a-healthy.osd.json").read_text())
        for epoch in (1, 2, 3):
            devices = [{**it, "up_from": 2, "up_thru": 0} for it in osdmap["osds"]] if epoch > 1 else []
            pools = osdmap["pools"] if epoch > 2 else []
            (self.folder / f"{epoch}.osd.json").write_text(json.dumps({**osdmap, "epoch": epoch, "osds": devices, "pools": pools}))
        shutil.copy(OUTAGE / "a-healthy.crush.json", self.folder / "3.crush.json")
        lines, err = self.history(self.folder)
        self.assertEqual([(it["epoch"], *sorted(it)) for it in lines], [(1, "epoch", "op"), (2, "epoch", "op", "up"), (3, "crush", "epoch", "op", "pools")])
        self.assertNotIn("epochs:", err)


class BadInput(Case):
    def assert_error(self, text, ended):
        status, out, err = ended
        self.assertEqual((status, out), (2, ""), err)
        self.assertTrue(err.splitlines()[-1].startswith("pgpeer-ceph: error: "), err)
        self.assertIn(text, err)

    def test_folders_without_a_map(self):
        self.assert_error("no map, as", written("script", self.folder))
        self.assert_error("nowhere: No such file", written("script", self.folder / "nowhere"))

    def test_maps_of_two_clusters_and_two_maps_of_an_epoch(self):
        self.assert_error("are maps of two clusters", written("script", OUTAGE, STRAW2))
        osdmap = json.loads((OUTAGE / "a-healthy.osd.json").read_text())
        (self.folder / "x.osd.json").write_text(json.dumps({**osdmap, "flags": "noup"}))
        self.assert_error("two maps of epoch 17", written("script", OUTAGE, self.folder))

    def test_a_tree_of_no_epoch(self):
        for name in ("a", "b"):
            shutil.copy(OUTAGE / "a-healthy.crush.json", self.folder / f"{name}.json")
        files = self.folder / "a.json", self.folder / "b.json", OUTAGE / "a-healthy.osd.json", OUTAGE / "b-osd2-down.osd.json"
        self.assert_error("of which epoch?", written("script", *files))

    def test_strict(self):
        status, out, err = written("script", "--strict", OUTAGE)
        self.assertEqual((status, out), (2, ""))
        self.assertIn("--strict was given", err)

    def test_a_pool_and_epochs_that_are_not_there(self):
        self.assert_error("no pool 9", written("script", "--pool", 9, OUTAGE))
        self.assert_error("no map of the epochs", written("script", "--from", 99, OUTAGE))

    def test_a_file_that_is_no_dump_is_told(self):
        for path in OUTAGE.iterdir():
            shutil.copy(path, self.folder)
        (self.folder / "notes.txt").write_text("hello")
        self.assertIn("files that are no dump of Ceph's: ", self.history(self.folder)[1])

    def test_broken_dumps_end_with_one_line(self):
        """Cut, empty, random and swapped files, and values of another kind anywhere in them."""
        rng = random.Random(5)
        for folder in (OUTAGE, STRAW2, LOGGED):
            names = sorted(path.name for path in folder.iterdir())
            for turn in range(40):
                room = self.folder / f"{folder.name}{turn}"
                shutil.copytree(folder, room)
                name = rng.choice(names)
                text = (folder / name).read_text()
                (room / name).write_bytes(broken(rng, text, (folder / rng.choice(names)).read_text()))
                status, out, err = written("script", "--ask", *["--keep-epochs"][: turn % 2], room)
                self.assertIn(status, (0, 2), err)
                if status == 2:
                    self.assertEqual(out, "")
                    self.assertEqual(err.count("error: "), 1, err)

    @unittest.skipUnless(HAS_PROGRAM, f"no program {PROGRAM}")
    def test_broken_scripts_are_drawn_and_told_or_end_with_one_line(self):
        """Cut, empty, random and swapped scripts, and values of another kind anywhere in them."""
        rng = random.Random(6)
        wholes = [(ROOT / f"examples/{name}.jsonl").read_text() for name in ("ceph_outage", "passed_over")]
        script, dump = self.folder / "script.jsonl", (OUTAGE / "a-healthy.osd.json").read_text()
        for turn in range(60):
            script.write_bytes(broken(rng, wholes[turn % 2], dump))
            for verb in ("explain", "draw"):
                status, out, err = written(verb, "--program", PROGRAM, script, "1.0")
                self.assertIn(status, (0, 2), err)
                if status == 2:
                    self.assertEqual((out, err.count("error: ")), ("", 1), err)


class FolderNames(unittest.TestCase):
    def test_folder_reader_names(self):
        self.assertEqual(log_of("x/osd.2-1.0.log.json"), (2, "1.0"))
        self.assertEqual(log_of("osd12.2.1fs3.log.json"), (12, "2.1fs3"))
        self.assertEqual([stem(it) for it in ("a.osd.json", "26.groups.txt", "26.json")], ["a", "26", "26"])


if __name__ == "__main__":
    unittest.main()
