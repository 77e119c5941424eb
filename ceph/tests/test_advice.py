"""Tests of what is told of a folder: why groups don't serve, what to start, and what would be if devices stopped."""

import json
import os
import random
import shutil
import subprocess
import unittest

from broken import broken
from case import HAS_PROGRAM, MAPS, PROGRAM, ROOT, TOOL, Room, written
from pgpeer_ceph import folder_told, group_told, rules
from pgpeer_ceph.cluster import Said
from pgpeer_ceph.epochs import Epochs
from pgpeer_ceph.maps import NONE
from pgpeer_ceph.notes import Notes
from pgpeer_ceph.parts import Parts
from pgpeer_ceph.reasons import Reasons
from pgpeer_ceph.sets import printed_sets
from pgpeer_ceph.starts import Need, lower_bound, need_of, plan_of
from pgpeer_ceph.steps import History, Pool
from pgpeer_ceph.words import ending

OUTAGE, STRAW2 = MAPS / "outage", MAPS / "straw2-outage"
needs_program = unittest.skipUnless(HAS_PROGRAM, f"no program {PROGRAM}")
COPIES = Pool("replicated", None, 3, 2)


def need(*sets, is_cut=False):
    return Need(frozenset(map(frozenset, sets)), is_cut)


def reasons(**more):
    ways = {"any": None, "sets": [{"start": osds, "intervals": []} for osds in ([0], [3, 5])], "more": False}
    blocking = [{"first": 3, "last": 4, "down": [0, 3, 5], "lacks": 1, "acting": [0, 3, 5], "clean": None}]
    fields = {"says": "It waits.", "verdict": "Down", "blocking": blocking, "ways": ways, "unheard": [], **more}
    return Reasons(**{key: value for key, value in fields.items() if key in Reasons._fields})


class Folders(Room):
    def setUp(self):
        super().setUp()
        self.room = self.folder / "dumps"
        shutil.copytree(STRAW2, self.room)

    def put_hosts(self):
        """Has the tree hold two hosts of two devices each."""
        tree = json.loads((self.room / "50.crush.json").read_text())
        root = tree["buckets"][0]
        hosts = [{**root, "id": -10 - at, "name": f"h{at}", "type_id": 1, "type_name": "host", "items": root["items"][2 * at : 2 * at + 2]} for at in (0, 1)]
        root["items"] = [{"id": -10 - at, "weight": 131072, "pos": at} for at in (0, 1)]
        (self.room / "50.crush.json").write_text(json.dumps({**tree, "buckets": [root, *hosts]}))

    def put_states(self, change):
        dump = json.loads((self.room / "pgs.json").read_text())
        for stat in dump["pg_map"]["pg_stats"]:
            stat.update(change.get(stat["pgid"], {}))
        (self.room / "pgs.json").write_text(json.dumps(dump))

    def told(self, verb, *words):
        status, out, err = written(verb, "--program", PROGRAM, self.room, *words)
        self.assertEqual((status, err), (0, ""))
        return out

    def fault(self, *words):
        status, out, err = written(*words)
        self.assertEqual((status, out, err.count("\n")), (2, "", 1), err)
        return err.strip()


@needs_program
class Explained(Folders):
    def test_all_that_are_not_active_stand_in_a_table(self):
        lines = self.told("explain").splitlines()
        self.assertEqual(lines[0], "6 groups in epoch 64: 2 active, 4 not")
        rows = [line.split(None, 4) for line in lines[3:7]]
        self.assertEqual([row[:4] for row in rows], [[name, "down", "64", "Down"] for name in ("3.0", "3.3", "4.0", "4.1")])
        self.assertEqual(rows[3][4], "blocked by osd.1")
        self.assertIn("groups blocked: osd.1 4, osd.0 3", lines)

    def test_one_group_has_ceph_s_state_and_what_ends_it(self):
        lines = self.told("explain", "4.1").splitlines()
        self.assertEqual(lines[:3], [
            "4.1 in epoch 64: Down, blocked by osd.1", "  Ceph says down in epoch 64, blocked by osd.1",
            "  It waits for osd.1, which is down: writes may have been taken in epochs 51 to 53, and too few of the devices that took them are up.",
        ])  # fmt: skip
        self.assertIn("  up [2, none, 3], acting [2, none, 3], led by osd.2, since epoch 62", lines)
        self.assertIn("  What ends Down: start osd.1 (it may wait for backfill then)", lines)
        self.assertFalse([line for line in lines if "lost" in line])
        self.assertIn(": declare osd.1 lost, then ", self.told("explain", "4.1", "--losses"))

    def test_what_members_told_of_their_copies(self):
        lines = self.told("explain", "4.1").splitlines()
        at = lines.index("  has to hear osd.2 (shard 0), osd.3 (shard 2)")
        self.assertEqual(lines[at + 1 : at + 3], ["    osd.2 (shard 0) (epoch 64): complete, last write 0'0, served in epoch 53", "    osd.3 (shard 2) wasn't heard"])
        status, out, _ = written("explain", "--program", PROGRAM, ROOT / "examples/explain_incomplete.jsonl", "1.0")
        self.assertIn("\n    osd.1 (epoch 5): not complete, last write 4'5, served in epoch 3\n    osd.2 (epoch 5): complete, last write 2'2, served in epoch 1\n"
                      "    osd.0 (epoch 3, too old): complete, last write 2'2, served in epoch 1\n", out)

    def test_caveats_of_other_groups_are_left_out(self):
        (self.room / "fetch.json").write_text(json.dumps({"not_fetched": {"reports of groups that gave no answer": ["4.1", "4.0"]}}))
        self.assertIn("reports of groups that gave no answer: 4.1\n", self.told("explain", "4.1"))
        self.assertNotIn("gave no answer", self.told("explain", "3.0"))
        self.assertIn("not carried over: not fetched: reports of groups that gave no answer: 4.1, 4.0\n", self.told("explain"))

    def test_a_difference_has_its_rule(self):
        (self.room / "3.0.query.json").unlink()
        self.put_states({"3.0": {"state": "undersized+peered", "reported_epoch": 64}})
        row = next(line for line in self.told("explain").splitlines() if line.startswith("3.0 "))
        self.assertEqual(row.split()[-2:], ["heard", "before"])
        self.assertIn("  Ceph says undersized+peered in epoch 64 (heard before)\n", self.told("explain", "3.0"))

    def test_a_group_that_nobody_asked_is_named_so(self):
        (self.room / "3.0.query.json").unlink()
        self.put_states({"3.0": {"state": "peering"}, "3.1": {"state": "stale+active+clean", "reported_epoch": 70}})
        (self.room / "3.1.query.json").unlink()
        table = self.told("explain")
        self.assertIn("\n3.1  stale+active+clean", table)

    def test_groups_that_the_script_has_not_are_counted(self):
        osdmap = json.loads((self.room / "64.osd.json").read_text())
        osdmap["pools"][0]["size"] = 17
        (self.room / "64.osd.json").write_text(json.dumps(osdmap))
        table = self.told("explain")
        self.assertIn("6 groups in epoch 64", table)

    def test_a_stopped_device_s_own_info_says_when_it_served(self):
        info = {**json.loads((self.room / "4.1.query.json").read_text())["info"], "last_epoch_started": 57}
        info["history"] = {**info["history"], "last_epoch_started": 57}
        (self.room / "osd.1-4.1s1.info.json").write_text(json.dumps({**info, "pgid": "4.1s1"}))
        self.assertIn("  last began to serve in epoch 57\n", self.told("explain", "4.1"))

    def test_maps_that_end_before_the_reports(self):
        for path in self.room.glob("[56]*.osd.json"):
            osdmap = json.loads(path.read_text())
            path.write_text(json.dumps({**osdmap, "pools": []}))
        table = self.told("explain")
        self.assertTrue(table.startswith("0 groups in epoch 64: 0 active, 0 not\n"))
        self.assertIn("not carried over: groups that the last map, of epoch 64, doesn't have: 3.0, 3.1, 3.2 and 3 more\n", table)

    def test_marks_of_a_terminal_are_taken_out(self):
        (self.room / "3.0.query.json").unlink()
        self.put_states({"3.0": {"state": "down\x1b[31m<b>", "reported_epoch": 64}})
        self.put_hosts()
        tree = json.loads((self.room / "50.crush.json").read_text())
        (self.room / "50.crush.json").write_text(json.dumps(tree).replace('"h0"', '"h\\u001b[2J"'))
        for words in (("explain",), ("explain", "3.0"), ("plan",), ("what-if", "--each", "host"), ("what-if", "--stop", "osd.2")):
            self.assertNotIn("\x1b", self.told(*words))

    def test_faults(self):
        self.assertEqual(self.fault("explain", "--program", PROGRAM, self.room, "9.0"), f"pgpeer-ceph: error: {self.room} has no group 9.0")
        self.assertIn("no group", self.fault("explain", "--program", PROGRAM, self.room, "x"))
        self.assertIn("--epochs is for a script", self.fault("explain", self.room, "--epochs", "x"))
        self.assertIn("No such file", self.fault("explain", "--program", self.folder / "none", self.room))
        (self.folder / "empty").mkdir()
        for verb in (("explain",), ("plan",), ("what-if", "--each", "osd")):
            self.assertIn("no map, as `ceph osd dump", self.fault(verb[0], self.folder / "empty", *verb[1:]))


@needs_program
class Planned(Folders):
    def test_each_step_says_what_it_frees(self):
        self.put_hosts()
        lines = self.told("plan").splitlines()
        self.assertEqual(lines[0], "Groups that don't serve in epoch 64: 4 of 6 (Down 4)")
        self.assertEqual(lines[1], "Starting 2 devices frees 4 groups; no fewer do")
        rows = [line.split() for line in lines[4:6]]
        self.assertEqual(rows[0], ["1", "osd.0", "h0", "epoch", "60", "2", "2", "3.0", "3.3"])
        self.assertEqual(rows[1], ["2", "osd.1", "h0", "epoch", "56", "2", "0", "4.0", "4.1"])
        self.assertIn("Before they report, the freed are Waiting 4; then some may wait for backfill.", lines)
        self.assertNotIn("lost", "\n".join(lines))

    def test_where_all_serve_there_is_nothing_to_start(self):
        for path in self.room.iterdir():
            if path.name.split(".")[0].isdigit() and int(path.name.split(".")[0]) > 50:
                path.unlink()
        sets = printed_sets((self.room / "50.groups.txt").read_text(), "")
        places = {f"{pool}.{pg:x}": [NONE if osd is None else osd for osd in where.acting] for (pool, pg), where in sets.items()}
        self.put_states({name: {"state": "active+clean", "reported_epoch": 50, "acting": osds, "up": osds, "mapping_epoch": 45, "last_epoch_clean": 48,
                                "version": "50'2", "log_start": "0'0"}
                         for name, osds in places.items()})
        for path in self.room.glob("*.query.json"):
            path.unlink()
        self.assertTrue(self.told("plan").startswith("Groups that don't serve in epoch 50: 0 of 6 (none)\nThere is no device to start that frees one.\n"))
        self.assertTrue(self.told("explain").startswith("6 groups in epoch 50: 6 active, 0 not\n"))


class Starts(unittest.TestCase):
    def test_the_device_that_frees_most_comes_first(self):
        plan = plan_of({(1, 0): need([1], [0]), (1, 1): need([0], [2]), (1, 2): need([0]), (1, 3): need([4])})
        self.assertEqual([(step.osds, step.frees) for step in plan.steps], [([0], [(1, 0), (1, 1), (1, 2)]), ([4], [(1, 3)])])
        self.assertEqual((plan.least, plan.is_least_known), (2, True))

    def test_several_devices_that_free_more_together_come_before_one(self):
        groups = {(1, at): need([5, 6]) for at in range(3)}
        plan = plan_of({**groups, (2, 0): need([7])})
        self.assertEqual([step.osds for step in plan.steps], [[5, 6], [7]])

    def test_what_is_started_already_counts(self):
        plan = plan_of({(1, 0): need([1]), (1, 1): need([1]), (1, 2): need([1, 2], [8, 9])})
        self.assertEqual([step.osds for step in plan.steps], [[1], [2]])

    def test_no_group_no_step(self):
        self.assertEqual(plan_of({}), ([], 0, True))

    def test_the_bound_is_never_above_what_is_enough(self):
        rng = random.Random(5)
        for _ in range(300):
            needs = {(1, at): need(*(rng.sample(range(7), rng.randint(1, 3)) for _ in range(rng.randint(1, 4)))) for at in range(rng.randint(1, 6))}
            smallest = min(bits.bit_count() if hasattr(bits, "bit_count") else bin(bits).count("1") for bits in range(128)
                           if all(it.is_met({osd for osd in range(7) if bits >> osd & 1}) for it in needs.values()))
            plan = plan_of(needs)
            self.assertLessEqual(lower_bound(needs.values()), smallest)
            self.assertLessEqual(smallest, len(plan.osds()))
            self.assertEqual(sorted(group for step in plan.steps for group in step.frees), sorted(needs))

    def test_a_list_that_was_cut_bounds_nothing(self):
        plan = plan_of({(1, 0): need([1], is_cut=True)})
        self.assertEqual((plan.least, plan.is_least_known), (0, False))


@needs_program
class WhatIf(Folders):
    def test_what_stops_now_and_after_one_more_failure(self):
        lines = self.told("what-if", "--stop", "osd.2").splitlines()
        self.assertEqual(lines[0], "If osd.2 stopped: 1 device")
        self.assertEqual(lines[1], "  now: 5 groups touched, 0 stop serving")
        self.assertEqual(lines[3], "  after one more failure: 2 groups more could stop serving, by device: osd.3 2")
        self.assertEqual([line.split() for line in lines[6:8]], [[name, "Serve", "3", "NoPrimary", "by", "osd.3"] for name in ("3.1", "3.2")])

    def test_several_places_at_once(self):
        self.put_hosts()
        out = self.told("what-if", "--stop", "osd.0", "--stop", "host:h1")
        self.assertTrue(out.startswith("If osd.0 and host h1 stopped: 2 devices (osd.0 is down already)\n"), out)
        self.assertIn("2 stop serving (NoPrimary 2)", out)
        self.assertIn("\n3.1  NoPrimary  nobody\n", out)

    def test_each_place_has_a_row(self):
        self.put_hosts()
        lines = self.told("what-if", "--each", "host").splitlines()
        self.assertEqual(lines[0], "2 of 6 groups serve in epoch 64")
        self.assertEqual([line.split() for line in lines[3:5]], [["h1", "2", "of", "2", "6", "2", "0", "0", "2", "0"], ["h0", "0", "of", "2", *"000000"]])
        self.assertEqual(len(self.told("what-if", "--each", "osd").splitlines()), len(lines) + 2)

    def test_min_size_decides(self):
        for path in self.room.glob("*.osd.json"):
            osdmap = json.loads(path.read_text())
            osdmap["pools"][0]["min_size"] = 2
            path.write_text(json.dumps(osdmap))
        out = self.told("what-if", "--stop", "osd.3")
        self.assertIn("2 stop serving (Short 2)", out)

    def test_the_devices_of_a_host_by_osd_df_tree(self):
        for path in self.room.glob("*.crush.json"):
            path.unlink()
        nodes = [{"id": -1, "name": "all", "type": "root", "children": [-2]}, {"id": -2, "name": "h9", "type": "host", "children": [3, 2]}]
        (self.room / "df.json").write_text(json.dumps({"nodes": [*nodes, {"id": 2, "name": "osd.2", "type": "osd"}], "stray": [], "summary": {}}))
        self.assertIn("If host h9 stopped: 2 devices\n", self.told("what-if", "--stop", "host:h9"))

    def test_faults(self):
        for words, wanted in (((), "wants --stop PLACE, or --each KIND"), (("--stop", "osd.0", "--each", "osd"), "wants --stop"),
                              (("--stop", "osd.77"), "the cluster has no osd osd.77; it has osd.0, osd.1, osd.2, osd.3"),
                              (("--stop", "host:x"), "the cluster has no host; it has root"), (("--each", "rack"), "has no rack")):
            self.assertIn(wanted, self.fault("what-if", "--program", PROGRAM, self.room, *words))


@needs_program
class Placed(Folders):
    """Where groups lie once devices are out, with a command in the place of osdmaptool."""

    def told_by_tool(self, acting, status=0):
        tool = self.folder / "bin/osdmaptool"
        tool.parent.mkdir(exist_ok=True)
        rows = "".join(f"3.{pg} raw ({acting}, p3) up ({acting}, p3) acting ({acting}, p3)\\n" for pg in (1, 2))
        tool.write_text(f'#!/bin/sh\necho "$@" >> {self.folder}/calls\nprintf "{rows}"\nexit {status}\n')
        tool.chmod(0o755)
        (self.room / "64.osdmap").write_bytes(b"\xff\x00 a map")
        env = {**os.environ, "PATH": f"{tool.parent}:{os.environ['PATH']}"}
        run = subprocess.run([*TOOL, "what-if", "--program", PROGRAM, self.room, "--stop", "osd.2"], env=env, capture_output=True, text=True)
        self.assertEqual((run.returncode, run.stderr), (0, ""))
        return run.stdout

    def test_out(self):
        out = self.told_by_tool("[3,0,1]")
        self.assertIn("2 of the touched groups are whole, 0 serve with fewer than size\nmembers, 3 have fewer than min_size", out)
        calls = (self.folder / "calls").read_text().splitlines()
        self.assertEqual([call.split()[1:] for call in calls], [["--mark-out", "2", "--adjust-crush-weight", "2:1.0", "--save"], ["--test-map-pgs-dump-all"]])
        self.assertEqual((self.room / "64.osdmap").read_bytes(), b"\xff\x00 a map")

    def test_a_tool_that_fails_is_told(self):
        self.assertIn("Once they are out: not told, since `osdmaptool", self.told_by_tool("[3]", 1))

    def test_without_a_map(self):
        self.assertIn("Once they are out: not told, since the folder has no map for osdmaptool", self.told("what-if", "--stop", "osd.2"))


class Words(unittest.TestCase):
    def test_what_ends_it(self):
        self.assertEqual(ending(reasons()), "What ends Down: start osd.0, or osd.3 and osd.5 (it may wait for backfill then)")
        self.assertEqual(ending(reasons(verdict="NoPrimary")), "It would be Down, too; what ends that: start osd.0, or osd.3 and osd.5 (it may wait for backfill then)")
        self.assertEqual(ending(reasons(ways={"any": None, "sets": [], "more": False})), "What ends Down: no start does")
        self.assertEqual(ending(reasons(blocking=[], verdict="Serve")), "")

    def test_any_so_many_devices_are_all_their_sets(self):
        shape = {"any": {"least": 2, "osds": [0, 1, 3]}, "more": False, "sets": [{"start": [0, 1], "intervals": []}]}
        self.assertEqual(need_of(reasons(ways=shape)), need((0, 1), (0, 3), (1, 3)))
        shape["any"] = {"least": 8, "osds": list(range(16))}
        self.assertTrue(need_of(reasons(ways=shape)).is_cut)

    def told(self, verdict, pool, up=(), acting=(0, 1)):
        view = {"verdict": verdict, "acting": list(acting)}
        history = History(1, 0)
        history.made = pool
        said = Said(5, "peered", list(up), list(acting), [], True)
        return group_told.Told("1.0", view, history, Epochs(), reasons(), said)

    def test_a_group_that_waits_for_backfill_says_so(self):
        wanted = "Its acting set has 1 member, and its up set enough: it waits for backfill to osd.4, and for no device that is down."
        self.assertEqual(group_told.backfill_text(self.told("Short", COPIES, up=(0, 4), acting=(0,))), wanted)
        self.assertEqual(group_told.backfill_text(self.told("Short", COPIES, up=(0,))), "")
        self.assertEqual(group_told.backfill_text(self.told("Down", COPIES, up=(0, 4))), "")

    def test_what_a_note_is_about(self):
        for thing, group, devices, wanted in (
            ("1.a of osd.3", (1, 10), set(), True), ("1.a", (1, 11), set(), False), ("pool 2 'x' has 1", (2, 0), set(), True),
            ("pool 2 'x' has 1", (1, 0), set(), False), ("osd.7 has 0.5", (1, 0), {7}, True), ("osd.7 has 0.5", (1, 0), {1}, False), ("18, 20", (1, 0), set(), True),
        ):  # fmt: skip
            self.assertEqual(folder_told.concern_of(thing).touches(group, devices), wanted, thing)

    def test_caveats_are_one_line_each(self):
        notes = Notes()
        for at in range(5):
            notes.tell("reports\x1b[31m", f"1.{at}")
        self.assertEqual(list(folder_told.caveats(notes, [], True)), ["", "not carried over: reports [31m: 1.0, 1.1, 1.2 and 2 more"])
        self.assertEqual(list(folder_told.caveats(notes, [(1, 9)], False)), [])


class Rules(unittest.TestCase):
    def test_words_of_ceph(self):
        for state, word in (("active+clean", "active"), ("stale+down", "unknown"), ("undersized+peered", "peered"), ("remapped+incomplete", "incomplete"),
                            ("creating+peering", "peering"), ("unknown", "unknown"), ("odd", "odd")):  # fmt: skip
            self.assertEqual(rules.word_of(state), word)

    def test_superseded(self):
        past = [{"first": 1, "acting": [0, 1]}, {"first": 3, "acting": [0]}, {"first": 5, "acting": [2]}]
        self.assertEqual(rules.superseded(past, COPIES), {1})


class OfParts(unittest.TestCase):
    LINES = [
        {"op": "inc", "epoch": 1, "up": [0, 1, 2]},
        {"op": "inc", "epoch": 2, "pools": [{"id": 1, "pg_num": 4, "kind": "replicated", "size": 2, "min_size": 1, "leaf": 0},
                                            {"id": 2, "pg_num": 9, "kind": "replicated", "size": 2, "min_size": 1, "leaf": 0}],
         "temp": [[1, 0, [0]], [1, 3, [1]], [2, 8, [2]]]},
        {"op": "info", "pg": [1, 3], "from": [1, 0], "stamp": 2}, {"op": "info", "pg": [2, 8], "from": [2, 0], "stamp": 2},
        {"op": "inc", "epoch": 3, "down": [1], "sizes": [[2, 3, 2]]},
    ]  # fmt: skip

    def test_some_groups_have_numbers_of_their_own(self):
        parts = Parts(self.LINES)
        part = parts.of([(1, 3), (1, 0)])
        found = [json.loads(line) for line in part.lines]
        self.assertEqual(part.names, {(1, 3): (1, 0), (1, 0): (1, 1)})
        self.assertEqual([(it["id"], it["pg_num"]) for it in found[1]["pools"]], [(1, 2)])
        self.assertEqual(sorted(found[1]["temp"]), [[1, 0, [1]], [1, 1, [0]]])
        self.assertEqual([it["pg"] for it in found if it["op"] == "info"], [[1, 0]])
        self.assertNotIn("sizes", found[-1])
        self.assertEqual([json.loads(line) for line in parts.whole()], self.LINES)

    def test_with_a_tree_numbers_stay(self):
        lines = [{**self.LINES[0], "crush": [{"id": -1}]}, *self.LINES[1:]]
        part = Parts(lines).of([(1, 3)])
        self.assertEqual(part.names, {(1, 3): (1, 3)})
        self.assertEqual(json.loads(part.lines[1])["pools"][0]["pg_num"], 4)

    def test_who_is_up_and_how_large_pools_are(self):
        parts = Parts(self.LINES)
        self.assertEqual((parts.is_down(1), parts.is_down(0), parts.is_down(9), parts.epoch()), (True, False, False, 3))
        self.assertEqual((parts.pool((2, 8)).size, parts.pool((1, 0)).size), (3, 2))
        self.assertEqual(list(parts.heard((1, 3), 1)), [])
        self.assertEqual(list(parts.heard((2, 8), 1)), [(2, 0)])


@needs_program
class Broken(Folders):
    def test_dumps_that_are_broken_end_with_one_line(self):
        rng = random.Random(11)
        whole = {path.name: path.read_text() for path in self.room.iterdir()}
        for verb in (("explain",), ("explain", "3.0"), ("plan",), ("what-if", "--each", "osd")):
            for _ in range(4):
                name = rng.choice(sorted(whole))
                (self.room / name).write_bytes(broken(rng, whole[name], whole["64.osd.json"]))
                status, out, err = written(verb[0], "--program", PROGRAM, self.room, *verb[1:])
                self.assertIn(status, (0, 2), err)
                self.assertEqual((err.count("\n"), bool(out)), (1, False) if status else (0, True), err)
                (self.room / name).write_text(whole[name])


if __name__ == "__main__":
    unittest.main()
