"""Tests of the verb `record`, with a cluster of kept dumps that goes on from map to map."""

import json
import os
import pathlib
import shutil
import signal
import subprocess
import sys
import time
import unittest

import test_fetch
from case import HAS_PROGRAM, PROGRAM, TOOL
from pgpeer_ceph.cluster import Cluster
from pgpeer_ceph.kept_infos import is_asked, within_room
from pgpeer_ceph.notes import Notes
from pgpeer_ceph.reports import Info
from pgpeer_ceph.timeline import Timeline
from test_fetch import STRAW2

# The commands of test_fetch, in a cluster whose last epoch a file names.
FAKE = test_fetch.FAKE.replace('else "64"', 'else (room / "last").read_text()').replace(
    """'{{"osdmap_first_committed":50,"osdmap_last_committed":64}}'""",
    """'{{"osdmap_first_committed":%s,"osdmap_last_committed":%s}}' % ((room / "first").read_text(), (room / "last").read_text())""")


class Record(test_fetch.Fetch):
    def setUp(self):
        super().setUp()
        for name in ("ceph", "crushtool", "osdmaptool"):
            path = self.folder / "bin" / name
            path.write_text(FAKE.format(python=sys.executable, dumps=str(STRAW2), room=str(self.folder)))
            path.chmod(0o755)
        (self.folder / "first").write_text("50")
        self.reach(62)

    def reach(self, epoch, **states):
        """The cluster has its map of this epoch, and groups are in other states since."""
        part = self.folder / "part"
        part.write_text(str(epoch))
        os.replace(part, self.folder / "last")
        dump = json.loads((STRAW2 / "pgs.json").read_text())
        for stat in dump["pg_map"]["pg_stats"]:
            stat["reported_epoch"] = min(stat["reported_epoch"], epoch)
            stat["state"] = states.get(f"pg_{stat['pgid'].replace('.', '_')}", stat["state"])
        part.write_text(json.dumps(dump))
        os.replace(part, self.folder / "pgs.json")

    def record(self, *words, rounds=1, every=0.01):
        run = self.run_tool("record", self.out, "--rounds", rounds, "--every", every, *words)
        self.assertEqual((run.returncode, run.stdout), (0, ""), run.stderr)
        return run.stderr

    def started(self, *words):
        """A call that goes on by itself."""
        room = {**os.environ, "PATH": str(self.folder / "bin")}
        call = [*TOOL, "record", str(self.out), "--every", "0.05", *map(str, words)]
        run = subprocess.Popen(call, stdout=subprocess.PIPE, stderr=subprocess.PIPE, text=True, env=room)
        self.addCleanup(run.kill)
        return run

    def ended(self, run, number=signal.SIGTERM):
        begin = time.monotonic()
        run.send_signal(number)
        out, err = run.communicate(timeout=20)
        self.assertLess(time.monotonic() - begin, 5)
        self.assertEqual((run.returncode, out), (0, ""), err)
        self.assert_whole()
        return err

    def until(self, is_so):
        for _ in range(400):
            if self.out.is_dir() and is_so():
                return
            time.sleep(0.05)
        self.fail(f"it isn't so after 20 seconds: {sorted(self.names())}")

    def assert_whole(self):
        self.assertFalse([name for name in self.names() if name.startswith(".") and name != ".lock"])
        for path in self.out.glob("*.json"):
            json.loads(path.read_text())

    def maps(self):
        return sorted(int(name.split(".")[0]) for name in self.names() if name.endswith(".osd.json"))

    def deltas(self):
        return [json.loads((self.out / name).read_text())["pg_stats"] for name in sorted(self.names()) if name.endswith("Z.pgs.json")]


class Rounds(Record):
    def test_the_first_round_keeps_what_fetch_keeps(self):
        self.record("--from", 60)
        fixed = {"60.crush.json", "62.osdmap", "pgs.json", "df.json", "fetch.json", ".lock"}
        fixed |= {f"{epoch}.{kind}" for epoch in (60, 61, 62) for kind in ("osd.json", "groups.txt")}
        fixed |= {f"{pg}.query.json" for pg in ("3.0", "3.3", "4.0")}  # of those that aren't active; 4.1 has no answer
        self.assertLessEqual(fixed, self.names())
        self.assertEqual([len(it) for it in self.deltas()], [6])
        self.assertEqual(len(self.names() - fixed), 1)
        self.assertEqual(self.run_tool("script", self.out).returncode, 0)

    def test_each_new_map_and_what_changes_is_kept(self):
        self.reach(62, pg_3_1="active+clean")
        self.record("--from", 62)
        self.reach(64, pg_3_1="active+clean+scrubbing+deep", pg_4_0="active+clean")
        self.record()
        self.assertEqual(self.maps(), [62, 63, 64])
        self.assertEqual([it["pgid"] for it in self.deltas()[1]], ["4.0"])
        self.assertIn("4.0.64.query.json", self.names())
        self.assertNotIn("4.0.query.json", self.names())
        self.assertEqual({it["pgid"]: it["state"] for it in json.loads((self.out / "pgs.json").read_text())["pg_stats"]}["4.0"], "active+clean")

    def test_nothing_new_is_nothing_written(self):
        self.record("--from", 62)
        before = {name: (self.out / name).stat().st_mtime_ns for name in self.names() if not name.endswith(("query.json", ".lock"))}
        self.calls()
        self.record(rounds=3)
        self.assertEqual({name: (self.out / name).stat().st_mtime_ns for name in before if name in self.names()}, before)
        asked = [call for call in self.calls() if " osd dump " in f" {call} " and "dump --" not in call]
        self.assertEqual(asked, [])

    def test_it_follows_until_it_is_ended(self):
        for number in (signal.SIGTERM, signal.SIGINT):
            shutil.rmtree(self.out, ignore_errors=True)
            self.reach(60)
            run = self.started("--from", 60)
            self.until(lambda: self.maps() == [60])
            for epoch in (61, 63, 64):
                self.reach(epoch)
                self.until(lambda: self.maps()[-1] == epoch)
            self.assertEqual(self.ended(run, number), "")
            self.assertEqual(self.maps(), [60, 61, 62, 63, 64])

    def test_it_ends_while_a_command_hangs(self):
        for text in ("pg dump", "osd dump", "tell", "report"):
            shutil.rmtree(self.out, ignore_errors=True)
            (self.folder / "calls").write_text("")
            self.faults((text, 99, "slow"))
            run = self.started("--from", 62)
            self.until(lambda: text in (self.folder / "calls").read_text())
            self.assertEqual(self.ended(run), "")
            for path in self.folder.glob("failed-*"):
                path.unlink()

    def test_a_history_of_records_is_a_script(self):
        for epoch in (60, 62, 64):
            self.reach(epoch, **({"pg_3_0": "active+clean"} if epoch == 60 else {}))
            self.record("--from", 60)
        run = self.run_tool("script", "--ask", self.out)
        self.assertEqual(run.returncode, 0, run.stderr)
        infos = [json.loads(line) for line in run.stdout.splitlines() if '"op":"info"' in line]
        self.assertLess(len({info["stamp"] for info in infos}), len(infos))

    @unittest.skipUnless(HAS_PROGRAM, f"no program {PROGRAM}")
    def test_what_was_recorded_is_known_of_the_past(self):
        """Group 3.0 is said to be active in epoch 60, on osd.0 and osd.2, and is queried in epoch 64."""
        self.reach(58)
        dump = json.loads((self.folder / "pgs.json").read_text())
        for stat in dump["pg_map"]["pg_stats"]:
            if stat["pgid"] == "3.0":
                stat.update(state="active+undersized", acting=[0], up=[0], acting_primary=0, up_primary=0, mapping_epoch=56, reported_epoch=58)
        (self.folder / "pgs.json").write_text(json.dumps(dump))
        self.record("--from", 50)
        self.reach(64)
        self.record()
        timeline = Timeline(Cluster(str(self.out), PROGRAM))
        cluster = timeline.cluster
        turns = {cluster.epochs.in_ceph(epoch): verdict for epoch, verdict in timeline.turns[cluster.in_script((3, 0))]}
        self.assertEqual(turns[58], "Serve")
        self.assertEqual(list(turns.values())[-1], "Down")


class Going(Record):
    def test_a_restart_goes_on(self):
        self.record("--from", 62)
        self.reach(64)
        self.calls()
        self.record()
        calls = self.calls()
        self.assertEqual(self.maps(), [62, 63, 64])
        self.assertFalse([call for call in calls if call.startswith(("ceph osd dump 62 ", "ceph osd crush dump"))], calls)
        self.assertEqual(len(self.deltas()), 1)

    def test_what_a_killed_call_left_is_cleared(self):
        self.record("--from", 62)
        for name in (".part-x", ".62.getmap", ".62.getcrushmap"):
            (self.out / name).write_text("half")
        self.record()
        self.assert_whole()

    def test_killed_at_any_time_it_leaves_whole_files(self):
        self.reach(64)
        for at in range(8):
            run = self.started("--from", 55)
            time.sleep(0.15 + 0.12 * at)
            run.kill()
            run.communicate()
            for path in self.out.glob("[!.]*.json"):
                json.loads(path.read_text())
        self.record("--from", 55)
        self.assert_whole()
        self.assertEqual(self.epochs_kept(), self.whole_epochs(55))

    def epochs_kept(self):
        """What is kept of each epoch, and of none."""
        return {name: (self.out / name).read_text() for name in self.names() if name.endswith((".osd.json", ".crush.json", ".groups.txt", ".osdmap"))}

    def whole_epochs(self, since):
        """The same, of a call that nothing ends."""
        shutil.rmtree(self.out, ignore_errors=True)
        self.record("--from", since)
        return self.epochs_kept()

    def test_killed_within_its_first_call_it_keeps_later_what_was_lacking(self):
        self.reach(60)
        wanted = self.whole_epochs(55)
        for text in ("osd dump 57", "crush dump", "osdmaptool"):
            shutil.rmtree(self.out)
            (self.folder / "calls").write_text("")
            self.faults((text, 99, "slow"))
            run = self.started("--from", 55)
            self.until(lambda: text in (self.folder / "calls").read_text() and 60 in self.maps())
            run.kill()
            run.communicate()
            self.faults()
            self.record("--from", 55)
            self.assertEqual(self.epochs_kept(), wanted, text)

    def test_after_a_long_silence_the_monitor_is_asked_which_maps_it_has(self):
        self.reach(55)
        run = self.started("--from", 55, "--no-groups")
        self.until(lambda: "df.json" in self.names())
        for epoch in range(65, 130):
            osdmap = json.loads((STRAW2 / "64.osd.json").read_text())
            (self.folder / f"{epoch}.osd.json").write_text(json.dumps({**osdmap, "epoch": epoch}))
        (self.folder / "first").write_text("100")
        self.reach(129)
        self.until(lambda: self.maps()[-1] == 129 and "fetch.json" in self.names() and "maps that the monitor has no more" in self.notes())
        self.ended(run)
        self.assertEqual(self.maps(), [55, *range(100, 130)])

    def test_only_one_records(self):
        run = self.started("--from", 62)
        self.until(lambda: "pgs.json" in self.names())
        other = self.run_tool("record", self.out, "--rounds", 1)
        self.assertEqual((other.returncode, other.stderr), (2, f"pgpeer-ceph: error: {self.out}: another call records into it\n"))
        self.ended(run)

    def test_a_gap_is_told_once_and_kept(self):
        run = self.started("--from", 62, "--no-groups")
        self.until(lambda: "df.json" in self.names())
        self.faults(("pg dump", 6, "EIO"))
        self.until(lambda: "rounds of record without an answer" in self.notes())
        err = self.ended(run)
        self.assertEqual(err.count("no answer, which is tried again: "), 1)
        self.assertEqual(err.count("it answers again, after "), 1)
        self.assertIn("not carried: not fetched: rounds of record without an answer: 20", self.run_tool("script", self.out).stderr)

    def test_maps_that_were_trimmed_between_two_calls_are_noted(self):
        self.reach(55)
        self.record("--from", 55)
        (self.folder / "first").write_text("60")
        self.reach(62)
        self.record()
        self.assertEqual(self.maps(), [55, 60, 61, 62])
        self.assertEqual(self.notes()["maps that the monitor has no more"], ["before epoch 60"])


class Size(Record):
    def test_the_oldest_epochs_go(self):
        self.reach(64)
        self.record("--from", 50)
        whole = sum(path.stat().st_size for path in self.out.iterdir())
        self.record("--size", whole // 2)
        self.assertLessEqual(sum(path.stat().st_size for path in self.out.iterdir()), whole // 2)
        maps = self.maps()
        self.assertTrue(50 < maps[0] < 64 and maps == list(range(maps[0], 65)), maps)
        self.assertEqual([name for name in self.names() if "crush" in name], [f"{maps[0]}.crush.json"])
        self.assertEqual({int(name.split(".")[0]) for name in self.names() if name.endswith(".txt")}, set(maps))
        self.assertEqual(self.run_tool("script", self.out).returncode, 0)
        self.record("--size", whole // 2)
        self.assertEqual(self.maps(), maps)

    def test_a_tree_of_another_version_goes_with_its_epochs(self):
        for epoch in (60, 61):
            osdmap = json.loads((STRAW2 / f"{epoch}.osd.json").read_text())
            (self.folder / f"{epoch}.osd.json").write_text(json.dumps({**osdmap, "crush_version": 2}))
        self.reach(64)
        self.record("--from", 60)
        self.assertEqual({name for name in self.names() if "crush" in name}, {"60.crush.json", "62.crush.json"})
        kept = sum(path.stat().st_size for path in self.out.iterdir() if not path.name.startswith(("60.", "61.")))
        self.record("--size", kept + 2000)
        self.assertEqual({name for name in self.names() if "crush" in name}, {"62.crush.json"})
        self.assertEqual(self.run_tool("script", self.out).returncode, 0)

    def test_what_is_needed_stays(self):
        self.reach(64)
        err = self.record("--from", 60, "--size", 1)
        self.assertEqual(err, f"pgpeer-ceph: {self.out} is larger than --size, and what is left is needed\n")
        self.assertEqual(self.maps(), [64])
        self.assertLessEqual({"64.crush.json", "pgs.json", "3.0.query.json"}, self.names())
        self.assertEqual(self.run_tool("script", self.out).returncode, 0)


class Faults(Record):
    def test_words_that_are_wrong(self):
        for words in (("--every", 0), ("--every", "x"), ("--size", "2X"), ("--size", 0), ("--jobs", 0), ("--rounds", -1), ("--ceph", "'")):
            run = self.run_tool("record", self.out, *words)
            self.assertEqual((run.returncode, run.stdout), (2, ""), words)
            self.assertIn("error: ", run.stderr.splitlines()[-1])
            self.assertNotIn("Traceback", run.stderr)

    def test_a_cluster_that_says_nothing_at_first(self):
        self.faults(("ceph", 999, "no\x1b[31m answer"))
        run = self.run_tool("record", self.out)
        self.assertEqual((run.returncode, run.stderr.count("\n"), "\x1b" in run.stderr), (2, 1, False), run.stderr)
        self.assertEqual(self.names(), {".lock"})

    def test_a_full_disk(self):
        run = subprocess.run(["bash", "-c", 'ulimit -f 1; "$@"', "bash", *TOOL, "record", str(self.out), "--rounds", "1"], capture_output=True,
                             text=True, env={**os.environ, "PATH": f"{self.folder}/bin:/bin:/usr/bin"})
        self.assertEqual((run.returncode, run.stderr.count("\n")), (2, 1), run.stderr)
        self.assertIn("File too large", run.stderr)
        self.assert_whole()

    def test_the_unit_calls_the_verb_as_it_is(self):
        unit = pathlib.Path(__file__).resolve().parent.parent / "systemd/pgpeer-record@.service"
        lines = dict(line.split("=", 1) for line in unit.read_text().splitlines() if "=" in line and not line.startswith("#"))
        words = lines["ExecStart"].split()
        self.assertEqual(words[words.index("pgpeer-ceph") + 1], "record")
        if shutil.which("systemd-analyze"):
            run = subprocess.run(["systemd-analyze", "verify", str(unit)], capture_output=True, text=True)
            self.assertNotIn("pgpeer-record", run.stderr)


class Reports(unittest.TestCase):
    def info(self, stamp, pg=0, osd=0):
        return Info((1, pg), (osd, 0), stamp, 1, 1, 1, (0, 0), (0, 0), True)

    def test_the_last_of_each_member_and_then_the_latest_have_room(self):
        infos = [self.info(stamp, pg, osd) for stamp in range(1, 11) for pg in range(2) for osd in range(2)]
        notes = Notes()
        self.assertEqual(within_room(list(reversed(infos)), 40, notes), infos)
        self.assertEqual(list(notes.lines()), [])
        self.assertEqual(within_room(infos, 9, notes), infos[-9:])
        self.assertEqual(list(notes.lines()), ["older reports of members that told of a group again, since a log has no room for them: those before epoch 8"])
        early = [self.info(1, 7), *infos]
        self.assertEqual(within_room(early, 6, Notes()), [early[0], *infos[-5:]])
        self.assertEqual(within_room(early, 2, Notes()), [early[0], *infos[-4:]])

    def test_a_dump_is_left_out_where_a_query_of_its_interval_is_there(self):
        queries = [(60, 56), (64, 62)]
        wanted = {50: False, 55: False, 56: True, 60: True, 61: False, 62: True, 64: True, 65: False}
        self.assertEqual({stamp: is_asked(queries, stamp) for stamp in wanted}, wanted)
        self.assertFalse(is_asked([], 7))


if __name__ == "__main__":
    unittest.main()
