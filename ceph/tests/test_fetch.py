"""Tests of the verb `fetch`, with commands that print kept dumps in the place of Ceph's, and fail as they are told."""

import json
import os
import pty
import shutil
import subprocess
import sys
import unittest

from case import MAPS, TOOL, Room

STRAW2 = MAPS / "straw2-outage"
# Of each line of the file `faults`: the words that a call has to have, how often it fails before it works, and how.
FAKE = """\
#!{python} -SE
import os, pathlib, sys, time
dumps, room, words = pathlib.Path({dumps!r}), pathlib.Path({room!r}), sys.argv[1:]
name = pathlib.Path(sys.argv[0]).name
with open(room / "calls", "a") as calls:
    calls.write(" ".join([name, *words]) + "\\n")
for line in (room / "faults").read_text().splitlines():
    text, count, how = line.split("|")
    if text in " ".join([name, *words]):
        failed = room / ("failed-" + "".join(it if it.isalnum() else "_" for it in text))
        before = len(failed.read_bytes()) if failed.exists() else 0
        if before < int(count):
            with open(failed, "ab") as file:
                file.write(b"x")
            if how == "cut":
                print('{{"epoch":')
                sys.exit(0)
            if how == "slow":
                time.sleep(60)
            sys.exit("Error " + how)
def text_of(name):
    path = room / name
    return (path if path.exists() else dumps / name).read_text()
if name == "crushtool":
    print(text_of("50.crush.json"))
elif name == "osdmaptool":
    print(text_of(pathlib.Path(words[0]).read_text() + ".groups.txt"))
elif "report" in words:
    print('{{"osdmap_first_committed":50,"osdmap_last_committed":64}}')
elif words[:2] == ["pg", "dump"]:
    print("\\n" + text_of("pgs.json"))
elif words[:3] == ["osd", "df", "tree"]:
    print('{{"nodes":[],"stray":[],"summary":{{}}}}')
elif words[:3] == ["osd", "crush", "dump"]:
    print(text_of("50.crush.json"))
elif words[:2] == ["osd", "dump"]:
    print(text_of((words[2] if words[2] != "--format" else "64") + ".osd.json"))
elif words[:2] in (["osd", "getcrushmap"], ["osd", "getmap"]):
    sys.stdout.write(words[2])
elif words[2:3] == ["tell"] and words[3] != "4.1":
    print(text_of(words[3] + ".query.json"))
else:
    sys.exit("Error ENXIO: no such group")
"""
GROUPS = ("3.0", "3.1", "3.2", "3.3", "4.0", "4.1")


class Fetch(Room):
    def setUp(self):
        super().setUp()
        (self.folder / "bin").mkdir()
        self.out = self.folder / "out"
        self.faults()

    def faults(self, *faults):
        """Has calls fail from now on: those with a text, so many times, in this way."""
        (self.folder / "faults").write_text("".join(f"{text}|{count}|{how}\n" for text, count, how in faults))

    def commands(self, *names):
        for name in names:
            path = self.folder / "bin" / name
            path.write_text(FAKE.format(python=sys.executable, dumps=str(STRAW2), room=str(self.folder)))
            path.chmod(0o755)

    def library(self):
        """The folder of a library `rados`, of which there is none unless a test makes one."""
        path = self.folder / "lib/rados.py"
        if not path.exists():
            path.parent.mkdir(exist_ok=True)
            path.write_text("raise ImportError\n")
        return path.parent

    def calls(self):
        """The calls since the last time that this was asked."""
        path = self.folder / "calls"
        found = path.read_text().splitlines() if path.exists() else []
        path.write_text("")
        return found

    def run_tool(self, *words):
        room = {**os.environ, "PATH": str(self.folder / "bin"), "PYTHONPATH": str(self.library())}
        return subprocess.run([*TOOL, *map(str, words)], capture_output=True, text=True, env=room)

    def fetch(self, *words, since=62):
        run = self.run_tool("fetch", self.out, "--from", since, *words)
        self.assertEqual((run.returncode, run.stdout), (0, ""), run.stderr)
        return run.stderr

    def names(self):
        return {path.name for path in self.out.iterdir()}

    def notes(self):
        return json.loads((self.out / "fetch.json").read_text())["not_fetched"]


class Whole(Fetch):
    def test_what_is_fetched_is_the_script_of_the_dumps(self):
        self.commands("ceph", "crushtool", "osdmaptool")
        told = self.fetch(since=60)
        self.assertEqual(told, "pgpeer-ceph: not fetched: reports of groups that gave no answer: 4.1\n")
        wanted = {f"{epoch}.{kind}" for epoch in range(60, 65) for kind in ("osd.json", "groups.txt")}
        wanted |= {"60.crush.json", "64.osdmap", "pgs.json", "df.json", "fetch.json", *(f"{pg}.query.json" for pg in GROUPS[:5])}
        self.assertEqual(self.names(), wanted)
        run = self.run_tool("script", "--ask", self.out)
        self.assertEqual(run.returncode, 0, run.stderr)
        self.assertEqual(sum(json.loads(line)["op"] == "ask" for line in run.stdout.splitlines()), 6)
        self.assertIn("not carried: not fetched: reports of groups that gave no answer: 4.1\n", run.stderr)

    def test_groups_that_are_not_active_are_asked_first_and_maps_last(self):
        self.commands("ceph")
        self.fetch("--jobs", 1)
        calls = self.calls()
        asked = [call.split()[4] for call in calls if " tell " in call]
        self.assertEqual(set(asked[-2:]), {"3.1", "3.2"})  # which are active
        self.assertEqual(calls[0], "ceph pg dump --format json")
        self.assertLess(calls.index("ceph osd df tree --format json"), calls.index("ceph report --format json"))
        self.assertTrue(all(call.endswith("--format json") or " osd get" in call for call in calls), calls)

    def test_maps_go_up_to_the_last_epoch_that_a_report_names(self):
        self.commands("ceph")
        for group in GROUPS[:5]:
            query = json.loads((STRAW2 / f"{group}.query.json").read_text())
            (self.folder / f"{group}.query.json").write_text(json.dumps({**query, "epoch": min(query["epoch"], 62)}))
        dump = json.loads((STRAW2 / "pgs.json").read_text())
        for stat in dump["pg_map"]["pg_stats"]:
            stat["reported_epoch"] = 62 if stat["state"].startswith("active") else 64  # of which no info is made
        (self.folder / "pgs.json").write_text(json.dumps(dump))
        self.fetch("--no-groups")
        self.assertEqual(max(int(name.split(".")[0]) for name in self.names() if name.endswith(".osd.json")), 62)

    def test_some_groups(self):
        self.commands("ceph")
        self.fetch("--pg", "4.0", "--pg", "3.2", "--no-groups")
        self.assertEqual({name for name in self.names() if "query" in name}, {"4.0.query.json", "3.2.query.json"})
        shutil.rmtree(self.out)
        self.fetch("--pool", 3, "--no-groups")
        self.assertEqual({name for name in self.names() if "query" in name}, {f"{pg}.query.json" for pg in GROUPS[:4]})
        run = self.run_tool("fetch", self.out, "--pg", "9.7ff")
        self.assertEqual((run.returncode, run.stderr), (2, "pgpeer-ceph: error: the cluster has no group 9.7ff\n"))

    def test_no_query_is_begun_after_the_time(self):
        self.commands("ceph")
        told = self.fetch("--seconds", 0, "--no-groups")
        self.assertEqual(sum(" tell " in call for call in self.calls()), 0)
        self.assertIn("weren't asked before the time was up (--seconds): 4.1, 4.0, 3.3, 3.0, 3.2, 3.1\n", told)
        self.assertIn("64.osd.json", self.names())

    def test_the_way_that_ceph_is_called(self):
        self.commands("ceph")
        (self.folder / "bin/wrap").write_text('#!/bin/sh\n[ "$1" = -- ] && shift && exec "$@"\n')
        (self.folder / "bin/wrap").chmod(0o755)
        self.fetch("--ceph", f"{self.folder}/bin/wrap -- ceph", "--no-groups")
        self.assertIn("64.osd.json", self.names())
        self.assertFalse([call for call in self.calls() if " -o " in call])

    def test_tools_in_the_container_of_ceph(self):
        self.commands("ceph")
        room = self.folder / "container"
        room.mkdir()
        for name in ("crushtool", "osdmaptool"):
            self.commands(name)
            (self.folder / "bin" / name).rename(room / name)
        wrap = self.folder / "bin/cephadm"
        wrap.write_text(f"""#!/bin/sh
echo "cephadm $*" >> {self.folder}/calls
shift
[ "$1" = --mount ] && shift 2
shift
PATH={room}:$PATH exec "$@"
""")
        wrap.chmod(0o755)
        self.fetch("--ceph", "cephadm shell -- ceph")
        self.assertLessEqual({"62.groups.txt", "63.groups.txt", "64.osdmap"}, self.names())
        mounted = [call for call in self.calls() if "--mount" in call]
        self.assertEqual(len(mounted), 3)
        self.assertIn(f"cephadm shell --mount {self.out}:{self.out} -- osdmaptool {self.out}/.62.getmap", " ".join(mounted))
        self.assertFalse([name for name in self.names() if name.startswith(".")])


RADOS = """\
import json, os, pathlib
room, dumps = pathlib.Path({room!r}), pathlib.Path({dumps!r})
class Rados:
    def __init__(self, name, clustername):
        self.told("rados", name, clustername)
    def told(self, *words):
        with open(room / "calls", "a") as calls:
            calls.write(" ".join(map(str, words)) + "\\n")
    def conf_read_file(self, path):
        self.told("conf", path)
    def conf_set(self, option, value):
        self.told("set", option, value)
    def connect(self):
        if (room / "refuse").exists():
            raise RuntimeError("no monitor")
    def answer(self, name):
        path = room / name if (room / name).exists() else dumps / name
        return 0, path.read_bytes(), ""
    def pg_command(self, group, text, more):
        words = json.loads(text)
        self.told("pg", text)
        if group == "4.1":
            raise TimeoutError("no answer of a group")
        return self.answer(words["pgid"] + ".query.json")
    def mgr_command(self, text, more):
        self.told("mgr", text)
        prefix = json.loads(text)["prefix"]
        if prefix == "osd df":
            return 0, b'{{"nodes":[],"stray":[],"summary":{{}}}}', ""
        return self.answer("pgs.json") if prefix == "pg dump" else (-22, b"", "command not known")
    def mon_command(self, text, more):
        words = json.loads(text)
        self.told("mon", text)
        if words["prefix"] == "report":
            return 0, b'{{"osdmap_first_committed":50,"osdmap_last_committed":64}}', ""
        if words["prefix"] == "osd crush dump":
            return self.answer("50.crush.json")
        if words["prefix"] in ("osd getmap", "osd getcrushmap"):
            return 0, str(words["epoch"]).encode(), ""
        if words.get("epoch") == 63:
            return -2, b"", "map was trimmed"
        if words["prefix"] != "osd dump":
            return -22, b"", "command not known"
        return self.answer(str(words.get("epoch", 64)) + ".osd.json")
"""


class ByLibrados(Fetch):
    def setUp(self):
        super().setUp()
        self.commands("osdmaptool", "crushtool")
        (self.library() / "rados.py").write_text(RADOS.format(room=str(self.folder), dumps=str(STRAW2)))

    def test_one_connection_serves_all_calls(self):
        told = self.fetch("--ceph", "ceph -n client.look --conf=/x/c.conf -k /x/ring", since=62)
        calls = self.calls()
        self.assertEqual(calls[:2], ["rados client.look ceph", "conf /x/c.conf"])
        self.assertIn("set keyring /x/ring", calls)
        self.assertIn("set rados_osd_op_timeout 15", calls)
        self.assertFalse([call for call in calls if call.startswith("ceph ")])
        self.assertIn('pg {"prefix": "query", "pgid": "3.0", "format": "json"}', calls)
        self.assertIn('mgr {"prefix": "osd df", "output_method": "tree", "format": "json"}', calls)
        self.assertIn('mon {"prefix": "osd getmap", "epoch": 62}', calls)
        self.assertLessEqual({"62.osd.json", "62.groups.txt", "64.osdmap", "62.crush.json", "3.0.query.json", "pgs.json"}, self.names())
        self.assertIn("gave no answer: 4.1\n", told)
        self.assertIn("after they were trimmed: epoch 63\n", told)

    def test_it_serves_a_record_too(self):
        run = self.run_tool("record", self.out, "--from", 62, "--rounds", 2, "--every", 0.01)
        self.assertEqual((run.returncode, run.stderr), (0, ""))
        self.assertIn('mgr {"prefix": "pg dump", "dumpcontents": ["pgs"], "format": "json"}', self.calls())
        self.assertLessEqual({"62.osd.json", "62.groups.txt", "64.osdmap", "62.crush.json", "3.0.query.json", "pgs.json", "df.json"}, self.names())

    def test_without_a_connection_commands_are_called(self):
        self.commands("ceph")
        (self.folder / "refuse").write_text("")
        self.fetch("--no-groups")
        self.assertTrue([call for call in self.calls() if call.startswith("ceph pg dump")])

    def test_words_that_librados_has_not_are_for_commands(self):
        self.commands("ceph")
        for words in ("ceph --verbose", f"{self.folder}/bin/ceph -x 1", "env ceph"):
            shutil.rmtree(self.out, ignore_errors=True)
            self.run_tool("fetch", self.out, "--from", 64, "--no-groups", "--seconds", 0, "--ceph", words)
            self.assertFalse([call for call in self.calls() if call.startswith("rados ")], words)


class Faults(Fetch):
    def test_each_failure_is_tried_again(self):
        self.commands("ceph", "crushtool", "osdmaptool")
        words = ("pg dump", "report", "osd dump 61", "tell 3.0", "df tree", "crush dump", "getmap 62", "osdmaptool")
        self.faults(*((text, 1, "cut" if at % 2 and "getmap" not in text else "EINTR: problem getting command descriptions") for at, text in enumerate(words)))
        self.assertEqual(self.fetch(since=60), "pgpeer-ceph: not fetched: reports of groups that gave no answer: 4.1\n")
        self.assertLessEqual({"61.osd.json", "62.groups.txt", "60.crush.json", "3.0.query.json", "pgs.json"}, self.names())

    def test_a_trimmed_epoch_is_a_note(self):
        self.commands("ceph", "crushtool", "osdmaptool")
        self.faults(*((f"osd dump {epoch}", 99, "ENOENT: map was trimmed") for epoch in (60, 61)))
        self.assertIn("maps that the monitor didn't give, as after they were trimmed: epoch 60, epoch 61\n", self.fetch(since=60))
        self.assertEqual(self.notes()["maps that the monitor didn't give, as after they were trimmed"], ["epoch 60", "epoch 61"])
        self.assertEqual(self.run_tool("script", self.out).returncode, 0)

    def test_a_second_call_goes_on(self):
        self.commands("ceph")
        self.faults(("osd dump 62", 99, "EIO"), ("tell 3.1", 99, "EIO"))
        self.fetch("--no-groups")
        before = {name: (self.out / name).stat().st_mtime_ns for name in self.names()}
        self.calls()
        self.faults()
        self.fetch("--no-groups")
        calls = self.calls()
        self.assertEqual({call.split()[3] for call in calls if " osd dump " in call and "dump --" not in call}, {"62"})
        self.assertEqual({call.split()[4] for call in calls if " tell " in call}, {"3.1", "4.1"})
        kept = {name for name in before if "osd.json" in name or "query" in name}
        self.assertEqual({name: (self.out / name).stat().st_mtime_ns for name in kept}, {name: before[name] for name in kept})
        self.assertEqual(list(self.notes()), ["reports of groups that gave no answer"])

    def test_a_query_of_another_state_is_asked_again(self):
        self.commands("ceph")
        self.fetch("--no-groups")
        self.calls()
        dump = json.loads((STRAW2 / "pgs.json").read_text())
        for stat in dump["pg_map"]["pg_stats"]:
            stat["state"] = "active+clean" if stat["pgid"] == "3.2" else stat["state"]
        (self.folder / "pgs.json").write_text(json.dumps(dump))
        self.fetch("--no-groups")
        self.assertEqual({call.split()[4] for call in self.calls() if " tell " in call}, {"3.2", "4.1"})

    def test_groups_that_are_stale_are_asked_last(self):
        self.commands("ceph")
        dump = json.loads((STRAW2 / "pgs.json").read_text())
        next(it for it in dump["pg_map"]["pg_stats"] if it["pgid"] == "3.0")["state"] = "stale+down"
        (self.folder / "pgs.json").write_text(json.dumps(dump))
        self.fetch("--no-groups", "--jobs", 1)
        self.assertEqual([call.split()[4] for call in self.calls() if " tell " in call][-1], "3.0")

    def test_groups_without_a_primary_are_not_asked(self):
        self.commands("ceph")
        dump = json.loads((STRAW2 / "pgs.json").read_text())
        next(it for it in dump["pg_map"]["pg_stats"] if it["pgid"] == "3.0")["acting_primary"] = -1
        (self.folder / "pgs.json").write_text(json.dumps(dump))
        self.assertIn("groups without a primary, which nobody can give: 3.0\n", self.fetch("--no-groups"))

    def test_without_pg_dump_all_groups_of_the_map_are_asked(self):
        self.commands("ceph")
        self.faults(("pg dump", 99, "EACCES: access denied"))
        told = self.fetch("--no-groups")
        self.assertIn("answers of commands that failed: `ceph pg dump --format json` ended with 1: Error EACCES: access denied\n", told)
        self.assertLessEqual({f"{pg}.query.json" for pg in GROUPS[:5]}, self.names())

    def test_without_the_report_maps_are_fetched_from_the_last_on(self):
        self.commands("ceph")
        self.faults(("report", 99, "EACCES"), *((f"osd dump {epoch} ", 99, "ENOENT") for epoch in range(1, 50)))
        self.fetch("--no-groups", since=0)
        self.assertEqual(sum(name.endswith(".osd.json") for name in self.names()), 15)

    def test_a_tree_of_old_needs_crushtool(self):
        self.commands("ceph")
        osdmap = json.loads((STRAW2 / "62.osd.json").read_text())
        (self.folder / "62.osd.json").write_text(json.dumps({**osdmap, "crush_version": 1}))
        told = self.fetch()
        self.assertIn("not fetched: trees of earlier epochs (install crushtool, of Debian's ceph-base): epoch 62\n", told)
        self.assertIn("not fetched: where groups lie in each epoch (install osdmaptool, of Debian's ceph-osd): 3 epochs\n", told)
        self.assertIn("63.crush.json", self.names())

    def test_a_folder_of_another_cluster(self):
        self.commands("ceph")
        self.out.mkdir()
        osdmap = json.loads((STRAW2 / "50.osd.json").read_text())
        (self.out / "50.osd.json").write_text(json.dumps({**osdmap, "fsid": "another"}))
        run = self.run_tool("fetch", self.out, "--from", 62)
        self.assertEqual((run.returncode, run.stderr), (2, f"pgpeer-ceph: error: {self.out} has maps of another cluster, another\n"))

    def test_faults_are_one_line(self):
        run = self.run_tool("fetch", self.out)
        self.assertEqual((run.returncode, run.stderr), (2, "pgpeer-ceph: error: ceph: No such file or directory\n"))
        self.assertEqual(self.names(), set())
        self.commands("ceph")
        run = self.run_tool("fetch", "--from", 99, self.out)
        self.assertEqual((run.returncode, run.stderr), (2, "pgpeer-ceph: error: the monitor has the maps of epochs 50 to 64\n"))
        (self.folder / "file").write_text("")
        for words in (("--ceph", "ceph -c '", self.out), (self.folder / "file",), ("--jobs", 0, self.out), ("--pg", "x", self.out)):
            run = self.run_tool("fetch", *words)
            self.assertEqual((run.returncode, len(run.stderr.splitlines())), (2, 1), run.stderr)

    def test_a_cluster_that_says_nothing(self):
        self.commands("ceph")
        self.faults(("ceph", 999, "no\x1b[31m answer"))
        run = self.run_tool("fetch", self.out)
        self.assertEqual((run.returncode, run.stderr.count("error: "), "\x1b" in run.stderr), (2, 1, False), run.stderr)
        self.assertFalse([name for name in self.names() if name != "fetch.json"])

    def test_random_answers_end_with_one_line_or_a_folder(self):
        self.commands("ceph")
        for text in ("{}", "[]", '{"pg_map":{"pg_stats":[{"pgid":"3.0"}]}}', '{"pg_stats":7}', '{"pg_stats":[{"pgid":"../x","state":"","acting_primary":1}]}'):
            (self.folder / "pgs.json").write_text(text)
            run = self.run_tool("fetch", self.out, "--no-groups", "--from", 63)
            self.assertIn(run.returncode, (0, 2))
            self.assertNotIn("Traceback", run.stderr)
            self.assertTrue(run.stderr)

    def test_progress_is_shown_on_a_terminal_alone(self):
        self.commands("ceph")
        leader, follower = pty.openpty()
        env = {**os.environ, "PATH": str(self.folder / "bin"), "PYTHONPATH": str(self.library())}
        run = subprocess.run([*TOOL, "fetch", str(self.out), "--no-groups", "--from", "62"], stderr=follower, env=env)
        os.close(follower)
        shown = os.read(leader, 100_000).decode()
        os.close(leader)
        self.assertEqual(run.returncode, 0)
        self.assertIn("\r\x1b[Kqueries: 6 of 6", shown)
        self.assertIn("\r\x1b[Kmaps 62 to 64: 3 of 3", shown)


if __name__ == "__main__":
    unittest.main()
