"""Tests of the verb `report`: that the page's data are what the program and the dumps say."""

import base64
import gzip
import json
import re
import shutil
import subprocess
import unittest

from case import HAS_PROGRAM, MAPS, PROGRAM, TOOL, Room, written
from report_data import HOSTILE
from pgpeer_ceph.cluster import Cluster
from pgpeer_ceph.maps import group_text
from pgpeer_ceph.report import VERDICTS, seconds_of
from pgpeer_ceph.steps import UNKNOWN, History, answers


def data_in(text):
    """The data of a page."""
    return json.loads(gzip.decompress(base64.b64decode(re.search(r'id="data">([^<]*)<', text)[1])))


def turns_of(data, name):
    """The verdicts of a group by epoch, as the page has them."""
    groups = data["groups"]
    at = names_of(data).index(name)
    place, epoch, found = sum(groups["runs"][:at]), data["first"], {}
    turns = list(zip(groups["turns"], groups["verdicts"]))[place : place + groups["runs"][at]]
    for each in range(data["first"], data["last"] + 1):
        while turns and epoch + turns[0][0] <= each:
            epoch, verdict = epoch + turns[0][0], VERDICTS[turns.pop(0)[1]]
            found[each] = verdict
        found.setdefault(each, found.get(each - 1))
    return found


def spans_of(data, name):
    """The intervals of a group: first epochs, acting sets and flags."""
    groups = data["groups"]
    at, epoch, found = names_of(data).index(name), data["first"], []
    for place in range(sum(groups["spans"][:at]), sum(groups["spans"][: at + 1])):
        epoch += groups["begins"][place]
        found.append((epoch, data["sets"][groups["acting"][place]], groups["flags"][place]))
    return found


def names_of(data):
    return [f"{data['pools'][pool]['id']}.{seed:x}" for pool, seed in zip(data["groups"]["pool"], data["groups"]["seed"])]


@unittest.skipUnless(HAS_PROGRAM, f"no program {PROGRAM}")
class Report(Room):
    def report(self, folder, *words):
        path = self.folder / "cluster.html"
        status, out, err = written("report", folder, "--program", PROGRAM, "-o", path, *words)
        self.assertEqual((status, out, err), (0, "", ""))
        return data_in(path.read_text())

    def verdicts_by_prefixes(self, folder):
        """The verdicts of all groups by epoch, from the script cut after each epoch."""
        cluster = Cluster(str(folder), PROGRAM)
        lines = [json.loads(line) for line in cluster.parts.whole()]
        found = {}
        for epoch in range(cluster.epochs.first, cluster.last.key("epoch").count() + 1):
            own = cluster.epochs.in_script(epoch)
            end = next((at for at, line in enumerate(lines) if line["op"] == "inc" and line["epoch"] > own), len(lines))
            for group in cluster.groups:
                script = cluster.in_script(group)
                view = answers(PROGRAM, [*map(json.dumps, lines[:end]), json.dumps({"op": "ask", "pg": script})])[-1]
                history = History(*script)
                for line in lines[:end]:
                    history.take(line)
                is_unknown = view["verdict"] == "Waiting" and len(history.unheard(view)) == len(view["probe"])
                found[group_text(group), epoch] = UNKNOWN if is_unknown else view["verdict"]
        return found

    def test_each_verdict_of_each_epoch_is_the_programs(self):
        for name in ("outage", "straw2-outage"):
            data = self.report(MAPS / name)
            wanted = self.verdicts_by_prefixes(MAPS / name)
            found = {(group, epoch): verdict for group in names_of(data) for epoch, verdict in turns_of(data, group).items()}
            self.assertEqual(found, wanted, name)

    def test_the_intervals_are_the_programs_with_the_epochs_of_ceph(self):
        data = self.report(MAPS / "outage")
        self.assertEqual((data["first"], data["last"]), (17, 26))
        self.assertEqual([(first, acting) for first, acting, _ in spans_of(data, "1.0")],
                         [(17, [0, 1, 2]), (18, [0, 1]), (20, [0]), (22, []), (23, [1]), (25, [1, 2])])
        self.assertEqual([flags & 5 for *_, flags in spans_of(data, "1.0")], [1, 1, 5, 0, 5, 4])

    def test_who_blocks_and_what_helps(self):
        data = self.report(MAPS / "outage")
        self.assertEqual(data["blockers"], [{"osd": 0, "blocks": 4, "since": 22}])
        self.assertEqual([(it["what"], it["count"], it["groups"]) for it in data["helps"]["steps"]], [("Start osd.0", 4, ["1.0", "1.1", "1.2", "1.3"])])
        why = data["why"]["0"]
        self.assertIn("epochs 20 to 21", why["says"])
        self.assertEqual(len(why["helps"]), 1)
        self.assertTrue(why["helps"][0].startswith("What ends Down: start osd.0 "))
        self.assertIn("declare osd.0 lost", why["losses"][0])
        self.assertIn("declare osd.0 lost", data["helps"]["losses"][0]["what"])
        self.assertEqual(data["serving"], 0)

    def test_the_table_of_what_if(self):
        data = self.report(MAPS / "straw2-outage", "--each", "osd")
        self.assertEqual(data["whatIf"]["head"][:4], ["Device", "Devices up", "Groups touched", "Stop serving"])
        self.assertEqual({row[0] for row in data["whatIf"]["rows"]}, {f"osd.{osd}" for osd in range(4)})
        rack = self.report(MAPS / "straw2-outage", "--each", "rack")
        self.assertEqual(rack["whatIf"], data["whatIf"])
        self.assertTrue(any(it.startswith("what if a rack stops: the cluster has no rack") for it in rack["notes"]))

    def test_the_states_of_devices_and_of_ceph(self):
        data = self.report(MAPS / "outage")
        self.assertEqual({it["id"]: it["runs"] for it in data["devices"]},
                         {0: [[17, 6], [22, 5]], 1: [[17, 6], [20, 5], [23, 6]], 2: [[17, 6], [18, 5], [25, 6]]})
        self.assertEqual([data["states"][it] for it in data["groups"]["state"]], ["down", "", "", ""])
        self.assertEqual(data["pools"][0]["name"], "rbd")

    def test_the_clock(self):
        folder = self.folder / "dumps"
        shutil.copytree(MAPS / "outage", folder)
        for name, text in (("a-healthy", "2026-11-25T14:10:53.894488+0000"), ("c-osd1-down", "2026-11-25 15:11:00.5"), ("d-blocked", "soon")):
            osdmap = json.loads((folder / f"{name}.osd.json").read_text())
            (folder / f"{name}.osd.json").write_text(json.dumps({**osdmap, "modified": text}))
        data = self.report(folder)
        self.assertEqual(data["clock"], [1795615853, None, None, None, 3607, *[None] * 5])
        for text, wanted in (("2026-11-25T14:10:53+0100", 1795612253), ("2026-11-25T14:10:53-01:30", 1795621253), (None, None), ("2026-99-99 00:00:00", None), (7, None)):
            self.assertEqual(seconds_of(text), wanted, text)

    def test_names_that_are_hostile(self):
        folder = self.folder / "dumps"
        shutil.copytree(MAPS / "outage", folder)
        for path in folder.glob("*.json"):
            text = path.read_text().replace('"rbd"', json.dumps(HOSTILE)).replace('"default"', json.dumps(HOSTILE)).replace("7dcb7a0e", "</title><script>")
            path.write_text(text)
        page = self.folder / "cluster.html"
        self.assertEqual(written("report", folder, "--program", PROGRAM, "-o", page)[0], 0)
        text = page.read_text()
        self.assertEqual((text.count("<script"), text.count("<title"), "\x1b" in text), (2, 1, False))
        self.assertEqual(data_in(text)["pools"][0]["name"], HOSTILE)

    def test_the_same_dumps_give_the_same_page(self):
        made = re.compile(r" on \d{4}-\d\d-\d\d \d\d:\d\d UTC")
        pages = []
        for _ in range(2):
            self.report(MAPS / "outage")
            pages.append(made.sub("", (self.folder / "cluster.html").read_text()))
        self.assertEqual(*pages)

    def test_a_full_disk_a_closed_pipe_and_no_folder(self):
        words = [*TOOL, "report", MAPS / "outage", "--program", PROGRAM]
        with open("/dev/full", "w") as full:
            run = subprocess.run(words, stdout=full, stderr=subprocess.PIPE, text=True)
        self.assertEqual((run.returncode, run.stderr), (2, "pgpeer-ceph: error: writing: No space left on device\n"))
        run = subprocess.run(["bash", "-c", 'ulimit -f 8; "$@"', "bash", *map(str, words), "-o", str(self.folder / "x.html")], capture_output=True, text=True)
        self.assertEqual((run.returncode, len(run.stderr.splitlines())), (2, 1), run.stderr)
        self.assertEqual(list(self.folder.iterdir()), [])
        for path in (self.folder / "nowhere", self.folder):
            status, out, err = written("report", path, "--program", PROGRAM)
            self.assertEqual((status, out, len(err.splitlines())), (2, "", 1), err)


if __name__ == "__main__":
    unittest.main()
