"""Tests on a cluster in Ceph's shape that is made up: what `fetch` asks, what `script` and `explain` say of each group, and that a
browser shows it by the page of `report`.

LARGE=1 has them be of 10,000 groups, 300 devices and 500 epochs, which takes some minutes; PICTURES=FOLDER keeps what the browser
shows.
"""

import collections
import json
import os
import pathlib
import resource
import subprocess
import tempfile
import time
import unittest

from browser import CHROMIUM, Browser
from case import HAS_PROGRAM, PROGRAM, TOOL
from large_cluster import FIRST, made, stand_in
from pgpeer_ceph.cluster import SERVES, Cluster
from pgpeer_ceph.maps import group_text
from pgpeer_ceph.reasons import explained
from pgpeer_ceph.report import VERDICTS as VERDICTS_OF_PAGES
from test_report import data_in, names_of, turns_of

SIZES = (10_000, 300, 500) if os.environ.get("LARGE") else (300, 60, 90)
MOST_SECONDS, MOST_BYTES = 60, 1 << 30  # of each call but `fetch`
MOST_PAGE, MOST_BUSY = 5_000_000, 2  # bytes of a page, and seconds until it is ready
VERDICTS = {"active": "Serve", "down": "Down", "peered": "Short"}


class Large(unittest.TestCase):
    @classmethod
    def setUpClass(cls):
        room = tempfile.TemporaryDirectory()
        cls.addClassCleanup(room.cleanup)
        cls.room = pathlib.Path(room.name)
        cls.cluster = made(cls.room / "dumps", *SIZES)
        cls.script, cls.page = cls.room / "large.jsonl", cls.room / "cluster.html"

    def run_tool(self, *words, **more):
        """What a call wrote; says how long it took, and the memory of the largest process until then. The bound is of seconds of a
        processor, so that a busy machine fails none."""
        begun, before = time.monotonic(), resource.getrusage(resource.RUSAGE_CHILDREN)
        run = subprocess.run([*TOOL, *map(str, words)], capture_output=True, text=True, **more)
        self.assertEqual(run.returncode, 0, run.stderr[-500:])
        after = resource.getrusage(resource.RUSAGE_CHILDREN)
        busy, size = after.ru_utime + after.ru_stime - before.ru_utime - before.ru_stime, after.ru_maxrss << 10
        if os.environ.get("LARGE"):
            print(f"{words[0]}: {time.monotonic() - begun:.1f} s, {busy:.1f} s of a processor, {size >> 20} MB at most", flush=True)
            self.assertLess(size, MOST_BYTES)
            self.assertTrue(words[0] == "fetch" or busy < MOST_SECONDS)
        return run.stdout

    def states(self):
        """Ceph's word for each group that has a primary."""
        words = ("down", "peered", "active")
        return {group.name(): next(it for it in words if it in self.cluster.state(group).split("+"))
                for group in self.cluster.groups if group.primary() >= 0}

    def test_1_fetch_asks_each_thing_once(self):
        path = stand_in(self.room, self.room / "dumps", self.cluster.epoch)
        env = {**os.environ, "PATH": f"{path}:{os.environ['PATH']}"}
        self.run_tool("fetch", self.room / "out", "--seconds", 3600, env=env)
        calls = (self.room / "calls").read_text().splitlines()
        kinds = collections.Counter(" ".join(it for it in call.split() if it.isalpha())[:18] for call in calls if "osdmaptool" not in call)
        queries = sum(" tell " in call for call in calls)
        self.assertEqual(queries, len(self.states()))
        self.assertEqual(len(set(calls)), len(calls) - 2, kinds)  # the last map is asked for once more, around its tree and as it is
        self.assertEqual(sum(kinds.values()), queries + 2 * SIZES[2] + 7, kinds)
        self.assertEqual(sum("osdmaptool" in call for call in calls), SIZES[2])
        for name in sorted(os.listdir(self.room / "dumps")):
            self.assertEqual((self.room / "out" / name).read_text(), (self.room / "dumps" / name).read_text(), name)

    def test_2_script_carries_each_group(self):
        self.run_tool("script", "--output", self.script, self.room / "dumps")
        with open(self.script, encoding="utf-8") as lines:
            entries = [json.loads(line) for line in lines]
        last = [entry["epoch"] for entry in entries if entry["op"] == "inc"][-1]
        side = json.loads((self.room / "large.epochs.json").read_text())
        self.assertEqual((last + side["offset"], sum(len(pool["groups"]) for pool in side["pools"])), (self.cluster.epoch, SIZES[0]))
        told = {(*entry["pg"],) for entry in entries if entry["op"] == "info"}
        self.assertEqual(len(told), len(self.states()))
        self.assertLess(min(side["older"]), FIRST)
        self.assertLessEqual(side["first"], FIRST)  # that of the first interval that matters

    @unittest.skipUnless(HAS_PROGRAM, "the program isn't built")
    def test_3_explain_says_what_the_cluster_says(self):
        text = self.run_tool("explain", self.script, env={**os.environ, "PGPEER": PROGRAM})
        verdicts = {line.split()[0]: line.split(": ")[1].split(",")[0] for line in text.splitlines()}
        self.assertEqual(len(verdicts), SIZES[0])
        other = {group: (state, verdicts[group]) for group, state in self.states().items() if verdicts[group] != VERDICTS[state]}
        self.assertEqual(other, {})

    @unittest.skipUnless(HAS_PROGRAM, "the program isn't built")
    def test_4_report_is_a_page_of_the_cluster(self):
        self.run_tool("report", self.room / "dumps", "-o", self.page, env={**os.environ, "PGPEER": PROGRAM})
        text = self.page.read_text()
        self.assertLess(len(text.encode()), MOST_PAGE)
        data = data_in(text)
        side = json.loads((self.room / "large.epochs.json").read_text())
        self.assertEqual((data["first"], data["last"]), (side["first"], self.cluster.epoch))
        verdicts = dict(zip(names_of(data), last_verdicts(data)))
        self.assertEqual({group: verdicts[group] for group in self.states()}, {group: VERDICTS[state] for group, state in self.states().items()})
        freed = sum(step["count"] for step in data["helps"]["steps"])
        down, serving = (sum(it == verdict for it in verdicts.values()) for verdict in ("Down", "Serve"))
        self.assertTrue(0 < down <= freed <= SIZES[0] - serving, (down, freed, serving))

    @unittest.skipUnless(HAS_PROGRAM and CHROMIUM, "no program, or no Chromium")
    def test_5_a_browser_shows_it(self):
        data, browser = data_in(self.page.read_text()), Browser()
        self.addCleanup(browser.close)
        before = browser.busy()
        browser.open(self.page)
        self.assertLess(browser.busy() - before, MOST_BUSY)
        self.assertEqual((browser.faults(), browser.asked()), ([], [f"file://{self.page}"]))
        self.assert_moves(browser, data)
        self.assert_filters(browser)
        self.assert_links(browser, data)

    @unittest.skipUnless(HAS_PROGRAM, "the program isn't built")
    def test_6_devices_of_other_groups_change_no_explanation(self):
        cluster = Cluster(str(self.room / "dumps"), PROGRAM)
        blocked = [cluster.in_script(group) for group, view in cluster.all_views().items() if view["verdict"] not in SERVES]
        for own in blocked[::len(blocked) // 20 + 1]:
            whole, alone = cluster.parts.of([own]), cluster.parts.alone(own)
            self.assertLess(sum(map(len, alone.lines)), sum(map(len, whole.lines)))
            said, other = (explained(PROGRAM, it.lines, group_text(it.names[own]), with_losses=True) for it in (whole, alone))
            self.assertEqual(said.whole, other.whole)

    def text(self, browser, selector):
        return browser.value(f"document.querySelector({json.dumps(selector)}).innerText")

    def keep_picture(self, browser, name):
        if os.environ.get("PICTURES"):
            browser.picture(os.path.join(os.environ["PICTURES"], f"{name}.png"))

    def assert_moves(self, browser, data):
        """The slider goes to an epoch, and the verdicts of then are counted."""
        self.keep_picture(browser, "begin")
        names = [f"{kind.id}.{kind.count - 1:x}" for kind in self.cluster.kinds]  # which no other name begins with
        for epoch in (self.cluster.epoch - 25, self.cluster.epoch - 35, FIRST + 1):
            browser.value(f"(() => {{ const it = document.querySelector('#slider'); it.value = {epoch}; it.dispatchEvent(new Event('change')); }})()")
            browser.until(f"document.querySelector('#epoch').value == '{epoch}'")
            rows = browser.value("[...document.querySelectorAll('#counts tr')].map((it) => [it.cells[0].innerText, Number(it.cells[1].innerText.replace(',', ''))])")
            self.assertEqual(sum(count for _, count in rows), SIZES[0])
            for name in names:
                browser.value(f"location.hash = '#epoch={epoch}&name={name}'")
                browser.until(f"document.querySelector('#rows tbody tr a').textContent === '{name}'")
                self.assertEqual(self.text(browser, "#rows tbody tr td"), turns_of(data, name)[epoch], (name, epoch))
        self.keep_picture(browser, "earlier")

    def assert_filters(self, browser):
        """Each verdict's box leaves its groups."""
        browser.open(self.page)
        for state, verdict in VERDICTS.items():
            number = browser.value(f"[...document.querySelectorAll('#verdicts input')].find((it) => it.parentElement.innerText.includes('{verdict}')).id")
            browser.value(f"document.querySelector('#{number}').click()")
            wanted = sum(it == state for it in self.states().values())
            self.assertTrue(self.text(browser, "#count").startswith(f"{wanted:,} group"), (verdict, self.text(browser, "#count")))
            browser.value(f"document.querySelector('#{number}').click()")
        self.keep_picture(browser, "filtered")

    def assert_links(self, browser, data):
        """A step's group leads to its picture, and a device that blocks to the groups that it blocks."""
        browser.open(self.page)
        name = data["helps"]["steps"][0]["groups"][0]
        browser.value(f"document.querySelector('#steps a[href=\"#group={name}\"]').click()")
        browser.until(f"document.querySelector('#group-head').textContent === 'Group {name}'")
        self.assertIn(self.states()[name], self.text(browser, "#ceph"))
        self.assertTrue(browser.value("document.querySelectorAll('#chart rect').length"))
        self.keep_picture(browser, "group")
        blocker = data["blockers"][0]
        browser.value("document.querySelector('#blockers tbody tr:first-child td:last-child button').click()")
        self.assertTrue(self.text(browser, "#count").startswith(f"{blocker['blocks']:,} group"), self.text(browser, "#count"))


def last_verdicts(data):
    """The verdicts of all groups in the last epoch."""
    at, found = 0, []
    for runs in data["groups"]["runs"]:
        at += runs
        found.append(VERDICTS_OF_PAGES[data["groups"]["verdicts"][at - 1]])
    return found


if __name__ == "__main__":
    unittest.main()
