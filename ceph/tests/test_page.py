"""Tests of the page of a report in a browser: that it loads, and that filters, slider, links and keys do what they say."""

import json
import os
import pathlib
import tempfile
import time
import unittest

import case  # noqa: F401, which finds the package
import report_data
from browser import CHROMIUM, Browser
from pgpeer_ceph.one_file import page

WORDS = "[...document.querySelectorAll('#rows tbody tr')].map((it) => it.innerText.split('\\t').map((word) => word.trim()))"


@unittest.skipUnless(CHROMIUM, "no Chromium")
class Page(unittest.TestCase):
    @classmethod
    def setUpClass(cls):
        cls.room = tempfile.TemporaryDirectory()
        cls.folder = pathlib.Path(cls.room.name)
        cls.browser = Browser()
        cls.data = report_data.data_of(240, 30, 60, seed=2, name=report_data.HOSTILE)
        cls.small = cls.folder / "small.html"
        cls.small.write_text(page("Cluster <img src=x onerror=alert(1)>", "made & kept", cls.data))

    @classmethod
    def tearDownClass(cls):
        cls.browser.close()
        cls.room.cleanup()

    def open(self, address=""):
        self.browser.open(self.small, address)

    def text(self, selector):
        return self.browser.value(f"document.querySelector({json.dumps(selector)}).innerText")

    def click(self, selector):
        self.browser.value(f"document.querySelector({json.dumps(selector)}).click()")

    def rows(self):
        return self.browser.value(WORDS)

    def verdict(self, group, epoch):
        """The verdict that the data have of a group in an epoch."""
        groups, first = self.data["groups"], self.data["first"]
        at, found = sum(groups["runs"][:group]), None
        for place in range(at, at + groups["runs"][group]):
            first += groups["turns"][place]
            found = groups["verdicts"][place] if first <= epoch else found
        return found


class Loads(Page):
    def test_it_loads_without_a_fault_and_nothing_from_elsewhere(self):
        self.open()
        self.assertEqual(self.browser.faults(), [])
        self.assertEqual(self.browser.asked(), [f"file://{self.small}"])
        self.assertEqual(self.browser.value("document.querySelectorAll('[src],[href^=\"http\"],link,img,iframe').length"), 0)

    def test_names_are_words_and_not_marks(self):
        self.open()
        self.assertEqual(self.text("h1"), "Cluster <img src=x onerror=alert(1)>")
        self.assertEqual(self.browser.value("document.querySelectorAll('b[onerror], img, main script').length"), 0)
        self.assertIn(report_data.HOSTILE, self.browser.value("document.querySelector('#pool').options[1].textContent"))
        self.assertIn(report_data.HOSTILE, self.browser.value("document.querySelector('#notes').textContent"))

    def test_a_script_that_gets_in_does_not_run(self):
        self.open()
        self.browser.value("(() => { const it = document.createElement('script'); it.textContent = 'window.ran = 1'; document.body.append(it); })()")
        self.assertIsNone(self.browser.value("window.ran"))

    def test_what_helps_is_first_and_large_and_losses_are_folded_away(self):
        self.open()
        self.assertEqual(self.browser.value("document.querySelector('main section').id"), "helps")
        self.assertIn("Start osd.", self.text("#steps li b"))
        sizes = self.browser.value("['#steps li b', 'p'].map((it) => parseFloat(getComputedStyle(document.querySelector(it)).fontSize))")
        self.assertGreater(sizes[0], 1.3 * sizes[1])
        self.assertFalse(self.browser.value("document.querySelector('#losses').open"))
        self.assertFalse(self.browser.value("document.querySelector('#losses li').checkVisibility()"))

    def test_a_cluster_without_groups_and_one_epoch(self):
        data = report_data.data_of(0, 0, 1)
        path = self.folder / "none.html"
        path.write_text(page("None", "", data))
        self.browser.open(path)
        self.assertEqual(self.browser.faults(), [])
        self.assertIn("0 groups of 0", self.text("#count"))


class Epochs(Page):
    def test_the_slider_shows_the_cluster_of_its_epoch(self):
        self.open()
        for epoch in (1000, 1017, 1042, 1059):
            self.browser.value(f"(() => {{ const it = document.querySelector('#slider'); it.value = {epoch}; it.dispatchEvent(new Event('input')); it.dispatchEvent(new Event('change')); }})()")
            self.browser.until(f"document.querySelector('#epoch').value == '{epoch}'")
            wanted = {}
            for group in range(240):
                name = ("Down", "", "", "Short", "", "", "", "Serve")[self.verdict(group, epoch)]
                wanted[name] = wanted.get(name, 0) + 1
            rows = self.browser.value("[...document.querySelectorAll('#counts tr')].map((it) => [it.cells[0].innerText, Number(it.cells[1].innerText)])")
            self.assertEqual(dict(rows), wanted)
            second = sum(self.data["clock"][: epoch - 999])
            self.assertEqual(self.text("#clock"), time.strftime("%Y-%m-%d %H:%M:%S UTC", time.gmtime(second)))
            self.assertIn(f"Epoch {epoch}, ", self.text("#now"))
            down = sum(bool([it for it in device["runs"] if it[0] <= epoch][-1][1] == 4) for device in self.data["devices"])
            self.assertIn(f"{30 - down} of 30 devices are up", self.text("#devices-text"))

    def test_keys_move_the_slider(self):
        self.open()
        self.browser.value("document.querySelector('#slider').focus()")
        self.browser.press("ArrowLeft", 37)
        self.browser.until("document.querySelector('#epoch').value == '1058'")
        self.browser.press("Home", 36)
        self.browser.until("document.querySelector('#epoch').value == '1000'")
        self.assertIn("epoch=1000", self.browser.value("location.hash"))
        self.assertTrue(self.browser.value("document.querySelector('#slider').getAttribute('aria-valuetext')").startswith("Epoch 1000, 2025-"))

    def test_buttons_go_from_change_to_change(self):
        self.open("#epoch=1000")
        seen = [1000]
        for _ in range(4):
            self.click("#later")
            seen.append(int(self.browser.value("document.querySelector('#epoch').value")))
        self.assertEqual(seen, sorted(set(seen)))
        begins = {run[0] for device in self.data["devices"] for run in device["runs"]}
        self.assertLessEqual(set(seen[1:]), begins | {1059})
        self.click("#earlier")
        self.assertEqual(int(self.browser.value("document.querySelector('#epoch').value")), seen[-2])
        self.click("#end")
        self.assertEqual(self.browser.value("document.querySelector('#epoch').value"), "1059")


class Filters(Page):
    def expected(self, is_wanted, epoch=1059):
        return sum(is_wanted(group, self.verdict(group, epoch)) for group in range(240))

    def test_verdicts(self):
        self.open()
        self.click("#verdict-0")
        self.assertEqual({row[0] for row in self.rows()}, {"Down"})
        self.assertEqual(len(self.rows()), self.expected(lambda _, verdict: verdict == 0))
        self.click("#verdict-3")
        self.assertEqual(len(self.rows()), self.expected(lambda _, verdict: verdict in (0, 3)))
        self.assertIn("verdict=Down,Short", self.browser.value("location.hash"))
        self.click("#filters button[type=reset]")
        self.browser.until("location.hash === ''")
        self.assertTrue(self.text("#count").startswith("240 groups of 240"))

    def test_a_device_a_name_and_a_pool(self):
        self.open("#osd=osd.7")
        acting = self.browser.value("[...document.querySelectorAll('#rows tbody tr')].map((it) => it.cells[3].innerText + it.cells[4].innerText)")
        self.assertTrue(acting)
        self.assertTrue(all("7" in it.replace(".", " ").replace("[", " ").replace(",", " ").replace("]", " ").split() for it in acting), acting)
        self.open("#name=1.a")
        self.assertEqual({row[1] for row in self.rows()}, {f"1.{it:x}" for it in range(240) if f"{it:x}".startswith("a")})
        self.open("#pool=1")
        self.assertTrue(self.text("#count").startswith("240 groups"))

    def test_pages_of_rows(self):
        self.open()
        self.assertEqual((len(self.rows()), self.text("#place")), (100, "1 to 100"))
        first = self.rows()[0]
        self.click("#more")
        self.click("#more")
        self.assertEqual((len(self.rows()), self.text("#place")), (40, "201 to 240"))
        self.assertTrue(self.browser.value("document.querySelector('#more').disabled"))
        self.click("#back")
        self.click("#back")
        self.assertEqual(self.rows()[0], first)

    def test_heads_sort(self):
        self.open()
        self.assertEqual(self.browser.value("document.querySelector('#head-verdict').getAttribute('aria-sort')"), "ascending")
        self.assertEqual(self.rows()[0][0], "Down")
        self.click("#head-verdict button")
        self.assertEqual(self.rows()[0][0], "Serve")
        self.click("#head-name button")
        self.assertEqual([row[1] for row in self.rows()[:3]], ["1.0", "1.1", "1.2"])

    def test_counts_and_blockers_are_links_to_their_groups(self):
        self.open()
        self.click("#counts tr:first-child button")
        self.assertEqual({row[0] for row in self.rows()}, {"Down"})
        self.assertEqual(self.browser.value("document.activeElement.id"), "groups")
        blocks = self.data["blockers"][0]
        self.click("#blockers tbody tr:first-child td:last-child button")
        self.assertEqual(len(self.rows()), blocks["blocks"])
        self.assertIn(f"that osd.{blocks['osd']} blocks", self.text("#count"))


class Group(Page):
    def down(self):
        return next(iter(self.data["why"]))

    def test_a_link_shows_a_group(self):
        group = self.down()
        self.open(f"#group=1.{group:x}")
        self.assertEqual(self.text("#group-head"), f"Group 1.{group:x}")
        self.assertIn(self.data["why"][group]["says"], self.text("#says"))
        self.assertIn(self.data["why"][group]["helps"][0], self.text("#group-helps"))
        self.assertFalse(self.browser.value("document.querySelector('#group-helps details').open"))
        self.assertEqual(self.browser.value("document.activeElement.id"), "group")
        self.assertTrue(self.browser.value("document.querySelectorAll('#rows tbody tr').length"))

    def test_its_intervals_are_drawn_and_told(self):
        group = max(range(240), key=lambda it: self.data["groups"]["spans"][it])
        self.open(f"#group=1.{group:x}")
        spans = self.data["groups"]["spans"][group]
        self.browser.value("document.querySelector('#spans').open = true")
        rows = self.browser.value("[...document.querySelectorAll('#spans tbody tr')].map((it) => it.innerText)")
        self.assertEqual(len(rows), spans)
        bars = self.browser.value("[...document.querySelectorAll('#chart rect.wrote title, #chart rect.idle title, #chart rect.now title')].map((it) => it.textContent)")
        begins = self.data["groups"]["begins"][sum(self.data["groups"]["spans"][:group]):][:spans]
        acting = self.data["groups"]["acting"][sum(self.data["groups"]["spans"][:group]):][:spans]
        self.assertEqual(len(bars), sum(len(self.data["sets"][it]) for it in acting))
        epoch = 1000 + sum(begins[:2])
        self.assertTrue(any(f"epochs {epoch} to " in it for it in bars), bars)

    def test_keys_open_and_close_it(self):
        self.open()
        self.browser.value("document.querySelector('#rows tbody a').focus()")
        name = self.browser.value("document.activeElement.textContent")
        self.browser.press("Enter", 13, "\r")
        self.browser.until("!document.querySelector('#group').hidden")
        self.assertEqual(self.text("#group-head"), f"Group {name}")
        self.browser.press("Escape", 27)
        self.browser.until("document.querySelector('#group').hidden")
        self.assertEqual(self.browser.value("document.activeElement.textContent"), name)

    def test_the_way_back_of_the_browser(self):
        self.open()
        self.browser.value("location.hash = '#group=1.5'")
        self.browser.until("document.querySelector('#group-head').textContent === 'Group 1.5'")
        self.browser.value("location.hash = '#group=1.6'")
        self.browser.until("document.querySelector('#group-head').textContent === 'Group 1.6'")
        self.browser.value("history.back()")
        self.browser.until("document.querySelector('#group-head').textContent === 'Group 1.5'")

    def test_addresses_that_name_nothing(self):
        for address in ("#group=9.9", "#epoch=x", "#epoch=99999999", "#verdict=Nothing", "#pool=77", "#nowhere", "#%E0%A4%A", "#blocker=x"):
            self.open(address)
            self.assertEqual(self.browser.faults(), [], address)
            self.assertTrue(self.browser.value("!document.querySelector('main').hidden && document.querySelector('#count').textContent.length > 5"), address)


class Everyone(Page):
    def test_each_control_has_a_name_for_a_screen_reader(self):
        self.open(f"#group=1.{next(iter(self.data['why'])):x}")
        named = self.browser.names()
        roles = {"button", "link", "checkbox", "textbox", "combobox", "slider", "spinbutton", "image", "img", "table", "DisclosureTriangle"}
        unnamed = [it for it in named if it[0] in roles and not it[1].strip()]
        self.assertEqual(unnamed, [])
        self.assertIn(("slider", "Epoch"), named)
        self.assertTrue({"main", "navigation", "heading", "status", "columnheader", "rowheader"} <= {role for role, _ in named})
        self.assertEqual(self.browser.value("[...document.querySelectorAll('[id]')].length - new Set([...document.querySelectorAll('[id]')].map((it) => it.id)).size"), 0)

    def test_everything_is_reached_by_the_key_tab(self):
        self.open()
        self.browser.value("document.body.focus()")
        seen = set()
        for _ in range(60):
            self.browser.press("Tab", 9)
            seen.add(self.browser.value("document.activeElement.id || document.activeElement.parentElement.id || document.activeElement.tagName"))
        self.assertLessEqual({"slider", "epoch", "earlier", "later", "end"}, seen)

    def test_colours_have_contrast_in_light_and_in_dark(self):
        for scheme in ("light", "dark"):
            self.browser.call("Emulation.setEmulatedMedia", features=[{"name": "prefers-color-scheme", "value": scheme}])
            self.open(f"#group=1.{next(iter(self.data['why'])):x}")
            pairs = self.browser.value("""[...document.querySelectorAll('h1, p, a, .mark, .osd, button, summary, td, th, #steps b')].map((it) => {
              let ground = it;
              while (ground && /rgba\\(0, 0, 0, 0\\)/.test(getComputedStyle(ground).backgroundColor)) ground = ground.parentElement;
              return [it.tagName + '.' + it.className, getComputedStyle(it).color, ground ? getComputedStyle(ground).backgroundColor : 'rgb(255, 255, 255)', it.disabled || !it.checkVisibility()];
            })""")
            weak = {(name, ink, ground) for name, ink, ground, is_off in pairs if not is_off and contrast(ink, ground) < 4.5}
            self.assertEqual(weak, set(), scheme)
            page_is_dark = lightness(self.browser.value("getComputedStyle(document.body).backgroundColor")) < 0.2
            self.assertEqual(page_is_dark, scheme == "dark")
        self.browser.call("Emulation.setEmulatedMedia", features=[])

    def test_a_narrow_window_has_nothing_beyond_its_edge(self):
        self.browser.call("Emulation.setDeviceMetricsOverride", width=420, height=900, deviceScaleFactor=1, mobile=False)
        self.open()
        self.assertLessEqual(self.browser.value("document.documentElement.scrollWidth"), 420)
        self.browser.call("Emulation.clearDeviceMetricsOverride")


def lightness(colour):
    parts = [float(it) / 255 for it in colour[colour.index("(") + 1 : -1].split(",")[:3]]
    red, green, blue = (it / 12.92 if it <= 0.04045 else ((it + 0.055) / 1.055) ** 2.4 for it in parts)
    return 0.2126 * red + 0.7152 * green + 0.0722 * blue


def contrast(ink, ground):
    lights = sorted((lightness(ink), lightness(ground)))
    return (lights[1] + 0.05) / (lights[0] + 0.05)


class Large(Page):
    def test_ten_thousand_groups_and_two_thousand_epochs(self):
        text = page("Large", "", report_data.data_of(10_000, 300, 2_000))
        self.assertLess(len(text.encode()), 5_000_000)
        path = self.folder / "large.html"
        path.write_text(text)
        before = self.browser.busy()
        self.browser.open(path)
        ready = self.browser.busy() - before
        self.browser.value("""(() => {
          const slider = document.querySelector('#slider');
          for (let at = 0; at < 10; at++) { slider.value = 1100 + 150 * at; slider.dispatchEvent(new Event('change')); document.body.offsetHeight; }
        })()""")
        moved = (self.browser.busy() - before - ready) / 10
        before = self.browser.busy()
        self.browser.value("new Promise((done) => { location.hash = '#group=1.1a'; setTimeout(done, 50); })")
        self.browser.until("document.querySelector('#group-head').textContent === 'Group 1.1a'")
        drawn = self.browser.busy() - before
        seconds = self.browser.value("Number(document.documentElement.dataset.ready)") / 1000
        if os.environ.get("LARGE"):
            print(f"{len(text):,} bytes, ready after {seconds:.2f} s, of which the page's thread {ready:.2f} s; a move of the slider {moved:.3f} s, a group {drawn:.3f} s")
        self.assertLess(ready, 2)
        self.assertLess(moved, 0.2)
        self.assertLess(drawn, 0.5)


if __name__ == "__main__":
    unittest.main()
