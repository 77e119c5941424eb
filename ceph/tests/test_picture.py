"""Tests of pictures of groups."""

import json
import os
import pathlib
import re
import subprocess
import tempfile
import unittest
import xml.etree.ElementTree as xml

from case import HAS_PROGRAM, PROGRAM, ROOT, TOOL
from case import written as written_by
from pgpeer_ceph import marks as svg, picture as pictures
from pgpeer_ceph.columns import MOST_COLUMNS, folded
from pgpeer_ceph.steps import Group, History, Pool, Step, answers, followed, may_touch, without_intervals

POOL = Pool("replicated", None, 3, 2)
SVG = "{http://www.w3.org/2000/svg}"


def step(epoch, first=1, acting=(0, 1, 2), verdict="Serve", blocked=(), unheard=(), intervals=(), op="inc"):
    """A step with such an answer."""
    primary = next((it for it in acting if it is not None), None)
    view = {"epoch": epoch, "first": first, "acting": list(acting), "up": list(acting), "acting_primary": primary, "verdict": verdict, "blocked_by": list(blocked), "intervals": list(intervals), "missing": [], "best": None, "probe": [*unheard, (99, 0)]}
    return Step(op, [], view, list(unheard))


def interval(first, last, acting, rw):
    return {"first": first, "last": last, "up": list(acting), "acting": list(acting), "acting_primary": acting[0], "rw": rw}


def picture(steps, pool=POOL):
    return pictures.Picture(Group("1.0", pool, steps))


def drawn(steps, pool=POOL):
    return xml.fromstring(picture(steps, pool).svg())


def marks(root, kind):
    """The rectangles of a kind, except the sample in the legend."""
    return [node for node in root.iter(f"{SVG}rect") if node.get("class") == kind and node.find(f"{SVG}title") is not None]


def written(words):
    """The status of a call, and what it wrote to standard output and to standard error."""
    return written_by("draw", *words)


class Heard(unittest.TestCase):
    def history(self, *stamps):
        history = History(1, 0)
        history.take({"op": "inc", "epoch": 3, "up": [0, 1]})
        for stamp in stamps:
            history.take({"op": "info", "pg": [1, 0], "from": [0, 0], "stamp": stamp})
        return history

    def test_a_report_of_the_current_interval_counts(self):
        self.assertTrue(self.history(3).heard((0, 0), 2))
        self.assertTrue(self.history(5, 2).heard((0, 0), 5))
        self.assertFalse(self.history(4).heard((0, 0), 5))

    def test_a_report_from_before_the_boot_does_not_count(self):
        self.assertFalse(self.history(2).heard((0, 0), 1))

    def test_a_report_of_a_device_that_is_down_or_of_another_slot_does_not_count(self):
        history = self.history(4)
        self.assertFalse(history.heard((0, 1), 3))
        history.take({"op": "inc", "epoch": 5, "down": [0]})
        self.assertFalse(history.heard((0, 0), 3))

    def test_a_pool_has_the_size_that_was_given_last(self):
        history = History(2, 0)
        history.take({"op": "inc", "epoch": 1, "pools": [{"id": 2, "kind": "replicated", "size": 3, "min_size": 2}]})
        history.take({"op": "inc", "epoch": 2, "sizes": [[1, 5, 5], [2, 4, 1]]})
        self.assertEqual(history.made.text(), "replicated pool, size 4, min_size 1")

    def test_a_report_of_another_group_does_not_count(self):
        history = self.history()
        history.take({"op": "info", "pg": [1, 1], "from": [0, 0], "stamp": 4})
        self.assertFalse(history.heard((0, 0), 1))


class Columns(unittest.TestCase):
    def test_few_steps_have_a_column_each(self):
        self.assertEqual([len(it.steps) for it in folded([step(e) for e in range(1, 201)])], [1] * 200)

    def test_the_longest_run_is_folded_first(self):
        steps = [step(e, first=1 if e < 150 else 150) for e in range(1, 202)]
        columns = folded(steps)
        self.assertEqual([len(it.steps) for it in columns], [1, 148] + [1] * 52)
        self.assertFalse(any(it.is_mixed() for it in columns))

    def test_where_each_step_changes_the_oldest_are_folded(self):
        columns = folded([step(e, first=e) for e in range(1, 301)])
        self.assertEqual(len(columns), 200)
        self.assertEqual([len(it.steps) for it in columns[:2]], [101, 1])
        self.assertTrue(columns[0].is_mixed())

    def test_no_step_is_lost(self):
        for change in (1, 2, 3, 7, 50):
            steps = [step(e, first=e // change) for e in range(1000)]
            columns = folded(steps)
            self.assertLessEqual(len(columns), 200)
            self.assertEqual([it for column in columns for it in column.steps], steps)


class NeverHidden(unittest.TestCase):
    """Intervals that are never folded away, however many there are."""

    PAST = [interval(e, e + 1, [9] if e == 11 else [e % 7], e in (11, 41, 71) or e % 5 == 0) for e in range(1, 1999, 2)]

    def steps(self, les):
        steps = [step(e, first=e - 1 + e % 2, blocked=(9,)) for e in range(1, 2001)]
        last = step(2000, first=1999, blocked=(9,), verdict="Down", intervals=self.PAST)
        last.view["les"] = les
        return [*steps[:-1], last]

    def test_what_blocks_and_what_may_have_gone_read_write_last(self):
        drawing = picture(self.steps(0))
        self.assertLessEqual(len(drawing.columns), MOST_COLUMNS)
        shown = {span.first for span in drawing.spans if drawing.places[span.first]}
        self.assertIn(11, shown)
        self.assertIn(max(it["first"] for it in self.PAST if it["rw"]), shown)
        self.assertEqual([it for column in drawing.columns for it in column.steps], drawing.group.steps)

    def test_who_has_to_be_heard_of_few_intervals_that_matter(self):
        wanted = {it["first"] for it in self.PAST if it["rw"] and it["last"] >= 1900}
        drawing = picture(self.steps(1900))
        self.assertLessEqual(wanted, {span.first for span in drawing.spans if drawing.places[span.first]})

    def test_a_picture_of_thousands_of_intervals_is_small(self):
        text = picture(self.steps(0)).svg()
        self.assertLess(len(text), 400_000)
        xml.fromstring(text)


class Touches(unittest.TestCase):
    def test_entries_that_may_change_something_for_a_group(self):
        for entry, wanted in (({"down": [4]}, True), ({"down": [5]}, False), ({"up_thru": [[4, 1]]}, True), ({"lost": [[6, 1]]}, False),
                              ({"weight": [[6, 1]]}, True), ({"temp": [[1, 0, [6]]]}, True), ({"temp": [[1, 1, [4]]]}, False), ({}, False)):
            self.assertEqual(may_touch({"op": "inc", "epoch": 2, **entry}, [1, 0], {4}), wanted, entry)
        self.assertTrue(may_touch({"op": "info", "pg": [1, 0]}, [1, 0], set()))
        self.assertFalse(may_touch({"op": "info", "pg": [1, 1]}, [1, 0], set()))

    def test_an_answer_without_its_intervals(self):
        line = b'{"first":3,"intervals":[{"acting":[1]}],"les":0,"missing":[]}'
        self.assertEqual(without_intervals(line), b'{"first":3,"intervals":[],"les":0,"missing":[]}')
        self.assertEqual(without_intervals(b"{}"), b"{}")


class Bars(unittest.TestCase):
    PAST = [interval(1, 2, [0, 1, 2], True), interval(3, 3, [1, 2], False)]
    STEPS = [step(1), step(2), step(3, 3, [1, 2]), step(4, 4, [2], "Down", blocked=[0, 1], intervals=PAST)]

    def test_each_member_of_an_interval_has_a_bar_of_its_kind(self):
        root = drawn(self.STEPS)
        bars = {kind: marks(root, kind) for kind in ("wrote", "idle", "now")}
        self.assertEqual({kind: len(found) for kind, found in bars.items()}, {"wrote": 3, "idle": 2, "now": 1})
        self.assertEqual(float(bars["wrote"][0].get("x")), pictures.LEFT + 0.5)

    def test_bars_follow_each_other(self):
        drawing = picture(self.STEPS)
        self.assertEqual([drawing.columns_of(span) for span in drawing.spans], [(0, 2), (2, 3), (3, 4)])

    def test_the_devices_that_block_are_marked(self):
        tips = [node.find(f"{SVG}title").text for node in marks(drawn(self.STEPS), "blocks")]
        self.assertEqual(tips, [f"osd.{osd} is down and may come back" for osd in (0, 1)])

    def test_who_has_to_be_heard_is_marked_while_the_group_waits(self):
        self.assertEqual(pictures.waited_by(step(1, verdict="Waiting", unheard=[(3, 0)])), {3: "unheard"})
        self.assertEqual(pictures.waited_by(step(1, verdict="NoPrimary", unheard=[(3, 0)])), {})

    def test_it_is_unknown_where_no_report_of_the_interval_was_kept(self):
        steps = [step(1, verdict="Waiting", unheard=[(0, 0), (1, 0)]), step(2, verdict="Waiting", unheard=[(0, 0)]), step(3)]
        steps[0].view["probe"] = [(0, 0), (1, 0)]
        self.assertEqual([it.verdict() for it in steps], ["Unknown", "Waiting", "Serve"])
        root = drawn(steps)
        self.assertIn("epoch 1, Unknown: no report of this interval was kept so far", [it.text for it in root.iter(f"{SVG}title")])
        self.assertEqual([it.find(f"{SVG}title").text for it in marks(root, "unheard")], ["osd.0 has yet to be heard"])
        self.assertEqual(drawn(steps[:1]).find(f".//{SVG}text[3]").text, "At the end: Unknown: no report of this interval was kept so far")

    def test_entries_have_no_letters(self):
        words = [it.text for it in drawn([step(1), step(1, op="info"), step(2, op="entries"), step(3, op="close")]).iter(f"{SVG}text")]
        self.assertFalse({"m", "i", "e", "c", "entry", "map", "info", "log entries", "close"} & set(words), words)

    def test_shards_and_empty_places_are_told(self):
        erasure = Pool("erasure", 2, 3, 2)
        words = [node.text for node in drawn([step(1, acting=[4, None, 5])], erasure).iter(f"{SVG}text")]
        for text in ("0", "2", "no device", "erasure pool, size 3, min_size 2, any 2 shards are enough"):
            self.assertIn(text, words)

    def test_an_interval_by_a_report_alone_has_a_line_in_its_bars(self):
        group = Group("1.0", POOL, self.STEPS, frozenset({1}))
        root = xml.fromstring(pictures.Picture(group).svg())
        lines = [node for node in root.iter(f"{SVG}rect") if node.get("class") == "on-wrote"]
        self.assertEqual(len(lines), 3 + 1)  # one is the legend's
        self.assertTrue(all(node.find(f"{SVG}title").text.endswith("may have gone read-write, as a report says that the group was clean in it")
                            for node in marks(root, "wrote")))
        self.assertIn("so by a report alone", [node.text for node in root.iter(f"{SVG}text")])
        self.assertFalse([node for node in drawn(self.STEPS).iter(f"{SVG}rect") if node.get("class") == "on-wrote"])

    def test_a_grouped_pool_is_drawn_by_place_and_its_parts_are_told(self):
        grouped = Pool("grouped", None, 3, 2, [[[0, 1], 1], [[2], 1]])
        words = [node.text for node in drawn([step(1, acting=[4, None, 5])], grouped).iter(f"{SVG}text")]
        for text in ("0", "2", "no device", "grouped pool, size 3, min_size 2, enough with 1 of shards 0-1 and shard 2"):
            self.assertIn(text, words)
        self.assertEqual([grouped.are_enough(slots) for slots in ([0], [1, 2], [0, 1], [])], [False, True, False, False])

    def test_a_grouped_pool_is_short_of_members_or_of_a_part(self):
        grouped = Pool("grouped", None, 4, 2, [[[0, 1], 1], [[2, 3], 1]])
        for acting, why in (([4, 5, None, None], "the shards of the acting set aren't enough"), ([4, None, 5, None], "too few members")):
            tips = [node.text for node in drawn([step(1, acting=acting, verdict="Short")], grouped).iter(f"{SVG}title")]
            self.assertEqual(sum(tip.startswith("epoch 1, Short: ") and tip.endswith(why) for tip in tips), 1, tips)

    def test_a_pool_of_many_parts_is_told_as_far_as_there_is_room(self):
        grouped = Pool("grouped", None, 16, 16, [[[slot], 1] for slot in range(16)])
        told = next(node.text for node in drawn([step(1)], grouped).iter(f"{SVG}text") if node.text.startswith("grouped pool"))
        self.assertTrue(told.endswith("\u2026"))
        self.assertLess(svg.room_for(told), pictures.LEAST_WIDTH - 100)

    def test_the_oldest_columns_are_veiled_where_they_are_one(self):
        past = [interval(e, e, [0, 1, 2], False) for e in range(1, 300)]
        steps = [step(e, first=e, intervals=past[: e - 1]) for e in range(1, 301)]
        root = drawn(steps)
        self.assertEqual([node.find(f"{SVG}title").text for node in marks(root, "fold")], ["epochs 1 to 101: 101 entries"])
        self.assertEqual(len(marks(root, "idle")), 198 * 3)

    def test_it_has_both_colour_schemes_and_no_script(self):
        text = picture(self.STEPS).svg()
        self.assertIn("prefers-color-scheme:dark", text)
        self.assertNotIn("<script", text)
        self.assertIsNone(re.search(r"\son\w+=|href", text))

    def test_labels_of_epochs_keep_apart(self):
        for count in (3, 12, 60, 200):
            root = drawn([step(e, first=e) for e in range(1000, 1000 + count)])
            places = [(float(it.get("x")), it.text) for it in root.iter(f"{SVG}text") if it.get("class") == "small soft"]
            ends = [x + svg.room_for(text, 10) for x, text in places]
            self.assertTrue(all(end < x for end, (x, _) in zip(ends, places[1:])))

    def test_epochs_that_are_passed_over_are_told(self):
        root = drawn([step(20), step(22), step(22, op="info"), step(30, 30, intervals=[interval(20, 29, [0, 1, 2], True)])])
        words, tips = ([node.text for node in root.iter(f"{SVG}{kind}")] for kind in ("text", "title"))
        self.assertEqual([it for it in words if it.isdigit()], ["20", "22", "30"])
        self.assertEqual([it for it in tips if "passed over" in it], ["epoch 21: passed over, with the map of epoch 20",
                                                                     "epochs 23 to 29: passed over, with the map of epoch 22"])
        self.assertIn("osd.0, epochs 20 to 29: may have gone read-write", tips)
        self.assertIn("epochs are passed over", words)
        self.assertNotIn("passed over", picture(self.STEPS).svg())

    def test_the_colours_have_contrast(self):
        for scheme in (svg.LIGHT, svg.DARK):
            pairs = [("text", "page"), ("soft", "page"), ("text", "band")]
            pairs += [(f"on-{kind}", kind) for kind in ("wrote", "idle", "now")]
            inks = [("on-Unknown" if verdict == "Unknown" else "on-verdict", verdict) for verdict in svg.LETTERS]
            for ink, ground in pairs + inks:
                self.assertGreaterEqual(contrast(scheme[ink], scheme[ground]), 4.5, (ink, ground))
            for shape in ("wrote", "idle", "now-edge", "blocks", "unheard", "boots", "falls"):
                self.assertGreaterEqual(contrast(scheme[shape], scheme["page"]), 3, shape)


def contrast(ink, ground):
    """The contrast ratio of two colours (WCAG 2)."""
    def light(colour):
        parts = [int(colour[at : at + 2], 16) / 255 for at in (1, 3, 5)]
        red, green, blue = (it / 12.92 if it <= 0.04045 else ((it + 0.055) / 1.055) ** 2.4 for it in parts)
        return 0.2126 * red + 0.7152 * green + 0.0722 * blue

    lights = sorted((light(ink), light(ground)))
    return (lights[1] + 0.05) / (lights[0] + 0.05)


class BadInput(unittest.TestCase):
    def setUp(self):
        folder = tempfile.TemporaryDirectory()
        self.addCleanup(folder.cleanup)
        self.folder = pathlib.Path(folder.name)

    def script(self, text):
        path = self.folder / "script.jsonl"
        path.write_text(text)
        return str(path)

    def assert_error(self, text, status_and_texts):
        status, out, err = status_and_texts
        self.assertEqual((status, out), (2, ""))
        self.assertTrue(err.splitlines()[-1].startswith("pgpeer-ceph: error: "), err)
        self.assertIn(text, err)

    def test_no_group(self):
        for words in ("1", "1.", "x.0", "1.g", "0.0", "256.0", "1.400"):
            self.assert_error(f"'{words}'", written([self.script(""), words]))

    def test_no_file_and_no_program(self):
        self.assert_error("nowhere: No such file", written([str(self.folder / "nowhere"), "1.0"]))
        script, program = self.script('{"op":"inc","epoch":1}'), str(self.folder / "none")
        self.assert_error("none: No such file", written(["--program", program, script, "1.0"]))

    def test_a_line_that_is_not_json(self):
        self.assert_error("script.jsonl, line 2 is not JSON", written([self.script('{"op":"inc","epoch":1}\n{"op"\n'), "1.0"]))
        self.assert_error("script.jsonl, line 1 is no object with a key 'op'", written([self.script("[]\n"), "1.0"]))

    @unittest.skipUnless(HAS_PROGRAM, f"no program {PROGRAM}")
    def test_a_group_that_is_not_in_the_map(self):
        told = "makes no group 9.0; it has 1.0"
        self.assert_error(told, written(["--program", PROGRAM, str(ROOT / "examples/outage.jsonl"), "9.0"]))

    def test_a_picture_that_fails_leaves_no_file(self):
        picture_path = self.folder / "group.svg"
        script = self.script('{"op":"inc","epoch":1}')
        self.assert_error("none: No such file", written(["--program", str(self.folder / "none"), "-o", str(picture_path), script, "1.0"]))
        self.assertEqual([path.name for path in self.folder.iterdir()], ["script.jsonl"])
        self.assert_error("false ended with status 1", written(["--program", "false", script, "1.0"]))
        self.assert_error("echo gave an answer that is not JSON", written(["--program", "echo", script, "1.0"]))

    @unittest.skipUnless(HAS_PROGRAM, f"no program {PROGRAM}")
    def test_a_full_disk_a_closed_pipe_and_no_folder(self):
        script = ROOT / "examples/blocked.jsonl"
        words = [*TOOL, "draw", "--program", PROGRAM, script, "1.0"]
        with open("/dev/full", "w") as full:
            run = subprocess.run(words, stdout=full, stderr=subprocess.PIPE, text=True)
        self.assertEqual((run.returncode, run.stderr), (2, "pgpeer-ceph: error: writing: No space left on device\n"))
        end, begin = os.pipe()
        os.close(end)
        run = subprocess.run(words, stdout=begin, stderr=subprocess.PIPE, text=True)
        os.close(begin)
        self.assertEqual((run.returncode, run.stderr), (2, "pgpeer-ceph: error: writing: Broken pipe\n"))
        status, _, err = written(["--program", PROGRAM, "-o", str(self.folder / "none/x.svg"), str(script), "1.0"])
        self.assertEqual((status, len(err.splitlines())), (2, 1))

    @unittest.skipUnless(HAS_PROGRAM, f"no program {PROGRAM}")
    def test_a_script_from_standard_input_and_some_of_its_epochs(self):
        script = (ROOT / "examples/blocked.jsonl").read_text()
        words = [*TOOL, "draw", "--program", PROGRAM, "--from", "4", "--to", "7", "-", "1.0"]
        run = subprocess.run(words, input=script, capture_output=True, text=True)
        self.assertEqual((run.returncode, run.stderr), (0, ""))
        self.assertIn("At the end: Down. It waits for osd.0 and osd.1", run.stdout)
        tips = [node.text for node in xml.fromstring(run.stdout).iter(f"{SVG}title")]
        epochs = {int(found[1]) for found in (re.match(r"epoch (\d+), ", tip) for tip in tips) if found}
        self.assertEqual(epochs, {4, 5, 6, 7})


@unittest.skipUnless(HAS_PROGRAM, f"no program {PROGRAM}")
class Examples(unittest.TestCase):
    def group(self, name, pool, pg):
        return followed(PROGRAM, str(ROOT / f"examples/{name}.jsonl"), pool, pg)[0]

    def test_a_group_waits_just_while_someone_is_unheard(self):
        for name, pool, pg in (("outage", 1, 0), ("blocked", 1, 0), ("lost_shard", 2, 3), ("reports", 1, 0), ("map", 1, 5),
                               ("clean", 1, 0), ("grouped", 1, 3)):
            for it in self.group(name, pool, pg).steps:
                if it.view["verdict"] not in ("NoPrimary", "Down"):
                    self.assertEqual(it.view["verdict"] == "Waiting", bool(it.unheard), (name, it))

    def test_intervals_by_report_are_those_that_only_reports_tell(self):
        for name, pool, pg in (("outage", 1, 0), ("blocked", 1, 0), ("lost_shard", 2, 3), ("ceph_outage", 1, 0), ("grouped", 1, 3)):
            self.assertEqual(self.group(name, pool, pg).by_report, set(), name)
        self.assertEqual(self.group("clean", 1, 0).by_report, {2})

    def test_a_refused_entry_is_told_and_not_drawn(self):
        status, out, err = written(["--program", PROGRAM, str(ROOT / "examples/map.jsonl"), "1.5"])
        self.assertEqual(status, 0)
        self.assertIn("map.jsonl, line 3 was refused: AlreadyUp\n", err)
        self.assertIn("map.jsonl, line 8 was refused: UnknownKey (leaf)\n", err)
        self.assertEqual(len(self.group("map", 1, 5).steps), 4)

    def test_the_answers_beside_the_examples_are_the_programs(self):
        for name in ("blocked", "lost_shard", "ceph_outage", "clean", "grouped"):
            lines = (ROOT / f"examples/{name}.jsonl").read_text().splitlines()
            said = answers(PROGRAM, lines)
            kept = (ROOT / f"examples/{name}.answers.jsonl").read_text().splitlines()
            self.assertEqual(said, [json.loads(line) for line in kept])


if __name__ == "__main__":
    unittest.main()
