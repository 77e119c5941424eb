"""Tests of what a picture shows of `pgpeer explain`."""

import os
import pathlib
import sys
import tempfile
import unittest
import xml.etree.ElementTree as xml

from case import ROOT
from test_picture import HAS_PROGRAM, POOL, PROGRAM, SVG, marks, step, written
from pgpeer_ceph import picture as pictures, reasons as group_reasons
from pgpeer_ceph.epochs import Epochs
from pgpeer_ceph.marks import room_for
from pgpeer_ceph.nodes import Unusable
from pgpeer_ceph.steps import Group, followed
from pgpeer_ceph.words import ending, lost_text

BLOCKING = [{"first": 3, "last": 4, "down": [0, 1], "lacks": 1, "acting": [0, 1], "clean": None}]
DOWN = "It waits for osd.0 and osd.1, which are down: writes may have been taken in epochs 3 to 4, and too few of those who took them are at hand."


INTERVAL = {"first": 3, "last": 4, "acting": [0, 1], "down": [1], "gone": [], "lost": [0], "lost_before": [], "up": [], "writes": "away"}


def way(start=(), lost=(), intervals=(), then="Waiting", unreadable=False):
    return {"start": list(start), "lost": list(lost), "intervals": list(intervals), "then": {"says": "", "verdict": then}, "unreadable": unreadable}


def ways(*sets, more=False, any=None):
    return {"any": any, "more": more, "sets": [way(osds) for osds in sets]}


def reasons(**more):
    told = {"says": DOWN, "verdict": "Down", "blocking": BLOCKING, "ways": ways((0,), (1,)), "unheard": []}
    return group_reasons.Reasons(**{**told, **more})


def picture(steps, why, epochs=Epochs()):
    return pictures.Picture(Group("1.0", POOL, steps, why=why), epochs)


def words_of(root):
    return [node.text for node in root.iter(f"{SVG}text") if node.get("x") == "16.0"]


class Words(unittest.TestCase):
    def test_sets_of_devices(self):
        for sets, wanted in (
            (ways((0,)), "osd.0"), (ways((0,), (3, 5)), "osd.0, or osd.3 and osd.5"),
            (ways((1, 2, 3), more=True), "osd.1, osd.2 and osd.3 (there may be others)"),
            (ways((0, 1), any={"least": 2, "osds": [0, 1, 3]}), "any 2 of osd.0, osd.1 and osd.3"),
            ({**ways(), "sets": [way([0], intervals=[INTERVAL])]}, "osd.0 (without what was written in epochs 3 to 4 at least)"),
        ):  # fmt: skip
            self.assertEqual(group_reasons.sets_text(sets), wanted)

    def test_epochs_of_intervals(self):
        def of(*spans):
            return group_reasons.epochs_text([{"first": first, "last": last} for first, last in spans])

        self.assertEqual(of((7, 7)), "epoch 7")
        self.assertEqual(of((3, 4)), "epochs 3 to 4")
        self.assertEqual(of((3, 4), (7, 7), (9, 12)), "epochs 3 to 4, 7 and 9 to 12")

    def test_intervals_that_follow_on_each_other_are_told_as_one(self):
        self.assertEqual(group_reasons.epochs_text([{"first": 3, "last": 4}, {"first": 5, "last": 5}, {"first": 7, "last": 7}]), "epochs 3 to 5 and 7")

    def test_many_intervals(self):
        spans = [{"first": 2 * at, "last": 2 * at} for at in range(1, 9)]
        self.assertEqual(group_reasons.epochs_text(spans), "epochs 2, 4, 6, 8, 10, and later ones")

    def test_what_ends_down(self):
        then = "(it may wait for backfill then)"
        self.assertEqual(ending(reasons()), f"What ends Down: start osd.0, or osd.1 {then}")
        self.assertEqual(ending(reasons(verdict="NoPrimary")), f"It would be Down, too; what ends that: start osd.0, or osd.1 {then}")
        none = reasons(verdict="Waiting", blocking=[], ways=ways())
        self.assertEqual((ending(none), lost_text(none)), ("", ""))

    def test_losses_are_the_last_resort(self):
        self.assertEqual(lost_text(reasons(whole={"last_resort": []})), "")
        resort = [way([0], [1], [INTERVAL, {**INTERVAL, "first": 5, "last": 5, "writes": "readable"}]), way((), [0, 1], [], "Short", True)]
        head = "Last resort, with no way back, and for all groups of a device (image its disk, or export what it has, first)"
        wanted = f"{head}: start osd.0 and declare osd.1 lost, then Waiting (without what was written in epochs 3 to 4 at least)"
        wanted += "; or declare osd.0 and osd.1 lost, then Short, and no object can be read then"
        self.assertEqual(lost_text(reasons(whole={"last_resort": resort})), wanted)

    def test_for_whom_a_group_waits(self):
        self.assertEqual(reasons().waits(), {0: "blocks", 1: "blocks"})
        self.assertEqual(reasons(verdict="Waiting", blocking=[], unheard=[[2, 0], [3, 1]]).waits(), {2: "unheard", 3: "unheard"})
        self.assertEqual(reasons(unheard=[[2, 0]]).waits(), {0: "blocks", 1: "blocks"})


class Pictures(unittest.TestCase):
    STEPS = [step(1), step(3, 3, [0, 1]), step(5, 5, [2], "Down", blocked=[0, 1])]

    def test_the_sentence_and_what_brings_it_back_are_whole(self):
        root = xml.fromstring(picture(self.STEPS, reasons()).svg())
        words = " ".join(words_of(root))
        self.assertIn(f"At the end: Down. {DOWN}", words)
        self.assertIn(ending(reasons()), words)

    def test_what_helps_stands_above_the_chart(self):
        drawing = picture(self.STEPS, reasons())
        places = {node.text: float(node.get("y")) for node in xml.fromstring(drawing.svg()).iter("{http://www.w3.org/2000/svg}text")}
        self.assertLess(places[ending(reasons())], drawing.top - 12)

    def test_what_is_written_has_room(self):
        drawing = picture(self.STEPS, reasons())
        for words, size in [*((it, 12) for it in drawing.head), *((it, 14) for it in drawing.helps)]:
            self.assertLess(16 + room_for(words, size), drawing.width)
        self.assertLess(drawing.waits_y + pictures.WAIT * len(drawing.waited), drawing.legend_y)
        self.assertEqual(drawing.top, pictures.TOP + pictures.WORDS * (len(drawing.head) + len(drawing.helps) - 1) + 6)

    def test_what_has_no_room_is_left_out(self):
        drawing = picture(self.STEPS, reasons(ways=ways(*((osd, osd + 1) for osd in range(100)))))
        self.assertEqual(len(drawing.helps), pictures.MOST_LINES)
        self.assertTrue(drawing.helps[-1].endswith("\u2026"))

    def test_nothing_helps_a_group_that_serves(self):
        why = reasons(verdict="Serve", says="It serves, led by osd.0.", blocking=[], ways=ways())
        drawing = picture([step(1)], why)
        self.assertEqual((drawing.head, drawing.helps), (["At the end: Serve. It serves, led by osd.0."], []))

    def test_who_lacks_something_where_it_serves_is_told_in_the_words_of_the_program(self):
        last = step(1)
        last.view["missing"] = [{"member": [2, 0], "state": "missing", "objects": {"a": [1, 1], "b": [1, 2]}}]
        says = "It serves, led by osd.0. osd.2 lacks 2 objects."
        why = reasons(verdict="Serve", says=says, blocking=[], ways=ways())
        self.assertEqual(picture([last], why).head, [f"At the end: Serve. {says}"])

    def test_the_last_columns_marks_are_by_it_and_earlier_ones_by_the_answers(self):
        steps = [step(4, 4, [2], "Waiting", unheard=[(7, 0)]), step(5, 5, [2], "Down", blocked=[0])]
        drawing = picture(steps, reasons())
        self.assertEqual([drawing.waits_at(at) for at in (0, 1)], [{7: "unheard"}, {0: "blocks", 1: "blocks"}])
        self.assertEqual(drawing.waited, [0, 1, 7])
        tips = [node.text for node in xml.fromstring(drawing.svg()).iter(f"{SVG}title")]
        self.assertIn(f"epoch 5, Down. {DOWN}", tips)
        self.assertIn("epoch 4, Waiting: not heard yet: osd.7", tips)
        self.assertEqual(len(marks(xml.fromstring(drawing.svg()), "blocks")), 2)


STUB = """#!{python}
import json, sys
script = sys.stdin.read()
told = {{"says": " ".join(sys.argv[1:]) + ": " + script, "verdict": "Serve", "blocking": [], "ways": {{}}, "unheard": []}}
{then}
"""


class Program(unittest.TestCase):
    def stub(self, then):
        folder = tempfile.TemporaryDirectory()
        self.addCleanup(folder.cleanup)
        path = pathlib.Path(folder.name) / "stub"
        path.write_text(STUB.format(python=sys.executable, then=then))
        os.chmod(path, 0o755)
        return str(path)

    def test_how_it_is_asked(self):
        stub = self.stub("print(json.dumps(told))")
        self.assertEqual(group_reasons.explained(stub, ["a", "b"], "1.a").says, "explain 1.a --json --format 3: a\nb\n")
        self.assertEqual(group_reasons.explained(stub, [], "1.a").says, "explain 1.a --json --format 3: ")

    def test_epochs_in_sentences_are_ceph_s_where_they_do_not_follow_each_other(self):
        epochs = Epochs(44, 50, (45, 47))
        for said, wanted in (("in epochs 1 to 2, and too few of 3", "in epochs 45 to 47, and too few of 3"), ("since epoch 6, with 2", "since epoch 50, with 2"),
                             ("epochs 1, 2 and 7 to 8", "epochs 45, 47 and 51 to 52"), ("in epoch 3", "in epoch before 50"), ("no epoch", "no epoch")):
            self.assertEqual(group_reasons.in_ceph(said, epochs), wanted)
        blocking = [{"first": 1, "last": 2}, {"first": 7, "last": 7}]
        self.assertEqual(group_reasons.epochs_text(blocking, epochs), "epochs 45 to 47 and 51")

    def test_what_is_no_explanation(self):
        for then, told in (
            ("sys.exit('no such group')", "explain ended with status 1: no such group"), ("print('{')", "explain gave no explanation"),
            ("print('[]')", "explain gave no explanation"), ("del told['says']; print(json.dumps(told))", "explain gave no explanation"),
        ):  # fmt: skip
            with self.assertRaisesRegex(Unusable, told):
                group_reasons.explained(self.stub(then), ["{}"], "1.0")
        with self.assertRaisesRegex(Unusable, "none: No such file"):
            group_reasons.explained("/none", [], "1.0")


@unittest.skipUnless(HAS_PROGRAM, f"no program {PROGRAM}")
class Examples(unittest.TestCase):
    def test_the_pictures_say_what_the_program_says(self):
        for words in sorted(it for it in (ROOT / "examples").glob("explain_*.txt") if "." not in it.stem):
            script = words.with_suffix(".jsonl")
            status, out, err = written(["--program", PROGRAM, str(script), "1.0"])
            self.assertEqual((status, err), (0, ""), script.name)
            self.assertEqual(out, (ROOT / f"docs/{script.stem}.svg").read_text(), script.name)
            why = group_reasons.explained(PROGRAM, script.read_text().splitlines(), "1.0")
            self.assertIn(f"At the end: {why.verdict}. {why.says}", " ".join(words_of(xml.fromstring(out))))

    def test_epochs_are_those_of_the_cluster(self):
        script = str(ROOT / "examples/ceph_outage.jsonl")
        group, _ = followed(PROGRAM, script, 1, 0, epochs=Epochs(15))
        self.assertEqual(group_reasons.epochs_text(group.why.blocking, group.why.epochs), "epochs 20 to 21")
        status, out, _ = written(["--program", PROGRAM, script, "1.0"])
        self.assertIn("in epochs 20 to 21", " ".join(words_of(xml.fromstring(out))))

    def test_the_group_is_explained_at_the_last_epoch_that_is_drawn(self):
        script = str(ROOT / "examples/explain_down.jsonl")
        self.assertEqual(followed(PROGRAM, script, 1, 0, until=4)[0].why.verdict, "Serve")


if __name__ == "__main__":
    unittest.main()
