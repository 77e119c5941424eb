"""Tests of fuzz.py, with programs that are the model itself, or the model with a fault."""

import json
import os
import pathlib
import random
import sys
import tempfile
import unittest

HERE = pathlib.Path(__file__).resolve().parent
sys.path.insert(0, str(HERE.parent))

import codes  # noqa: E402
import fuzz  # noqa: E402
import grammar  # noqa: E402
import grouped  # noqa: E402
import hostile  # noqa: E402
import lines  # noqa: E402
import model  # noqa: E402
import rules  # noqa: E402

SOUND = f"""#!{sys.executable}
import sys
sys.path.insert(0, {str(HERE.parent)!r})
import model
"""
WRONG = "model.Model.locate = lambda self, question: model.Answer('{}', 'locate', 0)\n"


def program(folder, *more):
    file = pathlib.Path(folder) / "program"
    file.write_text(SOUND + "".join(more) + "model.main()\n")
    os.chmod(file, 0o755)
    return [str(file)]


class Scripts(unittest.TestCase):
    def test_a_seed_says_all(self):
        others = fuzz.repository_lines()
        first, second = (fuzz.story(random.Random("a"), others) for _ in range(2))
        self.assertEqual(first, second)
        self.assertNotIn(b"\n", b"".join(first.lines))

    def test_a_seed_says_all_after_other_scripts(self):
        for seed in range(10_000):
            hostile.by_value(random.Random(seed), {"op": "inc", "epoch": 1})
        self.assertEqual(hostile.ODD_VALUES[7:12], ([], {}, [[]], [0], {"a": 1}))

    def test_unchanged_lines_are_mostly_taken(self):
        log = model.Model()
        story = grammar.Story(random.Random(1), log)
        found = [log.answer(grammar.compact(story.line())) for _ in range(300)]
        self.assertGreater(sum(answer.code == 0 for answer in found), 250)

    def test_incrementals_pass_over_epochs(self):
        taken = refused = 0
        for seed in range(12):
            log = model.Model(3)
            story = grammar.Story(random.Random(seed), log)
            for _ in range(150):
                answer = log.answer(grammar.compact(story.line()))
                taken += "incrementals that pass over epochs" in answer.about
                refused += answer.code == 10
        self.assertGreater(taken, 20)
        self.assertLess(refused, taken // 4)

    def test_each_epoch_gap(self):
        for last, first in ((2, {"op": "inc", "epoch": 3}), (3, {"op": "inc", "v": 3, "epoch": 3, "after": 2})):
            log, found = model.Model(last), set()
            for epoch in (1, 2):
                log.answer(grammar.compact({"op": "inc", "epoch": epoch, "up": [epoch]}))
            for seed in range(200):
                line = dict(first)
                rules.epoch_gap(random.Random(seed), line, log.maps, [1, 2])
                self.assertEqual(log.answer(grammar.compact(line)).code, 10, line)
                found.add((line.get("after", 2) == 2, line["epoch"] > 2))
            self.assertEqual(found, {(True, True), (True, False)} if last == 2 else {(True, False), (False, True)})

    def test_scripts_of_the_first_form_and_others(self):
        found = set()
        for seed in range(12):
            log = model.Model()
            story = grammar.Story(random.Random(seed), log)
            text = b""
            for _ in range(150):
                line = grammar.compact(story.line())
                log.answer(line)
                text += line
            has_new = any(it in text for it in (b'"v":', b"last_epoch_clean", b"grouped"))
            self.assertEqual(has_new, not story.is_first_form)
            found.add(has_new)
        self.assertEqual(found, {True, False})

    def scripts(self, kind):
        others = fuzz.repository_lines()
        return [kind(random.Random(seed), others) for seed in range(8)]

    def test_traces_have_grouped_codes_or_the_first_form(self):
        counts = set()
        for script in self.scripts(fuzz.traces):
            found = [answer for answer in script.answers if answer]
            self.assertGreater(sum(answer.code == 0 for answer in found), 100)
            counts.add(sum("traces of grouped codes" in answer.about for answer in found))
        self.assertTrue(0 in counts and max(counts) > 20, counts)

    def test_wide_maps_are_taken_with_their_pools(self):
        taken = set()
        for script in self.scripts(fuzz.wide):
            made = script.answers[1]
            taken.add((made.code, "incrementals with grouped pools" in made.about, "v" in json.loads(script.lines[1])))
        self.assertLessEqual({(0, True, True), (0, False, False)}, taken)
        self.assertIn(18, [code for code, _, _ in taken])  # more groups than there may be

    def test_lines_about_as_long_as_may_be(self):
        found = {(len(line) > lines.LONGEST, answer and answer.code == 30)
                 for script in self.scripts(fuzz.long) for line, answer in zip(script.lines, script.answers)}
        self.assertEqual(found - {(False, None), (True, None)}, {(False, False), (True, True)})

    def test_what_else_lines_are_is_counted(self):
        figures = fuzz.Figures()
        for seed in range(12):
            script = fuzz.story(random.Random(seed), fuzz.repository_lines())
            figures.count("story", script, fuzz.Run(script.wanted(), 0, b""), None)
        text = figures.text()
        for name in ("lines of version 1", "infos of a clean epoch", "a clean epoch raised", "questions about grouped pools"):
            self.assertIn(name, text)
        again = fuzz.Figures()
        again.add(figures.value())
        self.assertEqual(again.text(), text)


def repeats_in_none(groups):
    """Tells whether no part has a slot twice."""
    return all(len(set(part)) == len(part) for part, _ in groups)


class Parts(unittest.TestCase):
    def test_sound_parts(self):
        rng = random.Random(1)
        for size in range(1, 17):
            for _ in range(50):
                groups = grouped.sound(rng, size)
                self.assertFalse(codes.are_faulty(groups, size), groups)
                self.assertTrue(lines.groups(groups), groups)

    def test_each_fault(self):
        rng = random.Random(1)
        found = [grouped.faulty(rng, grouped.sound(rng, 4), 4) for _ in range(3000)]
        well = [groups for groups in found if lines.groups(groups)]
        slots = [[slot for part, _ in groups for slot in part] for groups in well]
        for what, holds in {
            "another shape": len(well) < len(found),
            "no part": [] in well,
            "an empty part": any([] in [part for part, _ in groups] for groups in well),
            "twice in one part": any(len(set(part)) < len(part) for groups in well for part, _ in groups),
            "twice in two parts": any(len({*it}) < len(it) and repeats_in_none(groups) for it, groups in zip(slots, well)),
            "slot of the size": any(4 in it for it in slots),
            "least 0": any(least == 0 for groups in well for _, least in groups),
            "least above": any(least == len(part) + 1 for groups in well for part, least in groups),
            "17 parts": any(isinstance(groups, list) and len(groups) == 17 for groups in found),
            "17 slots": any(isinstance(part[0], list) and len(part[0]) == 17 for groups in found for part in groups if part),
            "no fault": any(not codes.are_faulty(groups, 4) for groups in well),
        }.items():
            self.assertTrue(holds, what)

    def test_faulty_parts_can_be_made_worse(self):
        rng = random.Random(1)
        for _ in range(3000):
            groups = grouped.sound(rng, 4)
            for _ in range(3):
                groups = grouped.faulty(rng, groups, 4)


class Grouped(unittest.TestCase):
    """Lines with grouped pools and codes, changed."""

    POOL = {"id": 1, "pg_num": 1, "kind": "grouped", "groups": [[[0, 1], 1], [[2], 1]], "size": 3, "min_size": 2, "leaf": 0}
    INC = {"op": "inc", "v": 2, "epoch": 1, "pools": [POOL]}
    EPOCH = {"up": [None], "acting": [0], "size": 1, "min_size": 1, "up_from": 0, "up_thru": 0}
    TRACE = {"op": "trace", "v": 2, "code": {"kind": "grouped", "groups": POOL["groups"]}, "epochs": [EPOCH]}

    def refusals(self, changed):
        """The codes of the answers to changed lines, each the first of its script, with the keys that are named."""
        found = set()
        for seed in range(1000):
            answer = json.loads(model.Model().answer(changed(random.Random(seed))).text)
            found.add((answer.get("code", 0), answer.get("key")))
        return found

    def test_versions_are_changed(self):
        self.assertLessEqual({(0, None), (34, "v"), (34, "pools"), (18, None)}, self.refusals(lambda rng: hostile.by_version(rng, self.INC)))
        self.assertLessEqual({(0, None), (34, "v"), (34, "code")}, self.refusals(lambda rng: hostile.by_version(rng, self.TRACE)))
        plain = {"op": "ask", "v": 1, "pg": [1, 0]}
        self.assertLessEqual({(40, None), (34, "v")}, self.refusals(lambda rng: hostile.by_version(rng, plain)))

    def test_rules_are_broken_and_the_line_is_changed_then(self):
        def broken(rng, line):
            return rules.broken(rng, line, model.Model().maps, [0, 1, 2])

        for line, wanted in ((self.INC, {(0, None), (34, "pools"), (18, None)}), (self.TRACE, {(0, None), (34, "code")})):
            self.assertLessEqual(wanted, self.refusals(lambda rng: grammar.compact(broken(rng, line))))
            self.assertLessEqual(wanted, self.refusals(lambda rng: hostile.by_version(rng, broken(rng, line))))

    def test_another_size_of_a_grouped_pool(self):
        log = model.Model()
        log.answer(grammar.compact(self.INC))
        found = set()
        for seed in range(300):
            line = {"op": "inc", "v": 2, "epoch": 2}
            rules.bad_parts(random.Random(seed), line, log.maps, [0])
            if "sizes" in line:
                found.add((line["sizes"][0][1], bool(log.refusal_of(line))))
        self.assertEqual(found, {(2, True), (3, False), (4, True)})


class Complaints(unittest.TestCase):
    SCRIPT = fuzz.modelled([b'{"op":"inc","epoch":1}', b"", b'{"op":"close"}'])

    def complaint(self, out, status=0):
        return fuzz.complaint(self.SCRIPT, fuzz.Run(out, status, b""))

    def test_what_is_wrong(self):
        wanted = self.SCRIPT.wanted()
        self.assertIsNone(self.complaint(wanted))
        self.assertEqual(self.complaint(wanted, None), "it did not end")
        self.assertIn("status 3", self.complaint(wanted, 3))
        self.assertIn("line 3 has the answer", self.complaint(wanted.replace(b"close", b"chose")))
        self.assertEqual(self.complaint(wanted.splitlines(True)[0]), "1 answers and not 2")
        self.assertIsNotNone(self.complaint(wanted.rstrip(b"\n")))


class Runs(unittest.TestCase):
    def test_a_sound_program(self):
        script = fuzz.story(random.Random("b"), fuzz.repository_lines())
        with tempfile.TemporaryDirectory() as folder:
            self.assertIsNone(fuzz.complaint(script, fuzz.answered(program(folder), script.text(), 60)))

    def test_a_wrong_answer_is_found_and_its_script_reduced(self):
        pool = b'{"op":"inc","epoch":1,"pools":[{"id":1,"pg_num":1,"kind":"replicated","size":1,"min_size":1,"leaf":0}]}'
        place = b'{"op":"locate","pool":1,"name":"a"}'
        with tempfile.TemporaryDirectory() as folder:
            words = program(folder, WRONG)
            found = fuzz.reduced(words, [b"[]", pool, b"", b'{"op":"inc","epoch":2}', place, place, b'{"op":"close"}'], 60)
        self.assertEqual(found, [place])


if __name__ == "__main__":
    unittest.main()
