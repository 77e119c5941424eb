"""Tests of join.py, healing.py and joining.py, with programs that are the model itself, or the model with a fault."""

import collections
import contextlib
import io
import itertools
import json
import os
import pathlib
import random
import sys
import tempfile
import unittest
from unittest import mock

HERE = pathlib.Path(__file__).resolve().parent
sys.path.insert(0, str(HERE.parent))

import compact  # noqa: E402
import fuzz  # noqa: E402
import grammar  # noqa: E402
import healing  # noqa: E402
import join  # noqa: E402
import joining  # noqa: E402
import model  # noqa: E402

PROGRAM = f"""#!{sys.executable} -B
import sys
sys.path[:0] = [{str(HERE)!r}, {str(HERE.parent)!r}]
import compact, joining, model, test_join
FAULT
text = sys.stdin.buffer.read()
run = test_join.by_model([], text, 60, *sys.argv[1:])
sys.stdout.buffer.write(run.out)
sys.stderr.buffer.write(run.errors)
"""
FIRST = {
    "op": "inc", "epoch": 1, "up": [0, 1, 2],
    "pools": [{"id": 1, "pg_num": 1, "kind": "replicated", "size": 3, "min_size": 2, "leaf": 0}],
    "crush": [{"id": -1, "type": 1, "alg": "uniform", "items": [0, 1, 2]}],
}  # fmt: skip
ASK = b'{"op":"ask","pg":[1,0]}'


def info(osd, stamp, served, **more):
    told = {"les": served, "history_les": served, "last_update": [1, 1], "log_tail": [1, 1], "complete": True}
    return {"op": "info", "pg": [1, 0], "from": [osd, 0], "stamp": stamp, **told, **more}


# Device 2 falls and comes back twice, which the group survives; then device 1 falls.
FLAP = [
    FIRST, {"op": "inc", "epoch": 2, "down": [2]}, {"op": "inc", "epoch": 3, "up": [2]}, {"op": "inc", "epoch": 4, "up_thru": [[0, 4]]},
    {"op": "inc", "epoch": 5, "down": [2]}, {"op": "inc", "epoch": 6, "up_thru": [[0, 5]]}, {"op": "inc", "epoch": 7, "up": [2]},
    {"op": "inc", "epoch": 8}, {"op": "inc", "epoch": 9, "up_thru": [[0, 9]]}, info(0, 9, 7), {"op": "inc", "epoch": 10, "down": [1]},
    {"op": "inc", "epoch": 11},
]  # fmt: skip
JOINED = [
    FIRST,
    {"op": "inc", "v": 3, "after": 1, "epoch": 2, "down": [2], "up_thru": [[0, 2]]},
    {"op": "inc", "v": 3, "after": 2, "epoch": 7, "up": [2], "up_thru": [[0, 7]]},
    {"op": "inc", "v": 3, "after": 7, "epoch": 10, "down": [1], "up_thru": [[0, 9]]},
    {"op": "inc", "v": 3, "after": 10, "epoch": 11},
    info(0, 9, 7),
]


def logged(entries):
    log = model.Model(3)
    for it in entries:
        assert not log.submit(it).code, it
    return log


def explained(text):
    """What a program that is the model says of all groups."""
    log = logged(entry for entry in compact.taken_of(text, 3)[0].entries)
    groups = {f"{group[0]}.{group[1]}": compact.compaction.explanation(log, group) for group in log.reports}
    return model.compact(groups).encode()


def by_model(words, text, seconds, *words_of_run, left_out=()):
    """What a program does that is the model."""
    last = 3 if "--format" in words_of_run else 2
    if words_of_run[0] == "run":
        return fuzz.Run(fuzz.modelled(text.split(b"\n"), last).wanted(), 0, b"")
    if words_of_run[0] == "explain":
        return fuzz.Run(explained(text), 0, b"")
    out, said = joining.by_model(text, left_out)
    return fuzz.Run(out, 0, said)


def cut_at(entries, *places):
    """A script of these lines, cut behind this many of them each."""
    script = fuzz.modelled([it if isinstance(it, bytes) else grammar.compact(it) for it in entries], 3)
    with mock.patch.object(join, "ASKED", 1):
        return join.cut(random.Random(1), script, places)


class Joining(unittest.TestCase):
    def test_flaps_that_healed(self):
        self.assertEqual(joining.starts_of(logged(FLAP), FLAP), {1, 2, 7, 10, 11})
        self.assertEqual(joining.joined(FLAP), JOINED)
        first, second = (join.mattering(logged(it).ask({"pg": [1, 0]}).text) for it in (FLAP, JOINED))
        self.assertEqual(second, {**first, "count": len(JOINED)})

    def test_where_nobody_tells_of_a_new_start_intervals_stay(self):
        entries = [it for it in FLAP if it["op"] == "inc"]
        made = joining.joined([*entries, {"op": "close"}])
        self.assertEqual([it["epoch"] for it in made[:-1]], [1, 2, 3, 5, 7, 10, 11])
        self.assertIs(made[0], FIRST)
        self.assertEqual(made[-1], {"op": "close"})
        self.assertEqual(joining.joined(entries[:3]), entries[:3])

    def test_each_reason_is_needed(self):
        """Where the starts of one reason are left out, an answer is wrong before long."""
        for reason, seed, most in (("current", "a", 20), ("past", "d", 10), ("boots", "d", 30), ("lost", "b", 10), ("deaths", "b", 120)):
            with self.subTest(reason):
                self.assertIsNotNone(next(wrong(seed, "brief", most, (reason,)), None))

    def test_where_a_device_is_destroyed_another_start_is_needed(self):
        """Without, what is made isn't legal."""
        entries = [*FLAP[:10], {"op": "inc", "epoch": 10}, info(2, 10, 8), {"op": "inc", "epoch": 11, "down": [2]}]
        entries = [*entries, {"op": "inc", "epoch": 12}, info(2, 12, 9), {"op": "inc", "epoch": 13, "gone": [2]}]
        log = logged(entries)
        self.assertEqual(joining.starts_of(log, entries), {1, 2, 7, 11, 12, 13})
        self.assertEqual(joining.starts_of(log, entries, ["gone"]), {1, 2, 7, 11, 13})
        self.assertIsNone(joining.joined(entries, ["gone"]))
        self.assertEqual([it["op"] for it in joining.joined(entries)], ["inc"] * 5 + ["info"] * 3 + ["inc"])


def wrong(seed, kind, most, left_out=()):
    """What is wrong with generated scripts of a kind, with a program that is the model."""
    answered = lambda *words: by_model(*words, left_out=left_out)  # noqa: E731
    with mock.patch.object(fuzz, "answered", answered), mock.patch.object(join.Trial, "explanations"):
        for number in range(most):
            _, script, cuts = join.script_of(seed, number, [], [kind])
            try:
                join.try_script([], script, cuts, 60, collections.Counter())
            except compact.Wrong as why:
                yield str(why)


class Scripts(unittest.TestCase):
    def test_a_seed_says_all(self):
        for kind in ("healing", "brief"):
            first, second = (join.script_of("a", 3, [], [kind]) for _ in range(2))
            self.assertEqual(first, second)

    def test_all_are_of_the_last_version(self):
        others = fuzz.repository_lines()
        for kind in set(join.KINDS) - {"full"}:
            self.assertEqual(join.script_of("a", 1, others, [kind])[1].last, 3, kind)

    def test_most_incrementals_of_what_heals_can_be_joined(self):
        sums = collections.Counter()
        for seed in range(8):
            log = model.Model(3)
            story, entries = healing.Healing(random.Random(seed), log), []
            for _ in range(250):
                line = story.line()
                entries += [line] if compact.is_taken(log.answer(grammar.compact(line))) else []
            sums.update(incs=sum(it["op"] == "inc" for it in entries), left=len(joining.starts_of(log, entries)))
        self.assertLess(sums["left"], sums["incs"] / 5)

    def test_late_lines_are_taken_and_refused(self):
        found = collections.Counter()
        for seed in range(8):
            log = model.Model(3)
            story = healing.Healing(random.Random(seed), log)
            story.own = 0
            for at in range(200):
                story.late = 0 if at < 80 else 1
                answer = log.answer(grammar.compact(story.line()))
                found[answer.op, answer.code] += at >= 80
        refused = ("info", 61), ("info", 62), ("entries", 61), *(("inc", code) for code in (12, 13, 14, 16))
        for key in (("inc", 0), ("info", 0), ("entries", 0), ("ask", 0), *refused):
            self.assertGreater(found[key], 0, key)

    def test_questions_stand_at_each_cut_and_after(self):
        script, cuts = cut_at(FLAP, 2, 12)
        asked = [at for at, line in enumerate(line for line in script.lines if b"locate" not in line) if line == ASK]
        self.assertEqual(asked, list(range(2, 24, 2)))
        self.assertTrue(any(b"locate" in line for line in script.lines))
        self.assertEqual([script.lines[it.at - 1] for it in cuts], [grammar.compact(FLAP[1]), grammar.compact(FLAP[-1])])
        self.assertEqual([(it.entries, it.groups) for it in cuts], [(2, [(1, 0)]), (12, [(1, 0)])])
        self.assertEqual(script.wanted(), fuzz.modelled(script.lines, 3).wanted())


class Wanted(unittest.TestCase):
    def test_past_intervals_that_no_longer_matter_may_differ(self):
        whole, less = logged(FLAP), logged(JOINED)
        first, second = (it.ask({"pg": [1, 0]}).text.encode() for it in (whole, less))
        self.assertEqual([len(json.loads(it)["intervals"]) for it in (first, second)], [5, 3])
        less = compact.less(first, len(FLAP) - len(JOINED))
        self.assertTrue(join.are_alike(less, second))
        for found, other in ((b'"last":9', b'"last":8'), (b'"les":7', b'"les":6'), (b'"epoch":11', b'"epoch":10'), (b'"count":6', b'"count":7')):
            self.assertIn(found, second)
            self.assertFalse(join.are_alike(less, second.replace(found, other)))

    def test_a_refusal_has_to_be_the_same(self):
        self.assertFalse(join.are_alike(b'{"code":16,"refused":"UpThruBack"}', b'{"code":17,"refused":"Ahead"}'))

    def test_answers_count_until_the_whole_log_is_full(self):
        with mock.patch.object(model, "MOST_TAKEN", 14):
            script, cuts = cut_at([*FLAP, *[info(0, 11, 10)] * 4], 12)
        self.assertIn(b"LogFull", script.wanted())
        found = [json.loads(it) for it in join.wanted_after(script, cuts[0], 6)]
        self.assertEqual([it["count"] for it in found if it["ok"] == "info"], [7, 8])

    def test_lines_of_a_joined_script(self):
        kept = [(it["op"], grammar.compact(it)) for it in [*FLAP, {"op": "close"}]]
        plain = [line for _, line in kept]
        joined = [*map(grammar.compact, JOINED), plain[-1]]
        for found, says in (
            (plain, None), (joined, None), ([*plain[:4], plain[4] + b" ", *plain[5:]], "neither as it came"),
            ([line for line in joined if b"info" not in line], "the reports are others"), (joined[:-1], "the closes are others"),
            ([*joined[-1:], *joined[:-1]], "the close isn't last"), ([*joined, b"nonsense"], "no line is"),
            ([line.replace(b'"last_update"', b' "last_update"') for line in joined], "the reports are others"),
        ):  # fmt: skip
            said = next(join.wrong_lines(found, kept), None)
            self.assertEqual(said is None, says is None, said)
            self.assertIn(says or "", said or "")

    def test_what_an_explanation_needn_t_say_alike(self):
        told = {"blocking": [{"interval": {"first": 1, "lost_before": [1]}, "lacks": 1}], "says": "a", "ways": [{"unreadable": True}]}
        self.assertEqual(join.implied(told), {"blocking": [{"interval": {"first": 1}, "lacks": 1}], "ways": [{}]})


class Runs(unittest.TestCase):
    def complaint(self, fault=""):
        """What is wrong with a program that has this fault, if anything."""
        script, cuts = cut_at([*FLAP[:4], b"nonsense", *FLAP[4:], info(0, 11, 10), {"op": "inc", "epoch": 12, "up": [1]}], 11, 15)
        with tempfile.TemporaryDirectory() as folder:
            file = pathlib.Path(folder) / "program"
            file.write_text(PROGRAM.replace("FAULT", fault))
            os.chmod(file, 0o755)
            sums = collections.Counter()
            try:
                join.try_script([str(file)], script, cuts, 60, sums)
            except compact.Wrong as why:
                return str(why)
        self.assertEqual([sums[it] for it in ("joins", "before", "after", "least", "not joined", "more")], [2, 16, 7, 7, 0, 0])
        return None

    def test_a_sound_program(self):
        self.assertIsNone(self.complaint())

    def test_faulty_programs(self):
        for fault, says in {
            "joining.starts_of = lambda log, *more: {1}": "run at line 11: answer 1 is",
            "compact.text_of = lambda lines: b'\\n'.join(lines)": "lacks a line feed",
            "compact.message = lambda *counts: b'pgpeer: done\\n'": "compact --join at line 11 says b'pgpeer: done",
            "compact.Taken.kept = lambda self: [at for at, it in enumerate(self.entries) if it['op'] == 'inc']": "the reports are others",
            "if 'compact' in sys.argv: sys.exit(3)": "compact --join at line 11 ended with status 3",
            "if sys.argv[1] == 'explain': test_join.explained = lambda text: b'%d' % len(text)": "explain at line 11 says",
            "joining.Joined.up_thrus = lambda self, known, start, end: ()": "run at line 11: answer",
            "model.Model.submit = lambda self, entry: model.Answer('{}', entry['op'], 0)": "run: line 1 is '{}'",
        }.items():
            self.assertIn(says, self.complaint(fault) or "nothing", fault)

    def test_what_is_counted_and_kept(self):
        with tempfile.TemporaryDirectory() as folder:
            words = ["join.py", "--program", "none", "--lines", "1", "--kinds", "brief", "--keep", folder, "--seed", "a"]
            out, failed = io.StringIO(), lambda *words: fuzz.Run(b"", 3, b"")
            with mock.patch.object(sys, "argv", words), contextlib.redirect_stdout(out), mock.patch.object(fuzz, "answered", failed):
                self.assertEqual(join.main(), 1)
            said = out.getvalue().splitlines()
            self.assertRegex(said[0], r"^script a/0 \(brief\): run ended with status 3")
            self.assertRegex(said[-1], r"^1 scripts, [\d,]+ lines, 0 joins which left 0 of 0 incrementals, 0 answers after them, 0 explanations, 1 wrong$")
            self.assertEqual({it.suffix for it in pathlib.Path(folder).glob("join-a-0.*")}, {".jsonl", ".given", ".found", ".wanted", ".why"})

    def test_generated_scripts_of_a_sound_program(self):
        for kind, count in (("brief", 12), ("healing", 2), ("outage", 1)):
            self.assertEqual(list(itertools.islice(wrong("sound", kind, count), 1)), [], kind)


if __name__ == "__main__":
    unittest.main()
