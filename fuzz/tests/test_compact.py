"""Tests of compact.py, with programs that are the model itself, or the model with a fault."""

import collections
import contextlib
import io
import os
import pathlib
import random
import sys
import tempfile
import unittest
from unittest import mock

HERE = pathlib.Path(__file__).resolve().parent
sys.path.insert(0, str(HERE.parent))

import compact  # noqa: E402
import compaction  # noqa: E402
import fuzz  # noqa: E402
import model  # noqa: E402

SOUND = f"""#!{sys.executable} -B
import os, sys
sys.path.insert(0, {str(HERE.parent)!r})
import compact, model
text = sys.stdin.buffer.read()
"""
ENDS = """
if sys.argv[1] == "run":
    found = [log.answer(line) for log in [model.Model()] for line in text.split(b"\\n")]
    sys.stdout.buffer.write(b"".join(it.text.encode() + b"\\n" for it in found if it is not None))
elif sys.argv[1] == "explain":
    log = model.Model()
    for line in text.split(b"\\n"):
        log.answer(line)
    groups = [tuple(int(it, 16) for it in name.split(".")) for name in sys.argv[2:-1]]
    print([compact.compaction.explanation(log, it) for it in groups or log.reports])
else:
    out, said = compact.by_model(text)
    sys.stdout.buffer.write(out)
    sys.stderr.buffer.write(said)
"""
INC = (
    b'{"op":"inc","epoch":1,"up":[0,1,2],"pools":[{"id":1,"pg_num":1,"kind":"replicated","size":3,"min_size":2,"leaf":0}],'
    b'"crush":[{"id":-1,"type":1,"alg":"uniform","items":[0,1,2]}]}'
)
INFO = (
    b'{"op":"info","pg":[1,0],"from":[%d,0],"stamp":1,"les":0,"history_les":0,"last_update":[1,%d],"log_tail":[0,0],'
    b'"complete":true}'
)
ASK = b'{"op":"ask","pg":[1,0]}'
LOG = b'{"op":"entries","pg":[1,0],"from":[0,0],"stamp":1,"log":[[1,%d,"modify","a"]]}'


def cut_at(lines, *places):
    """A script of these lines, cut behind this many of them each."""
    script = fuzz.modelled(list(lines))
    with mock.patch.object(compact, "places", lambda rng, script: list(places)):
        return compact.cut(random.Random(1), script)


class ByModel(unittest.TestCase):
    def test_keeps_lines_as_they_stood(self):
        first, later = INFO % (0, 1), b" " + (INFO % (0, 2)).replace(b",", b" ,\t") + b"\r"
        text = b"\n".join([INC + b" ", b"", first, ASK, b"nonsense", later, INFO % (1, 1)])
        out, said = compact.by_model(text)
        self.assertEqual(out, b"\n".join([INC + b" ", later, INFO % (1, 1), b""]))
        self.assertEqual(said, b"pgpeer: left out 1 of 4 entries; 1 line was refused\n")
        self.assertEqual(compact.by_model(out), (out, b"pgpeer: left out 0 of 3 entries\n"))

    def test_says_how_many_lines_were_refused(self):
        text = b'{"op":"ask","pg":[2,0]}\n\n \n' + ASK + b"\n[]\n" + b'{"op":"close"}\n{"op":"close"}'
        self.assertEqual(compact.by_model(text), (b'{"op":"close"}\n', b"pgpeer: left out 0 of 1 entries; 4 lines were refused\n"))
        self.assertEqual(compact.by_model(b""), (b"", b"pgpeer: left out 0 of 0 entries\n"))


    def test_the_example(self):
        script, wanted = ((fuzz.ROOT / "examples" / name).read_bytes() for name in ("compact.jsonl", "compact.compacted.jsonl"))
        self.assertEqual(compact.by_model(script), (wanted, b"pgpeer: left out 7 of 13 entries; 1 line was refused\n"))
        self.assertEqual(compact.by_model(wanted), (wanted, b"pgpeer: left out 0 of 6 entries\n"))


class Scripts(unittest.TestCase):
    def test_a_seed_says_all(self):
        others = fuzz.repository_lines()
        first, second = (compact.script_of("a", 3, others, ["crowd"]) for _ in range(2))
        self.assertEqual(first, second)

    def test_questions_stand_at_each_cut_and_at_the_end(self):
        lines = [INC, INFO % (0, 1), INFO % (1, 1), INFO % (0, 2), LOG % 1, LOG % 1, LOG % 2]
        script, cuts = cut_at(lines, 0, 4, 7)
        self.assertEqual(script.lines, [*lines[:4], ASK, *lines[4:], ASK, b""])
        self.assertEqual([it.at for it in cuts], [0, 4, 8])
        self.assertEqual([it.entries for it in cuts], [0, 4, 7])
        self.assertEqual([it.kept for it in cuts][1:], [[INC, *lines[2:4]], [INC, *lines[2:4], *lines[5:]]])
        self.assertEqual(script.wanted(), fuzz.modelled(script.lines).wanted())

    def test_a_crowd_leaves_much_out_and_takes_each_reason(self):
        sums, reasons = collections.Counter(), set()
        for seed in range(6):
            script = compact.crowd(random.Random(seed), [])
            taken = compact.Taken(script.log)
            for line, answer in zip(script.lines, script.answers):
                if compact.is_taken(answer):
                    entry = compact.lines.read(line).value
                    taken.log.submit(entry)
                    taken.note(line, entry, answer)
            kept = taken.kept()
            sums.update(entries=len(taken.entries), kept=len(kept))
            for reason in compaction.REASONS:
                if compaction.places_left(taken.log, taken.entries, reason) != kept:
                    reasons.add(reason)
        self.assertLess(sums["kept"], sums["entries"] * 2 / 3)
        self.assertEqual(reasons, set(compaction.REASONS))

    def test_no_cut_stands_after_a_full_log(self):
        script = fuzz.modelled([INC, ASK, INFO % (0, 1), INFO % (0, 2), INFO % (0, 3)])
        script.answers[3] = model.Answer('{"code":50,"refused":"LogFull"}', "info", 50)
        self.assertLessEqual(max(max(compact.places(random.Random(seed), script)) for seed in range(50)), 3)

    def test_what_is_kept_by_one_compaction_after_the_other_is_kept_by_one(self):
        script, cuts = compact.cut(random.Random(5), compact.crowd(random.Random(5), []))
        front, begin = b"", 0
        for it in cuts:
            front, _ = compact.by_model(front + compact.text_of(script.lines[begin : it.at]))
            self.assertEqual(front, compact.text_of(it.kept))
            begin = it.at


class Wanted(unittest.TestCase):
    def test_counts_are_less_by_what_was_left_out(self):
        script, cuts = cut_at([INC, INFO % (0, 1), INFO % (0, 2), INFO % (1, 2)], 3)
        kept = fuzz.modelled([*cuts[0].kept, *script.lines[cuts[0].at :]])
        self.assertEqual(len(cuts[0].kept), 2)
        self.assertEqual(compact.wanted_after(script, cuts[0]), kept.wanted())

    def test_in_a_log_that_was_full_there_is_room(self):
        with mock.patch.object(model, "MOST_TAKEN", 3):
            script, cuts = cut_at([INC, INFO % (0, 1), INFO % (0, 2), INFO % (1, 2)], 3)
            self.assertIn(b"LogFull", script.wanted())
            wanted = compact.wanted_after(script, cuts[0])
        self.assertNotIn(b"LogFull", wanted)
        self.assertIn(b'{"count":3,"epoch":1,"ok":"info"}\n', wanted)

    def test_a_name_is_no_count(self):
        self.assertEqual(compact.less(b'{"a":"\\"count\\":7,","count":9,"objects":{"count":[1,2]}}', 2),
                         b'{"a":"\\"count\\":7,","count":7,"objects":{"count":[1,2]}}')

    def test_where_texts_differ(self):
        self.assertEqual(compact.first_difference(b"a\nb\n", b"a\nc\n"), "line 2 is 'b' and not 'c'")
        self.assertEqual(compact.first_difference(b"a\n", b"a\nc\n"), "line 2 is '' and not 'c'")


class Runs(unittest.TestCase):
    LINES = [INC, INFO % (0, 1), b"nonsense", ASK, INFO % (0, 2), LOG % 1, LOG % 2, LOG % 1, INFO % (1, 2), LOG % 1, ASK]

    def complaint(self, *faults):
        """What is wrong with a program that has these faults, if anything."""
        script, cuts = cut_at(self.LINES, 5, 8)
        with tempfile.TemporaryDirectory() as folder:
            file = pathlib.Path(folder) / "program"
            file.write_text(SOUND + "".join(faults) + ENDS)
            os.chmod(file, 0o755)
            sums = collections.Counter()
            try:
                compact.try_script([str(file)], script, cuts, 60, sums)
            except compact.Wrong as why:
                return str(why)
        self.assertEqual((sums["runs"], sums["compactions"], sums["entries"], sums["left out"]), (23, 2, 8, 2))
        return None

    def test_a_sound_program(self):
        self.assertIsNone(self.complaint())

    def test_faulty_programs(self):
        for fault, wanted in {
            "compact.Taken.kept = lambda self: list(range(len(self.lines)))": "compact at line 5: line 2 is",
            "compact.text_of = lambda lines: b'\\n'.join(lines)": "compact at line 5: line 3 is 'no line' and not ''",
            "compact.message = lambda *counts: b'pgpeer: done\\n'": "compact at line 5 says b'pgpeer: done",
            "compact.is_refused = lambda answer: False": "compact at line 5 says b'pgpeer: left out 1 of 3 entries",
            "if b'nonsense' not in text: sys.exit(3)": "compact at line 5, once more ended with status 3",
            "if b'nonsense' not in text: model.Model.ask = model.Model.locate = lambda self, it: model.Answer('{}', 'ask', 0)":
                "run at line 5: line 3 is '{}'",
            "if text.count(b'modify') == 2 and sys.argv[1] == 'compact': text += b'\\n' + text.split(b'\\n')[-2]":
                "compact at line 9",
            "if b'nonsense' not in text and sys.argv[1] == 'explain': sys.exit(3)": "explain at line 5 ended with status 3",
            "if b'nonsense' in text and sys.argv[1] == 'explain': text = text[:-100]": "explain at line 5: line 1 is",
        }.items():
            self.assertIn(wanted, self.complaint(fault + "\n") or "nothing", fault)

    def test_what_is_counted_and_kept(self):
        with tempfile.TemporaryDirectory() as folder:
            file = pathlib.Path(folder) / "program"
            file.write_text("#!/bin/sh\nexit 3\n")
            os.chmod(file, 0o755)
            out = io.StringIO()
            words = ["compact.py", "--program", str(file), "--lines", "1", "--kinds", "crowd", "--keep", folder, "--seed", "a"]
            with mock.patch.object(sys, "argv", words), contextlib.redirect_stdout(out):
                self.assertEqual(compact.main(), 1)
            said = out.getvalue().splitlines()
            self.assertRegex(said[0], r"^script a/0 \(crowd\): run ended with status 3")
            self.assertRegex(said[-1], r"^1 scripts, [\d,]+ lines, 0 compactions which left out 0 of 0 entries, 0 answers after them, 0 explanations, 1 wrong$")
            kept = {it.suffix for it in pathlib.Path(folder).glob("compact-a-0.*")}
            self.assertEqual(kept, {".jsonl", ".given", ".found", ".wanted", ".why"})

    def test_a_program_that_does_not_end(self):
        with self.assertRaisesRegex(compact.Wrong, "run didn't end"):
            compact.expect(fuzz.Run(b"", None, b""), "run", b"", b"", b"")


if __name__ == "__main__":
    unittest.main()
