"""Tests that each verb ends well on whatever it is given: broken, hostile and too large input, full disks, closed pipes, terminals
of ASCII alone. It ends with status 0, or with one line that says what is wrong and status 2, and then has written nothing."""

import json
import os
import random
import shutil
import subprocess
import sys
import unittest

import test_fetch
from broken import broken
from case import HAS_PROGRAM, MAPS, PROGRAM, ROOT, TOOL, Room, written

SEEDS = int(os.environ.get("SEEDS", "12"))  # for each verb and each folder
NAMES = ('"><img src=x onerror=alert(1)>', "</script><script>alert(1)</script>", "\x1b[31mred\x1b]0;title\x07", "a\nb\r\tc", "\u202etxt", "osd.0' --yes", "x" * 70_000)
FOLDERS = ("outage", "straw2-outage", "logged")
SCRIPTS = ("examples/blocked.jsonl", "examples/lost_shard.jsonl", "examples/grouped.jsonl")
TELLS = "pgpeer-ceph: error: "
NEEDS_PROGRAM = unittest.skipUnless(HAS_PROGRAM, f"no program {PROGRAM}")


def calls_on(folder, page):
    """Each verb that reads a folder, as it is called."""
    program = ("--program", PROGRAM)
    found = {
        "script": ("script", "--ask", folder),
        "explain": ("explain", *program, folder),
        "explain a group": ("explain", *program, folder, "1.0"),
        "plan": ("plan", *program, folder),
        "what-if": ("what-if", *program, folder, "--stop", "osd.0"),
        "what-if each": ("what-if", *program, folder, "--each", "osd"),
        "report": ("report", *program, folder, "-o", page),
    }
    return found if HAS_PROGRAM else {"script": found["script"]}


class Hostile(Room):
    def assert_ended_well(self, told, words):
        """Tells of which call it isn't so that it ended well."""
        status, out, err = told
        about = f"{words}: {err[-2000:]}"
        self.assertIn(status, (0, 2), about)
        self.assertNotIn("Traceback", err, about)
        self.assertEqual(err.count(TELLS), 1 if status == 2 else 0, about)
        if status == 2:
            self.assertEqual(out, "", about)
            self.assertTrue(err.endswith("\n") and err.splitlines()[-1].startswith(TELLS), about)
        for text in (out, err):
            self.assertFalse([mark for mark in text if not mark.isprintable() and mark != "\n"], about)
        self.assertFalse([path.name for path in self.folder.rglob(".part-*")], about)

    def assert_ends_well(self, *words):
        told = written(*words)
        self.assert_ended_well(told, words)
        page = self.folder / "page.html"
        self.assertEqual(page.exists(), told[0] == 0 and "-o" in words, words)
        page.unlink(missing_ok=True)
        return told

    def copy(self, name):
        folder = self.folder / "dumps"
        shutil.rmtree(folder, ignore_errors=True)
        shutil.copytree(MAPS / name, folder)
        return folder


class Dumps(Hostile):
    def test_broken_files_in_a_folder(self):
        for name in FOLDERS:
            for seed in range(SEEDS):
                rng = random.Random(f"{name} {seed}")
                folder = self.copy(name)
                paths = sorted(folder.iterdir())
                for path in rng.sample(paths, min(len(paths), rng.randint(1, 3))):
                    path.write_bytes(broken(rng, path.read_text(), rng.choice(paths).read_text(errors="replace")))
                calls = calls_on(folder, self.folder / "page.html")
                for verb in rng.sample(sorted(calls), min(len(calls), 3)):
                    with self.subTest(name=name, seed=seed, verb=verb):
                        self.assert_ends_well(*calls[verb])

    def test_a_broken_map(self):
        tree = MAPS / "outage/a-healthy.crush.json"
        for seed in range(4 * SEEDS):
            rng, path = random.Random(seed), self.folder / "map.json"
            path.write_bytes(broken(rng, (MAPS / "outage/d-blocked.osd.json").read_text(), tree.read_text()))
            with self.subTest(seed=seed):
                self.assert_ends_well("map", "--ask", path, tree)
                self.assert_ends_well("map", MAPS / "outage/d-blocked.osd.json", path)

    def test_folders_of_nothing(self):
        empty, file = self.folder / "empty", self.folder / "file"
        empty.mkdir()
        file.write_bytes(b"")
        for path in (empty, file, self.folder / "nowhere", "/dev/null"):
            for verb, words in calls_on(path, self.folder / "page.html").items():
                is_script = verb == "explain" and path in (file, "/dev/null")  # which has no group
                self.assertEqual(self.assert_ends_well(*words)[0], 0 if is_script else 2, words)
        self.assertEqual(self.assert_ends_well("map", file)[0], 2)
        self.assertEqual(self.assert_ends_well("draw", file, "1.0")[0], 2)

    def test_hostile_names(self):
        for name in NAMES:
            folder = self.copy("outage")
            for path in folder.glob("*.json"):
                path.write_text(path.read_text().replace('"rbd"', json.dumps(name)).replace('"default"', json.dumps(name)).replace('"hashpspool"', json.dumps(name)))
            for words in calls_on(folder, self.folder / "page.html").values():
                with self.subTest(name=name[:20], words=words[0]):
                    self.assert_ends_well(*words)
            self.assert_ends_well("map", folder / "d-blocked.osd.json", folder / "a-healthy.crush.json")

    def test_names_of_files_that_are_hostile(self):
        for name in ("\x1b[31m.json", "<b>.osd.json", "a\nb.osd.json", "\udcff.json", "-o", "99999999999999999999.groups.txt"):
            folder = self.copy("outage")
            try:
                (folder / name).write_text('{"epoch": 1')
            except OSError:
                continue
            for words in calls_on(folder, self.folder / "page.html").values():
                self.assert_ends_well(*words)

    def test_numbers_that_are_too_large(self):
        for key, value in (("pg_num", 2**31), ("pg_num", 65_536), ("pool", 2**31), ("size", 2**31), ("min_size", 99), ("epoch", 2**32 - 1), ("epoch", 2**40), ("osd", 2**31 - 2),
                           ("up_from", 2**32), ("crush_version", 2**40), ("max_osd", 2**40)):
            folder = self.copy("outage")
            path = folder / "d-blocked.osd.json"
            osdmap = json.loads(path.read_text())
            for part in (osdmap, *osdmap["pools"], *osdmap["osds"][:1]):
                if key in part:
                    part[key] = value
            path.write_text(json.dumps(osdmap))
            for words in (*calls_on(folder, self.folder / "page.html").values(), ("map", path)):
                with self.subTest(key=key, value=value, verb=words[0]):
                    self.assert_ends_well(*words)

    def test_a_value_that_is_too_deep_and_one_of_too_many_digits(self):
        for text in ('{"epoch":' + "[" * 200_000 + "]" * 200_000 + "}", '{"epoch":' + "9" * 6_000 + "}", "[" * 200_000):
            path = self.folder / "x.json"
            path.write_text(text)
            for words in (("map", path), ("script", path), ("draw", path, "1.0")):
                self.assertEqual(self.assert_ends_well(*words)[0], 2)


class Scripts(Hostile):
    def test_broken_scripts(self):
        for name in SCRIPTS:
            text = (ROOT / name).read_text()
            for seed in range(SEEDS):
                rng, path = random.Random(f"{name} {seed}"), self.folder / "script.jsonl"
                lines = text.splitlines()
                at = rng.randrange(len(lines))
                part = broken(rng, lines[at], rng.choice(lines))
                path.write_bytes("\n".join(lines[:at]).encode() + b"\n" + part + b"\n" + "\n".join(lines[at + 1 :]).encode())
                if rng.random() < 0.3:
                    side = '{"offset": 3, "first": 9, "older": [2], "pools": [{"id": 1, "pool": 1, "groups": [0]}]}'
                    (self.folder / "script.epochs.json").write_bytes(broken(rng, side, text))
                with self.subTest(name=name, seed=seed):
                    self.assert_ends_well("draw", "--program", PROGRAM, path, "1.0", "-o", self.folder / "page.html")
                    self.assert_ends_well("explain", "--program", PROGRAM, path)
                    self.assert_ends_well("explain", "--program", PROGRAM, path, "1.0")
                (self.folder / "script.epochs.json").unlink(missing_ok=True)

    @NEEDS_PROGRAM
    def test_a_program_that_is_none(self):
        for program in ("/bin/false", "/bin/true", "/bin/echo", "/bin/cat", "/nowhere", "/dev/null"):
            for words in calls_on(MAPS / "outage", self.folder / "page.html").values():
                words = [program if word == PROGRAM else word for word in words]
                if "--program" in words:
                    self.assertEqual(self.assert_ends_well(*words)[0], 2, words)
            for words in (("draw", "--program", program, ROOT / SCRIPTS[0], "1.0"), ("explain", "--program", program, ROOT / SCRIPTS[0], "1.0")):
                self.assertEqual(self.assert_ends_well(*words)[0], 2, words)


class Surroundings(Hostile):
    """Calls as processes of their own, where the disk, the pipe, the terminal or the memory isn't as it should be."""

    def calls(self):
        """Each verb, with what it needs; those that a cluster answers are in `Commands`."""
        script = ROOT / SCRIPTS[0]
        found = [*calls_on(MAPS / "outage", self.folder / "page.html").values(), ("map", MAPS / "outage/d-blocked.osd.json")]
        if HAS_PROGRAM:
            found += [("draw", "--program", PROGRAM, script, "1.0"), ("explain", "--program", PROGRAM, script)]
        return [tuple(map(str, words)) for words in found]

    def ended(self, run, status=2):
        self.assertEqual(run.returncode, status, run)
        self.assertEqual((run.stderr or "").count("\n"), 1 if status else 0, run)
        self.assertFalse(list(self.folder.iterdir()), run)

    def test_a_full_disk(self):
        for words in self.calls():
            if "-o" in words:
                run = subprocess.run(["bash", "-c", 'ulimit -f 4; "$@"', "bash", *TOOL, *words], capture_output=True, text=True)
                self.ended(run)
                words = words[: words.index("-o")]
            with open("/dev/full", "w") as full:
                run = subprocess.run([*TOOL, *words], stdout=full, stderr=subprocess.PIPE, text=True)
            self.assertTrue(run.stderr.splitlines()[-1] == f"{TELLS}writing: No space left on device", run)
            self.assertEqual((run.returncode, run.stderr.count(TELLS), "Traceback" in run.stderr), (2, 1, False), run)

    def test_a_script_and_its_epochs_are_kept_both_or_neither(self):
        script, side = self.folder / "x.jsonl", self.folder / "x.epochs.json"
        words = [*TOOL, "script", str(MAPS / "straw2-outage"), "-o", str(script)]
        for before in ("", "kept"):
            if before:
                script.write_text(before)
                side.write_text(before)
            run = subprocess.run(["bash", "-c", 'ulimit -f 1; "$@"', "bash", *words], capture_output=True, text=True)
            self.assertEqual((run.returncode, run.stderr.splitlines()[-1]), (2, f"{TELLS}writing: File too large"))
            self.assertEqual({path.name: path.read_text() for path in self.folder.iterdir()}, {"x.jsonl": before, "x.epochs.json": before} if before else {})
            script.unlink(missing_ok=True)
            side.unlink(missing_ok=True)
        side.mkdir()
        run = subprocess.run(words, capture_output=True, text=True)
        self.assertEqual((run.returncode, run.stderr.count(TELLS), list(self.folder.iterdir())), (2, 1, [side]))
        side.rmdir()
        self.assertEqual(subprocess.run(words, capture_output=True).returncode, 0)
        self.assertTrue(script.exists() and side.exists())
        self.assertEqual(written("map", "--alone", MAPS / "outage/d-blocked.osd.json", "-o", script)[0], 0)
        self.assertFalse(side.exists())  # which was of another script

    def test_a_pipe_that_is_closed(self):
        for words in self.calls():
            words = words[: words.index("-o")] if "-o" in words else words
            end, begin = os.pipe()
            os.close(end)
            run = subprocess.run([*TOOL, *words], stdout=begin, stderr=subprocess.PIPE, text=True)
            os.close(begin)
            self.assertTrue(run.stderr.splitlines()[-1] == f"{TELLS}writing: Broken pipe", run)
            self.assertEqual((run.returncode, run.stderr.count(TELLS), "Traceback" in run.stderr), (2, 1, False), run)

    def test_a_terminal_of_ascii_alone(self):
        folder = self.copy("outage")
        for path in folder.glob("*.json"):
            path.write_text(path.read_text().replace('"rbd"', '"b\u00fccher \U0001f4da"'))
        env = {**os.environ, "PYTHONIOENCODING": "ascii", "PYTHONUTF8": "0", "LC_ALL": "C", "PYTHONCOERCECLOCALE": "0"}
        page = self.folder / "b\u00fccher.html"
        for words in (*calls_on(folder, page).values(), *self.calls()):
            run = subprocess.run([*TOOL, *map(str, words)], capture_output=True, env=env)
            self.assertEqual(run.returncode, 0, run)
            self.assertTrue((run.stdout + run.stderr).isascii(), run)
        self.assertEqual(page.exists(), HAS_PROGRAM)
        run = subprocess.run([*TOOL, "map", str(folder / "d-blocked.osd.json")], capture_output=True, env=env)
        self.assertEqual((run.returncode, run.stdout.isascii() and run.stderr.isascii()), (0, True), run)
        if HAS_PROGRAM:
            run = subprocess.run([*TOOL, "report", str(folder), "--program", PROGRAM], capture_output=True, env=env)
            self.assertEqual(run.returncode, 0, run.stderr)

    def test_little_memory(self):
        path = self.folder / "large.osd.json"
        path.write_text(json.dumps({"epoch": 1, "osds": [{"osd": 1}] * 2_000_000, "pools": []}))
        for words in (("map", path), ("script", path), ("report", path)):
            run = subprocess.run(["bash", "-c", 'ulimit -v 200000; "$@"', "bash", *TOOL, *map(str, words)], capture_output=True, text=True)
            self.assertEqual((run.returncode, run.stdout, run.stderr.count("\n"), run.stderr.startswith(TELLS)), (2, "", 1, True), run)

    def test_files_without_an_end(self):
        for words in (("map", "/dev/zero"), ("script", "/dev/zero"), ("draw", "/dev/zero", "1.0")):
            run = subprocess.run(["bash", "-c", 'ulimit -v 3000000; "$@"', "bash", *TOOL, *words], capture_output=True, text=True)
            self.assertEqual((run.returncode, run.stdout, run.stderr.count("\n"), run.stderr.startswith(TELLS)), (2, "", 1, True), run)


class Commands(test_fetch.Fetch):
    """The verbs that call `ceph`, on answers that are broken."""

    def setUp(self):
        super().setUp()
        self.commands("ceph", "crushtool", "osdmaptool")

    def verbs(self):
        return (("fetch", self.out, "--from", 62), ("record", self.out, "--from", 62, "--rounds", 1))

    def assert_ends_well(self, *words):
        run = self.run_tool(*words)
        self.assertIn(run.returncode, (0, 2), run)
        self.assertNotIn("Traceback", run.stderr)
        self.assertEqual(run.stderr.count(TELLS), 1 if run.returncode else 0, run.stderr)
        self.assertFalse([mark for mark in run.stdout + run.stderr if not mark.isprintable() and mark != "\n"], run)
        for path in self.out.glob("*.json") if self.out.is_dir() else ():
            json.loads(path.read_text())  # which is whole
        self.assertFalse([path.name for path in self.out.glob(".*") if path.name != ".lock"], run)
        return run

    def test_broken_answers(self):
        names = ("pgs.json", "64.osd.json", "62.osd.json", "3.0.query.json", "50.crush.json", "63.groups.txt")
        for seed in range(max(3, SEEDS // 2)):
            rng = random.Random(seed)
            for name in rng.sample(names, rng.randint(1, 3)):
                text, other = ((test_fetch.STRAW2 / it).read_text() for it in (name, rng.choice(names)))
                (self.folder / name).write_bytes(broken(rng, text, other))
            for words in self.verbs():
                shutil.rmtree(self.out, ignore_errors=True)
                with self.subTest(seed=seed, verb=words[0]):
                    self.assert_ends_well(*words)
            for name in names:
                (self.folder / name).unlink(missing_ok=True)

    def test_hostile_words_of_a_fault(self):
        for words in self.verbs():
            shutil.rmtree(self.out, ignore_errors=True)
            self.faults(("ceph", 999, "\x1b[31m<b>\x07"))
            run = self.assert_ends_well(*words)
            self.assertEqual((run.returncode, run.stderr.count("\n")), (2, 1), run.stderr)

    def test_a_group_whose_name_is_a_path(self):
        (self.folder / "pgs.json").write_text('{"pg_stats":[{"pgid":"../../x","state":"down","acting_primary":1,"up":[],"acting":[],"mapping_epoch":1}]}')
        for words in self.verbs():
            shutil.rmtree(self.out, ignore_errors=True)
            self.assertEqual(self.assert_ends_well(*words).returncode, 2)
        self.assertFalse(list(self.folder.parent.glob("x*.json")))

    def test_a_full_disk(self):
        for words in self.verbs():
            shutil.rmtree(self.out, ignore_errors=True)
            room = {**os.environ, "PATH": f"{self.folder}/bin:/bin:/usr/bin"}
            run = subprocess.run(["bash", "-c", 'ulimit -f 1; "$@"', "bash", *TOOL, *map(str, words)], capture_output=True, text=True, env=room)
            self.assertEqual((run.returncode, run.stderr.count(TELLS), "Traceback" in run.stderr), (2, 1, False), run)
            self.assertFalse([path.name for path in self.out.glob(".*") if path.name != ".lock"], run)

    def test_an_ascii_terminal_and_help_to_a_closed_pipe(self):
        self.faults(("pg dump", 99, "b\u00fccher"))
        for words in self.verbs():
            env = {**os.environ, "PATH": str(self.folder / "bin"), "PYTHONIOENCODING": "ascii", "PYTHONUTF8": "0", "LC_ALL": "C"}
            run = subprocess.run([*TOOL, *map(str, words)], capture_output=True, env=env)
            self.assertTrue((run.stdout + run.stderr).isascii(), run)
            self.assertNotIn(b"Traceback", run.stderr)
            end, begin = os.pipe()
            os.close(end)
            run = subprocess.run([*TOOL, words[0], "--help"], stdout=begin, stderr=subprocess.PIPE, text=True, env={**os.environ, "PYTHONUNBUFFERED": ""})
            os.close(begin)
            self.assertEqual((run.returncode, run.stderr), (2, f"{TELLS}writing: Broken pipe\n"))


if __name__ == "__main__":
    sys.exit(unittest.main())
