"""Tests of documents: their commands run and print what stands there, they are short, and docs/OPERATING.md has each verdict."""

import os
import pathlib
import re
import shutil
import subprocess
import unittest

from case import HAS_PROGRAM, PROGRAM, ROOT, Room

from check_links import documents

STREAMS = {"prints": "stdout", "says on standard error": "stderr"}
BEGINS = re.compile(r"    (\w+=\S+ )?(cd|rt|cc|export|echo|mkdir|python3|pgpeer|pgpeer-ceph|ceph|\./\w+|(ceph|tools|dev|bench|fuzz)/\S+)\s")
LEFT_OUT = (
    *(r"\brt ", "tools/", r"\bLOG\b", r"\[NAME"),  # take an hour, or are forms of commands
    *("/tmp/pgpeer", r"\./outage", "--libs"),  # other parts of test.sh run these, or what they show
    *("^ceph ", "pgpeer-ceph fetch", "pgpeer-ceph what-if", "pgpeer_follow", "etcd"),  # need a cluster
)
LONG = re.compile(r"(?:cd \S+ && )?((?:bench|dev|fuzz)/.*)")  # of these only the words are tried
GIVEN = {  # what is the reader's own, and files for it
    "told.jsonl": "examples/compact.jsonl",
    "next.jsonl": "examples/first.jsonl",
    "SCRIPT": "examples/compact.jsonl",
    "osdmap.json": "ceph/tests/maps/temps.osdmap.json",
    "crush.json": "ceph/tests/maps/temps.crush.json",
}
VERDICTS = ("NoPrimary", "Down", "Waiting", "Incomplete", "Short", "NeedLog", "NeedUpThru", "Serve")


def paragraphs(text):
    """The paragraphs of a page; indented lines stay together over blank ones."""
    found = []
    for part in text.strip("\n").split("\n\n"):
        if part.startswith("    ") and found and found[-1].startswith("    "):
            found[-1] += "\n\n" + part
        else:
            found.append(part)
    return found


def unindented(block):
    return "".join(line[4:] + "\n" for line in block.split("\n"))


def commands(text):
    """Each command of a page, with the stream and the text that it has to give, where one stands there."""
    parts = [*paragraphs(text), "", ""]
    for at, part in enumerate(parts):
        if BEGINS.match(part + "\n"):
            stream = STREAMS.get(parts[at + 1])
            *first, last = unindented(part).strip().split("\n")
            yield from ((line, None, None) for line in first)
            yield last, stream, unindented(parts[at + 2]) if stream else None


def is_left_out(words):
    return any(re.search(pattern, words) for pattern in LEFT_OUT)


class Pages(unittest.TestCase):
    def test_each_verdict_has_its_example_and_picture(self):
        text = (ROOT / "docs/OPERATING.md").read_text()
        sections = re.findall(r"^### (\w+)\n\n(.*?)(?=^##)", text, re.M | re.S)
        self.assertEqual([name for name, _ in sections], list(VERDICTS))
        for name, text in sections:
            stem = "explain_" + re.sub(r"(?<=[a-z])(?=[A-Z])", "_", name).lower()
            self.assertIn(f"(../examples/{stem}.txt)", text)
            self.assertIn(f"({stem}.svg)", text)
            self.assertIn(f": {name}\n", (ROOT / f"examples/{stem}.txt").read_text())

    def test_documents_stay_short(self):
        words = {page.relative_to(ROOT).as_posix(): len(page.read_text().split()) for page in documents()}
        self.assertLess(words["docs/OPERATING.md"], 1500)
        self.assertLess(sum(words.values()), 27_000)

    def test_commands_are_found_with_what_they_print(self):
        found = list(commands("a\n\n    pgpeer explain\n\nprints\n\n    1\n\n      2\n\nb\n\n    cd x && y\n    pgpeer-ceph x\n\nc\n\n    {}\n"))
        self.assertEqual(found, [("pgpeer explain", "stdout", "1\n\n  2\n"), ("cd x && y", None, None), ("pgpeer-ceph x", None, None)])

    def test_what_is_left_out_stands_somewhere(self):
        found = [words for page in documents() for words, _, _ in commands(page.read_text())]
        for pattern in LEFT_OUT:
            self.assertTrue(any(re.search(pattern, words) for words in found), pattern)


class Repository(Room):
    """A folder in which commands find what they name, and leave what they write."""

    def setUp(self):
        super().setUp()
        for name in ("ceph", "examples", "bench", "dev", "fuzz"):
            (self.room / name).symlink_to(ROOT / name)
        shutil.copytree(ROOT / "docs", self.room / "docs")
        shutil.copytree(ROOT / "ceph/tests/maps/outage", self.room / "outage")
        for name, file in GIVEN.items():
            shutil.copy(ROOT / file, self.room / name)
        for link, target in (("bin/pgpeer", PROGRAM), ("crates/pgpeer/out/pgpeer", PROGRAM), ("bin/pgpeer-ceph", ROOT / "ceph/pgpeer-ceph")):
            (self.room / link).parent.mkdir(parents=True, exist_ok=True)
            (self.room / link).symlink_to(pathlib.Path(target).resolve())

    def run_words(self, words):
        env = {**os.environ, "PGPEER": PROGRAM, "PATH": f"{self.room}/bin:{os.environ['PATH']}"}
        return subprocess.run(["bash", "-c", words], cwd=self.room, env=env, capture_output=True, text=True)

    def run_page(self, page):
        for words, stream, wanted in commands(page.read_text()):
            long = LONG.fullmatch(words)
            if is_left_out(words):
                continue
            with self.subTest(words):
                run = self.run_words(f"{long[1]} --help" if long else words)
                self.assertEqual(run.returncode, 0, run.stderr)
                if stream:
                    self.assertEqual(getattr(run, stream), wanted)


class Commands(Repository):
    @unittest.skipUnless(HAS_PROGRAM, f"no program {PROGRAM}")
    def test_each_runs_and_prints_what_stands_there(self):
        for page in documents():
            self.run_page(page)
        for drawn in (ROOT / "docs").glob("*.svg"):
            self.assertEqual((self.room / "docs" / drawn.name).read_text(), drawn.read_text(), drawn.name)

    def test_words_of_long_ones_are_known(self):
        for page in (ROOT / "fuzz/README.md", ROOT / "bench/README.md"):
            self.run_page(page)


if __name__ == "__main__":
    unittest.main()
