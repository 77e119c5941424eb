"""Tests of check_links.py: on a tree of a few files, and on the documents of the repository."""

import re
import sys
import unittest
from unittest import mock

from case import ROOT, Room, written

import check_links

FILES = (
    "README.md",
    "docs/RULES.md",
    "docs/picture.svg",
    "examples/outage.jsonl",
    "tools/check.py",
    "crates/pgp_map/src/map.rt",
    "crates/pgp_map/specs/Map.antt",
    "crates/pgp_map/must-fail/forgets.edit",
    "crates/pgp_map/out/built.md",
)


class WithTree(Room):
    def setUp(self):
        super().setUp()
        for name in FILES:
            self.write(name)
        self.write("docs/RULES.md", "# Rules\n\n## A `log`, and more\n\n    # no heading\n")
        self.patch(mock.patch.object(check_links, "ROOT", self.room))
        for cached in (check_links.all_names, check_links.top_folders):
            cached.cache_clear()
            self.addCleanup(cached.cache_clear)

    def wrong(self, text, name="docs/PAGE.md"):
        """What is wrong with a document of this text, without its name."""
        return [it.split(":", 1)[1] for it in check_links.wrong_names(self.write(name, text))[1]]


class Links(WithTree):
    def test_a_link_leads_to_a_file_or_a_folder(self):
        self.assertEqual(self.wrong("[a](RULES.md) ![b](picture.svg) [c](../tools) [d](https://no.such/x.md)\n"), [])
        self.assertEqual(self.wrong("a\n\n[a](RULE.md)\n"), ["3: no file RULE.md"])
        self.assertEqual(self.wrong("[a](docs/RULES.md)\n"), ["1: no file docs/RULES.md"])
        self.assertEqual(self.wrong("[a](docs/RULES.md)\n", "NEWS.md"), [])

    def test_the_text_of_a_link_is_no_name(self):
        self.assertEqual(self.wrong("[`gone.rt`](RULES.md)\n"), [])

    def test_a_section_is_a_heading_of_its_document(self):
        self.assertEqual(self.wrong("# Own\n\n[a](RULES.md#a-log-and-more) [b](#own)\n"), [])
        self.assertEqual(self.wrong("[a](RULES.md#no-heading)\n"), ["1: no section #no-heading in RULES.md"])
        self.assertEqual(self.wrong("[a](#own)\n"), ["1: no section #own in PAGE.md"])

    def test_code_has_no_links(self):
        self.assertEqual(self.wrong("`[a](gone.md)`\n\n    [a](gone.md)\n\n```\n[a](gone.md)\n```\n"), [])


class Files(WithTree):
    def test_a_name_is_looked_up_from_several_places(self):
        for name in ("docs/RULES.md", "RULES.md", "crates/pgp_map/src/map.rt", "pgp_map/src/map.rt", "src/map.rt", "Map.antt", "specs/"):
            self.assertEqual(self.wrong(f"a `{name}`\n"), [], name)
        for name in ("docs/RULE.md", "RULE.md", "crates/pgp_map/src/maps.rt", "src/maps.rt", "examples/out.jsonl", "gone/"):
            self.assertEqual(self.wrong(f"a `{name}`\n"), [f"1: no file {name}"], name)

    def test_patterns_match_some_file(self):
        for name in ("crates/*/must-fail", "crates/NAME/must-fail/*.edit", "crates/CRATE/specs/MODULE.antt", "examples/*.jsonl"):
            self.assertEqual(self.wrong(f"a `{name}`\n"), [], name)
        for name in ("crates/*/must-fall", "crates/NAME/plants", "examples/*.svg"):
            self.assertEqual(self.wrong(f"a `{name}`\n"), [f"1: no file {name}"], name)

    def test_what_is_no_name_of_a_source(self):
        for text in ("told.jsonl", "EPOCH.osd.json", "a/b", "x.y", ".rt", "--help", "/tmp/a.md", "pgp_map::laws", "rt ci a.md", "crates/pgp_map/out/a.md"):
            self.assertEqual(self.wrong(f"a `{text}`\n"), [], text)

    def test_what_is_built_is_no_document_and_no_source(self):
        self.assertNotIn(self.room / "crates/pgp_map/out/built.md", check_links.documents())
        self.assertEqual(self.wrong("`built.md`\n"), ["1: no file built.md"])

    def test_code_names_files_by_a_folder_at_the_top(self):
        (self.room / "tools/check.py").chmod(0o755)
        self.assertEqual(self.wrong("a\n\n    cd tools && ../tools/check.py --x=examples/outage.jsonl < told.jsonl > out/x.md\n"), [])
        found = self.wrong("a\n\n    tools/chek.py < ../../examples/outrage.jsonl\n\n    cat docs/RULES.md\n")
        self.assertEqual(found, ["3: no file tools/chek.py", "3: no file examples/outrage.jsonl"])


    def test_a_command_is_executable(self):
        text = "a\n\n    cd tools && ../tools/check.py examples/outage.jsonl\n    python3 tools/check.py\n"
        self.assertEqual(self.wrong(text), ["3: tools/check.py isn't executable"])
        (self.room / "tools/check.py").chmod(0o755)
        self.assertEqual(self.wrong(text), [])


class All(WithTree):
    def run_all(self):
        with mock.patch.object(sys, "argv", ["check_links.py"]):
            status, text = written(check_links.main)
        return status, text.splitlines()

    def test_all_documents_are_read_and_counted(self):
        (self.room / "README.md").write_text("[a](docs/RULES.md) `docs/RULE.md`\n")
        self.assertEqual(self.run_all(), (1, ["README.md:1: no file docs/RULE.md", "2 names, 1 wrong"]))
        (self.room / "README.md").write_text("[a](docs/RULES.md)\n")
        self.assertEqual(self.run_all(), (0, ["1 names, 0 wrong"]))

    def test_documents_without_a_name_are_not_enough(self):
        self.assertEqual(self.run_all(), (1, ["0 names, 0 wrong"]))


class Page(unittest.TestCase):
    def test_it_lists_each_script_once(self):
        listed = [name for line in (ROOT / "dev/README.md").read_text().splitlines() for name in re.findall(r"`(\w+\.py)`", line)]
        self.assertEqual(sorted(listed), sorted(it.name for it in (ROOT / "dev").glob("*.py") if it.stat().st_mode & 0o100))


if __name__ == "__main__":
    unittest.main()
