#!/usr/bin/env python3
"""Tries the wrong bodies that stand outside the gate: the prover, or with --tests a test, has to refuse each.

    dev/try_plants.py [NAME...]
    dev/try_plants.py --tests [--seconds S] [--jobs N] [NAME...]

NAME is a crate; without one all crates that have a folder `plants` are tried. The files `crates/NAME/plants/*.edit` have
the form of must-fail edits. The tree is copied, the plants take the place of the edits in the copy, and `rt must-fail`
tries them. Prints its lines and a table of how many were refused, and exits with 1 where one was not. Needs `rt`.

With --tests the bodies are those that are proved, or that say nothing to the prover, and only a test refuses. NAME is a crate
of tests; the files are `crates/NAME/refused_by_tests/*.edit`, each of lines

    crate: the crate whose files it changes
    tests: the crate of the tests
    test: the name of the test function that has to fail
    file: a file of src/ of the crate that it changes
    old: a text of one line that stands once in that file
    new: a text of one line in its place

with further file, old and new lines after them. First each test has to pass on a copy of the tree that isn't changed: there all
tests of the crate are run. Then for each file its change is made in the copy, the test alone is run by `rt try --test`, which
proves nothing, and the change is taken back. A test has S seconds, 60 if not said; one that doesn't end has failed. N edits are
tried at a time, one if not said, each on a copy of its own; one takes three minutes of the processor and 4 GB. Prints a table of
what the tests said, and exits with 1 where one passed, or where an edit can't be tried.
"""

import argparse
import concurrent.futures
import contextlib
import pathlib
import queue
import re
import shutil
import subprocess
import sys
import tempfile
from typing import Dict, Iterator, List, NamedTuple, Optional, Tuple

from built import ROOT

RESULT = re.compile(r"must-fail (\w+)/(\S+\.edit): (refused|NOT REFUSED|BAD EDIT)")
BY_NAME = "only because a proof file names"
ENDED = re.compile(r"^test (?:\w+::)*(\w+) \.\.\. (\w+)$", re.M)
HEADS = ("crate", "tests", "test")
MOST_SHOWN = 160  # characters of what a test said


def crates_with(folder: str) -> List[str]:
    """The crates that have edits in such a folder, in the order of their names."""
    return sorted(it.parent.name for it in ROOT.glob(f"crates/*/{folder}") if any(it.glob("*.edit")))


# What the prover refuses


def copied_tree(room: str) -> pathlib.Path:
    """Copies the tree to the folder, with the plants in the place of the edits."""
    tree = pathlib.Path(room) / "tree"
    shutil.copytree(ROOT, tree, ignore=shutil.ignore_patterns(".git"), symlinks=True)
    (tree / ".git").mkdir()
    for crate in (tree / "crates").iterdir():
        shutil.rmtree(crate / "must-fail", ignore_errors=True)
        if (crate / "plants").is_dir():
            (crate / "plants").rename(crate / "must-fail")
    return tree


def tried(tree: pathlib.Path, name: str) -> Dict[str, str]:
    """Tries the plants of a crate, and gives what became of each, by its file."""
    with subprocess.Popen(
        ["rt", "must-fail", name], cwd=tree, stdout=subprocess.PIPE, stderr=subprocess.STDOUT, text=True
    ) as run:
        results = {}
        for line in run.stdout or ():
            print(line, end="", flush=True)
            found = RESULT.search(line)
            if found:
                results[found[2]] = "by a name alone" if BY_NAME in line else found[3]
    return results


def by_prover(names: List[str]) -> bool:
    """Tries the plants of these crates, and tells whether each was refused."""
    rows, is_well = [], True
    with tempfile.TemporaryDirectory(prefix="plants-") as room:
        tree = copied_tree(room)
        for name in names:
            plants = {it.name for it in (ROOT / "crates" / name / "plants").glob("*.edit")}
            results = tried(tree, name)
            refused = sum(results.get(it) == "refused" for it in plants)
            rest = [f"{it}: {results.get(it, 'not tried')}" for it in sorted(plants) if results.get(it) != "refused"]
            is_well = is_well and all(results.get(it) in ("refused", "by a name alone") for it in plants)
            rows.append(f"| {name} | {len(plants)} | {refused} | {', '.join(rest)} |")
    print("| Crate | Plants | Refused by a value | Others |\n|---|---|---|---|", *rows, sep="\n")
    return is_well


# What tests refuse


class BadEdit(Exception):
    """An edit that can't be tried; the text says why."""


class Tree(NamedTuple):
    """A copy of the tree, by its folder of crates, and how many seconds a test has there."""

    crates: pathlib.Path
    seconds: int


class Edit(NamedTuple):
    """A change of a crate's files, and the test that has to fail with it."""

    file: pathlib.Path
    crate: str
    tests: str
    test: str
    changes: List[Tuple[str, str, str]]  # a file of the crate, the old text and the new


def read_edit(file: pathlib.Path) -> Edit:
    """Reads an edit, or raises BadEdit."""
    heads: Dict[str, str] = {}
    changes: List[Tuple[str, str, str]] = []
    path: Optional[str] = None
    old: Optional[str] = None
    for line in file.read_text(encoding="utf-8").split("\n"):
        key, _, text = line.partition(": ") if ": " in line else (line.rstrip(":"), "", "")
        if key in HEADS:
            heads[key] = text.strip()
        elif key == "file":
            path = text.strip()
        elif key == "old":
            old = text
        elif key == "new" and path and old:
            changes.append((path, old, text))
            old = None
        elif line.strip():
            raise BadEdit(f"a line that no edit has here: {line[:60]}")
    missing = [key for key in HEADS if not re.fullmatch(r"\w+", heads.get(key, ""))]
    if missing or not changes or old is not None:
        raise BadEdit(f"no {missing[0]} line" if missing else "a change has file, old and new lines")
    if heads["tests"] != file.parent.parent.name:
        raise BadEdit(f"its tests are of {heads['tests']}")
    return Edit(file, heads["crate"], heads["tests"], heads["test"], changes)


def changed(edit: Edit, crate: pathlib.Path) -> Dict[pathlib.Path, str]:
    """The texts of the files that the edit changes in the crate's folder, or raises BadEdit."""
    texts: Dict[pathlib.Path, str] = {}
    for path, old, new in edit.changes:
        file = crate / path
        if not path.startswith("src/") or ".." in path or not file.is_file():
            raise BadEdit(f"{edit.crate} has no file {path}")
        text = texts.get(file) or file.read_text(encoding="utf-8")
        if text.count(old) != 1:
            raise BadEdit(f"{path} has an old text {text.count(old)} times")
        texts[file] = text.replace(old, new)
    return texts


@contextlib.contextmanager
def made(texts: Dict[pathlib.Path, str]) -> Iterator[None]:
    """Changes the files, and takes it back at the end."""
    before = {file: file.read_bytes() for file in texts}
    for file, text in texts.items():
        file.write_text(text, encoding="utf-8", newline="\n")
    try:
        yield
    finally:
        for file, content in before.items():
            file.write_bytes(content)


def tests_run(folder: pathlib.Path, seconds: int, test: Optional[str] = None) -> Tuple[Dict[str, str], str]:
    """Runs a test of the crate in the folder, or all, without a proof: how each ended, `ok` or `FAILED`, and what was said."""
    words = ["rt", "try", "--test", "--seconds", str(seconds)] + (["--", test] if test else [])
    run = subprocess.run(words, cwd=folder, stdout=subprocess.PIPE, stderr=subprocess.STDOUT, text=True)
    return {found[1]: found[2] for found in ENDED.finditer(run.stdout)}, run.stdout


def told_by(said: str, test: str) -> str:
    """What a test said as it failed, in one line."""
    _, _, after = said.partition(f"{test} ... FAILED\n")
    lines = [line.strip() for line in after.split("\ntest ")[0].splitlines()]
    return "; ".join(line for line in lines if line)[:MOST_SHOWN].replace("|", "/")


def verdict(tree: Tree, edit: Edit) -> Tuple[bool, str]:
    """Makes the change in the tree, and tells whether the test refused it, and what it said."""
    try:
        texts = changed(edit, tree.crates / edit.crate)
    except BadEdit as why:
        return False, f"BAD EDIT: {why}"
    with made(texts):
        results, said = tests_run(tree.crates / edit.tests, tree.seconds, edit.test)
    ended = results.get(edit.test)
    if ended == "FAILED":
        return True, f"failed: {told_by(said, edit.test)}"
    if ended == "ok":
        return False, "NOT REFUSED"
    print(said[-2000:], end="", flush=True)
    return False, "BAD EDIT: the test didn't run"


def failing_unchanged(tree: Tree, edits: List[Edit]) -> List[str]:
    """The tests that don't pass where nothing is changed."""
    failing = []
    for crate in sorted({edit.tests for edit in edits}):
        tests = sorted({edit.test for edit in edits if edit.tests == crate})
        results, said = tests_run(tree.crates / crate, tree.seconds * len(tests))
        for test in tests:
            print(f"{crate}, unchanged: {test} {results.get(test, 'did not run')}", flush=True)
        failing += [f"{crate}: {test}" for test in tests if results.get(test) != "ok"]
        if not all(test in results for test in tests):
            print(said[-2000:], end="", flush=True)
    return failing


def read_edits(names: List[str]) -> Tuple[List[Edit], List[str]]:
    """The edits of these crates of tests, and what is wrong with those that can't be read, as rows of the table."""
    edits, rows = [], []
    for name in names:
        for file in sorted((ROOT / "crates" / name / "refused_by_tests").glob("*.edit")):
            try:
                edits.append(read_edit(file))
            except BadEdit as why:
                rows.append(f"| {name} | {file.stem} | | | BAD EDIT: {why} |")
    return edits, rows


def unproved_copy(top: pathlib.Path) -> pathlib.Path:
    """Copies the tree to the folder without what was built in it, and gives its folder of crates."""
    shutil.copytree(ROOT, top, ignore=shutil.ignore_patterns(".git", "out"), symlinks=True)
    (top / ".git").mkdir()
    return top / "crates"


def by_tests(names: List[str], seconds: int, jobs: int) -> bool:
    """Tries the bodies that only tests refuse, this many at a time, and tells whether each was refused."""
    edits, rows = read_edits(names)
    is_well = not rows and bool(edits)
    with tempfile.TemporaryDirectory(prefix="plants-") as room:
        trees: "queue.Queue[Tree]" = queue.Queue()
        for job in range(jobs):
            trees.put(Tree(unproved_copy(pathlib.Path(room) / f"tree{job}"), seconds))

        def tried_on_a_copy(edit: Edit) -> Tuple[bool, str]:
            tree = trees.get()
            try:
                refused, what = verdict(tree, edit)
            finally:
                trees.put(tree)
            print(f"{edit.tests}/{edit.file.name}: {what}", flush=True)
            return refused, what

        first = trees.get()
        failing = failing_unchanged(first, edits)
        trees.put(first)
        with concurrent.futures.ThreadPoolExecutor(jobs) as pool:
            for edit, (refused, what) in zip(edits, pool.map(tried_on_a_copy, edits)):
                is_well = is_well and refused
                rows.append(f"| {edit.tests} | {edit.file.stem} | {edit.crate} | {edit.test} | {what} |")
    print("| Tests | Body | Of | Test | With it |\n|---|---|---|---|---|", *rows, sep="\n")
    for it in failing:
        print(f"fails where nothing is changed: {it}")
    return is_well and not failing


def main(words: Optional[List[str]] = None) -> int:
    parser = argparse.ArgumentParser(description=__doc__, formatter_class=argparse.RawDescriptionHelpFormatter)
    parser.add_argument("--tests", action="store_true", help="try the bodies that only tests refuse")
    parser.add_argument("--seconds", type=int, default=60, metavar="S", help="how long a test may take")
    parser.add_argument("--jobs", type=int, default=1, metavar="N", help="how many edits are tried at a time by tests")
    parser.add_argument("names", metavar="NAME", nargs="*", help="a crate")
    options = parser.parse_args(words)
    if options.jobs < 1:
        parser.error("--jobs wants a number from 1 on")
    if options.tests:
        return 0 if by_tests(options.names or crates_with("refused_by_tests"), options.seconds, options.jobs) else 1
    return 0 if by_prover(options.names or crates_with("plants")) else 1


if __name__ == "__main__":
    sys.exit(main())
