#!/usr/bin/env python3
"""Checks that what the documents name is there: links, sections, files.

    dev/check_links.py [DOCUMENT...]

Without a DOCUMENT all files *.md of the repository are read. Looked up are

  links     [text](file), from the folder of the document; those to the web are left out
  sections  [text](file#section) and [text](#section), among the headings of that document
  files     each name of a file in backticks, and each in a block of code; there a command also has to be executable

In backticks a name of a file is one word of letters, digits and . _ - / *, which begins with a folder at the top of the repository,
ends in a slash, or ends as sources do (.md, .py, .rt and others). It is looked up from the top of the repository, from the folder
of the document, and within a crate; without a folder, by its name, anywhere. A * stands for any letters, and so does a word in
capitals, as in crates/NAME/must-fail, except before .md. In a block of code only words that begin with a folder at
the top count, with or without ../ before it. Left out are what is built (a folder `out` in the path) and data without a folder
(told.jsonl).

Prints what isn't there, with the document and the line. The last line is `N names, M wrong`, and the status is 1 where one is.
"""

import argparse
import functools
import os
import pathlib
import re
import sys
from typing import Iterator, List, NamedTuple, Set, Tuple

from built import ROOT

LEFT_OUT = {".git", "out", "target", "__pycache__"}  # folders that hold no source
SOURCES = (".antt", ".c", ".edit", ".h", ".md", ".py", ".rs", ".rt", ".sh", ".svg", ".toml")
DATA = (".json", ".jsonl", ".txt")  # of the reader's own, where no folder is named
WITHIN = ("crates", "crates/*", "crates/*/src", "crates/*/specs", "crates/*/proofs")  # where a name may begin besides
BUILT = {"AnswersOffered.antt"}  # what the prover writes where it is asked to
LINK = re.compile(r"\]\(([^()\s]+)\)")
TICKED = re.compile(r"(`+)(.+?)\1")
WORD = re.compile(r"[\w./*-]+")
COMMAND = re.compile(r"(?:^|&&|[;|])\s*(?:\.\./)*([\w./-]+)")
PLACEHOLDER = re.compile(r"(?<![A-Za-z0-9])[A-Z]{2,}(?![A-Za-z0-9]|\.md$)")


class Name(NamedTuple):
    """Something that a document names, and in which line."""

    line: int
    text: str
    kind: str  # "link", "file" or "command"


def documents() -> List[pathlib.Path]:
    return sorted(it for it in ROOT.rglob("*.md") if not LEFT_OUT & set(it.relative_to(ROOT).parts))


@functools.lru_cache(maxsize=None)
def all_names() -> Set[str]:
    """The names of all files and folders of the repository."""
    return {it.name for it in ROOT.rglob("*") if not LEFT_OUT & set(it.relative_to(ROOT).parts[:-1])}


@functools.lru_cache(maxsize=None)
def top_folders() -> Set[str]:
    return {it.name for it in ROOT.iterdir() if it.is_dir() and it.name not in LEFT_OUT}


def is_file_name(text: str) -> bool:
    """Tells whether a word in backticks is the name of a file that has to be there."""
    if not WORD.fullmatch(text) or text.startswith(("/", "-")) or "out" in text.split("/"):
        return False
    if "/" not in text:
        return text.endswith(SOURCES) and text not in SOURCES and text not in BUILT
    return text.endswith("/") or text.split("/")[0] in top_folders() or text.endswith(SOURCES + DATA)


def names_in_code(number: int, text: str) -> Iterator[Name]:
    """The words of a line of code that begin with a folder at the top."""
    commands = COMMAND.findall(text)
    for word in re.split(r"[\s=;|&<>()'\"]+", text):
        word = re.sub(r"^(\.\./)+", "", word).rstrip(",:")
        if "/" in word and word.split("/")[0] in top_folders() and is_file_name(word):
            yield Name(number, word, "command" if word in commands else "file")


def without_code(text: str) -> str:
    return TICKED.sub("", text)


def lines_of(text: str) -> Iterator[Tuple[int, str, bool]]:
    """The lines of a document by their numbers, with whether each stands in a block of code."""
    is_fenced, is_code, was_blank = False, False, True
    for number, line in enumerate(text.split("\n"), 1):
        if line.lstrip().startswith("```"):
            is_fenced = not is_fenced
            continue
        is_blank = not line.strip()
        is_code = is_fenced or (line.startswith("    ") and not is_blank and (is_code or was_blank))
        was_blank = is_blank
        yield number, line, is_code


def names_in(text: str) -> Iterator[Name]:
    for number, line, is_code in lines_of(text):
        if is_code:
            yield from names_in_code(number, line)
            continue
        yield from (Name(number, it, "link") for it in LINK.findall(without_code(line)))
        # The text of a link may be in backticks: its file is that of the link.
        unlinked = re.sub(r"\[[^\[\]]*\]\([^()\s]+\)", "", line)
        yield from (Name(number, it, "file") for _, it in TICKED.findall(unlinked) if is_file_name(it))


def sections(document: pathlib.Path) -> Set[str]:
    """The anchors of a document's headings, as GitHub makes them."""
    found: Set[str] = set()
    for _, line, is_code in lines_of(document.read_text()):
        heading = None if is_code else re.match(r"#+\s+(.*)", line)
        if heading:
            plain = re.sub(r"\[([^\[\]]*)\]\([^()]*\)", r"\1", heading[1]).strip()
            found.add(re.sub(r"[^\w\- ]", "", plain.lower()).replace(" ", "-"))
    return found


def wrong_link(document: pathlib.Path, link: str) -> str:
    """What is wrong with a link, if anything."""
    if re.match(r"[a-z][a-z+.-]*:", link):
        return ""
    path, _, section = link.partition("#")
    target = document.parent / path if path else document
    if not target.exists():
        return f"no file {path}"
    if section and section not in sections(target):
        return f"no section #{section} in {target.name}"
    return ""


def is_there(document: pathlib.Path, name: str) -> bool:
    """Tells whether there is a file or folder of this name, which may have patterns."""
    if "/" not in name and name in all_names():
        return True
    for pattern in (name, PLACEHOLDER.sub("*", name)):
        if pattern.startswith("../"):
            if any(document.parent.glob(pattern)):
                return True
            continue
        bases = [ROOT, document.parent, *(it for within in WITHIN for it in ROOT.glob(within))]
        if any(base.is_dir() and any(base.glob(pattern)) for base in bases):
            return True
    return False


def wrong_names(document: pathlib.Path) -> Tuple[int, List[str]]:
    """How many names a document has, and what is wrong with some."""
    count, wrong = 0, []
    for name in names_in(document.read_text()):
        count += 1
        if name.kind == "link":
            why = wrong_link(document, name.text)
        elif not is_there(document, name.text):
            why = f"no file {name.text}"
        else:
            is_idle = name.kind == "command" and not os.access(ROOT / name.text, os.X_OK)
            why = f"{name.text} isn't executable" if is_idle else ""
        if why:
            wrong.append(f"{document.relative_to(ROOT)}:{name.line}: {why}")
    return count, wrong


def main() -> int:
    parser = argparse.ArgumentParser(description=__doc__, formatter_class=argparse.RawDescriptionHelpFormatter)
    parser.add_argument("documents", metavar="DOCUMENT", nargs="*", type=pathlib.Path)
    options = parser.parse_args()
    count, wrong = 0, 0
    for document in [it.resolve() for it in options.documents] or documents():
        names, lines = wrong_names(document)
        count, wrong = count + names, wrong + len(lines)
        for line in lines:
            print(line)
    print(f"{count} names, {wrong} wrong")
    return 1 if wrong or count == 0 else 0


if __name__ == "__main__":
    sys.exit(main())
