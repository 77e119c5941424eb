#!/usr/bin/env python3
"""Runs the built program on generated scripts, and compares each answer with that of a model.

    fuzz/fuzz.py [--program PATH] [--seed N] [--kinds KIND...] [--lines N | --minutes M] [--under WORDS] [--figures FILE]
    fuzz/fuzz.py --sum FILE...
    fuzz/fuzz.py --reduce SCRIPT

The same seed gives the same scripts. --under puts words before the program, such as "valgrind -q --error-exitcode=99".
--figures writes what was counted into a file, --sum adds such files up and prints them in Markdown. A script with a wrong
answer, an end by another status than 0, or an end that didn't come within the time is kept in the folder that --keep names;
--reduce takes lines out of such a script while it stays wrong, and prints the rest. Status 1: something was wrong.
"""

import argparse
import collections
import json
import os
import pathlib
import random
import resource
import shlex
import subprocess
import sys
import tempfile
import time
from dataclasses import dataclass, field
from typing import Any, Callable, Counter, Dict, Iterable, Iterator, List, NamedTuple, Optional, Sequence, Tuple

import grammar
import hostile
import model
import rules

HERE = pathlib.Path(__file__).resolve().parent
sys.path.append(str(HERE.parent / "dev"))

from built import ROOT, command_line  # noqa: E402

KINDS = {"story": 750, "noise": 200, "traces": 20, "long": 15, "wide": 10, "full": 2}
AFTER_CLOSE = 30  # lines


@dataclass
class Script:
    """Lines, each with the answer that it must have; None for a blank line. The log is that of the model that answered them."""

    lines: List[bytes]
    answers: List[Optional[model.Answer]]
    has_last_feed: bool
    log: Optional[model.Model] = field(default=None, compare=False, repr=False)
    last: int = 2  # up to which version lines are read

    def text(self) -> bytes:
        text = b"\n".join(self.lines)
        return text + b"\n" if self.has_last_feed and self.lines else text

    def wanted(self) -> bytes:
        return b"".join(answer.text.encode() + b"\n" for answer in self.answers if answer is not None)

    def options(self) -> List[str]:
        """The words that have the program read its lines."""
        return ["--format", "3"] if self.last == 3 else []


# Scripts


def repository_lines() -> List[bytes]:
    """The lines of the repository's examples."""
    return [line for file in sorted((ROOT / "examples").glob("*.jsonl")) for line in file.read_bytes().splitlines()]


class Writer:
    """Writes a script line by line, and has the model answer each. Lines up to the last version are read."""

    def __init__(self, rng: random.Random, entries: int = 400, last: Optional[int] = None):
        self.rng, self.log = rng, model.Model(last or rng.choice((2, 2, 3)))
        self.story = grammar.Story(rng, self.log, entries)
        if not self.story.is_first_form and self.log.last == 2:
            self.story.straw2 = self.story.jumps = 0.02  # lines that are refused then
        self.lines: List[bytes] = []
        self.answers: List[Optional[model.Answer]] = []

    def put(self, line: bytes) -> None:
        self.lines.append(line)
        self.answers.append(self.log.answer(line))

    def script(self) -> Script:
        return Script(self.lines, self.answers, self.rng.random() < 0.9, self.log, self.log.last)


def story(rng: random.Random, others: List[bytes], last: Optional[int] = None) -> Script:
    """A script of all operations, some of whose lines are changed, with noise between."""
    writer = Writer(rng, rng.choice((30, 100, 400, 1000)), last)
    bad, wrong, noisy = rng.choice((0, 0.1, 0.3, 0.6)), rng.choice((0, 0.1, 0.2, 0.4)), rng.choice((0, 0.05, 0.3, 0.6))
    left = rng.choice((50, 300, 1000, 2000))
    while left > 0:
        left -= 1
        if rng.random() < noisy:
            writer.put(hostile.noise(rng).replace(b"\n", b""))
            continue
        line = writer.story.line()
        if rng.random() < wrong:
            line = rules.broken(rng, line, writer.log.maps, list(writer.story.devices))
        near = writer.lines[-20:] if writer.lines and rng.random() < 0.5 else others
        writer.put(hostile.hostile(rng, line, near) if rng.random() < bad else grammar.compact(line))
        if writer.log.is_closed:
            left = min(left, AFTER_CLOSE)
    return writer.script()


def noise(rng: random.Random, others: List[bytes], last: Optional[int] = None) -> Script:
    """Noise, and changed lines of the repository's examples."""
    writer = Writer(rng, last=last)
    for _ in range(rng.choice((1000, 4000, 10000))):
        if rng.random() < 0.7:
            writer.put(hostile.noise(rng).replace(b"\n", b""))
        else:
            change = rng.choice((hostile.by_bytes, hostile.by_number, hostile.cut))
            writer.put(change(rng, rng.choice(others)).replace(b"\n", b""))
    return writer.script()


def traces(rng: random.Random, others: List[bytes]) -> Script:
    """Traces, up to the longest."""
    writer = Writer(rng)
    has_versions = rng.random() < 0.65
    for _ in range(200):
        line = grammar.trace(rng, rng.choice((3, 3, 12, 40)), has_versions, writer.log.last)
        writer.put(hostile.hostile(rng, line, others) if rng.random() < 0.3 else grammar.compact(line))
    writer.put(grammar.compact(grammar.trace(rng, rng.choice((400, 4096)), has_versions, writer.log.last)))
    longest = grammar.trace(rng, 1, has_versions, writer.log.last)
    writer.put(grammar.compact({**longest, "epochs": longest["epochs"] * rng.choice((4095, 4096, 4097))}))
    return writer.script()


def long(rng: random.Random, others: List[bytes], last: Optional[int] = None) -> Script:
    """Lines about as long as a line may be, among those of a story."""
    writer = Writer(rng, 60, last)
    for _ in range(20):
        for _ in range(10):
            writer.put(grammar.compact(writer.story.line()))
        writer.put(hostile.of_length(rng, grammar.compact(writer.story.line())))
    return writer.script()


def wide(rng: random.Random, others: List[bytes], last: Optional[int] = None) -> Script:
    """A map about as large as it may be, and questions about it."""
    writer = Writer(rng, last=last)
    writer.story.devices = range(4096)
    hosts = [{"id": -2 - at, "type": 1, "alg": "uniform", "items": list(range(4 * at, 4 * at + 4))} for at in range(1024)]
    hosts = hosts[: 1024 - 17 + rng.choice((0, 0, 1))]
    held = [it["id"] for it in hosts]
    racks = [{"id": -2000 - at, "type": 2, "alg": "uniform", "items": held[64 * at : 64 * at + 64]} for at in range(16)]
    weights = [rng.choice((2**28, 2**28 - 1))] * 16
    first: Dict[str, Any] = {"v": 3} if writer.log.last == 3 else {}
    alg = "straw2" if first else "list"
    root = {"id": -1, "type": 3, "alg": alg, "items": [it["id"] for it in racks], "weights": weights}
    pools = [{"id": at, "pg_num": 64, "kind": "replicated", "size": 3, "min_size": 2, "leaf": 1} for at in range(1, 255)]
    code: Dict[str, Any] = {"kind": "erasure", "k": 4}
    version: Dict[str, Any] = {}
    if not writer.story.is_first_form:
        code, version = {"kind": "grouped", "groups": [[[0, 1], 1], [[2, 3], 1], [[4, 5], 1]]}, {"v": 2}
    end = {"id": 255, "pg_num": rng.choice((128, 128, 129)), **code, "size": 6, "min_size": 5, "leaf": 2}
    writer.put(grammar.compact({"op": "inc", **first, "epoch": 1, "up": list(range(4096)), "crush": [root, *racks, *hosts]}))
    writer.put(grammar.compact({"op": "inc", **version, "epoch": writer.log.maps.epoch + 1, "pools": [*pools, end]}))
    for _ in range(150):
        writer.put(grammar.compact(writer.story.line()))
    return writer.script()


def full(rng: random.Random, others: List[bytes], last: Optional[int] = None) -> Script:
    """A log that gets as long as it may, and what comes after."""
    writer = Writer(rng, 10**6, last)
    writer.story.asks = 0.0
    for _ in range(60):
        writer.put(grammar.compact(writer.story.line()))
    while writer.log.count < model.MOST_TAKEN:
        if rng.random() < 0.98 or writer.story.maps.epoch > 2000:
            group = writer.story.group()
            writer.put(grammar.compact(writer.story.info(group, writer.story.member(group))))
        else:
            writer.put(grammar.compact(writer.story.inc_only()))
        writer.story.plan = []
    writer.story.asks = 0.3
    for _ in range(30):
        writer.put(grammar.compact(writer.story.line()))
    writer.put(b'{"op":"close"}')
    for _ in range(20):
        writer.put(grammar.compact(writer.story.line()))
    return writer.script()


MAKERS = {"story": story, "noise": noise, "traces": traces, "long": long, "wide": wide, "full": full}


def script_of(seed: str, number: int, others: List[bytes], kinds: Sequence[str] = tuple(KINDS)) -> Tuple[str, Script]:
    """The script of this number, with its kind, which is one of these."""
    rng = random.Random(f"{seed}/{number}")
    kind = rng.choices(kinds, [KINDS[it] for it in kinds])[0]
    return kind, MAKERS[kind](rng, others)


# Runs


class Run(NamedTuple):
    """What the program did with a script. The status is None where it didn't end in time."""

    out: bytes
    status: Optional[int]
    errors: bytes


def answered(words: List[str], text: bytes, seconds: int, *subcommand: str) -> Run:
    with tempfile.TemporaryFile() as stdin:
        stdin.write(text)
        stdin.seek(0)
        try:
            run = subprocess.run([*words, *(subcommand or ("run",))], stdin=stdin, capture_output=True, timeout=seconds)
        except subprocess.TimeoutExpired as late:
            return Run(late.stdout or b"", None, late.stderr or b"")
    return Run(run.stdout, run.returncode, run.stderr)


def complaint(script: Script, run: Run) -> Optional[str]:
    """What is wrong with a run, if anything."""
    if run.status is None:
        return "it did not end"
    if run.status != 0:
        return f"status {run.status}: {run.errors.decode(errors='replace')[-2000:]}"
    if run.out == script.wanted():
        return None
    answers = [(number, answer.text) for number, answer in enumerate(script.answers, 1) if answer is not None]
    found = run.out.split(b"\n")[:-1]
    for (number, wanted), got in zip(answers, found):
        if got != wanted.encode():
            return f"line {number} has the answer {got.decode(errors='replace')} and not {wanted}"
    return f"{len(found)} answers and not {len(answers)}"


def outcome(answer: Optional[model.Answer]) -> str:
    """What is counted of an answer: its operation, and how it was answered."""
    if answer is None:
        return "(blank) no answer"
    what = "ok" if answer.code == 0 else str(answer.code)
    return " ".join(filter(None, (answer.op or "(no op)", what, answer.detail)))


class Figures:
    """What was counted."""

    def __init__(self) -> None:
        self.outcomes: Counter[str] = collections.Counter()
        self.kinds: Counter[str] = collections.Counter()
        self.sums: Counter[str] = collections.Counter()
        self.about: Counter[str] = collections.Counter()

    def count(self, kind: str, script: Script, run: Run, wrong: Optional[str]) -> None:
        self.outcomes.update(outcome(answer) for answer in script.answers)
        self.about.update(it for answer in script.answers if answer is not None for it in answer.about)
        self.kinds[kind] += 1
        bad = {"hangs": run.status is None, "other statuses": run.status not in (0, None)}
        self.sums.update(scripts=1, lines=len(script.lines), bytes=len(script.text()))
        self.sums.update({key: int(is_so) for key, is_so in bad.items()})
        self.sums["wrong answers"] += int(wrong is not None and not any(bad.values()))

    def value(self) -> Dict[str, Any]:
        return {"sums": self.sums, "kinds": self.kinds, "outcomes": self.outcomes, "about": self.about}

    def add(self, value: Dict[str, Any]) -> None:
        for name, mine in self.value().items():
            mine.update(value.get(name, {}))

    def text(self) -> str:
        """The figures in Markdown."""
        head = [f"{self.sums[key]:,} {key}" for key in ("scripts", "lines", "bytes", "wrong answers", "other statuses", "hangs")]
        kinds = [f"{count:,} {kind}" for kind, count in sorted(self.kinds.items())]
        by_op: Dict[str, Dict[str, int]] = {}
        for name, count in self.outcomes.items():
            cut = name.index(")") + 1 if name.startswith("(") else name.index(" ")
            by_op.setdefault(name[:cut], {})[name[cut:].strip()] = count
        rows = ["| Operation | Lines | Answers |", "|---|---:|---|"]
        for op, found in sorted(by_op.items()):
            cells = ", ".join(f"{name} {count:,}" for name, count in sorted(found.items()))
            rows.append(f"| {op} | {sum(found.values()):,} | {cells} |")
        about = [f"{count:,} {name}" for name, count in sorted(self.about.items())]
        taken = ["Of the lines that weren't refused: " + ", ".join(about) + "."] if about else []
        return "\n".join([", ".join(head) + ".", "Scripts: " + ", ".join(kinds) + ".", *taken, "", *rows])


def keep(folder: pathlib.Path, name: str, script: Script, run: Run, wrong: str) -> None:
    folder.mkdir(parents=True, exist_ok=True)
    for suffix, content in (("jsonl", script.text()), ("wanted", script.wanted()), ("found", run.out), ("why", wrong.encode())):
        (folder / f"{name}.{suffix}").write_bytes(content)


def fuzz(options: argparse.Namespace, words: List[str], figures: Figures) -> Iterator[str]:
    """Runs script after script; gives what is wrong with each that is."""
    others = repository_lines()
    is_over, number, told = until(options), options.first, time.monotonic()
    while not is_over(figures.sums):
        kind, script = script_of(options.seed, number, others, options.kinds)
        run = answered(words, script.text(), options.seconds, "run", *script.options())
        wrong = complaint(script, run)
        figures.count(kind, script, run, wrong)
        if wrong is not None:
            wrong = " ".join([*script.options(), wrong])
            keep(pathlib.Path(options.keep), f"{options.seed}-{number}", script, run, wrong)
            yield f"script {options.seed}/{number} ({kind}): {wrong}"
        if options.figures and (time.monotonic() - told > 20 or wrong is not None):
            told = time.monotonic()
            write_figures(options.figures, figures)
        number += 1


def write_figures(file: str, figures: Figures) -> None:
    pathlib.Path(file + ".new").write_text(json.dumps(figures.value(), indent=1))
    os.replace(file + ".new", file)


# Reducing


def modelled(lines: List[bytes], last: int = 2) -> Script:
    log = model.Model(last)
    return Script(lines, [log.answer(line) for line in lines], True, last=last)


def reduced(words: List[str], lines: List[bytes], seconds: int, last: int = 2) -> List[bytes]:
    """A script of fewer lines that is still answered wrong."""

    def is_wrong(part: List[bytes]) -> bool:
        script = modelled(part, last)
        return complaint(script, answered(words, script.text(), seconds, "run", *script.options())) is not None

    size = len(lines)
    while size > 0:
        at = 0
        while at < len(lines):
            part = lines[:at] + lines[at + size :]
            if part and is_wrong(part):
                lines = part
            else:
                at += size
        size //= 2
    return lines


def reduce(options: argparse.Namespace, words: List[str]) -> int:
    text = pathlib.Path(options.reduce).read_bytes()
    lines = reduced(words, text.removesuffix(b"\n").split(b"\n"), options.seconds, options.format)
    script = modelled(lines, options.format)
    sys.stdout.buffer.write(script.text())
    print(complaint(script, answered(words, script.text(), options.seconds, "run", *script.options())) or "nothing is wrong", file=sys.stderr)
    return 1


def summed(files: List[str]) -> Figures:
    figures = Figures()
    for file in files:
        figures.add(json.loads(pathlib.Path(file).read_text()))
    return figures


def command_line_of_scripts(about: Optional[str], kinds: Iterable[str], seconds: int) -> argparse.ArgumentParser:
    """The command line of what tries script after script of these kinds, and has this many seconds for a run."""
    parser = command_line(about)
    parser.add_argument("--seed", default="1")
    parser.add_argument("--kinds", nargs="+", choices=kinds, default=list(kinds), metavar="KIND", help=", ".join(kinds))
    parser.add_argument("--lines", type=float, metavar="N", help="ends once this many lines were tried (by default 100,000)")
    parser.add_argument("--minutes", type=float, metavar="M", help="ends after this time")
    parser.add_argument("--seconds", type=int, default=seconds, metavar="S", help="how long a run may take")
    parser.add_argument("--under", default="", metavar="WORDS")
    parser.add_argument("--keep", default=str(HERE / "out"), metavar="FOLDER")
    return parser


def until(options: argparse.Namespace) -> Callable[[Counter[str]], bool]:
    """Whether as many lines were tried as the command line says, by what was counted, or its time is over."""
    lines = options.lines if options.lines is not None else float("inf") if options.minutes else 100_000
    end = time.monotonic() + 60 * options.minutes if options.minutes else float("inf")
    return lambda sums: sums["lines"] >= lines or time.monotonic() > end


def main() -> int:
    parser = command_line_of_scripts(__doc__, KINDS, 300)
    parser.add_argument("--first", type=int, default=0, metavar="N", help="the number of the first script")
    parser.add_argument("--figures", metavar="FILE")
    parser.add_argument("--sum", nargs="+", metavar="FILE")
    parser.add_argument("--reduce", metavar="SCRIPT")
    parser.add_argument("--format", type=int, choices=(2, 3), default=2, help="of the script that is reduced; .why says which")
    options = parser.parse_args()
    if options.sum:
        print(summed(options.sum).text())
        return 0
    words = [*shlex.split(options.under), options.program]
    if options.reduce:
        return reduce(options, words)
    resource.setrlimit(resource.RLIMIT_CORE, (0, 0))
    figures, is_well = Figures(), True
    for wrong in fuzz(options, words, figures):
        print(wrong[:2000], flush=True)
        is_well = False
    if options.figures:
        write_figures(options.figures, figures)
    print(figures.text())
    return 0 if is_well else 1


if __name__ == "__main__":
    sys.exit(main())
