#!/usr/bin/env python3
"""Holds the built program's `compact` against its `run`, and against the model.

    fuzz/compact.py [--program PATH] [--seed N] [--kinds KIND...] [--lines N | --minutes M] [--under WORDS] [--keep FOLDER]

A generated script is cut at a few places. At each, what `compact` wrote at the cut before, with the lines that came since, is
compacted. What it writes has to be what the model keeps of the whole script up to there, byte for byte; the line on standard
error has to say how much that is; and compacted once more it has to stay. Then `run` has to answer all lines after the cut as it
does in the whole script, except that each count is less by the entries that were left out. Questions about groups with reports
stand at each cut and at the end. And `explain --json` has to say of these groups, and of all groups, what it says of the whole
script.

The same seed gives the same scripts. --under puts words before the program, such as "valgrind -q --error-exitcode=99". A script
with something wrong is kept in the folder that --keep names, with what was given to the program, what it wrote and what it should
have written. The last line is `N scripts, .. wrong`. Status 1: something was wrong.
"""

import argparse
import collections
import itertools
import pathlib
import random
import re
import resource
import shlex
import sys
from typing import Any, Callable, Counter, Iterator, List, NamedTuple, Optional, Sequence, Tuple

import compaction
import explain
import fuzz
import grammar
import hostile
import lines
import model
from maps import Group

ENTRIES = ("inc", "info", "entries", "close")
LOG_FULL = 50
MOST_ASKED = 4  # groups, at a cut
COUNT = re.compile(rb'"count":(\d+),')  # of an answer: within a name each quote has a backslash before it


# What `compact` has to do


class Taken:
    """The entries that the log of a script took, each with its line and the answer to it."""

    def __init__(self, known: Optional[model.Model] = None) -> None:
        """Where the whole log is known, what it has found out of the map isn't found out once more."""
        self.log = model.Model(2 if known is None else known.last)
        if known is not None:
            self.log.maps.placements, self.log.maps.memberships = known.maps.placements, known.maps.memberships
        self.entries: List[compaction.Line] = []
        self.lines: List[bytes] = []
        self.answers: List[bytes] = []

    def note(self, line: bytes, entry: compaction.Line, answer: model.Answer) -> None:
        """The log has taken this entry."""
        self.entries.append(entry)
        self.lines.append(line)
        self.answers.append(answer.text.encode())

    def kept(self) -> List[int]:
        """The places of the entries that stay."""
        return compaction.places_left(self.log, self.entries)


def is_taken(answer: Optional[model.Answer]) -> bool:
    return answer is not None and not answer.code and answer.op in ENTRIES


def is_refused(answer: Optional[model.Answer]) -> bool:
    return answer is not None and answer.code != 0


def text_of(script: Sequence[bytes]) -> bytes:
    return b"".join(line + b"\n" for line in script)


def message(entries: int, kept: int, refused: int) -> bytes:
    """What is said on standard error: of how many entries how many stay, and how many lines were refused."""
    told = f"; {refused} {'line was' if refused == 1 else 'lines were'} refused" if refused else ""
    return f"pgpeer: left out {entries - kept} of {entries} entries{told}\n".encode()


def taken_of(text: bytes, last: int = 2) -> Tuple[Taken, int]:
    """What the log of a script takes, and how many lines are refused."""
    taken, refused = Taken(model.Model(last)), 0
    for line in text.split(b"\n"):
        answer = taken.log.answer(line)
        refused += is_refused(answer)
        if answer is not None and is_taken(answer):
            taken.note(line, lines.read(line, last).value, answer)
    return taken, refused


def by_model(text: bytes, last: int = 2) -> Tuple[bytes, bytes]:
    """What `compact` writes of a script, and what it says on standard error."""
    taken, refused = taken_of(text, last)
    kept = taken.kept()
    return text_of([taken.lines[at] for at in kept]), message(len(taken.entries), len(kept), refused)


# Scripts, and where they are cut


class Cut(NamedTuple):
    """A place of a script, and what the model keeps of the lines before it."""

    at: int  # after this many lines
    has_last_feed: bool  # of the last line before it, as it is given
    entries: int  # of the log
    kept: List[bytes]  # lines that stay
    answers: List[bytes]  # to these, in the whole script
    groups: List[str]  # that have reports, a few of them


def crowd(rng: random.Random, others: List[bytes], last: Optional[int] = None) -> fuzz.Script:
    """A script of few groups and many reports of them, of all stamps, so that much is left out."""
    writer = fuzz.Writer(rng, 10**6, last)
    writer.story.most_pools, writer.story.asks = rng.choice((1, 1, 2)), rng.choice((0.02, 0.1, 0.3))
    stamps, looks = rng.choice((0, 0.1, 0.5)), rng.choice((0, 0.3))
    for _ in range(rng.choice((200, 600, 1500, 3000))):
        line = writer.story.line()
        if line["op"] in ("info", "entries") and rng.random() < stamps:
            line["stamp"] = rng.randint(0, writer.log.maps.epoch + 1)
        writer.put(hostile.by_look(rng, line).replace(b"\n", b" ") if rng.random() < looks else grammar.compact(line))
    return writer.script()


MAKERS = {**fuzz.MAKERS, "crowd": crowd}
KINDS = {"story": 500, "crowd": 300, "noise": 60, "long": 15, "wide": 10, "full": 1}  # a trace is no entry


def places(rng: random.Random, script: fuzz.Script) -> List[int]:
    """Where the script is cut: behind how many lines each, ascending. Once a log is full it is cut no more."""
    full = (at for at, answer in enumerate(script.answers) if answer is not None and answer.code == LOG_FULL)
    last = next(full, len(script.lines))
    found = {rng.randint(0, last) for _ in range(rng.choice((1, 2, 3, 5)))}
    return sorted(found | ({last} if rng.random() < 0.3 else set()))


def some_groups(rng: random.Random, log: model.Model) -> List[Group]:
    """A few of the groups that have reports."""
    groups = sorted(log.reports)
    return rng.sample(groups, min(len(groups), MOST_ASKED))


def question(group: Group) -> bytes:
    return grammar.compact({"op": "ask", "pg": group})


def cut(rng: random.Random, script: fuzz.Script) -> Tuple[fuzz.Script, List[Cut]]:
    """The script with questions at its cuts and at its end, and its cuts."""
    at, taken, cuts = places(rng, script), Taken(script.log), []
    made = fuzz.Script([], [], True, last=script.last)
    for number, (line, answer) in enumerate([*zip(script.lines, script.answers), (b"", None)]):
        groups = some_groups(rng, taken.log) if number in at or number == len(script.lines) else []
        if number in at:
            kept = taken.kept()
            stay = [taken.lines[it] for it in kept], [taken.answers[it] for it in kept]
            cuts.append(Cut(len(made.lines), rng.random() < 0.7, len(taken.entries), *stay, [explain.named(it) for it in groups]))
        asked = [question(it) for it in groups]
        made.lines.extend([*asked, line])
        made.answers.extend([*map(taken.log.answer, asked), answer])
        if answer is not None and is_taken(answer):
            entry = lines.read(line, script.last).value
            taken.log.submit(entry)
            taken.note(line, entry, answer)
    return made, cuts


# What the program has to write


def less(answers: bytes, count: int) -> bytes:
    """The answers, each count less by this."""
    return COUNT.sub(lambda found: b'"count":%d,' % (int(found[1]) - count), answers) if count else answers


def wanted_after(script: fuzz.Script, it: Cut) -> bytes:
    """The answers to what stays at a cut, with all lines after it."""
    rest = script.answers[it.at :]
    if any(answer is not None and answer.code == LOG_FULL for answer in rest):
        return fuzz.modelled([*it.kept, *script.lines[it.at :]], script.last).wanted()
    renumbered = b"".join(COUNT.sub(b'"count":%d,' % count, answer) + b"\n" for count, answer in enumerate(it.answers, 1))
    after = fuzz.Script([], rest, True).wanted()
    return renumbered + less(after, it.entries - len(it.kept))


class Wrong(Exception):
    """What is wrong with a run, with what was given to the program, what it wrote and what it should have written."""

    def __init__(self, why: str, given: bytes, found: bytes, wanted: bytes):
        super().__init__(why)
        self.given, self.found, self.wanted = given, found, wanted


def first_difference(found: bytes, wanted: bytes) -> str:
    """Where two texts that differ do so first, by lines."""
    pairs = itertools.zip_longest(found.split(b"\n"), wanted.split(b"\n"), fillvalue=b"no line")
    at, (it, right) = next((at, pair) for at, pair in enumerate(pairs, 1) if pair[0] != pair[1])
    return f"line {at} is {it[:300].decode(errors='replace')!r} and not {right[:300].decode(errors='replace')!r}"


def expect(run: fuzz.Run, what: str, given: bytes, wanted: bytes, said: bytes) -> None:
    """Raises Wrong where a run ended, wrote or said something else."""
    if run.status != 0:
        end = "didn't end" if run.status is None else f"ended with status {run.status}: {run.errors[-500:]!r}"
        raise Wrong(f"{what} {end}", given, run.out, wanted)
    if run.out != wanted:
        raise Wrong(f"{what}: {first_difference(run.out, wanted)}", given, run.out, wanted)
    if run.errors != said:
        raise Wrong(f"{what} says {run.errors[-500:]!r} and not {said!r}", given, run.errors, said)


def try_script(words: List[str], script: fuzz.Script, cuts: List[Cut], seconds: int, sums: Counter[str]) -> None:
    """Compacts a script at its cuts, one after the other, and runs what follows each; raises Wrong."""

    def hold(subcommand: str, what: str, given: bytes, wanted: bytes, said: bytes = b"") -> None:
        sums["runs"] += 1
        expect(fuzz.answered(words, given, seconds, subcommand, *script.options()), what, given, wanted, said)

    def explained(what: str, whole: bytes, less: bytes, *group: str) -> None:
        """Both scripts have to be explained alike."""
        sums.update({"runs": 2, "explanations": 1})
        first, second = (
            fuzz.answered(words, text, seconds, "explain", *group, "--json", *script.options()) for text in (whole, less)
        )
        expect(second, what, less, first.out, second.errors)
        expect(first, what, whole, first.out, first.errors)

    hold("run", "run", script.text(), script.wanted())
    front, begin, before, kept = b"", 0, 0, 0
    for it in cuts:
        given, refused = front + text_of(script.lines[begin : it.at]), sum(map(is_refused, script.answers[begin : it.at]))
        given = given if it.has_last_feed else given.removesuffix(b"\n")
        entries, front, place = kept + it.entries - before, text_of(it.kept), f"at line {it.at}"
        hold("compact", f"compact {place}", given, front, message(entries, len(it.kept), refused))
        hold("compact", f"compact {place}, once more", front, front, message(len(it.kept), len(it.kept), 0))
        hold("run", f"run {place}", front + text_of(script.lines[it.at :]), wanted_after(script, it))
        rest = b"\n" + text_of(script.lines[it.at :])
        is_full = any(answer is not None and answer.code == LOG_FULL for answer in script.answers)
        for group in [] if is_full else [[], *([name] for name in it.groups[:1])]:
            for end in (b"", rest):
                explained(f"{' '.join(['explain', *group])} {place}", text_of(script.lines[: it.at]) + end, front + end, *group)
        begin, before, kept = it.at, it.entries, len(it.kept)
        sums.update({"compactions": 1, "entries": entries, "left out": entries - len(it.kept)})
        sums["answers"] += sum(answer is not None for answer in script.answers[it.at :])


# Runs


def keep(folder: pathlib.Path, name: str, script: fuzz.Script, why: Wrong) -> None:
    folder.mkdir(parents=True, exist_ok=True)
    parts = {"jsonl": script.text(), "given": why.given, "found": why.found, "wanted": why.wanted, "why": str(why).encode()}
    for suffix, content in parts.items():
        (folder / f"{name}.{suffix}").write_bytes(content)


def script_of(seed: str, number: int, others: List[bytes], kinds: Sequence[str]) -> Tuple[str, fuzz.Script, List[Cut]]:
    """The script of this number, with its kind and its cuts."""
    rng = random.Random(f"{seed}/{number}")
    kind = rng.choices(kinds, [KINDS[it] for it in kinds])[0]
    return kind, *cut(rng, MAKERS[kind](rng, others))


SUMS = ("runs", "refused", "compactions", "left out", "entries", "scripts", "lines", "answers", "explanations", "wrong")


class Figures:
    """What was counted."""

    name = "compact"  # of the files of what is wrong

    def __init__(self) -> None:
        self.sums: Counter[str] = collections.Counter()
        self.kinds: Counter[str] = collections.Counter()

    def text(self) -> str:
        it = {key: f"{self.sums[key]:,}" for key in SUMS}
        kinds = ", ".join(f"{count:,} {kind}" for kind, count in sorted(self.kinds.items()))
        head = f"Scripts: {kinds}. The program was started {it['runs']} times; {it['refused']} lines were refused."
        cuts = f"{it['compactions']} compactions which left out {it['left out']} of {it['entries']} entries"
        counts = f"{it['scripts']} scripts, {it['lines']} lines, {cuts}, {it['answers']} answers after them"
        return f"{head}\n{counts}, {it['explanations']} explanations, {it['wrong']} wrong"


def tried(
    options: argparse.Namespace, figures: Figures, make: Callable[..., Any] = script_of, attempt: Callable[..., None] = try_script
) -> Iterator[str]:
    """Tries script after script; gives what is wrong with each that is. One is made and tried by these."""
    words, others, number = [*shlex.split(options.under), options.program], fuzz.repository_lines(), 0
    is_over = fuzz.until(options)
    while not is_over(figures.sums):
        kind, script, cuts = make(options.seed, number, others, options.kinds)
        figures.kinds[kind] += 1
        figures.sums.update(scripts=1, lines=len(script.lines), refused=sum(map(is_refused, script.answers)))
        try:
            attempt(words, script, cuts, options.seconds, figures.sums)
        except Wrong as why:
            figures.sums["wrong"] += 1
            keep(pathlib.Path(options.keep), f"{figures.name}-{options.seed}-{number}", script, why)
            yield f"script {options.seed}/{number} ({kind}): {why}"
        number += 1


def run(options: argparse.Namespace, figures: Figures, *ways: Callable[..., Any]) -> int:
    """Tries scripts, and says what was wrong and what was counted; gives the status."""
    resource.setrlimit(resource.RLIMIT_CORE, (0, 0))
    for wrong in tried(options, figures, *ways):
        print(wrong[:2000], flush=True)
    print(figures.text())
    return 1 if figures.sums["wrong"] else 0


def main() -> int:
    return run(fuzz.command_line_of_scripts(__doc__, KINDS, 60).parse_args(), Figures())


if __name__ == "__main__":
    sys.exit(main())
