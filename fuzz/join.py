#!/usr/bin/env python3
"""Holds the built program's `compact --join` against the answers of the log that wasn't joined.

    fuzz/join.py [--program PATH] [--seed N] [--kinds KIND...] [--lines N | --minutes M] [--under WORDS] [--keep FOLDER]

A generated script is cut at a few places. At each, what `compact --join` wrote at the cut before, with the lines that came since,
is joined. Reports that stay have to stand byte for byte, in their order, and a close last; an incremental stands as it came, or is
of version 3 and names the epoch after which it comes. Each line has to be accepted. Then `run` has to answer all lines after the
cut as it does in the whole script, except that each count is less by the entries that were left out, and that past intervals
which ended before the group last began to serve may be missing or have other epochs. Late lines stand after most cuts: reports of
stamps long ago, up_thru and losses that go back, boots. And `explain --json` has to say of a few groups, and of all groups, what
it says of the whole script, except for what it says of such intervals, and of a loss that plays no part.

The same seed gives the same scripts. --under puts words before the program. A script with something wrong is kept in the folder
that --keep names, with what was given to the program, what it wrote and what it should have written. The last line is
`N scripts, .. wrong`. The line before says how many incrementals the model leaves where the map is small, and how often the
program left more, or all. Status 1: something was wrong.
"""

import json
import random
import sys
from typing import Any, Callable, Counter, Dict, Iterator, List, NamedTuple, Optional, Sequence, Set, Tuple

import compact
import explain
import fuzz
import grammar
import healing
import joining
import lines
import model
import outage
from compact import Wrong, text_of
from maps import Group

LAST = ["--format", "3"]
MOST_ASKED = 5  # groups, at a cut
MOST_GROUPS = 64  # of a map whose incrementals the model joins too
ASKED, MOST_BETWEEN = 0.1, 200  # of the places after a cut: there a question comes; about so many at most
CUT_AFTER = ("", "", "gone", "lost", "down", "up", "up")  # an incremental with this key, or anywhere
AFTER_CUT = (0, 20, 60, 100)  # lines, of which most are late
NOT_IMPLIED = ("lost_before", "says", "unreadable")  # keys of an explanation


# Scripts, and where they are cut


class Cut(NamedTuple):
    """A place of a script."""

    at: int  # after this many lines
    has_last_feed: bool  # of the last line before it, as it is given
    is_plain: bool  # joined without an option, where its lines are read alike
    entries: int  # of the whole log
    groups: List[Group]  # that are asked about


Made = Tuple[fuzz.Script, List[int]]  # a script, and behind how many lines it is cut


def anywhere(maker: Any) -> Any:
    """A maker of scripts that are cut anywhere."""

    def made(rng: random.Random, others: List[bytes]) -> Made:
        script = maker(rng, others, 3)
        return script, compact.places(rng, script)

    return made


def outages(rng: random.Random, others: List[bytes], last: int) -> fuzz.Script:
    """A script of past intervals that block groups for long."""
    writer = fuzz.Writer(rng, last=last)
    writer.story = outage.Outage(rng, writer.log)
    for _ in range(rng.choice((100, 300, 600))):
        writer.put(grammar.compact(writer.story.line()))
    return writer.script()


def put_until(writer: fuzz.Writer, is_wanted: Callable[[Dict[str, Any]], bool]) -> None:
    """Goes on until a line like this is taken, for a while."""
    for _ in range(100):
        line = writer.story.line()
        writer.put(grammar.compact(line))
        if is_wanted(line) and compact.is_taken(writer.answers[-1]):
            return


def cut_after(log: model.Model, key: str) -> Callable[[Dict[str, Any]], bool]:
    """Whether a line is an incremental with this key; of those that boot, one of a device that had been given up for lost."""
    return lambda line: bool(line.get(key)) and (key != "up" or any(log.maps.lost_at(osd) for osd in line["up"]))


def healed(rng: random.Random, others: List[bytes]) -> Made:
    """A script of a cluster that heals, cut a few times, and late lines after each cut."""
    writer = fuzz.Writer(rng, last=3)
    writer.story = story = healing.Healing(rng, writer.log)
    late, places = story.late, []
    for _ in range(rng.choice((1, 1, 2, 3, 5))):
        for _ in range(rng.choice((20, 100, 250, 400))):
            writer.put(grammar.compact(story.line()))
        key = rng.choice(CUT_AFTER)
        if key:
            put_until(writer, cut_after(writer.log, key))
        places.append(len(writer.lines))
        story.late = rng.choice((0.5, 0.9))
        story.steps = story.steps if rng.random() < 0.5 else []
        for _ in range(rng.choice(AFTER_CUT)):
            writer.put(grammar.compact(story.line()))
        story.late = late
    if rng.random() < 0.05:
        writer.put(b'{"op":"close"}')
        places.append(len(writer.lines))
    return writer.script(), places


def brief(rng: random.Random, others: List[bytes]) -> Made:
    """A short script of losses and flaps of few devices, cut right after one came back or was destroyed, and late lines."""
    writer = fuzz.Writer(rng, last=3)
    writer.story = story = healing.Healing(rng, writer.log)
    story.devices, story.own, story.late, story.healed = story.devices[: rng.choice((4, 6, 8))], 0, 0, rng.choice((0.2, 0.5, 0.9))
    story.episodes = (story.lose, story.lose, story.destroy, story.flap)
    for _ in range(rng.choice((3, 10, 30, 60))):
        writer.put(grammar.compact(story.line()))
    put_until(writer, cut_after(writer.log, rng.choice(("gone", "up", "up"))))
    at, story.late, story.steps = len(writer.lines), 0.9, []
    for _ in range(rng.choice((20, 40, 80))):
        writer.put(grammar.compact(story.line()))
    return writer.script(), [at]


MAKERS = {
    "healing": healed, "brief": brief, "outage": anywhere(outages), "story": anywhere(fuzz.story),
    "crowd": anywhere(compact.crowd), "noise": anywhere(fuzz.noise), "long": anywhere(fuzz.long), "wide": anywhere(fuzz.wide),
    "full": anywhere(fuzz.full),
}  # fmt: skip
KINDS = {"healing": 400, "brief": 1000, "outage": 60, "story": 100, "crowd": 15, "noise": 10, "long": 8, "wide": 8, "full": 1}


def some_groups(rng: random.Random, log: model.Model, most: int) -> List[Group]:
    """A few groups of which a story tells."""
    made = log.maps.made
    groups = sorted({*log.reports, *((pool, pg) for pool in made for pg in range(min(made[pool]["pg_num"], 3)))})
    return rng.sample(groups, min(len(groups), most))


def questions(rng: random.Random, groups: List[Group]) -> List[bytes]:
    """A question about each of these groups, and perhaps where an object lies in a pool of theirs."""
    located = [{"op": "locate", "pool": pool, "name": rng.choice(grammar.NAMES)} for pool, _ in groups[:1] if rng.random() < 0.3]
    return [*map(compact.question, groups), *map(grammar.compact, located)]


def cut(rng: random.Random, script: fuzz.Script, at: Sequence[int]) -> Tuple[fuzz.Script, List[Cut]]:
    """The script with questions at its cuts, at its end and at times between, and its cuts."""
    log, cuts = compact.Taken(script.log).log, []
    made, asked_at = fuzz.Script([], [], True, last=3), min(ASKED, MOST_BETWEEN / max(1, len(script.lines)))
    for number, (line, answer) in enumerate([*zip(script.lines, script.answers), (b"", None)]):
        is_cut = number in at
        most = MOST_ASKED if is_cut or number == len(script.lines) else int(bool(cuts) and rng.random() < asked_at)
        groups = some_groups(rng, log, most) if most else []
        if is_cut:
            cuts.append(Cut(len(made.lines), rng.random() < 0.8, rng.random() < 0.2, log.count, groups))
        asked = questions(rng, groups)
        made.lines.extend([*asked, line])
        made.answers.extend([*map(log.answer, asked), answer])
        if compact.is_taken(answer):
            log.submit(lines.read(line, 3).value)
    return made, cuts


def script_of(seed: str, number: int, others: List[bytes], kinds: Sequence[str]) -> Tuple[str, fuzz.Script, List[Cut]]:
    """The script of this number, with its kind and its cuts."""
    rng = random.Random(f"{seed}/{number}")
    kind = rng.choices(kinds, [KINDS[it] for it in kinds])[0]
    return kind, *cut(rng, *MAKERS[kind](rng, others))


# What has to stand in a joined script


def wrong_lines(found: List[bytes], kept: List[Tuple[str, bytes]]) -> Iterator[str]:
    """What is wrong with the lines of a joined script, where these stay by compaction, each with its operation."""
    read = [lines.read(line, 3) for line in found]
    faults = [line for line, it in zip(found, read) if isinstance(it, lines.Fault)]
    if faults:
        yield f"no line is {faults[0][:300]!r}"
        return
    ops = [(it.op, line) for it, line in zip(read, found)]
    for names, what in ((("info", "entries"), "reports"), (("close",), "closes")):
        if [it for it in ops if it[0] in names] != [it for it in kept if it[0] in names]:
            yield f"the {what} are others"
    if any(op == "close" for op, _ in ops[:-1]):
        yield "the close isn't last"
    as_they_came: Set[bytes] = {line for op, line in kept if op == "inc"}
    for it, line in zip(read, found):
        if it.op == "inc" and line not in as_they_came and (it.value.get("v") != 3 or "after" not in it.value):
            yield f"an incremental is neither as it came nor of version 3: {line[:300]!r}"


def mattering(answer: bytes) -> Any:
    """What an answer says, without the past intervals that ended before the group last began to serve."""
    found = json.loads(answer)
    if found.get("ok") == "ask":
        found["intervals"] = [it for it in found["intervals"] if it["last"] >= found["les"]]
    return found


def are_alike(found: bytes, wanted: bytes) -> bool:
    return found == wanted or mattering(found) == mattering(wanted)


def wanted_after(script: fuzz.Script, it: Cut, kept: int) -> List[bytes]:
    """The answers after a cut at which so many entries stay, up to the first that says that the whole log is full."""
    found = []
    for answer in script.answers[it.at :]:
        if answer is not None and answer.code == compact.LOG_FULL:
            break
        found += [] if answer is None else [compact.less(answer.text.encode(), it.entries - kept)]
    return found


def implied(value: Any) -> Any:
    """The part of an explanation that has to be the same where all answers are."""
    if isinstance(value, list):
        return [implied(it) for it in value]
    if not isinstance(value, dict):
        return value
    return {key: implied(it) for key, it in value.items() if key not in NOT_IMPLIED}


# Trying a script


class Trial:
    """A script that is tried, and what was counted."""

    def __init__(self, words: List[str], script: fuzz.Script, seconds: int, sums: Counter[str]):
        self.words, self.script, self.seconds, self.sums = words, script, seconds, sums
        self.entries: List[bytes] = []  # of the whole log
        for line, answer in zip(script.lines, script.answers):
            self.entries += [line] if compact.is_taken(answer) else []

    def said(self, what: str, given: bytes, *words: str) -> fuzz.Run:
        """What a run wrote; raises Wrong where it didn't end well."""
        self.sums["runs"] += 1
        run = fuzz.answered(self.words, given, self.seconds, *words)
        if run.status != 0:
            end = "didn't end" if run.status is None else f"ended with status {run.status}: {run.errors[-500:]!r}"
            raise Wrong(f"{what} {end}", given, run.out, b"")
        return run

    def whole(self) -> None:
        """The whole script has the answers of the model."""
        given, wanted = self.script.text(), self.script.wanted()
        compact.expect(self.said("run", given, "run", *LAST), "run", given, wanted, b"")

    def joined(self, it: Cut, given: bytes) -> List[bytes]:
        """What is written of a front, with what came since; raises Wrong."""
        place = f"compact --join at line {it.at}"
        taken, refused = compact.taken_of(given, 3)
        kept = [(taken.entries[at]["op"], taken.lines[at]) for at in taken.kept()]
        plain = it.is_plain and compact.by_model(given) == (text_of([line for _, line in kept]), compact.message(len(taken.lines), len(kept), refused))
        run = self.said(place, given, "compact", "--join", *([] if plain else LAST))
        found = run.out.split(b"\n")[:-1]
        said = compact.message(len(taken.lines), len(found), refused)
        if run.errors != said or not run.out.endswith(b"\n") and run.out:
            raise Wrong(f"{place} says {run.errors[-500:]!r} and not {said!r}, or lacks a line feed", given, run.out, b"")
        for wrong in wrong_lines(found, kept):
            raise Wrong(f"{place}: {wrong}", given, run.out, text_of([line for _, line in kept]))
        most = self.count(taken, [json.loads(line) for _, line in kept], found)
        after = sum(b'"op":"inc"' in line for line in found)
        if after > most:
            raise Wrong(f"{place}: {after} incrementals are left, and {most} are enough", given, run.out, b"")
        return found

    def count(self, taken: compact.Taken, kept: List[Any], found: List[bytes]) -> int:
        """Counts how many incrementals were joined, and how many could be. How many are enough."""
        before, after = sum(it["op"] == "inc" for it in kept), sum(b'"op":"inc"' in line for line in found)
        self.sums.update({"joins": 1, "before": before, "after": after, "entries before": len(taken.lines), "entries after": len(found)})
        if sum(it["pg_num"] for it in taken.log.maps.made.values()) > MOST_GROUPS:
            return before
        least = len(joining.starts_of(taken.log, kept))
        self.sums.update({"told": 1, "told before": before, "told after": after, "least": least})
        self.sums.update({"not joined": int(after == before > least), "more": int(after > least)})
        return joining.most_starts(taken.log)

    def answers(self, it: Cut, front: List[bytes]) -> None:
        """What stays is accepted, and what comes after is answered as in the whole script; raises Wrong."""
        place, wanted = f"run at line {it.at}", wanted_after(self.script, it, len(front))
        given = text_of(front) + text_of(self.script.lines[it.at :])
        found = self.said(place, given, "run", *LAST).out.split(b"\n")[:-1]
        expected = text_of([*found[: len(front)], *wanted])
        for number, answer in enumerate(found[: len(front)], 1):
            if not answer.startswith(b'{"count":%d,' % number):
                raise Wrong(f"{place}: line {number} of what was written is answered {answer[:300]!r}", given, text_of(found), expected)
        for number, answer in enumerate(wanted):
            other = found[len(front) + number] if len(front) + number < len(found) else b"no line"
            self.sums["answers"] += 1
            self.sums["views"] += b'"ok":"ask"' in answer
            self.sums["other"] += other != answer
            if other == b"no line" or not are_alike(other, answer):
                raise Wrong(f"{place}: answer {number + 1} is {other[:600]!r} and not {answer[:600]!r}", given, text_of(found), expected)

    def explanations(self, it: Cut, front: List[bytes]) -> None:
        """What `explain` says is the same, at the cut and at the end; raises Wrong."""
        if any(answer is not None and answer.code == compact.LOG_FULL for answer in self.script.answers):
            return
        rest = text_of(self.script.lines[it.at :])
        for group in [[], *([explain.named(group)] for group in it.groups[:2])]:
            for end in (b"", rest):
                whole, less = text_of(self.entries[: it.entries]) + end, text_of(front) + end
                what = f"{' '.join(['explain', *group])} at line {it.at}"
                first, second = (self.said(what, text, "explain", *group, "--json", *LAST).out for text in (whole, less))
                self.sums["explanations"] += 1
                if implied(json.loads(first)) != implied(json.loads(second)):
                    raise Wrong(f"{what} says {second[:600]!r} and not {first[:600]!r}", less, second, first)


def try_script(words: List[str], script: fuzz.Script, cuts: List[Cut], seconds: int, sums: Counter[str]) -> None:
    """Joins a script at its cuts, one after the other, and runs what follows each; raises Wrong."""
    trial = Trial(words, script, seconds, sums)
    trial.whole()
    front: List[bytes] = []
    begin = 0
    for it in cuts:
        given = text_of([*front, *script.lines[begin : it.at]])
        front, begin = trial.joined(it, given if it.has_last_feed else given.removesuffix(b"\n")), it.at
        trial.answers(it, front)
        trial.explanations(it, front)


# Runs


class Figures(compact.Figures):
    """What was counted."""

    name = "join"

    def text(self) -> str:
        it = {key.replace(" ", "_"): f"{self.sums[key]:,}" for key in SUMS}
        kinds = ", ".join(f"{count:,} {kind}" for kind, count in sorted(self.kinds.items()))
        return "\n".join([f"Scripts: {kinds}.", *(line.format(**it) for line in TOLD)])


SUMS = (
    "runs", "refused", "joins", "before", "after", "entries before", "entries after", "told", "told before", "told after", "least",
    "not joined", "more", "views", "other", "scripts", "lines", "answers", "explanations", "wrong",
)  # fmt: skip
TOLD = (
    "The program was started {runs} times; {refused} lines were refused. {entries_after} of {entries_before} entries were left.",
    "Of {views} views after a join {other} have other past intervals that no longer matter.",
    "In {told} joins the model leaves {least} incrementals where the program leaves {told_after} of {told_before}. It left more in "
    "{more}, all in {not_joined}.",
    "{scripts} scripts, {lines} lines, {joins} joins which left {after} of {before} incrementals, {answers} answers after them, "
    "{explanations} explanations, {wrong} wrong",
)


def main() -> int:
    options = fuzz.command_line_of_scripts(__doc__, KINDS, 60).parse_args()
    return compact.run(options, Figures(), script_of, try_script)


if __name__ == "__main__":
    sys.exit(main())
