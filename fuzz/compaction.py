#!/usr/bin/env python3
"""Holds the answers of a log that was compacted, and went on, against those of the log that wasn't, by the model alone.

    fuzz/compaction.py [--seed N] [--logs N | --minutes M] [--wrong NAME]

Which entries of a log have to stay is worked out here once more, by docs/DECISIONS.md ("Compaction"). A generated log is
compacted at random places. From then on each line goes to both logs, the whole one and the compacted one, and each answer has to
be the same except for `count`; after each entry the views and the explanations of the groups that the story is about have to be
the same too. A compacted log has to be the whole log compacted, and stays as it is when it is compacted once more.

--wrong leaves out a reason for which an entry stays: then a difference has to be found, or the status is 1.
"""

import collections
import json
import random
import sys
from typing import Any, Counter, Dict, List, Optional, Set, Tuple

import grammar
import model
import peering
import reasons as explanations
from logs import figures, first_found, first_groups, options_of
from maps import Group

Line = Dict[str, Any]


# Which entries stay


REASONS = ("history_les", "counted", "clean", "entries")


Span = Tuple[int, int]  # the first and the last epoch of an interval


def clean_spans(log: model.Model, group: Group) -> List[Span]:
    """The intervals of a group in which clean epochs can matter: the current one, and the past ones whose members could serve writes,
    where no map records that they did or the group isn't known to have begun to serve since."""
    les, code = log.view(group)["les"], log.maps.code(group[0])
    *past, now = peering.intervals(code, log.histories[group])
    able = peering.intervals(code, log.histories[group], [it.first for it in past])
    wanted = [it for it, at_best in zip(past, able) if at_best.rw and (not it.rw or les <= it.last)]
    return [(it.first, it.last) for it in [*wanted, now]]


class Later:
    """What comes after an entry, as a walk from the end of a log to its beginning meets it, and the last clean epochs by the whole
    log."""

    def __init__(self, log: model.Model):
        self.log = log
        self.stamps: Dict[Any, int] = {}  # the greatest stamp of a later info of a member
        self.starts: Set[Group] = set()  # groups with a later info of their greatest history_les
        self.cleans: Set[Tuple[Group, Span]] = set()  # intervals with a later info of their last clean epoch
        self.numbers: Dict[Any, int] = {}  # the greatest stamp of a later report with a number of a member
        self.spans: Dict[Group, List[Span]] = {}  # of a group, in which clean epochs can matter

    def tells_last_clean(self, group: Group, clean: int) -> bool:
        """Whether a clean epoch is the last one of an interval of the group in which one can matter, by an info that is met as the
        first one to say so."""
        if group not in self.spans:
            self.spans[group] = clean_spans(self.log, group)
        span = next((it for it in self.spans[group] if it[0] <= clean <= it[1]), None)
        if span is None or (group, span) in self.cleans:
            return False
        infos = [it for it in self.log.reports[group] if it["op"] == "info"]
        if clean != max(epoch for epoch in peering.cleans_of(infos) if span[0] <= epoch <= span[1]):
            return False
        self.cleans.add((group, span))
        return True

    def reasons(self, report: Line) -> Set[str]:
        """The reasons for which a report stays; it is met then."""
        group, member, stamp = tuple(report["pg"]), tuple(report["from"]), report["stamp"]
        is_counted = peering.counts(self.log.maps, self.log.view(group)["first"], report)
        if report["op"] == "entries":
            written = {entry[1] for entry in report["log"]}
            is_new = any(self.numbers.get((group, member, v), -1) < stamp for v in written)
            for v in written:
                self.numbers[group, member, v] = max(self.numbers.get((group, member, v), -1), stamp)
            return {"entries"} if is_counted and is_new else set()
        reasons = set()
        if is_counted and self.stamps.get((group, member), -1) < stamp:
            reasons.add("counted")
        self.stamps[group, member] = max(self.stamps.get((group, member), -1), stamp)
        if self.log.view(group)["les"] == report["history_les"] > 0 and group not in self.starts:
            reasons.add("history_les")
            self.starts.add(group)
        if self.tells_last_clean(group, report.get("last_epoch_clean", 0)):
            reasons.add("clean")
        return reasons


def places_left(log: model.Model, entries: List[Line], left_out: str = "") -> List[int]:
    """Which of the entries of a log remain where it is compacted, ascending, the first being 0."""
    later = Later(log)
    back = reversed(list(enumerate(entries)))
    return [at for at, it in back if it["op"] in ("inc", "close") or later.reasons(it) - {left_out}][::-1]


def compacted(lines: List[Line], last: int, left_out: str = "") -> List[Line]:
    """The entries of these, which make up a legal log, that remain where it is compacted. Lines up to the last version are read."""
    log = model.Model(last)
    for line in lines:
        log.answer(grammar.compact(line))
    return [lines[at] for at in places_left(log, lines, left_out)]


# Logs


def same_but_for_count(answer: bytes, other: bytes) -> bool:
    a, b = json.loads(answer), json.loads(other)
    a.pop("count", None), b.pop("count", None)
    return bool(a == b)


def explanation(log: model.Model, group: Group) -> Dict[str, Any]:
    """All that `explain` finds out about a group; the smallest sets only where few devices are waited for."""
    it = explanations.Reckoned(log, group)
    few = len(it.view["blocked_by"]) <= 6
    return {**it.shown(), "lacks": it.lacks(), "fallen": it.fallen(), "sets": it.sets() if few else []}


class Pair:
    """A log that grows, and one that is compacted from time to time and gets the same lines."""

    def __init__(self, rng: random.Random, counted: Counter[str], left_out: str):
        self.rng, self.counted, self.left_out = rng, counted, left_out
        self.last = rng.choice((2, 3))
        self.log, self.other = model.Model(self.last), model.Model(self.last)
        self.story = grammar.Story(rng, self.log, 10**6)
        self.story.most_pools = rng.choice((1, 2))
        self.entries: List[Line] = []  # of the compacted log
        self.taken: List[Line] = []  # of the whole one
        self.lines: List[Any] = []  # all lines, and None where the log was compacted

    def compact(self) -> bool:
        """Compacts the other log; whether that is the whole log compacted, and leaves out nothing when done twice."""
        before = len(self.entries)
        self.entries = compacted(self.entries, self.last, self.left_out)
        self.counted["entries before"] += before
        self.counted["entries left"] += len(self.entries)
        self.counted["compactions"] += 1
        self.lines.append(None)
        self.other = model.Model(self.last)
        for line in self.entries:
            answer = self.other.answer(grammar.compact(line))
            if answer is None or answer.code:
                return False
        whole = [self.taken[at] for at in places_left(self.log, self.taken, self.left_out)]
        return compacted(self.entries, self.last, self.left_out) == self.entries == whole

    def take(self) -> Optional[Tuple[str, List[Any]]]:
        """One line more; what is wrong then, with all lines."""
        wrong = self.wrong_line()
        return (wrong, self.lines) if wrong else None

    def wrong_line(self) -> Optional[str]:
        if self.rng.random() < 0.05 and not self.compact():
            return "it isn't legal, or isn't the whole log compacted, or compacted again it is another"
        line = self.story.line()
        if self.rng.random() < 0.3 and line["op"] in ("info", "entries"):
            line["stamp"] = self.rng.randint(0, self.log.maps.epoch + 1)
        text = grammar.compact(line)
        self.lines.append(line)
        answer, other = self.log.answer(text), self.other.answer(text)
        self.counted["lines"] += 1
        if not same_but_for_count(answer.text, other.text):
            return f"{answer.text!r} is answered {other.text!r}"
        if line["op"] in ("inc", "info", "entries", "close") and not answer.code:
            self.entries.append(line)
            self.taken.append(line)
            for group in first_groups(self.log):
                self.counted["views"] += 1
                if self.log.view(group) != self.other.view(group):
                    return f"group {group}: {self.log.view(group)} is {self.other.view(group)}"
                told, other = explanation(self.log, group), explanation(self.other, group)
                self.counted["explanations"] += 1
                self.counted["blocking intervals that tell of a clean epoch"] += sum(it["clean"] is not None for it in told["blocking"])
                if told != other:
                    return f"group {group} is explained by {told} and by {other}"
        return None


def main() -> int:
    options = options_of(__doc__, REASONS)
    counted: Counter[str] = collections.Counter()
    found = first_found(options, lambda rng: Pair(rng, counted, options.wrong).take, counted)
    print(figures(counted))
    if found:
        print(found[0], file=sys.stderr)
        for line in found[1]:
            sys.stdout.write("compact\n" if line is None else grammar.compact(line).decode() + "\n")
    return int(bool(found) != bool(options.wrong))


if __name__ == "__main__":
    sys.exit(main())
