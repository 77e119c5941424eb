#!/usr/bin/env python3
"""Checks three laws of peering on generated logs, by the model alone.

    fuzz/laws.py [--seed N] [--logs N | --minutes M] [--wrong NAME]

served: where a group served, the interval that was current then is current later, or it is past and may have gone read-write.
reckoned: whoever serves later has heard enough of that interval's acting members, or they were given up for lost, or none of
them is down, unless the group is known to have begun to serve after the interval ended.
relief: a group that isn't down doesn't become so by an incremental that takes no device down, destroys none, and gives none up
for lost at an earlier epoch than before; nor by a report that raises the flag of no past interval.

Each front of a log at which a group served is held against each later front. Prints how often the premise of each law held, in
how many of these the case was the one that the law is about, and in how many the pool was grouped, or a past interval had its
flag by a clean epoch alone; and how many reports raised a flag, and made a group down by it. --wrong puts a wrong definition
into the model, under which a law doesn't hold: then a log that breaks it is found, or the status is 1. Otherwise a broken law is
printed with its log, and the status is 1.
"""

import collections
import random
import sys
from typing import Any, Callable, Counter, Dict, Iterator, List, NamedTuple, Optional, Set

import codes
import grammar
import maps
import model
import peering
from logs import figures, first_found, first_groups, options_of
from maps import Group

Line = Dict[str, Any]
View = Dict[str, Any]


class Broken(NamedTuple):
    """A law that doesn't hold of a group after the last of these lines."""

    law: str
    group: Group
    lines: List[Line]


# What the laws say


def past_interval(view: View, first: int) -> Optional[Dict[str, Any]]:
    """The past interval that opened in this epoch."""
    return next((it for it in view["intervals"] if it["first"] == first), None)


def is_remembered(view: View, first: int) -> bool:
    past = past_interval(view, first)
    return view["first"] == first if past is None else past["rw"]


def is_reckoned_with(log: model.Model, group: Group, view: View, past: Dict[str, Any]) -> bool:
    code, now = log.maps.code(group[0]), log.maps
    heard = peering.heard_of(now, view["first"], log.reports.get(group, []))
    acting = [(it, now.status(it[0], past["first"])) for it in codes.members(code, past["acting"])]
    settled = [slot for (osd, slot), status in acting if (osd, slot) in heard or status == "Lost"]
    return codes.are_enough(code, settled) or all(status != "Down" for _, status in acting)


def takes_nothing_away(log: model.Model, entry: Line) -> bool:
    """Tells whether the entry, which comes next, is a report, or an incremental of which relief speaks."""
    if entry["op"] != "inc":
        return True
    old = log.maps.losts
    falls = any(epoch < old.last(osd, log.maps.epoch, 0) for osd, epoch in entry.get("lost", ()))
    return not entry.get("down") and not entry.get("gone") and not falls


def raises_a_flag(before: View, view: View) -> bool:
    """Tells whether a report, which came between, raised the flag of a past interval."""
    return [it["rw"] for it in before["intervals"]] != [it["rw"] for it in view["intervals"]]


# Logs


class Watch:
    """A log that grows, and the groups of it that the laws are held against."""

    def __init__(self, rng: random.Random, counted: Counter[str], last: int = 2):
        """Lines up to the last version are read."""
        self.log, self.rng, self.counted = model.Model(last), rng, counted
        self.story = grammar.Story(rng, self.log, 10**6)
        self.story.most_pools = rng.choice((1, 2))
        self.lines: List[Line] = []
        self.views: Dict[Group, View] = {}
        self.served: Dict[Group, Set[int]] = collections.defaultdict(set)  # the first epochs of the intervals of service

    def next_line(self) -> Line:
        """Often boots and losses alone, which relief speaks of, and infos that tell of clean epochs."""
        now = self.log.maps
        if now.made and not self.story.plan and not self.story.is_first_form and self.rng.random() < 0.03:
            group = self.rng.choice(first_groups(self.log))
            return self.story.clean_info(group, self.log.view(group))
        if now.epoch and not self.story.plan and self.rng.random() < 0.05:
            down = [osd for osd in self.story.devices if now.exists(osd, now.epoch) and not now.is_up(osd, now.epoch)]
            self.rng.shuffle(down)
            cut = self.rng.randrange(len(down) + 1)
            lost = [[osd, self.rng.randint(now.losts.last(osd, now.epoch, 0), now.epoch + 1)] for osd in down[cut:]]
            return self.story.inc_only(up=down[:cut], lost=lost)
        return self.story.line()

    def take(self) -> Iterator[Broken]:
        """One line more; gives each law that it breaks."""
        line = self.next_line()
        is_entry = line["op"] in ("inc", "info", "entries")
        relieves = is_entry and takes_nothing_away(self.log, line)
        self.lines.append(line)
        answer = self.log.answer(grammar.compact(line))
        if not is_entry or answer is None or answer.code:
            return
        for group in first_groups(self.log):
            view = self.log.view(group)
            for law in self.broken(group, view, relieves, line["op"] == "inc"):
                yield Broken(law, group, self.lines)
            if view["verdict"] == "Serve":
                self.served[group].add(view["first"])
            self.views[group] = view

    def count(self, law: str, group: Group, **more: bool) -> None:
        """Counts a case of a law, and what else holds of it."""
        more["grouped"] = codes.is_grouped(self.log.maps.code(group[0]))
        more["flag raised"] = bool(self.log.raised(group))
        self.counted.update({law: 1, **{f"{law} ({name.replace('_', ' ')})": int(holds) for name, holds in more.items()}})

    def broken(self, group: Group, view: View, relieves: bool, is_inc: bool) -> Iterator[str]:
        for first in self.served[group]:
            past = past_interval(view, first)
            self.count("served", group, past=past is not None)
            if not is_remembered(view, first):
                yield "served"
            if past is None or view["verdict"] != "Serve":
                continue
            since = view["les"] > past["last"]
            self.count("reckoned", group, not_served_since=not since)
            if not since and not is_reckoned_with(self.log, group, view, past):
                yield "reckoned"
        before = self.views.get(group)
        if not relieves or before is None or before["blocked_by"]:
            return
        if not is_inc and raises_a_flag(before, view):
            raised = "report raised a flag"
            self.counted.update({raised: 1, f"{raised} (and made a group down)": bool(view["blocked_by"])})
            return
        is_closed = before["first"] != view["first"]
        is_clean = is_closed and before["first"] in self.log.raised(group)
        self.count("relief", group, an_interval_closed=is_closed, a_clean_interval_closed=is_clean, by_a_report=not is_inc)
        if view["blocked_by"]:
            yield "relief"


# Wrong definitions


def flag_by_first_epoch() -> None:
    """An interval's flag depends on the map of its first epoch."""
    plain = peering.intervals

    def wrong(code: codes.Code, states: List[peering.State], cleans: Any = ()) -> List[peering.Interval]:
        opening = {state.epoch: state for state in states}
        return [it._replace(rw=peering.may_write(code, it.first, opening[it.first], False)) for it in plain(code, states)]

    peering.intervals = wrong


def probe_without_members() -> None:
    """The members of past intervals needn't be heard."""
    plain = peering.prior
    peering.prior = lambda now, code, past, les: ([], plain(now, code, past, les)[1])


def lost_in_its_epoch() -> None:
    """A loss counts in the epoch that tells of it alone."""
    plain = maps.Maps.status

    def wrong(self: maps.Maps, osd: int, first: int) -> str:
        status = plain(self, osd, first)
        return "Down" if status == "Lost" and self.losts.when(osd, self.epoch) != self.epoch else status

    maps.Maps.status = wrong  # type: ignore[method-assign]


def flag_by_clean_epochs() -> None:
    """Where a report tells of a clean epoch, up_thru doesn't count."""
    plain = peering.intervals

    def wrong(code: codes.Code, states: List[peering.State], cleans: Any = ()) -> List[peering.Interval]:
        found = plain(code, states, cleans)
        told = [epoch for epoch in cleans if epoch > 0]
        return [it._replace(rw=it.rw and any(it.first <= epoch <= it.last for epoch in told)) for it in found] if told else found

    peering.intervals = wrong


def parts_just_enough() -> None:
    """Of a past interval exactly the least number of each part has to be left."""
    plain, enough = peering.prior, peering.are_enough

    def just_enough(code: codes.Code, slots: Any) -> bool:
        have = set(slots)
        return all(len(have & part) == least for part, least in code) if isinstance(code, tuple) else enough(code, have)

    def wrong(*args: Any) -> Any:
        peering.are_enough = just_enough
        found = plain(*args)
        peering.are_enough = enough
        return found

    peering.prior = wrong


def relief_of_all_reports() -> None:
    """Relief speaks of reports that raise a flag too."""
    global raises_a_flag
    raises_a_flag = lambda before, view: False  # noqa: E731


WRONG: Dict[str, Callable[[], None]] = {
    it.__name__: it
    for it in (
        flag_by_first_epoch, flag_by_clean_epochs, probe_without_members, lost_in_its_epoch, parts_just_enough,
        relief_of_all_reports,
    )  # fmt: skip
}


# Runs


def begun(rng: random.Random, counted: Counter[str]) -> Callable[[], Optional[Broken]]:
    watch = Watch(rng, counted, rng.choice((2, 3)))
    return lambda: next(watch.take(), None)


def main() -> int:
    options = options_of(__doc__, WRONG)
    if options.wrong:
        WRONG[options.wrong]()
    counted: Counter[str] = collections.Counter()
    found = first_found(options, lambda rng: begun(rng, counted), counted)
    print(figures(counted))
    told = f"{found.law} is broken for group {found.group}" if found else "no law is broken"
    if options.wrong:
        print(told)
    elif found:
        print(told, file=sys.stderr)
        sys.stdout.buffer.write(b"".join(grammar.compact(it) + b"\n" for it in found.lines))
    return int(bool(found) != bool(options.wrong))


if __name__ == "__main__":
    sys.exit(main())
