"""The intervals of groups, and their verdicts epoch by epoch, as the program answers them within a bound of questions."""

import json
from typing import Any, Dict, Iterable, Iterator, List, NamedTuple, Optional, Set, Tuple

from .cluster import REFUSED, Cluster, slim
from .maps import Group, Places
from .nodes import Unusable, compact
from .steps import UNKNOWN, Member, View, answer_of, streamed, without_intervals

MOST_QUESTIONS = 200_000  # about verdicts of the past
Turn = Tuple[int, str]  # an epoch of the script, and the verdict from it on


class Span(NamedTuple):
    """An interval of a group, in epochs of the script; `wrote` isn't told of the current one."""

    first: int
    acting: Places
    up: Places
    wrote: bool
    matters: bool


class Past(NamedTuple):
    """What the program says of a group at the end, and its intervals."""

    view: View  # without intervals that play no part
    spans: List[Span]


def past_of(view: View) -> Past:
    spans = [Span(it["first"], it["acting"], it["up"], it["rw"], it["rw"] and it["last"] >= view["les"]) for it in view["intervals"]]
    return Past(slim(view), [*spans, Span(view["first"], view["acting"], view["up"], False, True)])


class Timeline:
    """The groups of a cluster's script by epoch. Groups and epochs are the script's."""

    def __init__(self, cluster: Cluster):
        self.cluster, self.fronts = cluster, cluster.parts.fronts
        self.places = {front.inc["epoch"]: at for at, front in enumerate(self.fronts)}
        self.groups = sorted(cluster.in_script(group) for group in cluster.carried())
        self.pasts = self.asked_at_end()
        self.is_whole = True  # whether all verdicts of the past were asked for
        self.turns = self.asked_between()

    def asked_at_end(self) -> Dict[Group, Past]:
        """What the program says of all groups at the end of the script."""
        lines = list(self.cluster.parts.whole())
        questions = (question(group) for group in self.groups)
        found, count = {}, 0
        for count, line in enumerate(streamed(self.cluster.program, (*lines, *questions)), 1):
            if count > len(lines):
                view = answer_of(line, self.cluster.program)
                if "ok" in view:
                    group = self.groups[count - len(lines) - 1]
                    found[group] = past_of(view)
                    self.cluster.at_end[self.cluster.numbers.in_ceph(group)] = found[group].view
            elif line.startswith(REFUSED):
                self.cluster.take_refused(answer_of(line, self.cluster.program), lines[count - 1], False)
        if count != len(lines) + len(self.groups):
            raise Unusable(f"{self.cluster.program} gave {count} answers to {len(lines) + len(self.groups)} lines")
        return found

    # Verdicts of the past

    def asked_between(self) -> Dict[Group, List[Turn]]:
        """The verdicts of groups, those that don't serve first, as far as the bound goes."""
        due: Dict[int, List[Group]] = {}
        count, touched, told = 0, self.touched_by_device(), self.told_by_group()
        for group in sorted(self.pasts, key=lambda group: (self.pasts[group].view["verdict"] == "Serve", group)):
            fronts = self.telling_fronts(group, touched) | told.get(group, set())
            if count + len(fronts) > MOST_QUESTIONS:
                self.is_whole = False
                continue
            count += len(fronts)
            for at in fronts:
                due.setdefault(at, []).append(group)
        found = self.answered(due)
        last = self.fronts[-1].inc["epoch"]
        for group, past in self.pasts.items():
            turns = found.setdefault(group, [(past.spans[0].first, UNKNOWN)])
            take_turn(turns, last, self.verdict_at_end(group))
        return found

    def touched_by_device(self) -> Dict[int, List[int]]:
        """The fronts that boot, end or give up a device, by device."""
        found: Dict[int, List[int]] = {}
        for at, front in enumerate(self.fronts):
            named = [*(osd for key in ("up", "down", "gone") for osd in front.inc.get(key, ())), *(osd for osd, _ in front.inc.get("lost", ()))]
            for osd in set(named):
                found.setdefault(osd, []).append(at)
        return found

    def told_by_group(self) -> Dict[Group, Set[int]]:
        """The fronts with reports of a group, by group."""
        found: Dict[Group, Set[int]] = {}
        for at, front in enumerate(self.fronts):
            for group in front.reports:
                found.setdefault(group, set()).add(at)
        return found

    def telling_fronts(self, group: Group, touched: Dict[int, List[int]]) -> Set[int]:
        """The fronts after which the verdict of a group may be another one."""
        past = self.pasts[group]
        members = {osd for span in past.spans for osd in (*span.acting, *span.up) if osd is not None}
        fronts = {at for osd in members for at in touched.get(osd, ())}
        fronts |= {self.places[span.first] for span in past.spans}
        fronts |= {min(at + 1, len(self.fronts) - 1) for at in (self.places[span.first] for span in past.spans)}  # its up_thru
        begin = self.places[past.spans[0].first]
        return {at for at in fronts if at >= begin}

    def answered(self, due: Dict[int, List[Group]]) -> Dict[Group, List[Turn]]:
        heard, found = Heard(), {}
        said = streamed(self.cluster.program, self.lines(due))
        try:
            for at, front in enumerate(self.fronts):
                for _ in range(1 + sum(map(len, front.reports.values()))):
                    next(said)
                heard.take(front)
                for group in due.get(at, ()):
                    view = answer_of(without_intervals(next(said)), self.cluster.program)
                    if "ok" in view:
                        take_turn(found.setdefault(group, []), front.inc["epoch"], heard.verdict(group, view))
        except StopIteration:
            raise Unusable(f"{self.cluster.program} gave fewer answers than there are lines") from None
        finally:
            said.close()
        return found

    def lines(self, due: Dict[int, List[Group]]) -> Iterator[str]:
        for at, front in enumerate(self.fronts):
            yield from front_lines(front)
            for group in due.get(at, ()):
                yield question(group)

    def verdict_at_end(self, group: Group) -> str:
        view = self.pasts[group].view
        unheard = self.cluster.parts.unheard(group, view) if view["verdict"] == "Waiting" else []
        return UNKNOWN if view["verdict"] == "Waiting" and len(unheard) == len(view["probe"]) else str(view["verdict"])


class Heard:
    """Which members were heard, as far as a script has come."""

    def __init__(self) -> None:
        self.booted: Dict[int, int] = {}
        self.stamps: Dict[Group, Dict[Member, int]] = {}

    def take(self, front: Any) -> None:
        for osd in (*front.inc.get("down", ()), *front.inc.get("gone", ())):
            self.booted.pop(osd, None)
        self.booted.update((osd, front.inc["epoch"]) for osd in front.inc.get("up", ()))
        for group, lines in front.reports.items():
            for line in lines:
                if line["op"] == "info":
                    own = self.stamps.setdefault(group, {})
                    member = line["from"][0], line["from"][1]
                    own[member] = max(line["stamp"], own.get(member, 0))

    def verdict(self, group: Group, view: View) -> str:
        """The verdict, unknown where the group waits to hear from all and no report of the interval was kept so far."""
        if view["verdict"] != "Waiting":
            return str(view["verdict"])
        own = self.stamps.get(group, {})
        is_heard = any(own.get((osd, slot), -1) >= max(view["first"], self.booted[osd]) for osd, slot in view["probe"] if osd in self.booted)
        return "Waiting" if is_heard else UNKNOWN


def take_turn(turns: List[Turn], epoch: int, verdict: str) -> None:
    if not turns or turns[-1][1] != verdict:
        if turns and turns[-1][0] == epoch:
            turns.pop()
        turns.append((epoch, verdict))


def question(group: Group) -> str:
    return json.dumps({"op": "ask", "pg": list(group)})


def front_lines(front: Any, temps: Optional[Iterable[Any]] = None) -> Iterator[str]:
    """The lines of a front."""
    lists = list(front.temps.values() if temps is None else temps)
    yield front.text[:-1] + f',"temp":{compact(lists)}}}' if lists else front.text
    for reports in front.reports.values():
        yield from map(compact, reports)
