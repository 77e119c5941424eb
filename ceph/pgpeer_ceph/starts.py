"""Which devices to start, so that no group is Down: a small set, in the order in which it frees most."""

import collections
import itertools
from typing import Counter, Dict, FrozenSet, Iterable, List, NamedTuple, Set

from .maps import Group
from .reasons import Reasons

Devices = FrozenSet[int]
MOST_SETS = 1000  # of one group
MOST_TRIED = 40  # sets that are held against each other at each step


class Need(NamedTuple):
    """Sets of devices each of which, started, ends that a group is Down; there may be others where the list was cut."""

    sets: FrozenSet[Devices]
    is_cut: bool

    def is_met(self, started: Set[int]) -> bool:
        return any(osds <= started for osds in self.sets)


class Start(NamedTuple):
    """A step of a plan, and the groups that it frees."""

    osds: List[int]
    frees: List[Group]


class Plan(NamedTuple):
    steps: List[Start]
    least: int  # no fewer devices end it for all these groups
    is_least_known: bool  # false where the list of some group was cut

    def osds(self) -> Set[int]:
        return {osd for step in self.steps for osd in step.osds}


def need_of(why: Reasons) -> Need:
    """What the program names; of any so many devices the first sets, where there are very many."""
    shape = why.ways["any"]
    if shape is None:
        return Need(frozenset(frozenset(way["start"]) for way in why.ways["sets"]), bool(why.ways["more"]))
    sets = list(itertools.islice(itertools.combinations(shape["osds"], shape["least"]), MOST_SETS + 1))
    return Need(frozenset(map(frozenset, sets[:MOST_SETS])), len(sets) > MOST_SETS)


def plan_of(needs: Dict[Group, Need]) -> Plan:
    """A greedy plan: each step frees most groups for each device that it starts."""
    open_groups, started, steps = dict(needs), set(), []
    while open_groups:
        osds = best_start(open_groups, started)
        started |= osds
        freed = sorted(group for group, need in open_groups.items() if need.is_met(started))
        steps.append(Start(sorted(osds), freed))
        for group in freed:
            del open_groups[group]
    return Plan(steps, lower_bound(needs.values()), not any(need.is_cut for need in needs.values()))


def best_start(needs: Dict[Group, Need], started: Set[int]) -> Devices:
    """The devices that free most groups for each of them; of the same gain fewer, then lesser ones."""
    classes = collections.Counter(frozenset(osds - started for osds in need.sets) for need in needs.values())
    counts: Counter[Devices] = collections.Counter()
    for sets, count in classes.items():
        counts.update({osds: count for osds in sets})
    tried = sorted(counts, key=lambda osds: (-counts[osds] / len(osds), len(osds), sorted(osds)))[:MOST_TRIED]

    def gain(osds: Devices) -> float:
        return sum(count for sets, count in classes.items() if any(own <= osds for own in sets)) / len(osds)

    return min(tried, key=lambda osds: (-gain(osds), len(osds), sorted(osds)))


def lower_bound(needs: Iterable[Need]) -> int:
    """How many devices are needed at least: groups that share no device each need as many as their smallest set."""
    taken: Set[int] = set()
    least = 0
    unions = {(frozenset(osd for osds in need.sets for osd in osds), min(map(len, need.sets))) for need in needs if not need.is_cut}
    for union, smallest in sorted(unions, key=lambda it: (len(it[0]) / it[1], sorted(it[0]))):
        if not union & taken:
            taken |= union
            least += smallest
    return max(least, max((smallest for _, smallest in unions), default=0))
