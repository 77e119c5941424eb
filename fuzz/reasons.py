"""What `pgpeer explain --json` says: why a group doesn't serve, what brings it back, and the summary over all groups."""

import collections
import copy
import itertools
import math
from typing import Any, Callable, Counter, Dict, Iterable, Iterator, List, NamedTuple, Optional, Sequence, Set, Tuple

import codes
import model
import peering
from codes import Code
from maps import Group, Maps

Devices = Tuple[int, ...]
MOST_SETS = 16  # that `explain` lists
VERDICTS = ("NoPrimary", "Down", "Waiting", "Incomplete", "Short", "NeedLog", "NeedUpThru", "Serve")


# Ways


class Way(NamedTuple):
    """Devices that boot, and others that are declared lost."""

    starts: Devices
    losses: Devices

    def incremental(self, epoch: int) -> Dict[str, Any]:
        """The incremental that does just this."""
        parts = {"up": list(self.starts), "lost": [[osd, epoch] for osd in self.losses]}
        return {"op": "inc", "epoch": epoch, **{key: value for key, value in parts.items() if value}}


class Supposed:
    """What becomes of the devices of past intervals if some of them boot, and others are declared lost."""

    def __init__(self, maps: Maps, starts: Iterable[int], losses: Iterable[int] = ()):
        self.maps, self.starts, self.losses = maps, frozenset(starts), frozenset(losses)

    def status(self, osd: int, first: int) -> str:
        before = self.maps.status(osd, first)
        if osd in self.starts:
            return "Up"
        return "Lost" if osd in self.losses and before == "Down" else before

    def lost_at(self, osd: int) -> int:
        return self.maps.lost_at(osd)


def smallest(are_enough: Callable[[Devices], bool], osds: Sequence[int]) -> List[Devices]:
    """The sets of these devices that are enough and of which no part is: those of fewer devices first."""
    found: List[Devices] = []
    for count in range(len(osds) + 1):
        for chosen in itertools.combinations(osds, count):
            if not any(set(part) <= set(chosen) for part in found) and are_enough(chosen):
                found.append(chosen)
    return found


def any_of(sets: List[Devices]) -> Optional[Tuple[int, Devices]]:
    """How many of which devices, where the sets are all of as many of these, and there are several."""
    osds = tuple(sorted({osd for it in sets for osd in it}))
    least = len(sets[0]) if sets else 0
    if len(sets) < 2 or len(sets) != math.comb(len(osds), least) or any(len(it) != least for it in sets):
        return None
    return least, osds


def told_sets(sets: List[Devices]) -> List[Devices]:
    """The sets that are told: of any so many devices each where one is enough, or else the first so many; else all of these."""
    shape = any_of(sets)
    return sets if shape is None or shape[0] == 1 else [shape[1][: shape[0]]]


def resorts(sets: List[Devices]) -> List[Way]:
    """Ways that declare devices of these sets lost: one device, and then all, where there are more."""
    one = [Way(tuple(it for it in osds if it != osd), (osd,)) for osds in sets for osd in osds]
    return (one + [Way((), osds) for osds in sets if len(osds) > 1])[:MOST_SETS]


# Past intervals


def lacking(code: Code, slots: Iterable[int]) -> int:
    """How many more slots would be enough."""
    have = set(slots)
    if isinstance(code, tuple):
        return sum(max(0, least - len(have & part)) for part, least in code)
    return max(0, (1 if code is None else code) - len(have))


class Fates:
    """A past interval, and what became of its acting members."""

    def __init__(self, maps: Any, code: Code, it: peering.Interval):
        self.maps, self.code, self.it = maps, code, it
        self.acting = [(member, maps.status(member[0], it.first)) for member in codes.members(code, it.members.acting)]

    def osds(self, *statuses: str) -> List[int]:
        return sorted({osd for (osd, _), status in self.acting if status in statuses})

    def slots(self, *statuses: str) -> List[int]:
        return [slot for (_, slot), status in self.acting if status in statuses]

    def lacks(self) -> int:
        return lacking(self.code, self.slots("Up", "Lost"))

    def blocks(self) -> bool:
        return bool(self.lacks() and self.osds("Down"))

    def writes(self) -> str:
        """Whether those that are up can read what was written, or could with those that are down, or neither."""
        if codes.are_enough(self.code, self.slots("Up")):
            return "readable"
        return "away" if codes.are_enough(self.code, self.slots("Up", "Down")) else "gone"

    def shown(self) -> Dict[str, Any]:
        down = self.osds("Down")
        span = {"first": self.it.first, "last": self.it.last, "acting": self.it.members.acting}
        osds = {"up": self.osds("Up"), "down": down, "lost": self.osds("Lost"), "gone": self.osds("Gone")}
        return {**span, **osds, "lost_before": [osd for osd in down if self.maps.lost_at(osd)], "writes": self.writes()}


def mattering(past: List[peering.Interval], les: int) -> List[peering.Interval]:
    """The past intervals that may have gone read-write, and didn't end before the group last began to serve."""
    return [it for it in past if it.rw and it.last >= les]


def last_clean(it: peering.Interval, cleans: Set[int]) -> Optional[int]:
    """The last of the epochs that is one of the interval."""
    return max((epoch for epoch in cleans if it.first <= epoch <= it.last), default=None)


# Reports


def last_infos(infos: List[peering.Report]) -> List[peering.Report]:
    """The last info of each member, in the order in which they came."""
    last = {tuple(info["from"]): at for at, info in enumerate(infos)}
    return [infos[at] for at in sorted(last.values())]


def info_shown(info: peering.Report) -> Dict[str, Any]:
    keys = ("from", "stamp", "les", "history_les", "last_update", "log_tail", "complete")
    return {**{key: info[key] for key in keys}, "last_epoch_clean": info.get("last_epoch_clean", 0)}


def gaps(best: peering.Report, parts: List[peering.Report]) -> List[Tuple[int, int]]:
    """The runs of numbers that the log of the best copy has to have and that no part of it has: each its first and its last."""
    tail, end = best["log_tail"][1], best["last_update"][1]
    told = sorted({v for part in parts for _, v, _, _ in part["log"] if tail < v <= end})
    ends = zip([tail, *told], [*told, end + 1])
    return [(before + 1, after - 1) for before, after in ends if before + 1 < after]


# A group


class Reckoned:
    """A group that is there, at the end of a log."""

    def __init__(self, log: model.Model, group: Group):
        self.log, self.maps, self.group, self.view = log, log.maps, group, log.view(group)
        self.code = self.maps.code(group[0])
        self.reports = log.reports.get(group, [])
        self.cleans = peering.cleans_of([it for it in self.reports if it["op"] == "info"])
        *self.past, _ = peering.intervals(self.code, log.histories[group], self.cleans)

    # What brings it back

    def is_down_with(self, way: Way) -> bool:
        """Tells whether the group is down still, once devices boot or are declared lost."""
        return bool(peering.prior(self.supposed(way), self.code, self.past, self.view["les"])[1])

    def supposed(self, way: Way) -> Any:
        return Supposed(self.maps, *way)

    def sets(self) -> List[Devices]:
        """The smallest sets of devices that are waited for with which the group is down no more; none where it isn't down."""
        osds = self.view["blocked_by"]
        return smallest(lambda chosen: not self.is_down_with(Way(chosen, ())), osds) if osds else []

    def after(self, way: Way) -> "Reckoned":
        """The group after the incremental that boots these devices and declares those lost."""
        log = copy.deepcopy(self.log)
        log.is_closed = False
        answer = log.submit(way.incremental(self.maps.epoch + 1))
        assert not answer.code, answer
        return Reckoned(log, self.group)

    def fates(self, maps: Any) -> List[Fates]:
        """The past intervals that matter, with what became of their members."""
        return [Fates(maps, self.code, it) for it in mattering(self.past, self.view["les"])]

    def blocking(self) -> List[Dict[str, Any]]:
        """The past intervals that block the group, with how many slots they lack, and when the group was clean in them."""
        found = [it for it in self.fates(self.maps) if it.blocks()]
        return [{"clean": last_clean(it.it, self.cleans), "interval": it.shown(), "lacks": it.lacks()} for it in found]

    def clean(self) -> Optional[Dict[str, Any]]:
        """The last past interval that matters in which the group was clean."""
        found = [it for it in self.fates(self.maps) if last_clean(it.it, self.cleans) is not None]
        return found[-1].shown() if found else None

    # What a way costs

    def price(self, way: Way) -> List[Dict[str, Any]]:
        """The intervals that blocked, and those that could be read with the devices that were down and no longer can."""
        pairs = zip(self.fates(self.maps), self.fates(self.supposed(way)))
        return [after.shown() for before, after in pairs if before.blocks() or before.writes() != "gone" and after.writes() == "gone"]

    def is_unreadable(self, way: Way) -> bool:
        """Tells whether too few of all devices that ever served are left, up or down."""
        then = [Fates(self.supposed(way), self.code, it) for it in self.past if it.rw]
        return not codes.are_enough(self.code, (slot for it in then for slot in it.slots("Up", "Down")))

    # What else is said

    def heard(self) -> List[peering.Report]:
        counted = [it for it in self.reports if peering.counts(self.maps, self.view["first"], it)]
        return last_infos([it for it in counted if it["op"] == "info"])

    def gaps(self) -> List[Tuple[int, int]]:
        best = self.view["best"]
        if best is None:
            return []
        own = [it for it in self.reports if tuple(it["from"]) == best and peering.counts(self.maps, self.view["first"], it)]
        infos = [it for it in own if it["op"] == "info"]
        return gaps(infos[-1], [it for it in own if it["op"] == "entries"])

    def unheard(self) -> List[peering.Member]:
        heard = {tuple(info["from"]) for info in self.heard()}
        return [member for member in self.view["probe"] if member not in heard]

    def lacks(self) -> int:
        """How many more slots than those of the acting members would be enough."""
        return lacking(self.code, (slot for _, slot in codes.members(self.code, self.view["acting"])))

    def fallen(self) -> List[int]:
        """The devices, down now, that were acting in the past intervals since the group last began to serve."""
        since = [it for it in self.past if self.view["les"] <= it.last]
        return sorted({osd for it in since for osd in Fates(self.maps, self.code, it).osds("Down")})

    def copies(self) -> Dict[str, Any]:
        """The members that were heard whose copies are complete and served as late as the best one, and what these lack."""
        best, heard = self.view["best"], self.heard()
        least = next((info["les"] for info in heard if tuple(info["from"]) == best), None)
        members = sorted((info["from"][0], info["from"][1]) for info in heard if least is not None and info["complete"] and info["les"] >= least)
        return {"lacks": lacking(self.code, (slot for _, slot in members)), "members": members}

    def shown(self) -> Dict[str, Any]:
        """All that `explain --json` says of the group but the sentence and what brings it back."""
        keys = ("acting", "acting_primary", "up", "up_primary", "epoch", "first", "les", "verdict")
        return {
            **{key: self.view[key] for key in keys},
            "blocking": self.blocking(),
            "clean": self.clean(),
            "copies": self.copies(),
            "gaps": self.gaps(),
            "heard": [info_shown(info) for info in self.heard()],
            "pg": self.group,
            "unheard": self.unheard(),
        }


# All groups


def summary(log: model.Model) -> Dict[str, Any]:
    """What `explain --json` says without a group: how many groups have each verdict, and which devices are waited for."""
    verdicts: Counter[str] = collections.Counter()
    blocks: Counter[int] = collections.Counter()
    awaited: Counter[int] = collections.Counter()
    frees: Counter[int] = collections.Counter()
    for pool, made in log.maps.made.items():
        for pg in range(made["pg_num"]):
            found = Reckoned(log, (pool, pg))
            verdict = found.view["verdict"]
            verdicts[verdict] += 1
            if verdict == "Down":
                blocks.update(found.view["blocked_by"])
                frees.update(osd for osd in found.view["blocked_by"] if not found.is_down_with(Way((osd,), ())))
            if verdict == "Waiting":
                awaited.update({osd for osd, _ in found.unheard()})
    osds = sorted({*blocks, *awaited}, key=lambda osd: (-frees[osd], -blocks[osd], -awaited[osd], osd))
    return {
        "devices": [{"osd": osd, "blocks": blocks[osd], "frees": frees[osd], "awaited": awaited[osd]} for osd in osds],
        "epoch": log.maps.epoch,
        "groups": sum(verdicts.values()),
        "verdicts": dict(verdicts),
    }
