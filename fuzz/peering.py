"""What a log says of a group, by docs/RULES.md ("Intervals" to "What a log says of a group")."""

import itertools
from typing import Any, Collection, Dict, List, NamedTuple, Optional, Set, Tuple

from codes import Code, are_enough, members
from maps import Group, Maps, Membership

Member = Tuple[int, int]
Version = Tuple[int, int]
Report = Dict[str, Any]


# Intervals


class State(NamedTuple):
    """A group at one epoch: its membership, and what the map of that epoch says of the acting primary. An epoch that was passed
    over has the state before it."""

    epoch: int
    members: Membership
    up_from: int
    up_thru: int


class Interval(NamedTuple):
    """A run of epochs of equal membership. `rw` says whether the group may have gone read-write in it."""

    first: int
    last: int
    members: Membership
    rw: bool


def intervals(code: Code, states: List[State], cleans: Collection[int] = ()) -> List[Interval]:
    """The intervals of a group that has these states, and whose infos tell of these clean epochs. An interval lasts until the
    next one begins."""
    runs = [list(run) for _, run in itertools.groupby(states, key=lambda state: state.members)]
    lasts = [run[0].epoch - 1 for run in runs[1:]] + [states[-1].epoch]
    found = []
    for run, last in zip(runs, lasts):
        first = run[0].epoch
        is_clean = any(first <= epoch <= last for epoch in cleans)
        found.append(Interval(first, last, run[0].members, may_write(code, first, run[-1], is_clean)))
    return found


def may_write(code: Code, first: int, end: State, is_clean: bool) -> bool:
    """Tells whether a group may have gone read-write in an interval, by its last state, and by whether an info
    tells that the group was clean in one of its epochs."""
    acting = members(code, end.members.acting)
    return (
        len(acting) >= end.members.min_size
        and end.members.acting_primary is not None
        and are_enough(code, (slot for _, slot in acting))
        and (is_clean or end.up_thru >= first >= end.up_from)
    )


def cleans_of(infos: List[Report]) -> Set[int]:
    """The epochs in which a group was clean, by its infos, whether they count or not; 0 is before all epochs of a group."""
    return {info.get("last_epoch_clean", 0) for info in infos}


def state(maps: Maps, group: Group, epoch: int) -> State:
    now = maps.membership(group, epoch)
    leader = now.acting_primary
    facts = (0, 0) if leader is None else (maps.up_from(leader, epoch), maps.up_thru(leader, epoch))
    return State(epoch, now, *facts)


# The prior set


def prior(maps: Maps, code: Code, past: List[Interval], les: int) -> Tuple[List[Member], List[int]]:
    """The past intervals' part of whom the group has to hear, and the devices that block it."""
    probe, blocked_by = set(), set()
    for interval in past:
        if not interval.rw or interval.last < les:
            continue
        acting = [(member, maps.status(member[0], interval.first)) for member in members(code, interval.members.acting)]
        probe.update(member for member, status in acting if status == "Up")
        if not are_enough(code, (slot for (_, slot), status in acting if status in ("Up", "Lost"))):
            blocked_by.update(osd for (osd, _), status in acting if status == "Down")
    return sorted(probe), sorted(blocked_by)


# The best info and its log


def counts(maps: Maps, first: int, report: Report) -> bool:
    """Tells whether a report counts in the interval that began in the epoch `first`."""
    osd, stamp = report["from"][0], report["stamp"]
    return stamp >= first and maps.is_up(osd, maps.epoch) and maps.up_from(osd, maps.epoch) <= stamp


def heard_of(maps: Maps, first: int, reports: List[Report]) -> Dict[Member, Report]:
    """The members that are heard, each with its last info that counts."""
    return {tuple(it["from"]): it for it in reports if it["op"] == "info" and counts(maps, first, it)}


def best_of(code: Code, heard: Dict[Member, Report], leader: Optional[Member]) -> Optional[Member]:
    """The member whose info is the best of those heard."""
    starts = [info["history_les"] for info in heard.values()] + [info["les"] for info in heard.values() if info["complete"]]
    candidates = [member for member, info in heard.items() if info["complete"] and info["les"] >= max(starts)]

    def rank(member: Member) -> Any:
        info = heard[member]
        epoch, number = info["last_update"]
        update = (-epoch, -number) if code is None else (epoch, number)
        return update, tuple(info["log_tail"]), member != leader, member

    return min(candidates, key=rank, default=None)


def log_of(info: Report, parts: List[Report]) -> Optional[List[Tuple[Version, str, str]]]:
    """The log of the member that sent the info, by the parts that it sent, or None if it isn't whole.

    Each of its entries is a version, a change and a name.
    """
    tail, end = tuple(info["log_tail"]), tuple(info["last_update"])
    if tail == end:
        return []
    told = {v: ((epoch, v), change, name) for part in parts for epoch, v, change, name in part["log"]}
    log = [told[v] for v in sorted(told) if tail[1] < v <= end[1]]
    epochs = [tail[0]] + [entry[0][0] for entry in log]
    if len(log) != end[1] - tail[1] or log[-1][0] != end or epochs != sorted(epochs):
        return None
    return log


def peer_state(member: Member, info: Report, best: Report, log: List[Tuple[Version, str, str]]) -> Dict[str, Any]:
    """What another member's copy is by the whole log of the best one."""
    last = tuple(info["last_update"])
    if not info["complete"] or last < tuple(best["log_tail"]):
        return {"member": member, "state": "backfill"}
    if last != tuple(best["log_tail"]) and last not in [version for version, _, _ in log]:
        return {"member": member, "state": "diverged"}
    newest = {name: (version, change) for version, change, name in log if version[1] > last[1]}
    objects = {name: newest[name][0] for name in sorted(newest) if newest[name][1] == "modify"}
    return {"member": member, "objects": objects, "state": "missing"}


# The view


def view(maps: Maps, group: Group, history: List[State], reports: List[Report]) -> Dict[str, Any]:
    """All that a log says of a group that is there, by its states from the incremental that made its pool on, and by its
    reports. Gives the keys of the answer but count, ok and pg."""
    code = maps.code(group[0])
    infos = [report for report in reports if report["op"] == "info"]
    *past, now = intervals(code, history, cleans_of(infos))
    current, first = now.members, now.first
    les = max((info["history_les"] for info in infos), default=0)
    acting = members(code, current.acting)
    present = sorted({*members(code, current.up), *acting})
    past_probe, blocked_by = prior(maps, code, past, les)
    probe = sorted({*present, *past_probe})
    counted = [report for report in reports if counts(maps, first, report)]
    heard = heard_of(maps, first, counted)
    best = best_of(code, heard, acting[0] if acting else None)
    parts = [report for report in counted if report["op"] == "entries" and tuple(report["from"]) == best]
    log = None if best is None else log_of(heard[best], parts)
    peers = [] if log is None else [member for member in present if member in heard and member != best]
    causes = {
        "NoPrimary": current.acting_primary is None,
        "Down": bool(blocked_by),
        "Waiting": any(member not in heard for member in probe),
        "Incomplete": best is None,
        "Short": len(acting) < current.min_size or not are_enough(code, (slot for _, slot in acting)),
        "NeedLog": log is None,
        "NeedUpThru": current.acting_primary is not None and maps.up_thru(current.acting_primary, maps.epoch) < first,
        "Serve": True,
    }
    return {
        **shown(current),
        "best": best,
        "blocked_by": blocked_by,
        "epoch": maps.epoch,
        "first": first,
        "intervals": past_shown(past),
        "les": les,
        "missing": [peer_state(member, heard[member], heard[best], log) for member in peers],
        "probe": probe,
        "verdict": next(name for name, holds in causes.items() if holds),
    }


def shown(it: Membership) -> Dict[str, Any]:
    return {"acting": it.acting, "acting_primary": it.acting_primary, "up": it.up, "up_primary": it.up_primary}


def past_shown(past: List[Interval]) -> List[Dict[str, Any]]:
    """Past intervals as an answer shows them."""
    return [
        {
            **shown(it.members),
            "first": it.first,
            "last": it.last,
            "min_size": it.members.min_size,
            "rw": it.rw,
            "size": it.members.size,
        }
        for it in past
    ]
