"""Where Ceph's own state of a group and our verdict differ: the rule that says why. docs/REAL_MAPS.md tells what each rule is."""

from typing import Any, Dict, List, Optional, Set, Tuple

from .cluster import Cluster, Said
from .maps import Group
from .steps import Member, Pool, View

Interval = Dict[str, Any]

STATES = ("down", "incomplete", "active", "peered", "peering", "activating", "unknown", "creating")
OURS = {
    "Serve": ("active", "activating"),
    "NeedUpThru": ("peering", "activating", "active"),
    "Waiting": ("peering",),
    "Short": ("peered",),
    "Down": ("down",),
    "Incomplete": ("incomplete",),
    "NoPrimary": ("unknown",),
}


def word_of(state: str) -> str:
    """The word of a state of Ceph's that says how far the group has come."""
    words = state.split("+")
    return "unknown" if "stale" in words else next((word for word in STATES if word in words), state)


def members_of(places: List[Optional[int]], pool: Pool) -> Set[Member]:
    return {(osd, at if pool.is_by_place() else 0) for at, osd in enumerate(places) if osd is not None}


def superseded(past: List[Interval], pool: Pool) -> Set[int]:
    """The first epochs of intervals that Ceph doesn't list: a later one had no member that they hadn't."""
    members = [(it["first"], members_of(it["acting"], pool)) for it in past]
    return {first for at, (first, own) in enumerate(members) if any(later <= own for _, later in members[at + 1 :])}


def complete_slots(heard: List[Dict[str, Any]], acting: Set[Member]) -> Set[int]:
    """The slots of the acting set whose copies are complete, by the infos that were heard."""
    members = ((info["from"][0], info["from"][1], info["complete"]) for info in heard)
    return {slot for osd, slot, is_complete in members if is_complete and (osd, slot) in acting}


def rule_of(cluster: Cluster, group: Group, view: View) -> Tuple[bool, str]:
    """Whether Ceph's state and the verdict agree, and the rule where they don't; "" where none says why."""
    said = cluster.said.get(group)
    if said is None:
        return False, "not asked"
    if word_of(said.state) in OURS.get(view["verdict"], ()):
        return True, ""
    return False, difference(cluster, group, view, said)


def difference(cluster: Cluster, group: Group, view: View, said: Said) -> str:
    verdict, theirs, pool = view["verdict"], word_of(said.state), cluster.pool(group)
    acting = members_of(view["acting"], pool)
    if verdict == "NoPrimary" or theirs == "unknown":
        return "no leader"
    if verdict == "NeedLog":
        return "no log"
    if verdict == "Waiting" and not said.is_query:
        return "not asked"
    if verdict == "Short" and theirs == "incomplete" and not pool.are_enough(slot for _, slot in acting):
        return "few shards"
    if verdict == "Serve" and theirs == "incomplete" and is_short_of_copies(cluster, group, view, pool):
        return "few complete"
    if verdict == "Down" and theirs in ("active", "peered"):
        return "heard before"
    if verdict == "Down" and blocks_by_superseded(view, pool):
        return "superseded"
    return "unsettled" if said.epoch < (cluster.epochs.in_ceph(view["epoch"]) or 0) else ""


def is_short_of_copies(cluster: Cluster, group: Group, view: View, pool: Pool) -> bool:
    """Tells whether fewer copies of the acting set are complete than reading needs."""
    heard = list(cluster.parts.heard(cluster.in_script(group), view["first"]).values())
    return not pool.are_enough(complete_slots(heard, members_of(view["acting"], pool)))


def blocks_by_superseded(view: View, pool: Pool) -> bool:
    """Tells whether no interval that Ceph lists names a device that blocks the group."""
    left_out, blocked = superseded(view["intervals"], pool), set(view["blocked_by"])
    listed = [it for it in view["intervals"] if it["first"] not in left_out]
    return not any(blocked & {osd for osd in it["acting"] if osd is not None} for it in listed)
