"""What a group that doesn't serve waits for, in a few words."""

from typing import List, Set, Tuple

from .cluster import Cluster
from .maps import Group
from .rules import members_of
from .steps import Pool, View
from .words import osds_text


def last_members(cluster: Cluster, view: View) -> List[int]:
    """The devices that are down and stood in the last interval that may have gone read-write."""
    last = view["intervals"][-1]["acting"] if view["intervals"] else []
    return sorted(osd for osd in last if osd is not None and cluster.parts.is_down(osd))


def are_enough(members: Set[Tuple[int, int]], pool: Pool) -> bool:
    """Tells whether a group may serve on these members."""
    return len(members) >= pool.min_size and pool.are_enough(slot for _, slot in members)


def waits_for(cluster: Cluster, group: Group, view: View) -> str:
    """What a group waits for; empty where it serves."""
    verdict = view["verdict"]
    if view["blocked_by"]:
        return "blocked by " + osds_text(view["blocked_by"])
    if verdict == "Waiting":
        return "to hear " + osds_text(osd for osd, _ in cluster.unheard(group, view))
    if verdict == "Short":
        return short_text(cluster, group, view)
    return {"Incomplete": "a complete copy" + served_text(cluster, view), "NoPrimary": "any of its devices" + served_text(cluster, view),
            "NeedLog": "a log that isn't in the folder", "NeedUpThru": "the next map"}.get(verdict, "")


def up_of(cluster: Cluster, group: Group) -> Set[Tuple[int, int]]:
    """The up set of a group, as Ceph said it last."""
    said = cluster.said.get(group)
    return members_of(said.up, cluster.pool(group)) if said else set()


def waits_for_backfill(cluster: Cluster, group: Group, view: View) -> bool:
    """Tells whether a group is Short though its up set has members enough."""
    return bool(view["verdict"] == "Short" and are_enough(up_of(cluster, group), cluster.pool(group)))


def short_text(cluster: Cluster, group: Group, view: View) -> str:
    """Whether a group that is Short waits for backfill, or for a device."""
    if waits_for_backfill(cluster, group, view):
        return "backfill to " + osds_text(osd for osd, _ in up_of(cluster, group) - members_of(view["acting"], cluster.pool(group)))
    return "another device" + served_text(cluster, view)


def served_text(cluster: Cluster, view: View) -> str:
    served = last_members(cluster, view)
    return f"; {osds_text(served)} served it last, down" if served else ""
