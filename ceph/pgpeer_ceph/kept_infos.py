"""Which reports a script has, where a cluster was recorded for long: those that a query tells better are left out, and of more than
a log takes the latest stay."""

from typing import Dict, List, Tuple

from .maps import Group
from .notes import Notes
from .reports import Info, Member, Query

MOST_ENTRIES = 65_000  # of the 65,535 that a log takes
OLD = "older reports of members that told of a group again, since a log has no room for them"


def asked_of(queries: List[Query]) -> Dict[Group, List[Tuple[int, int]]]:
    """The epochs of the queries of each group, ascending, each with the first epoch of its interval."""
    found: Dict[Group, List[Tuple[int, int]]] = {}
    for query in sorted(queries, key=lambda query: query.epoch):
        found.setdefault(query.group, []).append((query.epoch, query.since))
    return found


def is_asked(queries: List[Tuple[int, int]], stamp: int) -> bool:
    """Tells whether a query tells of the interval in which a report of `ceph pg dump` was sent, or of a later state of it."""
    since = next((since for epoch, since in queries if epoch >= stamp), None)
    return since is not None and since <= stamp


def within_room(infos: List[Info], room: int, notes: Notes) -> List[Info]:
    """The infos in the order of their epochs: the last of each member, and of the others the latest, as many as there is room for."""
    found = sorted(infos, key=lambda info: (info.stamp, info.group, info.member))
    if len(found) <= room:
        return found
    last: Dict[Tuple[Group, Member], Info] = {(info.group, info.member): info for info in found}
    others = [info for info in found if last[info.group, info.member] is not info]
    left = max(0, room - len(last))
    notes.tell(OLD, f"those before epoch {others[-left].stamp if left else found[-1].stamp}")
    kept = {id(info) for info in (*last.values(), *others[len(others) - left :])}
    return [info for info in found if id(info) in kept]
