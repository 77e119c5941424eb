"""Ceph's own sets: on which devices groups lie, as `osdmaptool --test-map-pgs-dump-all` and `ceph pg dump` print it.

Where a tree can't be carried whole, its up sets are others than Ceph's. The acting sets that Ceph prints are carried as
pg_temp lists, and then no tree is carried: up sets are empty, so that each interval is that of the acting sets.
"""

import re
from typing import Dict, Iterator, List, NamedTuple, Optional, Tuple

from .maps import MOST_PLACES, NONE, Group, Places, Pool, group_text, places_of, read_group, temp_fault
from .nodes import Node, Unusable
from .notes import Notes

SETS = re.compile(r"^(\d{1,9})\.([0-9a-f]{1,8}) raw .* up \(\[(.*?)\], p(-?\d+)\) acting \(\[(.*?)\], p(-?\d+)\)", re.MULTILINE)

NO_SETS = re.compile(r"^#osd\tcount\t", re.MULTILINE)  # the head of the table below the groups


class Where(NamedTuple):
    """Where one group lies. An empty place and an absent primary are None."""

    up: Tuple[Optional[int], ...]
    up_primary: Optional[int]
    acting: Tuple[Optional[int], ...]
    acting_primary: Optional[int]


class Sets(NamedTuple):
    """Where groups lie, each from an epoch on."""

    since: Dict[Group, int]
    where: Dict[Group, Where]


def osd_of(text: str) -> Optional[int]:
    return None if int(text) in (-1, NONE) else int(text)


def osds_of(text: str) -> Tuple[Optional[int], ...]:
    return tuple(osd_of(osd) for osd in text.split(",") if osd)


def is_printed(text: str) -> bool:
    """Tells whether the text is what osdmaptool prints of groups; a map without pools has no line of one."""
    has_sets = " raw " in text and SETS.search(text) is not None  # most files have no such word, which is sooner found out
    return has_sets or "#osd\t" in text and NO_SETS.search(text) is not None


def printed_sets(text: str, where: str) -> Dict[Group, Where]:
    """Where each group lies by what `osdmaptool --test-map-pgs-dump-all` printed."""
    try:
        return {
            (int(pool), int(group, 16)): Where(osds_of(up), osd_of(up_first), osds_of(acting), osd_of(acting_first))
            for pool, group, up, up_first, acting, acting_first in SETS.findall(text)
        }
    except ValueError as fault:
        raise Unusable(f"{where} has a list that isn't one of devices") from fault


def stats_of(dump: Node) -> List[Node]:
    """What `ceph pg dump` says of each group."""
    return (dump.key("pg_map") if dump.has("pg_map") else dump).key("pg_stats").items()


def dumped_sets(dump: Node) -> Sets:
    """Where each group lies by `ceph pg dump`, from the epoch on in which it came to lie there."""
    found = Sets({}, {})
    for stat in stats_of(dump):
        group = read_group(stat.key("pgid"))
        up, acting = (tuple(places_of(stat.key(key))) for key in ("up", "acting"))
        firsts = (stat.key(f"{key}_primary").whole() for key in ("up", "acting"))
        up_first, acting_first = (None if osd in (-1, NONE) else osd for osd in firsts)
        found.where[group] = Where(up, up_first, acting, acting_first)
        found.since[group] = stat.count_of("mapping_epoch")
    return found


def carried(group: Group, pool: Pool, where: Where, notes: Notes) -> Optional[Places]:
    """The pg_temp list that has the group lie where Ceph has it, or None where there is no such list."""
    places, first = list(where.acting), where.acting_primary
    if pool.k is None:
        places = [osd for osd in places if osd is not None]
    named = next((osd for osd in places if osd is not None), None)
    if pool.k is None and first in places and first != named:
        places = [first, *(osd for osd in places if osd != first)]
        notes.tell("places of acting sets whose primary isn't their first device, which is put first", group_text(group))
    elif first != named:
        notes.tell("acting primaries that aren't the first device of their set, in whose place the first leads", group_text(group))
    fault = temp_fault(pool, places) if places else None
    if fault or len(places) > MOST_PLACES:
        notes.tell("acting sets, left out", f"{group_text(group)} has {fault}")
        return None
    return places


def up_alone(sets: Dict[int, Dict[Group, Where]]) -> Iterator[Tuple[int, Group]]:
    """The epochs in which a group's up set changed and its acting set didn't."""
    before: Dict[Group, Where] = {}
    for epoch in sorted(sets):
        for group, where in sets[epoch].items():
            old = before.get(group)
            if old and (old.acting, old.acting_primary) == (where.acting, where.acting_primary) and old.up != where.up:
                yield epoch, group
            before[group] = where
