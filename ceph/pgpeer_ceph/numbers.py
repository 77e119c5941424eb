"""Under which numbers a script has Ceph's groups, where Ceph's own don't fit into one.

A script has pools 1 to 255 of at most 1,024 groups, and the groups of a pool don't change. So a larger pool becomes several, and
of more groups than a log takes those are carried that matter. A group that a split made lies before it where its parent lay.
"""

import re
from dataclasses import replace
from typing import Any, Dict, Iterable, List, NamedTuple, Set, Tuple

from .folder import Dumps
from .maps import MOST_GROUPS, MOST_GROUPS_IN_ALL, MOST_POOLS, Group, group_text, read_group
from .nodes import Node, Unusable
from .notes import Notes
from .sets import Where, stats_of

MOST_REPORTS = 60_000  # of the 65,535 entries that a log takes
MOST_SEEDS = 1 << 20  # groups of one of Ceph's pools
LEFT_OUT = "groups for which a script has no room, left out (--pg carries one): the rest of"


class CarriedPool(NamedTuple):
    """A pool of a script, with the pool of Ceph's and the groups of it that it has, in the order of the script's numbers."""

    id: int
    ceph: int
    seeds: Tuple[int, ...]


class Numbers:
    """Ceph's groups and the script's; the same where there are no pools."""

    def __init__(self, pools: Iterable[CarriedPool] = ()):
        self.pools = list(pools)
        self.cephs: Dict[Group, Group] = {(it.id, at): (it.ceph, seed) for it in self.pools for at, seed in enumerate(it.seeds)}
        self.scripts: Dict[Group, Group] = {ceph: script for script, ceph in self.cephs.items()}

    def in_script(self, group: Group) -> Group:
        if self.pools and group not in self.scripts:
            raise Unusable(f"the script has no group {group_text(group)}")
        return self.scripts.get(group, group)

    def in_ceph(self, group: Group) -> Group:
        return self.cephs.get(group, group)

    def named(self, text: str) -> str:
        """A text with Ceph's names of groups and pools in the place of the script's."""
        pools = {it.id: it.ceph for it in self.pools}
        text = re.sub(r"^(\d+)\.([0-9a-f]+)\b", lambda it: group_text(self.in_ceph((int(it[1]), int(it[2], 16)))), text)
        return re.sub(r"\bpool (\d+) '", lambda it: f"pool {pools.get(int(it[1]), int(it[1]))} '", text)


def do_fit(dumps: Dumps) -> bool:
    """Tells whether a script can have Ceph's own numbers."""
    sizes: Dict[int, int] = {}
    for osdmap in dumps.maps.values():
        own = pools_of(osdmap)
        if any(pool > MOST_POOLS or count > MOST_GROUPS or sizes.setdefault(pool, count) != count for pool, count in own.items()):
            return False
        if sum(own.values()) > MOST_GROUPS_IN_ALL:
            return False
    return True


def pools_of(osdmap: Node) -> Dict[int, int]:
    """The pools of a map, and how many groups they have."""
    found = {pool.key("pool").whole(): pool.key("pg_num").count() for pool in osdmap.key("pools").items()}
    if sum(found.values()) > MOST_SEEDS:
        raise Unusable(f"{osdmap.where} has more than {MOST_SEEDS} groups")
    return found


def numbers_of(dumps: Dumps, pools: List[int], named: Set[Group], notes: Notes) -> Numbers:
    """The numbers of the groups that the last map has: all where there is room, or those that matter."""
    last = dumps.maps[max(dumps.maps)]
    sizes = {pool.key("pool").whole(): pool.key("size").count() for pool in last.key("pools").items()}
    counts = {pool: count for pool, count in pools_of(last).items() if not pools or pool in pools}
    states = states_of(dumps)

    def rank(group: Group) -> Tuple[bool, bool, bool]:
        words = states.get(group, "").split("+")
        return group not in named, "active" in words, "clean" in words

    every = sorted(((pool, pg) for pool, count in sorted(counts.items()) for pg in range(count)), key=rank)
    room, kept = MOST_REPORTS, []
    for group in every[:MOST_GROUPS_IN_ALL]:
        room -= max(1, sizes[group[0]])
        if room < 0:
            break
        kept.append(group)
    by_pool: Dict[int, List[int]] = {}
    for pool, pg in sorted(kept):
        by_pool.setdefault(pool, []).append(pg)
    for pool, count in counts.items():
        if len(by_pool.get(pool, [])) < count:
            notes.tell(LEFT_OUT, f"pool {pool}, of which {len(by_pool.get(pool, [])):,} of {count:,} are carried")
    tell_merges(dumps, counts, notes)
    chunks = [(pool, tuple(own[at : at + MOST_GROUPS])) for pool, own in sorted(by_pool.items()) for at in range(0, len(own), MOST_GROUPS)]
    return Numbers(CarriedPool(at, pool, seeds) for at, (pool, seeds) in enumerate(chunks[:MOST_POOLS], 1))


def tell_merges(dumps: Dumps, counts: Dict[int, int], notes: Notes) -> None:
    """Tells of groups that earlier maps have and the last one hasn't."""
    for epoch, osdmap in sorted(dumps.maps.items()):
        for pool, count in pools_of(osdmap).items():
            if count > counts.get(pool, count):
                notes.tell("groups that were merged into others, whose past is left out", f"pool {pool} had {count} in epoch {epoch}")


def states_of(dumps: Dumps) -> Dict[Group, str]:
    """What Ceph says of each group, a query before `pg dump`."""
    found = {read_group(stat.key("pgid")): stat.key("state").text() for dump in dumps.stats for stat in stats_of(dump)}
    found.update((read_group(query.key("info").key("pgid")), query.key("state").text()) for query in dumps.queries)
    return found


# The dumps under other numbers


def renumbered(dumps: Dumps, numbers: Numbers) -> Dumps:
    """The dumps of a cluster that has the script's pools, without what asks for places that Ceph's own sets give."""
    maps = {epoch: Node(map_of(node, numbers), node.where) for epoch, node in dumps.maps.items()}
    stats = [Node({"pg_stats": stats_under(dump, numbers)}, dump.where) for dump in dumps.stats]
    queries = [query_under(query, numbers) for query in dumps.queries if read_group(query.key("info").key("pgid")) in numbers.scripts]
    logs = [(osd, group_text(numbers.scripts[group]), node) for osd, name, node in dumps.logs
            for group in [read_group(Node(name, node.where))] if group in numbers.scripts]
    return replace(dumps, maps=maps, stats=stats, queries=queries, logs=logs, sets=sets_under(dumps, numbers))


def map_of(osdmap: Node, numbers: Numbers) -> Dict[str, Any]:
    own = {pool.key("pool").whole(): pool.value for pool in osdmap.key("pools").items()}
    pools = [{**own[it.ceph], "pool": it.id, "pg_num": len(it.seeds), "pg_placement_num": len(it.seeds)}
             for it in numbers.pools if it.ceph in own]
    return {**osdmap.value, "pools": pools, "pg_temp": [], "primary_temp": [], "pg_upmap": [], "pg_upmap_items": [], "pg_upmap_primaries": []}


def stats_under(dump: Node, numbers: Numbers) -> List[Dict[str, Any]]:
    groups = ((stat, read_group(stat.key("pgid"))) for stat in stats_of(dump))
    return [{**stat.value, "pgid": group_text(numbers.scripts[group])} for stat, group in groups if group in numbers.scripts]


def query_under(query: Node, numbers: Numbers) -> Node:
    return Node({**query.value, "info": info_under(query.key("info"), numbers)}, query.where)


def infos_under(dumps: Dumps, numbers: Numbers) -> List[Tuple[int, Node]]:
    """The infos of stopped devices."""
    return [(osd, Node(info_under(node, numbers), node.where)) for osd, node in dumps.infos
            if read_group(node.key("pgid")) in numbers.scripts]


def info_under(info: Node, numbers: Numbers) -> Dict[str, Any]:
    shard = re.search(r"(s[0-9]+)?$", info.key("pgid").text())
    return {**info.value, "pgid": group_text(numbers.scripts[read_group(info.key("pgid"))]) + (shard[0] if shard else "")}


def sets_under(dumps: Dumps, numbers: Numbers) -> Dict[int, Dict[Group, Where]]:
    """Where groups lie by epoch, as the dumps tell; a group that wasn't there yet, where its parent does."""
    now: Dict[Group, Where] = {}
    found: Dict[int, Dict[Group, Where]] = {}
    counts: Dict[int, int] = {}
    children: Dict[Group, List[Group]] = {}
    for epoch, sets in sorted(dumps.sets.items()):
        now.update(sets)
        before = max((it for it in dumps.maps if it <= epoch), default=min(dumps.maps))
        is_other = not children or pools_of(dumps.maps[before]) != counts
        if is_other:
            counts = pools_of(dumps.maps[before])
            children = children_of(counts, numbers)
        changed = now if is_other else sets
        found[epoch] = {script: where for group, where in changed.items() for script in children.get(group, ())}
    return found


def children_of(counts: Dict[int, int], numbers: Numbers) -> Dict[Group, List[Group]]:
    """The script's groups by those of Ceph's in which their objects are while pools have so many."""
    found: Dict[Group, List[Group]] = {}
    for script, (pool, seed) in numbers.cephs.items():
        found.setdefault((pool, parent(seed, counts.get(pool, 0))), []).append(script)
    return found


def parent(seed: int, count: int) -> int:
    """The group of a pool with so many groups in which the objects of a group are, by Ceph's stable modulus."""
    if count == 0:
        return seed
    mask = (1 << (count - 1).bit_length()) - 1
    return seed & mask if seed & mask < count else seed & (mask >> 1)
