"""A cluster's history, as its dumps tell it: maps, trees, where groups lay, and what their members reported."""

from typing import Any, Dict, Iterator, List, NamedTuple, Set, Tuple

from .changes import Snapshot
from .folder import Dumps, version_of
from .kept_infos import MOST_ENTRIES, asked_of, is_asked, within_room
from .maps import Device, Group, Places, group_text, read_devices, read_group, read_pools, read_temps, tell_map
from .nodes import MOST, Node, Unusable
from .notes import Notes
from .reports import (Info, Query, Version, infos_of_stats, is_active, latest_of, read_log, read_query, read_stopped,
                      tell_faults)
from .sets import Where, dumped_sets, stats_of
from .trees import Crush, read_crush, tell_classes, within_all_groups

LOGS = ("logs of groups that are active in Ceph, which are carried without, so which writes a member lacks isn't known "
        "(ceph-objectstore-tool --op log)")
STATS = "reports of members of groups that are active, of which ceph pg dump tells: acting members are taken for complete"
FEWER = ("intervals of lrc pools in which Ceph may have gone read-write on fewer chunks than the script wants, which it takes for "
         "intervals without writes")

DROPPED = "past intervals that may have gone read-write and matter, which begin before --from and so aren't whole in the script"
BEFORE = "epochs before --from, of whose intervals the script knows what queries list alone"

Log = List[Tuple[Version, str, str]]


class Selection(NamedTuple):
    """What of a cluster is wanted."""

    pools: List[int]  # all where it is empty
    since: int = 0  # the first epoch, or 0
    until: int = MOST
    own_sets: bool = False  # acting sets are those that Ceph printed
    ask: bool = False
    straw2: bool = False  # straw2 buckets are carried as such
    keep_epochs: bool = False  # epochs are Ceph's, and those without a map and news are passed over


class Story:
    """A cluster's history, as its dumps tell it."""

    def __init__(self, dumps: Dumps, wanted: Selection, notes: Notes):
        self.dumps, self.wanted, self.notes = dumps, wanted, notes
        maps = {epoch: node for epoch, node in sorted(dumps.maps.items()) if wanted.since <= epoch <= wanted.until}
        if not maps:
            raise Unusable("there is no map of the epochs that are wanted")
        self.latest = max(maps)
        self.read: Dict[int, Device] = {}
        self.crush = self.read_trees()
        self.snapshots = [self.snapshot(epoch, node) for epoch, node in maps.items()]
        self.pools = {pool.id: pool for snapshot in self.snapshots for pool in snapshot.pools.values()}
        self.queries = [query for query in map(read_query, dumps.queries) if query.group[0] in self.pools]
        self.stats = [stat for dump in dumps.stats for stat in stats_of(dump)]
        self.active = self.read_active()
        self.tell_fewer()
        self.sets = self.read_sets() if wanted.own_sets else {}
        self.first = self.first_epoch()

    def read_trees(self) -> Dict[int, Crush]:
        trees = {version: read_crush(node, self.notes) for version, node in sorted(self.dumps.trees.items())}
        for node in list(self.dumps.trees.values())[-1:]:
            tell_classes(node, self.notes)
        return trees

    def snapshot(self, epoch: int, node: Node) -> Snapshot:
        pools = [pool for pool in read_pools(node, self.notes) if not self.wanted.pools or pool.id in self.wanted.pools]
        pools = within_all_groups(pools, self.notes)
        devices = {device.id: device for device in read_devices(node, self.notes, self.read)}
        temps = {(temp.pool, temp.pg): temp.osds for temp in read_temps(node, pools, self.notes)}
        changed = {it.key("pool").whole(): it.count_of("last_change") for it in node.key("pools").items()}
        tell_map(node, {pool.id for pool in pools}, self.notes)
        return Snapshot(epoch, devices, {pool.id: pool for pool in pools}, changed, temps, version_of(node))

    def tell_fewer(self) -> None:
        """Tells of intervals that queries list, whose acting sets aren't enough for the parts of a code."""
        for query in self.queries:
            pool = self.pools[query.group[0]]
            for past in query.past if pool.parts else ():
                if not pool.are_enough(slot for _, slot in past.acting):
                    self.notes.tell(FEWER, f"{group_text(query.group)} in epochs {past.first} to {past.last}")

    def read_sets(self) -> Dict[int, Dict[Group, Where]]:
        """Where groups lie, by the epochs in which they came to lie there, as far as dumps tell: in an epoch whose groups were
        dumped by that, as it has the order of each set."""
        found = {epoch: dict(sets) for epoch, sets in self.dumps.sets.items()}
        dumped = {group for sets in found.values() for group in sets}

        def tell(epoch: int, group: Group, where: Where) -> None:
            if epoch not in self.dumps.sets or group not in dumped:
                found.setdefault(epoch, {})[group] = where

        for query in self.queries:
            pool = self.pools[query.group[0]]
            for past in query.past:
                tell(past.first, query.group, where_of_past(past, pool.size, pool.k is not None))
        for dump in self.dumps.stats:
            sets = dumped_sets(dump)
            for group, where in sets.where.items():
                tell(sets.since[group], group, where)
        for query in self.queries:
            tell(query.since, query.group, where_of(query))
        return found

    def first_epoch(self) -> int:
        """The epoch of the first map, or that of an earlier interval that matters still."""
        found = self.snapshots[0].epoch
        for query in self.queries:
            mattering = [past for past in query.past if past.last >= query.les()]
            found = min([found, query.epoch, *(past.first for past in mattering)])
            for past in mattering:
                if past.first < self.wanted.since:
                    self.notes.tell(DROPPED, f"{group_text(query.group)} in epochs {past.first} to {past.last}")
        if min(found, *self.dumps.maps) < self.wanted.since:
            self.notes.tell(BEFORE, f"those before {self.wanted.since}")
        return max(found, self.wanted.since, 1)

    # Reports

    def infos(self) -> List[Info]:
        """The infos of all members, in the order of their epochs; one for each member and epoch."""
        found = {(info.group, info.member, info.stamp): info for query in self.queries for info in query.infos}
        asked = asked_of(self.queries)
        for stat in self.stats:
            for info in infos_of_stats(stat, self.pools) if self.is_sure(stat) else ():
                late = info._replace(stamp=max(info.stamp, self.first))
                if late.group not in self.active:
                    late = late._replace(log_tail=late.last_update)  # it was active then
                if not is_asked(asked.get(info.group, []), late.stamp):
                    self.notes.tell(STATS, group_text(info.group))
                    found.setdefault((late.group, late.member, late.stamp), late)
        found.update(((info.group, info.member, info.stamp), info) for info in self.stopped())
        found = {key: self.without_log(info) for key, info in found.items()}
        last, devices = self.snapshots[-1], self.devices()
        kept = (info for info in found.values() if tell_faults(info, last.pools, devices, last.epoch, self.notes))
        return within_room([info for info in kept if info.stamp >= self.first], MOST_ENTRIES - (last.epoch - self.first), self.notes)

    def is_sure(self, stat: Node) -> bool:
        """Tells whether what the primary said of a group holds of its time: of a stale group it does where the primary is down since,
        so that it says nothing of the current interval."""
        led = self.snapshots[-1].devices.get(stat.key("acting_primary").whole()) if stat.has("acting_primary") else None
        return "stale" not in stat.key("state").text().split("+") or led is None or not led.up

    def stopped(self) -> Iterator[Info]:
        """The infos of stopped devices, as of the last epoch that each names, so that none counts as heard."""
        for osd, node in self.dumps.infos:
            info = read_stopped(node, osd)
            yield info._replace(stamp=max(latest_of(info), self.first))

    def without_log(self, info: Info) -> Info:
        """The info as it is carried: of a group that Ceph calls active without a log, since nobody has to see it."""
        if info.group not in self.active or info.log_tail == info.last_update:
            return info
        self.notes.tell(LOGS, group_text(info.group))
        return info._replace(log_tail=info.last_update)

    @staticmethod
    def states(queries: List[Query], stats: List[Node]) -> Dict[Group, Tuple[int, str]]:
        """What Ceph said last of each group, with its epoch."""
        found: Dict[Group, Tuple[int, str]] = {}
        told = [(query.group, (query.epoch, query.state)) for query in queries]
        told += [(read_group(stat.key("pgid")), (stat.count_of("reported_epoch"), stat.key("state").text())) for stat in stats]
        for group, state in told:
            if group not in found or state[0] > found[group][0]:
                found[group] = state
        return found

    def read_active(self) -> Set[Group]:
        """The groups that Ceph called active when it told of them last, and whose logs weren't kept."""
        logged = {read_group(Node(name, node.where)) for _, name, node in self.dumps.logs}
        states = self.states(self.queries, self.stats)
        return {group for group, (_, state) in states.items() if is_active(state) and group not in logged}

    def devices(self) -> Set[int]:
        return {osd for snapshot in self.snapshots for osd in snapshot.devices}

    def logs(self) -> Dict[Tuple[Group, int], Log]:
        found: Dict[Tuple[Group, int], Log] = {}
        for osd, name, node in self.dumps.logs:
            group = read_group(Node(name, node.where))
            found.setdefault((group, osd), []).extend(read_log(node, f"{group_text(group)} of osd.{osd}", self.notes))
        return found


def where_of(query: Query) -> Where:
    up, acting = (next((osd for osd in places if osd is not None), None) for places in (query.up, query.acting))
    return Where(tuple(query.up), up, tuple(query.acting), acting)


def where_of_past(past: Any, size: int, is_erasure: bool) -> Where:
    places: Places = [osd for osd, _ in past.acting]
    if is_erasure:
        by_slot = {slot: osd for osd, slot in past.acting}
        places = [by_slot.get(slot) for slot in range(size)]
    first = next((osd for osd in places if osd is not None), None)
    return Where(tuple(places), first, tuple(places), first)
