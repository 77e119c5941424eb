"""The script of a Ceph cluster's history: its map as it was first known, an incremental for each later epoch, and reports."""

import bisect
from typing import Any, Dict, Iterator, List, NamedTuple, Optional, Set, Tuple

from .changes import Change, Changes, Lawful, Line, earlier
from .epochs import Epochs, numbered
from .folder import Dumps
from .maps import IN, Group, Places, Pool, Temp, group_text
from .nodes import Unusable, compact, ranges
from .notes import Notes
from .numbers import Numbers
from .reports import Info, entries_lines, info_line
from .sets import Where, carried, up_alone
from .story import Selection, Story
from .trees import Bucket, Crush, carried_tree, choice_of, pools_of_one_root

LONGEST_LINE = 1048576  # bytes, without the line feed


class Script(NamedTuple):
    lines: List[Line]
    epochs: Optional[Epochs]  # None where they are the script's own, or Ceph's
    numbers: Numbers = Numbers()


def bucket_object(bucket: Bucket) -> Line:
    made = {"id": bucket.id, "type": bucket.type, "alg": bucket.alg, "items": bucket.items}
    return made if bucket.alg == "uniform" else {**made, "weights": bucket.weights}


def pool_object(pool: Pool, leaf: int) -> Line:
    kind: Line = {"kind": "replicated"} if pool.k is None else {"kind": "erasure", "k": pool.k}
    if pool.parts:
        kind = {"kind": "grouped", "groups": [[list(slots), least] for slots, least in pool.parts]}
    return {"id": pool.id, "pg_num": pool.pg_num, **kind, "size": pool.size, "min_size": pool.min_size, "leaf": leaf}


def pool_parts(pools: List[Pool], temps: List[Temp], leaves: Dict[int, int]) -> Iterator[Line]:
    """The incrementals that make the pools, as few as lines hold, each pool with its pg_temp lists."""
    part: Line = {"pools": [], "temp": []}
    for pool in pools:
        new = [pool_object(pool, leaves[pool.id])], [[t.pool, t.pg, t.osds] for t in temps if t.pool == pool.id]
        longer = {"pools": part["pools"] + new[0], "temp": part["temp"] + new[1]}
        if part["pools"] and len(compact(longer)) > LONGEST_LINE - 65536:
            yield part
            longer = {"pools": new[0], "temp": new[1]}
        part = longer
    if part["pools"]:
        yield part


def incremental(epoch: int, part: Line, after: int) -> Line:
    """The incremental that leads from the epoch `after` to `epoch`, in the first version that can say so."""
    passes = {"after": after} if after != epoch - 1 else {}
    has_groups = any(pool["kind"] == "grouped" for pool in part.get("pools", ()))
    has_straw2 = any(bucket["alg"] == "straw2" for bucket in part.get("crush") or ())
    version = {"v": 3 if has_straw2 or passes else 2} if has_straw2 or has_groups or passes else {}
    return {"op": "inc", **version, **passes, "epoch": epoch, **{key: value for key, value in part.items() if value}}


def map_lines(parts: List[Line], last: int) -> List[Line]:
    """The incrementals that make the first map, of which the last leads to the epoch `last`; those before it are passed over."""
    first = last - len(parts) + 1
    if first < 1:
        raise Unusable(f"the map of epoch {last} takes {len(parts)} incrementals, so --keep-epochs can't begin with it")
    return [incremental(first + at, part, first + at - 1 if at else 0) for at, part in enumerate(parts)]


# The script


class Writer:
    """Writes a story: its first map in a few incrementals, then one for each epoch."""

    def __init__(self, story: Story):
        self.story, self.notes = story, story.notes
        first = story.snapshots[0]
        self.known = {snapshot.epoch for snapshot in story.snapshots}
        self.base = earlier(first, story.first) if story.first < first.epoch else first
        self.changes = Changes(story.first, max(story.snapshots[-1].epoch, story.first), self.notes)
        self.root, self.leaves = self.judged()
        self.infos, self.log = story.infos(), story.logs()
        self.stamps, self.logged = [info.stamp for info in self.infos], {group for group, _ in self.log}

    def judged(self) -> Tuple[Optional[int], Dict[int, int]]:
        """The root of the tree, and each pool's failure domain. Pools of other roots are left out."""
        story, pools = self.story, [self.story.pools[it] for it in sorted(self.story.pools)]
        if story.wanted.own_sets:
            return None, {pool.id: 0 for pool in pools}
        if not story.crush:
            self.notes.tell("the tree, in whose place the script has none (ceph osd crush dump)", "no CRUSH dump was given")
            return None, {pool.id: 0 for pool in pools}
        rules = {number: rule for version in sorted(story.crush) for number, rule in story.crush[version].rules.items()}
        crush = Crush(story.crush[max(story.crush)].buckets, rules)  # the rules of pools that were deleted too
        root, kept = pools_of_one_root(crush, pools, self.notes)
        story.pools = {pool.id: pool for pool in kept}
        return root, {pool.id: choice_of(crush, pool).type for pool in kept}

    def tree(self, version: int) -> Optional[List[Line]]:
        """The tree of a version, None where it isn't known."""
        if self.story.wanted.own_sets or not self.story.crush:
            return None
        if version not in self.story.crush:
            told = f"version {version} (ceph osd getcrushmap EPOCH -o FILE, crushtool -i FILE --dump)"
            self.notes.tell("trees of some epochs, in whose place the one before or the next stands", told)
            later = [it for it in self.story.crush if it > version]
            version = min(later) if later else max(self.story.crush)
        root = self.root
        return [bucket_object(it) for it in carried_tree(self.story.crush[version], root, self.story.wanted.straw2, self.notes)]

    def write(self) -> Script:
        story = self.story
        self.follow()
        parts = self.first_parts()
        named = [epoch for info in self.infos for epoch in epochs_named(info)]
        named += [version[0] for log in self.log.values() for version, _, _ in log]
        epochs = Epochs() if story.wanted.keep_epochs else numbered(story.first, len(parts), named)
        base = epochs.in_script(story.first)
        fillers: List[Line] = [{} for _ in range(0 if story.wanted.keep_epochs else base - len(parts))]
        parts = fillers + parts
        self.serve(parts[-1], base)
        lines = map_lines(parts, base)
        lines += self.reports(story.first, epochs)
        lines += self.later(epochs, {osd: thru for osd, thru in parts[-1].get("up_thru", [])})
        if story.wanted.ask:
            last = story.snapshots[-1]
            lines += [{"op": "ask", "pg": [pool.id, pg]} for pool in sorted(last.pools.values()) if pool.id in story.pools
                      for pg in range(min(pool.pg_num, story.pools[pool.id].pg_num))]
        return Script(lines, None if story.wanted.keep_epochs else epochs)

    def follow(self) -> None:
        """Finds what changes from map to map."""
        story, before = self.story, self.base
        for snapshot in story.snapshots:
            if snapshot.epoch > before.epoch:
                self.changes.take(before, snapshot)
            before = snapshot
        self.changes.guess(self.is_told)
        for query in story.queries:
            for past in query.past:
                self.changes.wrote(leaders(past), past.first, past.last, self.known)

    def is_told(self, since: int, now: int) -> bool:
        """Tells whether a query tells of the intervals between two epochs."""
        return any(query.told_from <= since + 1 and now - 1 <= max(query.told_to, query.epoch) and query.told_from
                   for query in self.story.queries)

    def first_parts(self) -> List[Line]:
        """The incrementals that make the first map: devices boot, those that are down go down, pools are made."""
        pools = [pool for pool in self.base.pools.values() if pool.id in self.story.pools]
        temps = [Temp(*group, places) for group, places in self.base.temps.items()]
        if self.story.wanted.own_sets:
            temps = self.first_sets(pools)
        tree = self.tree(self.base.tree) if pools else None
        devices = [device for device in self.base.devices.values() if device.up_from or device.up or device.weight != IN or pools]
        absent = sorted({item for bucket in tree or [] for item in bucket["items"] if item >= 0} - set(self.base.devices))
        weights = [[device.id, device.weight] for device in devices if device.weight != IN] + [[osd, 0] for osd in absent]
        down = sorted([device.id for device in devices if not device.up] + absent)
        first = {"up": sorted([*(device.id for device in devices), *absent]), "weight": sorted(weights), "crush": tree or []}
        parts: List[Line] = [it for it in (first, {"down": down}, {"gone": absent}) if any(it.values())]
        parts += pool_parts(pools, temps, self.leaves)
        self.lawful = Lawful({it.id for it in devices if it.up}, {it.id for it in devices if not it.up}, {}, {it.id: it for it in pools}, self.notes)
        return parts or [{}]

    def serve(self, part: Line, epoch: int) -> None:
        """Has the first map know of devices that were up in an interval that began before it."""
        served = [device.id for device in self.base.devices.values() if device.served()]
        if served and "pools" in part:
            part["up_thru"] = [[osd, epoch] for osd in sorted(served)]

    # Later epochs

    def later(self, epochs: Epochs, thru: Dict[int, int]) -> Iterator[Line]:
        self.lawful.thru = thru
        has_tree = bool(self.base.pools) and not self.story.wanted.own_sets
        acting = ActingSets(self) if self.story.wanted.own_sets else None
        version, after = self.base.tree, epochs.in_script(self.story.first)
        for ceph_epoch in range(self.story.first + 1, self.changes.last + 1):
            epoch, change = epochs.in_script(ceph_epoch), self.changes.by_epoch.get(ceph_epoch, Change())
            change.pools = {it: pool for it, pool in change.pools.items() if it in self.story.pools}
            version = change.tree if change.tree is not None else version
            parts = self.lawful.parts(change, epoch, ceph_epoch, epochs.in_script)
            if change.tree is not None and has_tree or change.pools and not has_tree:
                parts["crush"] = self.tree(version)
                has_tree = True
            parts["pools"] = [pool_object(pool, self.leaves[pool.id]) for pool in change.pools.values()]
            if acting:
                parts["temp"] = acting.temps(ceph_epoch, self.lawful)
            reports = list(self.reports(ceph_epoch, epochs))
            if self.story.wanted.keep_epochs and ceph_epoch not in self.known and not reports and not any(parts.values()):
                continue  # no map and no news: the next incremental passes over it
            yield incremental(epoch, parts, after)
            yield from reports
            after = epoch

    def first_sets(self, pools: List[Pool]) -> List[Temp]:
        """The acting sets of the first map: the last that are known by then, or else the first."""
        epochs = sorted(self.story.sets)
        ordered = [it for it in epochs if it <= self.story.first][::-1] + [it for it in epochs if it > self.story.first]
        temps = []
        for pool in pools:
            for pg in range(pool.pg_num):
                where = next((self.story.sets[it][pool.id, pg] for it in ordered if (pool.id, pg) in self.story.sets[it]), None)
                places = where and carried((pool.id, pg), pool, where, self.notes)
                if places:
                    temps.append(Temp(pool.id, pg, places))
                elif where is None:
                    told = "acting sets of groups of which no dump tells (osdmaptool MAP --test-map-pgs-dump-all)"
                    self.notes.tell(told, group_text((pool.id, pg)))
        return temps

    def reports(self, ceph_epoch: int, epochs: Epochs) -> Iterator[Line]:
        """The reports of an epoch."""
        begin, end = (bisect.bisect_left(self.stamps, epoch) for epoch in (ceph_epoch, ceph_epoch + 1))
        for info in self.infos[begin:end]:
            if info.group[0] in self.story.pools:
                yield info_line(info, epochs)
                log = self.log.get((info.group, info.member[0]), [])
                yield from entries_lines(info, log, epochs)
                if info.log_tail != info.last_update and info.group not in self.logged:
                    told = "log entries (ceph-objectstore-tool --op log), without which a group whose log isn't empty is NeedLog"
                    self.notes.tell(told, group_text(info.group))


class ActingSets:
    """The acting sets of a script in which they are Ceph's."""

    def __init__(self, writer: Writer):
        self.story = writer.story
        self.lists: Dict[Group, Places] = {}  # the pg_temp lists of the script
        self.told: Dict[Group, Places] = {}  # where groups lie, as a script has it
        self.dumped: Dict[Group, Where] = {}  # where they lay in the last dump of groups
        self.again: Dict[Group, Where] = {}  # what is to be taken once more: of pools that the script hasn't yet, and what
        self.up: Set[int] = set()            # was told since the last dump
        for epoch, sets in sorted(self.story.dumps.sets.items()):
            self.dumped.update(sets if epoch <= self.story.first else {})
        for temp in writer.first_sets(list(writer.base.pools.values())):
            self.lists[temp.pool, temp.pg] = self.told[temp.pool, temp.pg] = temp.osds

    def temps(self, epoch: int, lawful: Lawful) -> List[List[Any]]:
        """The pg_temp lists of an epoch: those of groups that don't lie where Ceph has them."""
        found = []
        for group in sorted(self.touched(epoch, lawful)):
            if group in self.told and self.told[group] != self.filtered(group, lawful.pools[group[0]], lawful.up):
                self.lists[group] = self.told[group]
                found.append([*group, self.told[group]])
        return found

    def touched(self, epoch: int, lawful: Lawful) -> Set[Group]:
        """Takes what is told in an epoch; gives the groups whose lists may no longer be right. A dump of groups has those alone
        that lie otherwise than in the one before."""
        news = self.story.sets.get(epoch, {})
        if epoch not in self.story.dumps.sets:
            self.take(news, lawful)
            self.again.update((group, self.dumped[group]) for group in news if group in self.dumped)
            return set(news)
        self.dumped.update(news)
        news, self.again = {**self.again, **news}, {}
        self.take(news, lawful)
        booted, self.up = lawful.up - self.up, set(lawful.up)
        return {*news, *(group for group, places in self.lists.items() if not booted.isdisjoint(places))} if booted else set(news)

    def take(self, news: Dict[Group, Where], lawful: Lawful) -> None:
        for group, where in news.items():
            pool = lawful.pools.get(group[0])
            self.told.pop(group, None)
            if pool is None or group[1] >= pool.pg_num:
                self.again[group] = where
                continue
            places = carried(group, pool, where, self.story.notes)
            if places is not None:
                self.told[group] = places

    def filtered(self, group: Group, pool: Pool, up: Set[int]) -> Places:
        places = [osd if osd in up else None for osd in self.lists.get(group, [])]
        return places if pool.k is not None else [osd for osd in places if osd is not None]


def leaders(past: Any) -> List[int]:
    """The members of which one led the interval: that of the lowest shard, in an erasure pool."""
    if any(slot for _, slot in past.acting):
        return [min(past.acting, key=lambda member: member[1])[0]]
    return [osd for osd, _ in past.acting]


def epochs_named(info: Info) -> List[int]:
    return [info.les, info.history_les, info.last_epoch_clean, info.last_update[0], info.log_tail[0]]


def history(dumps: Dumps, wanted: Selection, notes: Notes) -> Script:
    """The script of the dumps."""
    story = Story(dumps, wanted, notes)
    if wanted.own_sets:
        other = {group for sets in story.sets.values() for group, where in sets.items() if where.up != where.acting}
        told = f"{len(other)} groups had another at times" if other else "which they were in each dump"
        notes.tell("up sets beside Ceph's acting sets; they are empty in the script", told)
        silent = ranges(epoch for epoch in range(story.first, story.snapshots[-1].epoch + 1) if epoch not in dumps.sets)
        if silent:
            notes.tell("acting sets of epochs without a dump of groups (osdmaptool MAP --test-map-pgs-dump-all), except what "
                       "queries and ceph pg dump tell", silent)
    for epoch, group in up_alone(story.sets):
        notes.tell("changes of up sets alone, which begin an interval in Ceph", f"{group_text(group)} in epoch {epoch}")
    writer = Writer(story)
    if not writer.infos:
        notes.tell("reports (ceph pg PG query for each group), without which no group serves", "none was given")
    return writer.write()
