#!/usr/bin/env python3
"""Makes the folder that `fetch` keeps of a large cluster, in the shapes of Ceph 16.2, from a seed.

    ceph/tests/large_cluster.py FOLDER [--groups 10000] [--devices 300] [--epochs 500] [--seed 1]

Hosts have up to ten devices, and six racks have the hosts. Half of the life of the cluster devices stop, start, are out and in. Then
one rack stops, another one, and the first comes back, so that some groups of two copies are down.
"""

import argparse
import json
import pathlib
import random
from typing import Any, Dict, Iterator, List, NamedTuple, Optional, Set, Tuple

NONE = 2147483647
FIRST = 1000  # the first epoch that the monitor still has
STAMP = "2026-11-25T14:10:53.894488+0000"
SUMS = """bytes objects object_clones object_copies objects_missing_on_primary objects_missing objects_degraded objects_misplaced
objects_unfound objects_dirty whiteouts read read_kb write write_kb scrub_errors shallow_scrub_errors deep_scrub_errors
objects_recovered bytes_recovered keys_recovered objects_omap objects_hit_set_archive bytes_hit_set_archive flush flush_kb evict
evict_kb promote flush_mode_high flush_mode_low evict_mode_some evict_mode_full objects_pinned legacy_snapsets large_omap_objects
objects_manifest omap_bytes omap_keys objects_repaired""".split()
TIMES = """fresh change active peered clean became_active became_peered unstale undegraded fullsized""".split()

Places = Tuple[Optional[int], ...]


class Kind(NamedTuple):
    """A pool; `k` is 0 where it keeps copies."""

    id: int
    name: str
    count: int
    size: int
    min_size: int
    k: int = 0


class Span(NamedTuple):
    """A past interval of a group that went read-write."""

    first: int
    last: int
    acting: Places


class Group:
    def __init__(self, kind: Kind, number: int, wanted: List[int]):
        self.kind, self.number, self.wanted = kind, number, wanted
        self.up: Places = ()
        self.acting: Places = ()
        self.since = self.mapped = self.started = self.clean = FIRST - 400
        self.past: List[Span] = []
        self.temp: Places = ()
        self.temp_until = 0

    def name(self) -> str:
        return f"{self.kind.id}.{self.number:x}"

    def members(self, places: Places) -> List[int]:
        return [osd for osd in places if osd is not None]

    def are_enough(self, osds: List[int]) -> bool:
        return len(osds) >= max(self.kind.k, 1)

    def primary(self) -> int:
        return next(iter(self.members(self.acting)), -1)


class Device:
    def __init__(self, osd: int):
        self.osd, self.up, self.weight, self.up_from, self.up_thru, self.down_at = osd, True, 1, 700 + osd, FIRST - 400, 0


class LargeCluster:
    """A cluster that lives for so many epochs, and writes its maps as it does."""

    def __init__(self, groups: int, devices: int, epochs: int, seed: int = 1):
        self.rng, self.epochs = random.Random(seed), epochs
        self.hosts = [list(range(at, min(at + max(devices // 36, 1), devices))) for at in range(0, devices, max(devices // 36, 1))]
        self.racks = [self.hosts[at::6] for at in range(6)]
        self.devices = [Device(osd) for osd in range(devices)]
        few = groups // 10
        self.kinds = [Kind(3, "copies", groups - 2 * few, 3, 2), Kind(7, "pairs", few, 2, 1), Kind(300, "coded", few, 6, 5, 4)]
        self.groups = [Group(kind, number, self.chosen(2 * kind.size)) for kind in self.kinds for number in range(kind.count)]
        self.of_device: Dict[int, List[Group]] = {osd: [] for osd in range(devices)}
        for group in self.groups:
            for osd in group.wanted:
                self.of_device[osd].append(group)
        self.epoch = FIRST
        self.thrus: Set[int] = set()
        self.unsettled: Set[Group] = set()  # groups that aren't clean
        for group in self.groups:
            group.up = group.acting = tuple(group.wanted[: group.kind.size])

    def chosen(self, count: int) -> List[int]:
        """Devices of different hosts."""
        return [self.rng.choice(host) for host in self.rng.sample(self.hosts, min(count, len(self.hosts)))]

    # Life

    def live(self) -> Iterator[int]:
        """The epochs, with the cluster as it is in each."""
        yield self.epoch
        stopped = [rack for rack in self.racks[:2]]
        last = FIRST + self.epochs - 1
        while self.epoch < last:
            self.epoch += 1
            changed = self.events(last - self.epoch, stopped)
            self.record()
            ended = [group for group in self.unsettled if group.temp_until == self.epoch]
            self.place({*ended, *(group for osd in changed for group in self.of_device[osd])})
            self.peer()
            yield self.epoch

    def events(self, left: int, racks: List[List[List[int]]]) -> List[int]:
        """What happens in an epoch; the devices to which it does."""
        if left in (40, 30, 20):
            osds = [osd for host in racks[left in (30,)] for osd in host]
            for osd in osds:
                self.turn(osd, left == 20)
            return osds
        if left < 60 or self.rng.random() < 0.4:
            return []
        osd = self.rng.randrange(len(self.devices))
        device = self.devices[osd]
        if self.rng.random() < 0.3:
            device.weight = 1 - device.weight
        else:
            self.turn(osd, not device.up)
        down = [it.osd for it in self.devices if not it.up]
        if len(down) > 6:
            self.turn(down[0], True)
            return [osd, down[0]]
        return [osd]

    def turn(self, osd: int, up: bool) -> None:
        device = self.devices[osd]
        if device.up != up:
            device.up = up
            if up:
                device.up_from = self.epoch
            else:
                device.down_at = self.epoch

    def record(self) -> None:
        """Records that primaries were up in the intervals that began in the epoch before."""
        for osd in self.thrus:
            self.devices[osd].up_thru = self.epoch - 1
        self.thrus = set()

    def place(self, groups: Any) -> None:
        for group in groups:
            kind, size = group.kind, group.kind.size
            raw = [osd if self.devices[osd].weight else spare for osd, spare in zip(group.wanted[:size], group.wanted[size:])]
            up: Places = tuple(osd if self.devices[osd].up else None for osd in raw)
            up = up if kind.k else tuple(group.members(up))
            if group.up and set(group.members(up)) - set(group.members(group.up)) and self.epoch > group.temp_until:
                group.temp, group.temp_until = group.acting, self.epoch + 6
            temp = tuple(osd if osd is not None and self.devices[osd].up else None for osd in group.temp)
            temp = () if self.epoch >= group.temp_until or not group.members(temp) else temp
            acting = (temp if kind.k else tuple(group.members(temp))) or up
            if acting == up:
                group.temp = ()
            self.turn_group(group, up, acting)

    def turn_group(self, group: Group, up: Places, acting: Places) -> None:
        if (up, acting) == (group.up, group.acting):
            return
        if group.since < self.epoch and self.went(group):
            group.past.append(Span(group.since, self.epoch - 1, group.acting))
        group.since = group.mapped = self.epoch
        group.up, group.acting = up, acting
        self.unsettled.add(group)

    def went(self, group: Group) -> bool:
        return group.started == group.since

    def peer(self) -> None:
        """Has groups that can serve begin to, and those that have all members be clean."""
        for group in list(self.unsettled):
            if group.started < group.since < self.epoch and self.is_able(group):
                group.started = group.since
                self.thrus.add(group.primary())
            if group.started == group.since and group.since + 2 <= self.epoch and len(group.members(group.up)) == group.kind.size:
                if group.up == group.acting:
                    group.clean, group.past = group.since, []
                    self.unsettled.discard(group)

    def is_able(self, group: Group) -> bool:
        return len(group.members(group.acting)) >= group.kind.min_size and not self.blocked(group)

    def blocked(self, group: Group) -> Set[int]:
        """The devices that are down in past intervals that want them."""
        found: Set[int] = set()
        for span in group.past:
            down = {osd for osd in group.members(span.acting) if not self.devices[osd].up}
            if span.last >= group.started and not group.are_enough([osd for osd in group.members(span.acting) if osd not in down]):
                found |= down
        return found

    def state(self, group: Group) -> str:
        acting = group.members(group.acting)
        if group.started < group.since:
            return "down" if self.blocked(group) else "undersized+degraded+peered"
        if len(acting) < group.kind.size:
            return "active+undersized+degraded"
        return "active+clean" if group.up == group.acting else "active+remapped+backfilling"

    # Dumps

    def osdmap(self) -> Dict[str, Any]:
        temps = [{"pgid": group.name(), "osds": [NONE if osd is None else osd for osd in group.temp]}
                 for group in sorted(self.unsettled, key=lambda it: (it.kind.id, it.number)) if group.temp]
        profile = {"k": "4", "m": "2", "plugin": "jerasure", "technique": "reed_sol_van"}
        return {
            "epoch": self.epoch, "fsid": "5a5c8c4e-5d0f-4c2c-9f7b-1f4b1d1d0c11", "created": STAMP, "modified": STAMP,
            "flags": "sortbitwise,recovery_deletes,purged_snapdirs,pglog_hardlimit", "crush_version": 9, "pool_max": 300,
            "max_osd": len(self.devices), "require_osd_release": "pacific",
            "pools": [pool_dump(kind) for kind in self.kinds], "osds": [device_dump(it) for it in self.devices],
            "osd_xinfo": [{"osd": it.osd, "down_stamp": STAMP, "laggy_probability": 0, "laggy_interval": 0, "dead_epoch": 0,
                           "features": 4540138314316775423, "old_weight": 0, "last_purged_snaps_scrub": STAMP} for it in self.devices],
            "pg_upmap": [], "pg_upmap_items": [], "pg_temp": temps, "primary_temp": [], "blocklist": {},
            "erasure_code_profiles": {"coded": profile}, "crush_node_flags": {}, "device_class_flags": {},
            "stretch_mode": {"stretch_mode_enabled": False},
        }

    def tree(self) -> Dict[str, Any]:
        """Straw2 buckets, so that groups lie where Ceph says."""
        def bucket(number: int, name: str, kind: int, weights: Dict[int, int]) -> Dict[str, Any]:
            items = [{"id": item, "weight": weight, "pos": at} for at, (item, weight) in enumerate(weights.items())]
            types = ("osd", "host", "rack", "root")
            return {"id": number, "name": name, "type_id": kind, "type_name": types[kind], "weight": sum(weights.values()),
                    "alg": "straw2", "hash": "rjenkins1", "items": items}

        of_host = {id(host): -10 - at for at, host in enumerate(self.hosts)}
        hosts = [bucket(of_host[id(host)], f"h{-10 - of_host[id(host)]}", 1, {osd: 65536 for osd in host}) for host in self.hosts]
        weights = {it["id"]: it["weight"] for it in hosts}
        racks = [bucket(-2 - at, f"r{at}", 2, {of_host[id(host)]: weights[of_host[id(host)]] for host in rack})
                 for at, rack in enumerate(self.racks)]
        root = bucket(-1, "default", 3, {it["id"]: it["weight"] for it in racks})
        steps = [{"op": "take", "item": -1, "item_name": "default"}, {"op": "chooseleaf_firstn", "num": 0, "type": "host"}, {"op": "emit"}]
        indep = [steps[0], {"op": "chooseleaf_indep", "num": 0, "type": "host"}, steps[2]]
        rules = [{"rule_id": at, "rule_name": f"rule{at}", "ruleset": at, "type": 1 + 2 * at, "min_size": 1, "max_size": 10, "steps": it}
                 for at, it in enumerate((steps, indep))]
        devices = [{"id": it.osd, "name": f"osd.{it.osd}", "class": "ssd"} for it in self.devices]
        types = [{"type_id": at, "name": name} for at, name in enumerate(("osd", "host", "rack", "root"))]
        tunables = {"choose_local_tries": 0, "choose_local_fallback_tries": 0, "choose_total_tries": 50, "chooseleaf_descend_once": 1,
                    "chooseleaf_vary_r": 1, "chooseleaf_stable": 1, "straw_calc_version": 1}
        return {"devices": devices, "types": types, "buckets": [root, *racks, *hosts], "rules": rules, "tunables": tunables, "choose_args": {}}

    def sets(self) -> str:
        lines = []
        for kind in self.kinds:
            lines.append(f"pool {kind.id} pg_num {kind.count}")
            lines += [set_line(group) for group in self.groups if group.kind is kind]
        return "\n".join(lines) + "\n"

    def dump(self) -> Dict[str, Any]:
        stats = [self.stat(group) for group in self.groups]
        return {"pg_ready": True, "pg_map": {"version": 4711, "stamp": STAMP, "last_osdmap_epoch": self.epoch, "last_pg_scan": 0,
                                             "pg_stats": stats, "osd_stats": [], "pool_stats": []}}

    def stat(self, group: Group) -> Dict[str, Any]:
        return {"pgid": group.name(), "reported_epoch": self.epoch, "reported_seq": 99, "mapping_epoch": group.mapped, "blocked_by": [],
                "state": self.state(group), "last_epoch_clean": group.clean, "up": places(group.up), "acting": places(group.acting),
                "up_primary": next(iter(group.members(group.up)), -1), "acting_primary": group.primary(), **sums(self.version(group))}

    def version(self, group: Group) -> str:
        return f"{min(group.started, self.epoch)}'{1000 + group.number}"

    def info(self, group: Group, shard: Optional[int]) -> Dict[str, Any]:
        name = group.name() + (f"s{shard}" if shard is not None else "")
        history = {"epoch_created": 40, "epoch_pool_created": 40, "last_epoch_started": group.started, "last_epoch_clean": group.clean,
                   "last_interval_started": group.started, "last_interval_clean": group.clean, "last_epoch_split": 0,
                   "same_up_since": group.since, "same_interval_since": group.since, "same_primary_since": group.since}
        stats = {**self.stat(group), "stat_sum": {f"num_{it}": 0 for it in SUMS}}
        return {"pgid": name, "last_update": self.version(group), "last_complete": self.version(group), "log_tail": "500'100",
                "last_user_version": 7, "last_backfill": "MAX", "purged_snaps": [], "history": history, "stats": stats, "empty": 0, "dne": 0,
                "incomplete": 0, "last_epoch_started": group.started, "hit_set_history": {"current_last_update": "0'0", "history": []}}

    def query(self, group: Group) -> Optional[Dict[str, Any]]:
        """What the primary says of a group; None where there is none."""
        members = [(osd, at if group.kind.k else None) for at, osd in enumerate(group.acting) if osd is not None]
        if not members:
            return None
        if "peered" in self.state(group):  # it has heard who is up of past intervals, too
            were = ((osd, at if group.kind.k else None) for span in group.past for at, osd in enumerate(span.acting)
                    if osd is not None and self.devices[osd].up)
            members += [it for it in dict.fromkeys(were) if it not in members]
        names = [f"{osd}({shard})" if group.kind.k else str(osd) for osd, shard in members]
        peers = [{"peer": name, **self.info(group, shard)} for name, (_, shard) in zip(names[1:], members[1:])]
        if self.state(group) == "down":
            peers = []
        return {"snap_trimq": "[]", "snap_trimq_len": 0, "state": self.state(group), "epoch": self.epoch, "up": places(group.up),
                "acting": places(group.acting), "info": self.info(group, members[0][1]), "peer_info": peers,
                "recovery_state": self.recovery(group, names), "scrubber": {"epoch_start": "0", "active": False}, "agent_state": {}}

    def recovery(self, group: Group, names: List[str]) -> List[Dict[str, Any]]:
        if self.state(group) != "down":
            return [{"name": "Started/Primary/Active", "enter_time": STAMP, "might_have_unfound": []}, {"name": "Started", "enter_time": STAMP}]
        past = [{"first": str(it.first), "last": str(it.last), "acting": span_text(group, it)} for it in group.past]
        seen = sorted({osd for it in group.past for osd in group.members(it.acting)})
        whole = {"first": str(group.clean), "last": str(group.since - 1), "all_participants": [{"osd": osd} for osd in seen], "intervals": past}
        blocks = [{"osd": osd, "current_lost_at": 0, "comment": "starting or marking this osd lost may let us proceed"}
                  for osd in sorted(self.blocked(group))]
        return [{"name": "Started/Primary/Peering/Down", "enter_time": STAMP, "comment": "not enough up instances of this PG to go active"},
                {"name": "Started/Primary/Peering", "enter_time": STAMP, "past_intervals": [whole], "probing_osds": names,
                 "blocked": "peering is blocked due to down osds", "peering_blocked_by": blocks}, {"name": "Started", "enter_time": STAMP}]


def places(found: Places) -> List[int]:
    return [NONE if osd is None else osd for osd in found]


def span_text(group: Group, span: Span) -> str:
    return ",".join(f"{osd}({at})" if group.kind.k else str(osd) for at, osd in enumerate(span.acting) if osd is not None)


def set_line(group: Group) -> str:
    def text(found: Places) -> str:
        return ",".join(str(NONE if osd is None else osd) for osd in found)

    first = next(iter(group.members(group.up)), -1)
    raw = text(tuple(group.wanted[: group.kind.size]))
    return f"{group.name()} raw ([{raw}], p{group.wanted[0]}) up ([{text(group.up)}], p{first}) acting ([{text(group.acting)}], p{group.primary()})"


def sums(version: str) -> Dict[str, Any]:
    """The part of a group's numbers that plays no part here, and its version."""
    times = {f"last_{it}": STAMP for it in TIMES}
    scrubs = {key: STAMP for key in ("last_scrub_stamp", "last_deep_scrub_stamp", "last_clean_scrub_stamp")}
    rest = dict.fromkeys(("log_size", "ondisk_log_size", "snaptrimq_len", "parent_split_bits"), 0)
    flags = dict.fromkeys(("stats_invalid", "dirty_stats_invalid", "omap_stats_invalid", "hitset_stats_invalid", "pin_stats_invalid"), False)
    return {"version": version, "log_start": "500'100", "ondisk_log_start": "500'100", "created": 40, "parent": "0.0", "last_scrub": version,
            "last_deep_scrub": version, **times, **scrubs, **rest, **flags, "stat_sum": {f"num_{it}": 0 for it in SUMS}}


def pool_dump(kind: Kind) -> Dict[str, Any]:
    return {"pool": kind.id, "pool_name": kind.name, "create_time": STAMP, "flags": 1, "flags_names": "hashpspool", "type": 3 if kind.k else 1,
            "size": kind.size, "min_size": kind.min_size, "crush_rule": 1 if kind.k else 0, "object_hash": 2, "pg_autoscale_mode": "on",
            "pg_num": kind.count, "pg_placement_num": kind.count, "pg_num_target": kind.count, "last_change": "40", "tiers": [], "tier_of": -1,
            "erasure_code_profile": "coded" if kind.k else "", "options": {}, "application_metadata": {}}


def device_dump(device: Device) -> Dict[str, Any]:
    port = 6800 + 8 * device.osd
    vectors = {f"{name}_addrs": {"addrvec": [{"type": kind, "addr": f"10.0.0.{device.osd % 250}:{port + at}", "nonce": 21369}
                                             for at, kind in enumerate(("v2", "v1"))]}
               for name in ("public", "cluster", "heartbeat_back", "heartbeat_front")}
    return {"osd": device.osd, "uuid": f"c0073103-d709-4a4f-9a11-{device.osd:012x}", "up": int(device.up), "in": int(device.weight > 0),
            "weight": device.weight, "primary_affinity": 1, "last_clean_begin": 0, "last_clean_end": 0, "up_from": device.up_from,
            "up_thru": device.up_thru, "down_at": device.down_at, "lost_at": 0, **vectors, "public_addr": f"10.0.0.1:{port}/21369",
            "cluster_addr": f"10.0.0.1:{port + 1}/21369", "state": ["exists", "up"] if device.up else ["exists"]}


# Writing


def keep(folder: pathlib.Path, name: str, value: Any) -> None:
    (folder / name).write_text(json.dumps(value, separators=(",", ":")) + "\n")


def made(folder: pathlib.Path, groups: int, devices: int, epochs: int, seed: int = 1) -> LargeCluster:
    """The cluster at its end, whose dumps are in the folder then."""
    cluster = LargeCluster(groups, devices, epochs, seed)
    folder.mkdir(parents=True, exist_ok=True)
    for epoch in cluster.live():
        keep(folder, f"{epoch}.osd.json", cluster.osdmap())
        (folder / f"{epoch}.groups.txt").write_text(cluster.sets())
    keep(folder, f"{FIRST}.crush.json", cluster.tree())
    keep(folder, "pgs.json", cluster.dump())
    keep(folder, "df.json", {"nodes": [], "stray": [], "summary": {}})
    for group in cluster.groups:
        query = cluster.query(group)
        if query is not None:
            keep(folder, f"{group.name()}.query.json", query)
    return cluster


# A stand-in for Ceph's commands


CALLS = """\
#!/bin/sh
cd '{dumps}' || exit 1
echo "${{0##*/}} $*" >> '{calls}'
case "$*" in
    "pg dump "*) cat pgs.json;;
    "osd df tree "*) cat df.json;;
    "report "*) echo '{{"osdmap_first_committed":{first},"osdmap_last_committed":{last}}}';;
    "osd crush dump "*) cat {first}.crush.json;;
    "osd dump --format "*) cat {last}.osd.json;;
    "osd dump "*) cat "$3.osd.json";;
    "osd getmap "*) printf %s "$3";;
    *" tell "*) cat "$4.query.json";;
    *" --test-map-pgs-dump-all") cat "$(cat "$1").groups.txt";;
    *) exit 22;;
esac
"""


def stand_in(room: pathlib.Path, dumps: pathlib.Path, last: int) -> pathlib.Path:
    """A folder of commands that print the dumps, and keep their words in the file `calls`."""
    found = room / "bin"
    found.mkdir()
    for name in ("ceph", "osdmaptool"):
        (found / name).write_text(CALLS.format(dumps=dumps.resolve(), calls=room / "calls", first=FIRST, last=last))
        (found / name).chmod(0o755)
    return found


def main() -> None:
    parser = argparse.ArgumentParser(description=__doc__, formatter_class=argparse.RawDescriptionHelpFormatter)
    parser.add_argument("folder", type=pathlib.Path)
    for name, count in (("groups", 10_000), ("devices", 300), ("epochs", 500), ("seed", 1)):
        parser.add_argument(f"--{name}", type=int, default=count)
    options = parser.parse_args()
    made(options.folder, options.groups, options.devices, options.epochs, options.seed)


if __name__ == "__main__":
    main()
