"""Reads devices, pools and pg_temp lists of a Ceph cluster's map, and tells what a script has no key for."""

import re
from typing import Dict, Iterable, List, NamedTuple, Optional, Set, Tuple

from .nodes import Node, Unusable
from .notes import Notes

MOST_DEVICES = 4096
MOST_POOLS = 255
MOST_GROUPS = 1024  # of one pool
MOST_GROUPS_IN_ALL = 16384
MOST_PLACES = 16  # of one group

IN = 0x10000  # the weight of a device that takes its whole share
NONE = 2147483647  # an empty place, as Ceph prints it
REPLICATED, ERASURE = 1, 3  # the types of Ceph's pools
PLAIN_PLUGINS = ("jerasure", "isa")  # their codes read from any k shards
LOCAL_GROUPS = ("lrc codes, carried as local groups of which each wants all chunks but one, where Ceph may recover, and may have "
                "gone read-write, with fewer")
OTHER_CODES = "erasure codes that don't read from any k shards, carried as if they did"
HALTS = ("pauserd", "pausewr", "noup", "nodown", "noin", "noout", "full")


Group = Tuple[int, int]  # a pool and a group's number
Places = List[Optional[int]]  # devices; an empty place is None
Parts = Tuple[Tuple[Tuple[int, ...], int], ...]  # of each part its slots, and how many of them are enough


class Device(NamedTuple):
    """A device of the map; its weight is in units of 1/0x10000, the others are epochs."""

    id: int
    up: bool
    weight: int
    up_from: int = 0
    up_thru: int = 0
    down_at: int = 0
    lost_at: int = 0

    def served(self) -> bool:
        """Tells whether an up_thru was recorded since it booted."""
        return self.up and self.up_thru > 0 and self.up_thru >= self.up_from


class Code(NamedTuple):
    """When shards of an erasure code are enough: any k; or, where there are parts, of each part its number."""

    k: int
    parts: Parts = ()

    def are_enough(self, slots: Iterable[int]) -> bool:
        have = set(slots)
        return all(len(have & set(part)) >= least for part, least in self.parts) if self.parts else len(have) >= self.k


class Pool(NamedTuple):
    id: int
    name: str
    pg_num: int
    size: int
    min_size: int
    rule: int
    k: Optional[int]  # data shards; None where the pool is replicated
    parts: Parts = ()  # where the code is one of parts

    def are_enough(self, slots: Iterable[int]) -> bool:
        return bool(set(slots)) if self.k is None else Code(self.k, self.parts).are_enough(slots)

    def label(self) -> str:
        return f"pool {self.id} '{self.name}'"


class Temp(NamedTuple):
    """A group's pg_temp list; an empty place is None."""

    pool: int
    pg: int
    osds: Places


# Reading


def read_devices(osdmap: Node, notes: Notes, known: Optional[Dict[int, Device]] = None) -> List[Device]:
    """The devices of a map; those of one value that many maps have are read once, and are in `known` by the id of that."""
    devices, seen = [], set()
    read = {} if known is None else known
    for osd in osdmap.key("osds").items():
        if id(osd.value) not in read:
            read[id(osd.value)] = read_device(osd)
        device = read[id(osd.value)]
        if device.id in seen:
            raise Unusable(f"{osd.where}.osd is {device.id}, which is twice in the list")
        seen.add(device.id)
        affinity = osd.key("primary_affinity").number() if osd.has("primary_affinity") else 1
        if affinity != 1:
            notes.tell("primary affinities", f"osd.{device.id} has {affinity}")
        if 0 <= device.id < MOST_DEVICES:
            devices.append(device)
        else:
            notes.tell(f"devices above {MOST_DEVICES - 1}, left out", f"osd.{device.id}")
    return devices


def read_device(osd: Node) -> Device:
    share = osd.key("weight").number()
    if not 0 <= share < IN:
        raise Unusable(f"{osd.key('weight').where} is out of range")
    epochs = (osd.count_of(key) for key in ("up_from", "up_thru", "down_at", "lost_at"))
    return Device(osd.key("osd").whole(), osd.key("up").whole() != 0, round(share * IN), *epochs)


def number_of(profile: Node, key: str) -> int:
    """A number of a profile, which Ceph keeps as text."""
    try:
        return int(profile.key(key).text())
    except ValueError as fault:
        raise Unusable(f"{profile.where}.{key} is no whole number") from fault


def plugin_of(profile: Node) -> str:
    return profile.key("plugin").text() if profile.has("plugin") else "jerasure"


def code_of(profile: Node, size: int) -> Code:
    """The code of a profile, for pools of this size. One that isn't told by its numbers alone reads from any k shards here,
    as lrc with layers that are given by hand, of which `mapping` marks the data with D."""
    if plugin_of(profile) == "lrc":
        by_hand = profile.has("mapping") or profile.has("layers")
        has_k = profile.has("k") and profile.key("k").value != "-1"  # Ceph fills in -1 where none was given
        if profile.has("mapping") and not has_k:
            return Code(profile.key("mapping").text().count("D"))
        if not by_hand and profile.has("m") and profile.has("l"):
            k, m, length = (number_of(profile, key) for key in ("k", "m", "l"))
            return Code(k, local_groups(k, m, length, size))
    return Code(number_of(profile, "k"))


def local_groups(k: int, m: int, length: int, size: int) -> Parts:
    """The local groups of Ceph's lrc code of k, m and l: runs of l + 1 chunks, any l of which give back the other. None
    where Ceph has no such code."""
    if min(k, m, length) < 1 or (k + m) % length or size > MOST_PLACES:
        return ()
    count = (k + m) // length
    if k % count or m % count or k + m + count != size:
        return ()
    return tuple((tuple(range(at, at + length + 1)), length) for at in range(0, size, length + 1))


def read_code(osdmap: Node, pool: Node, label: str, size: int, notes: Notes) -> Code:
    """The code of an erasure pool, by its profile. Tells where it isn't Ceph's own."""
    name = pool.key("erasure_code_profile").text()
    profile = osdmap.key("erasure_code_profiles").key(name)
    code, told = code_of(profile, size), f"{plugin_of(profile)} of profile '{name}' in {label}"
    if code.parts and number_of(profile, "m") > 1:
        notes.tell(LOCAL_GROUPS, told)
    elif not code.parts and plugin_of(profile) not in PLAIN_PLUGINS:
        notes.tell(OTHER_CODES, told)
    if not 1 <= code.k <= size:
        raise Unusable(f"{profile.where}.k is {code.k}, and the size of {label} is {size}")
    return code


def read_pool(osdmap: Node, pool: Node, notes: Notes) -> Optional[Pool]:
    """The pool, or None where it is left out."""
    number, size = pool.key("pool").whole(), pool.key("size").whole()
    name = pool.key("pool_name").text() if pool.has("pool_name") else ""
    label, kind = f"pool {number} '{name}'", pool.key("type").whole()
    if kind not in (REPLICATED, ERASURE):
        raise Unusable(f"{pool.where}.type is {kind}, neither replicated (1) nor erasure (3)")
    min_size, pg_num = pool.key("min_size").whole(), pool.key("pg_num").whole()
    if pg_num < 1:
        raise Unusable(f"{pool.where}.pg_num is {pg_num}")
    k, parts = read_code(osdmap, pool, label, size, notes) if kind == ERASURE else (None, ())
    if not 1 <= number <= MOST_POOLS:
        notes.tell(f"pools above {MOST_POOLS}, left out", label)
        return None
    if not 1 <= size <= MOST_PLACES:
        notes.tell(f"pools whose size isn't 1 to {MOST_PLACES}, left out", f"{label} of size {size}")
        return None
    if not 1 <= min_size <= size:
        notes.tell("min_size that isn't 1 to size, carried as the nearest that is", f"{label} has {min_size}")
        min_size = max(1, min(min_size, size))
    if pg_num > MOST_GROUPS:
        notes.tell(f"pg_num above {MOST_GROUPS}, of which the first {MOST_GROUPS} are carried, so objects fall into others",
                   f"{label} has {pg_num}")
    tell_pool(pool, label, notes)
    rule = pool.key("crush_rule").whole()
    return Pool(number, name, min(pg_num, MOST_GROUPS), size, min_size, rule, k, parts)


def tell_pool(pool: Node, label: str, notes: Notes) -> None:
    """Tells of a pool what its line has no key for."""
    if pool.has("pg_placement_num") and pool.key("pg_placement_num").whole() != pool.key("pg_num").whole():
        notes.tell("pgp_num other than pg_num, so places differ", f"{label} has {pool.key('pg_placement_num').whole()}")
    if pool.has("flags_names") and "hashpspool" not in pool.key("flags_names").text().split(","):
        notes.tell("pools without the flag hashpspool, so places differ", label)
    if pool.has("tier_of") and pool.key("tier_of").whole() >= 0:
        notes.tell("cache tiers", f"{label} of pool {pool.key('tier_of').whole()}")
    if pool.count_of("peering_crush_bucket_count"):
        notes.tell("stretch mode", f"{label} wants members in {pool.count_of('peering_crush_bucket_count')} buckets of a type")


def read_pools(osdmap: Node, notes: Notes) -> List[Pool]:
    nodes = osdmap.key("pools").items()
    numbers = [pool.key("pool").whole() for pool in nodes]
    twice = next((at for at, number in enumerate(numbers) if number in numbers[:at]), None)
    if twice is not None:
        raise Unusable(f"{nodes[twice].where}.pool is {numbers[twice]}, which is twice in the list")
    pools = [read_pool(osdmap, pool, notes) for pool in nodes]
    return sorted((pool for pool in pools if pool), key=lambda pool: pool.id)


def read_group(text: Node) -> Group:
    """A group's pool and number from Ceph's POOL.HEX; what follows of a shard, as in 2.1s0, is passed over."""
    found = re.fullmatch(r"([0-9]{1,9})\.([0-9a-f]{1,8})(s[0-9]+)?", text.text())
    if not found:
        raise Unusable(f"{text.where} is no group")
    return int(found[1]), int(found[2], 16)


def named_group(words: str) -> Group:
    """A pool and a group's number from the POOL.HEX of a command line."""
    found = re.fullmatch(r"([0-9]{1,9})\.([0-9a-fA-F]{1,8})", words)
    if not found:
        raise Unusable(f"'{words}' is no group; groups are written POOL.PG, as 1.a")
    return int(found[1]), int(found[2], 16)


def group_text(group: Group) -> str:
    return f"{group[0]}.{group[1]:x}"


def places_of(node: Node) -> Places:
    """A list of devices as Ceph prints it."""
    return [None if osd.whole() in (NONE, -1) else osd.whole() for osd in node.items()]


def read_temps(osdmap: Node, pools: List[Pool], notes: Notes) -> List[Temp]:
    """The pg_temp lists of the groups that are carried."""
    temps, by_id = [], {pool.id: pool for pool in pools}
    for entry in osdmap.key("pg_temp").items():
        number, group = read_group(entry.key("pgid"))
        places, pool = places_of(entry.key("osds")), by_id.get(number)
        if pool is None or group >= pool.pg_num:
            continue
        fault = temp_fault(pool, places)
        if fault:
            notes.tell("pg_temp lists, left out", f"{entry.key('pgid').text()} has {fault}")
        else:
            temps.append(Temp(number, group, places))
    return temps


def temp_fault(pool: Pool, places: Places) -> Optional[str]:
    """What the list has that no pg_temp list of the pool may have."""
    osds = [osd for osd in places if osd is not None]
    if len(places) > MOST_PLACES or pool.k is not None and len(places) != pool.size:
        return f"{len(places)} places"
    if pool.k is None and None in places:
        return "an empty place"
    if len(set(osds)) < len(osds):
        return "a device twice"
    return next((f"osd.{osd}" for osd in osds if not 0 <= osd < MOST_DEVICES), None)


def tell_map(osdmap: Node, wanted: Set[int], notes: Notes) -> None:
    """Tells of the map what a script has no key for."""
    for key, what in (("pg_upmap", "upmaps"), ("pg_upmap_items", "upmaps"), ("pg_upmap_primaries", "upmaps"),
                      ("primary_temp", "primary_temp")):
        for entry in osdmap.items_of(key):
            if read_group(entry.key("pgid"))[0] in wanted:
                notes.tell(what, entry.key("pgid").text())
    flags = osdmap.key("flags").text().split(",") if osdmap.has("flags") else []
    for flag in flags:
        if flag in HALTS:
            notes.tell("flags", flag)
    if osdmap.has("stretch_mode") and osdmap.key("stretch_mode").has("stretch_mode_enabled"):
        if osdmap.key("stretch_mode").key("stretch_mode_enabled").value:
            notes.tell("stretch mode", "enabled")
