"""Reports of a group's members, and the past intervals of which the group itself tells, from `ceph pg N.M query`.

`ceph pg dump` has no infos of members. Of a group that is active it tells enough all the same: its acting members are complete.
"""

import re
import urllib.parse
from typing import Any, Container, Dict, Iterator, List, NamedTuple, Optional, Tuple

from .epochs import Epochs
from .maps import NONE, Group, Places, Pool, group_text, places_of, read_group
from .nodes import Node, Unusable
from .notes import Notes

MOST_ENTRIES = 256  # of one line
MOST_NAME = 255  # bytes

Version = Tuple[int, int]
Member = Tuple[int, int]  # a device and its slot
Line = Dict[str, Any]


class Info(NamedTuple):
    """What a member tells of its copy. Epochs are Ceph's."""

    group: Group
    member: Member
    stamp: int
    les: int
    history_les: int
    last_epoch_clean: int
    last_update: Version
    log_tail: Version
    complete: bool


class PastInterval(NamedTuple):
    """A past interval that Ceph says may have gone read-write."""

    first: int
    last: int
    acting: List[Member]


class Query(NamedTuple):
    """What a group's primary tells of it."""

    group: Group
    epoch: int
    since: int  # the first epoch of the current interval
    made: int  # the epoch that made the pool
    state: str
    up: Places
    acting: Places
    infos: List[Info]
    told_from: int  # the epochs of which the past intervals tell; 0 where none are there
    told_to: int
    past: List[PastInterval]
    probing: Optional[List[Member]]  # while it peers
    blocked_by: List[int]

    def les(self) -> int:
        """The last epoch in which the group is known to have begun to serve."""
        return max((info.history_les for info in self.infos), default=0)


# Reading


def read_version(node: Node) -> Version:
    """Ceph's EPOCH'NUMBER."""
    found = re.fullmatch(r"([0-9]{1,10})'([0-9]{1,20})", node.text())
    if not found:
        raise Unusable(f"{node.where} is no version")
    return Node(int(found[1]), node.where).count(), Node(int(found[2]), node.where).count()


def read_member(node: Node, is_erasure: bool) -> Member:
    """Ceph's OSD, or OSD(SHARD)."""
    text = str(node.value) if isinstance(node.value, int) else node.text()
    found = re.fullmatch(r"([0-9]{1,9})(?:\(([0-9]{1,3})\))?", text)
    if not found:
        raise Unusable(f"{node.where} is no member")
    return int(found[1]), int(found[2] or 0) if is_erasure else 0


def read_info(info: Node, group: Group, member: Member, stamp: int) -> Info:
    history = info.key("history")
    return Info(group, member, stamp, info.key("last_epoch_started").count(), history.key("last_epoch_started").count(),
                history.count_of("last_epoch_clean"), read_version(info.key("last_update")), read_version(info.key("log_tail")),
                info.key("last_backfill").text() == "MAX")


def read_stopped(node: Node, osd: int) -> Info:
    """What `ceph-objectstore-tool --op info` prints of a copy on a stopped device."""
    pgid = node.key("pgid")
    shard = re.search(r"s([0-9]+)$", pgid.text())
    return read_info(node, read_group(pgid), (osd, int(shard[1]) if shard else 0), 0)


def read_query(node: Node) -> Query:
    info, epoch = node.key("info"), node.key("epoch").count()
    pgid = info.key("pgid")
    group, shard = read_group(pgid), re.search(r"s([0-9]+)$", pgid.text())
    up, acting = places_of(node.key("up")), places_of(node.key("acting"))
    infos = [read_info(info, group, leader_of(acting, shard), epoch)] if any(osd is not None for osd in acting) else []
    for peer in node.key("peer_info").items():
        infos.append(read_info(peer, group, read_member(peer.key("peer"), shard is not None), epoch))
    history = info.key("history")
    peering = peering_of(node)
    first, last, past = read_past(peering, shard is not None)
    probing = peering and peering.has("probing_osds") and [read_member(it, shard is not None) for it in peering.items_of("probing_osds")]
    blocked = [it.key("osd").whole() for it in peering.items_of("peering_blocked_by")] if peering else []
    return Query(group, epoch, history.count_of("same_interval_since"), history.count_of("epoch_pool_created"),
                 node.key("state").text(), up, acting, infos, first, last, past, probing or None, blocked)


def leader_of(acting: Places, shard: Optional["re.Match[str]"]) -> Member:
    """The member that was asked: that of the shard, in an erasure pool, else the first."""
    slot = int(shard[1]) if shard else 0
    asked = acting[slot] if shard and slot < len(acting) else None
    if asked is not None:
        return asked, slot
    return next((osd, at if shard else 0) for at, osd in enumerate(acting) if osd is not None)


def peering_of(node: Node) -> Optional[Node]:
    """The part that tells of peering, while the group peers."""
    states = node.items_of("recovery_state")
    return next((state for state in states if state.has("past_intervals")), None)


def read_past(peering: Optional[Node], is_erasure: bool) -> Tuple[int, int, List[PastInterval]]:
    if peering is None or not peering.items_of("past_intervals"):
        return 0, 0, []
    whole = peering.key("past_intervals").items()[0]
    past = []
    for interval in whole.items_of("intervals"):
        names = interval.key("acting").text().split(",")
        acting = [read_member(Node(name, interval.where), is_erasure) for name in names if name]
        past.append(PastInterval(interval.key("first").count(), interval.key("last").count(), acting))
    return whole.count_of("first"), whole.count_of("last"), past


def is_active(state: str) -> bool:
    """Tells whether a state is that of a group whose primary serves."""
    return "active" in state.split("+") and "stale" not in state.split("+")


def infos_of_stats(stat: Node, pools: Dict[int, Pool]) -> List[Info]:
    """The infos of a group that `ceph pg dump` says is active, or was when its primary told of it last, and whose acting members were
    complete then; none of another."""
    group, words = read_group(stat.key("pgid")), stat.key("state").text().split("+")
    if "active" not in words or group[0] not in pools:
        return []
    clean, stamp = stat.count_of("last_epoch_clean"), stat.key("reported_epoch").count()
    les = clean if "clean" in words else max(clean, stat.count_of("mapping_epoch"))
    versions = read_version(stat.key("version")), read_version(stat.key("log_start"))
    is_erasure = pools[group[0]].k is not None
    members = [(osd, at if is_erasure else 0) for at, osd in enumerate(places_of(stat.key("acting"))) if osd is not None]
    return [Info(group, member, stamp, les, les, clean, *versions, True) for member in members]


# Log entries


def read_log(node: Node, where: str, notes: Notes) -> List[Tuple[Version, str, str]]:
    """The entries of a member's log, as `ceph-objectstore-tool --op log` prints it: version, change and name."""
    found = []
    for entry in node.key("pg_log_t").key("log").items():
        op, version = entry.key("op").text().strip(), read_version(entry.key("version"))
        if op == "error":
            notes.tell("log entries of writes that failed, carried as deletes of no object's name", where)
        name = object_name(entry.key("object").text()) if op != "error" else "\u0001no object"
        if not 1 <= len(name.encode("utf-8", "replace")) <= MOST_NAME:
            notes.tell(f"log entries of names longer than {MOST_NAME} bytes, left out", where)
        elif version != (0, 0):
            found.append((version, "delete" if op in ("delete", "lost_delete", "error") else "modify", name))
    return found


def object_name(text: str) -> str:
    """An object's name from Ceph's POOL:HASH:NAMESPACE:KEY:NAME:SNAP; the whole of it where there is more than a name."""
    parts = text.split(":")
    if len(parts) == 6 and not parts[2] and not parts[3] and parts[5] == "head":
        return urllib.parse.unquote(parts[4], errors="replace")
    return text


# Writing


def version_in(epochs: Epochs, version: Version) -> List[int]:
    epoch, number = version
    return [0, 0] if number == 0 else [epochs.in_script(epoch), number]


def info_line(info: Info, epochs: Epochs) -> Line:
    return {
        "op": "info", "pg": list(info.group), "from": list(info.member), "stamp": epochs.in_script(info.stamp),
        "les": epochs.in_script(info.les), "history_les": epochs.in_script(info.history_les),
        "last_update": version_in(epochs, info.last_update), "log_tail": version_in(epochs, info.log_tail),
        "complete": info.complete, "last_epoch_clean": epochs.in_script(info.last_epoch_clean),
    }


def entries_lines(info: Info, log: List[Tuple[Version, str, str]], epochs: Epochs) -> Iterator[Line]:
    """The lines of a member's log, as far as they are within its info."""
    wanted = [entry for entry in log if info.log_tail < entry[0] <= info.last_update]
    for at in range(0, len(wanted), MOST_ENTRIES):
        part = [[*version_in(epochs, version), change, name] for version, change, name in wanted[at : at + MOST_ENTRIES]]
        yield {"op": "entries", "pg": list(info.group), "from": list(info.member), "stamp": epochs.in_script(info.stamp), "log": part}


def latest_of(info: Info) -> int:
    """The latest epoch that the info names."""
    return max(info.les, info.history_les, info.last_epoch_clean, info.last_update[0])


def tell_faults(info: Info, pools: Dict[int, Pool], devices: Container[int], last: int, notes: Notes) -> bool:
    """Tells why the program would refuse the info, if it would; answers whether it can be carried."""
    pool, text = pools.get(info.group[0]), f"{group_text(info.group)} of osd.{info.member[0]}"
    if pool is None or info.group[1] >= pool.pg_num:
        return False
    if info.member[0] not in devices or info.member[0] == NONE:
        notes.tell("reports of devices that the map doesn't have, left out", text)
    elif pool.k is not None and info.member[1] >= pool.size:
        notes.tell("reports of shards that the pool doesn't have, left out", text)
    elif info.stamp > last:
        notes.tell("reports of later epochs than the last map, left out (ceph osd dump EPOCH --format json)", text)
    elif info.log_tail > info.last_update or latest_of(info) > info.stamp:
        notes.tell("reports whose versions or epochs can't be, left out", text)
    else:
        return True
    return False
