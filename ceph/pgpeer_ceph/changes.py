"""The incrementals that lead from one map of a Ceph cluster to the next.

Where the maps of consecutive epochs are there, each incremental is that of its epoch. Where some are missing, up_from and
down_at of the next map say when devices booted and went down; what else changed is put at the next map's epoch, and up_thru
is taken for recorded in each epoch in which it may have been, so that no interval that may have gone read-write is missed.
"""

from dataclasses import dataclass, field
from typing import Any, Callable, Dict, List, NamedTuple, Optional, Set, Tuple

from .maps import IN, MOST_DEVICES, Device, Group, Places, Pool
from .nodes import Unusable, ranges
from .notes import Notes

MOST_EPOCHS = 60_000  # of a script, whose log has room for 65,535 entries

Line = Dict[str, Any]
GAP = "epochs without a map, filled in from the next one (ceph osd dump EPOCH --format json)"


class Snapshot(NamedTuple):
    """The map of an epoch."""

    epoch: int
    devices: Dict[int, Device]
    pools: Dict[int, Pool]
    changed: Dict[int, int]  # the epoch in which a pool was changed last
    temps: Dict[Group, Places]
    tree: int  # the version of the tree


@dataclass
class Change:
    """What an incremental says. Epochs in it are Ceph's."""

    up: Set[int] = field(default_factory=set)
    down: Set[int] = field(default_factory=set)
    gone: Set[int] = field(default_factory=set)
    weight: Dict[int, int] = field(default_factory=dict)
    up_thru: Dict[int, int] = field(default_factory=dict)
    lost: Dict[int, int] = field(default_factory=dict)
    pools: Dict[int, Pool] = field(default_factory=dict)
    sizes: Dict[int, Tuple[int, int]] = field(default_factory=dict)
    temp: Dict[Group, Places] = field(default_factory=dict)
    tree: Optional[int] = None


class Changes:
    """The changes of all epochs from one on."""

    def __init__(self, first: int, last: int, notes: Notes):
        if last - first > MOST_EPOCHS:
            raise Unusable(f"{last - first} epochs are more than the {MOST_EPOCHS} of a script; --from EPOCH begins later")
        self.first, self.last, self.notes = first, last, notes
        self.by_epoch: Dict[int, Change] = {}
        self.guessed: Dict[Tuple[int, int], List[Tuple[int, int]]] = {}  # by gap the up_thru that may have been recorded

    def at(self, epoch: int) -> Change:
        return self.by_epoch.setdefault(epoch, Change())

    # From one map to the next

    def take(self, old: Snapshot, new: Snapshot) -> None:
        if new.epoch > old.epoch + 1:
            self.notes.tell(GAP, ranges(range(old.epoch + 1, new.epoch)))
        for osd in sorted(set(old.devices) | set(new.devices)):
            if old.devices.get(osd) != new.devices.get(osd):
                self.take_device(old.devices.get(osd), new.devices.get(osd), osd, old.epoch, new.epoch)
        for pool in new.pools.values():
            self.take_pool(old.pools.get(pool.id), pool, old.epoch, new)
        for pool in old.pools.values():
            if pool.id not in new.pools:
                self.notes.tell("pools that were deleted, which stay in the script", f"{pool.label()} in epoch {new.epoch}")
        for group in sorted(set(old.temps) | set(new.temps)):
            if old.temps.get(group) != new.temps.get(group) and group[0] in new.pools:
                self.at(new.epoch).temp[group] = new.temps.get(group, [])
        if new.tree != old.tree:
            self.at(new.epoch).tree = new.tree

    def take_device(self, old: Optional[Device], new: Optional[Device], osd: int, since: int, now: int) -> None:
        if new is None:
            self.remove(old, osd, since, now)
            return
        before = old or Device(osd, False, IN)
        boots, falls = since < new.up_from <= now, since < new.down_at <= now
        if new.up and boots:
            if before.up:
                self.at(new.down_at if falls and new.down_at < new.up_from else max(since + 1, new.up_from - 1)).down.add(osd)
            self.at(new.up_from).up.add(osd)
        elif new.up != before.up:
            self.turn(new, since, now, boots, falls)
        elif not new.up and boots and falls:
            self.turn(new, since, now, boots, falls)
        if old is None and new.weight == 0 and not new.up and not boots and now < self.last:
            self.at(now).up.add(osd)  # a device that never booted can't be out in a script, so it boots for an epoch
            self.at(now + 1).down.add(osd)
        if new.weight != (old.weight if old else IN):
            self.at(new.up_from if old is None and boots else now).weight[osd] = new.weight
        if new.lost_at > before.lost_at:
            self.at(min(now, max(since + 1, new.lost_at + 1))).lost[osd] = new.lost_at
        if new.up_thru > before.up_thru:
            self.thru(osd, before.up_thru, new, since, now)

    def turn(self, new: Device, since: int, now: int, boots: bool, falls: bool) -> None:
        """A device that is up or down now and wasn't, or was both in between."""
        if boots or new.up:
            self.at(new.up_from if boots else now).up.add(new.id)
        if not new.up:
            self.at(new.down_at if falls else now).down.add(new.id)

    def remove(self, old: Optional[Device], osd: int, since: int, now: int) -> None:
        if old is not None and old.up and now > since + 1:
            self.at(now - 1).down.add(osd)
        self.at(now).gone.add(osd)

    def thru(self, osd: int, old: int, new: Device, since: int, now: int) -> None:
        """An up_thru, as soon as it may have been recorded; and in a gap those before it, as guesses."""
        self.at(min(now, max(since + 1, new.up_thru + 1))).up_thru[osd] = new.up_thru
        if now > since + 1:
            begin = max(since + 1, old + 1, new.up_from + 1 if new.up_from > since else 0)
            guesses = ((epoch, osd) for epoch in range(begin, min(now, new.up_thru + 1)))
            self.guessed.setdefault((since, now), []).extend(guesses)

    def take_pool(self, old: Optional[Pool], new: Pool, since: int, snapshot: Snapshot) -> None:
        changed = snapshot.changed.get(new.id, 0)
        epoch = changed if since < changed <= snapshot.epoch else snapshot.epoch
        if old is None:
            self.at(snapshot.epoch).pools[new.id] = new
            return
        if (old.size, old.min_size) != (new.size, new.min_size):
            self.at(epoch).sizes[new.id] = new.size, new.min_size
        if old.pg_num != new.pg_num:
            told = f"{new.label()} from {old.pg_num} to {new.pg_num} in epoch {epoch}"
            self.notes.tell("groups that were split or merged, and pg_num stays", told)
        if old.rule != new.rule:
            self.notes.tell("pools that got another rule, and keep the first one's failure domain", f"{new.label()} in epoch {epoch}")

    # What maps don't say

    def guess(self, is_told: Callable[[int, int], bool]) -> None:
        """Takes up_thru for recorded in gaps of which no group tells."""
        for (since, now), guesses in self.guessed.items():
            if guesses and not is_told(since, now):
                cause = "up_thru of epochs without a map, taken for recorded where it may have been (ceph pg PG query tells)"
                self.notes.tell(cause, ranges({epoch for epoch, _ in guesses}))
                for epoch, osd in guesses:
                    thru = self.at(epoch).up_thru
                    thru[osd] = max(thru.get(osd, 0), epoch - 1)

    def wrote(self, osds: List[int], first: int, last: int, known: Set[int]) -> None:
        """Has the map of an epoch of an interval know that these devices were up in it, where no map is known."""
        epoch = next((it for it in range(min(first + 1, last), last + 1) if it not in known and it > self.first), None)
        if epoch is None:
            return
        for osd in osds:
            thru = self.at(epoch).up_thru
            thru[osd] = max(thru.get(osd, 0), first)


def state_before(device: Device, epoch: int) -> Device:
    """The device as it was in an earlier epoch, as far as its map tells: up_from and down_at are the last of their kind."""
    up = device.up_from <= epoch if device.up else device.up_from <= epoch < device.down_at
    if device.up and not up:
        up = device.down_at > epoch  # it had booted before too, and went down later
    thru = device.up_thru if device.up_thru < epoch else 0
    return device._replace(up=up, up_thru=thru, lost_at=device.lost_at if device.lost_at < epoch else 0)


def earlier(snapshot: Snapshot, epoch: int) -> Snapshot:
    """The map of an earlier epoch, filled in: pools, weights and tree as they are later."""
    devices = {osd: state_before(device, epoch) for osd, device in snapshot.devices.items()}
    return snapshot._replace(epoch=epoch, devices=devices)


class Lawful:
    """Leaves out of incrementals what the program would refuse, and tells it."""

    def __init__(self, up: Set[int], down: Set[int], thru: Dict[int, int], pools: Dict[int, Pool], notes: Notes):
        self.up, self.known, self.thru, self.pools, self.notes = set(up), up | down, dict(thru), dict(pools), notes
        self.waiting: Dict[int, int] = {}  # weights of devices that the script doesn't have yet

    def parts(self, change: Change, epoch: int, ceph_epoch: int, in_script: Callable[[int], int]) -> Line:
        """The parts of the incremental except pools and tree; it leads to `epoch` in the script."""
        found: Line = dict(zip(("up", "down", "gone"), self.turned(change)))
        exists = self.known | set(found["gone"])
        self.waiting.update(change.weight)
        found["weight"] = [[osd, self.waiting.pop(osd)] for osd in sorted(self.waiting) if osd in exists]
        found["up_thru"] = self.thrus(change, epoch, in_script)
        found["lost"] = [[osd, in_script(at)] for osd, at in sorted(change.lost.items())
                         if osd in exists - self.up and 0 < in_script(at) <= epoch]
        self.pools.update(change.pools)
        found["sizes"] = [[pool, *sizes] for pool, sizes in sorted(change.sizes.items()) if self.has_size(pool, sizes[0], ceph_epoch)]
        found["temp"] = [[*group, places] for group, places in sorted(change.temp.items())
                         if group[0] in self.pools and group[1] < self.pools[group[0]].pg_num]
        return found

    def turned(self, change: Change) -> Tuple[List[int], List[int], List[int]]:
        """The devices that boot, go down and are destroyed."""
        both = change.up & change.down
        boots = sorted(osd for osd in change.up - both - self.up if 0 <= osd < MOST_DEVICES)
        falls = sorted((change.down - both) & self.up)
        gone = sorted(osd for osd in change.gone & self.known - self.up if osd not in boots)
        self.up = (self.up | set(boots)) - set(falls)
        self.known = (self.known | set(boots)) - set(gone)
        return boots, falls, gone

    def thrus(self, change: Change, epoch: int, in_script: Callable[[int], int]) -> List[List[int]]:
        found = []
        for osd, ceph_thru in sorted(change.up_thru.items()):
            thru = min(in_script(ceph_thru), epoch)
            if osd in self.known and thru > self.thru.get(osd, 0):
                self.thru[osd] = thru
                found.append([osd, thru])
        return found

    def has_size(self, pool: int, size: int, ceph_epoch: int) -> bool:
        known = self.pools.get(pool)
        if known is None or known.k is not None and known.size != size:
            self.notes.tell("sizes of pools that can't change", f"pool {pool} in epoch {ceph_epoch}")
            return False
        return True
