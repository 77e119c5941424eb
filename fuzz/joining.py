"""Which incrementals of a log can be joined, and the log that is left then, by the model alone.

The epochs of the incrementals are cut into blocks, and each block becomes one incremental: at the first epoch of the block, its
start, from which it leads to the map of the last. That passes over the other epochs. An epoch has to be a start where a view may
still ask for it. Reports stay as they are, and in their order.
"""

import itertools
from typing import Any, Dict, FrozenSet, Iterable, Iterator, List, Optional, Set, Tuple

import compact
import grammar
import model
import peering
from maps import Group, Maps
from placement import FULL

Line = Dict[str, Any]
Block = List[int]  # the epochs of incrementals that become one
REASONS = ("current", "past", "boots", "lost", "deaths", "gone")


# Which epochs have to be starts


def groups_of(maps: Maps) -> Iterator[Group]:
    return ((pool, pg) for pool, made in maps.made.items() for pg in range(made["pg_num"]))


def blocks_of(epochs: List[int], starts: Set[int]) -> List[Block]:
    """The epochs in blocks. The first and the last epoch are starts in any case."""
    blocks: List[Block] = []
    for epoch in epochs:
        if epoch in starts or epoch in (epochs[0], epochs[-1]):
            blocks.append([])
        blocks[-1].append(epoch)
    return blocks


def opened(log: model.Model, left_out: FrozenSet[str] = frozenset()) -> Set[int]:
    """The first epochs of the current intervals, and of the past ones that didn't end before the group last began to serve."""
    found = set()
    for group in groups_of(log.maps):
        les = log.view(group)["les"]
        *past, now = peering.intervals(log.maps.code(group[0]), log.histories[group])
        found |= {it.first for it in past if it.last >= les and "past" not in left_out}
        found |= {now.first} - ({now.first} if "current" in left_out else set())
    return found


def boots(maps: Maps, opened: Set[int]) -> Dict[int, int]:
    """The last boots of devices that are up, as far as a report may have been sent before the boot and in a current interval."""
    least = min(opened, default=maps.epoch)
    last = {osd: maps.up_from(osd, maps.epoch) for osd in maps.boots.epochs if maps.is_up(osd, maps.epoch)}
    return {osd: epoch for osd, epoch in last.items() if epoch > least}


def before(maps: Maps, epoch: int) -> int:
    """The epoch of the incremental before that of an epoch."""
    return maps.epochs[maps.epochs.index(epoch) - 1]


def outlived(maps: Maps, booted: Dict[int, int], starts: Set[int]) -> Set[int]:
    """The epochs before boots of devices that had been given up for lost, at an epoch within the block before the boot."""
    found = set()
    for osd, boot in booted.items():
        lost, last = maps.lost_at(osd), before(maps, boot)
        if lost > max(it for it in {*starts, maps.epochs[0]} if it <= last):
            found.add(last)
    return found


def deaths(maps: Maps, blocks: List[Block]) -> Set[int]:
    """The epochs in which devices fell first that weren't up at the end of the block of their first boot."""
    found = set()
    for osd, epochs in maps.states.epochs.items():
        end = next(block[-1] for block in blocks if block[-1] >= epochs[0])
        if not maps.is_up(osd, end):
            found.add(epochs[maps.states.values[osd].index("down")])
    return found


def reported_by_destroyed(maps: Maps, reports: List[Line]) -> int:
    """How many reports stand up to the last one of a device that is destroyed by now."""
    return max((at for at, it in enumerate(reports, 1) if not maps.exists(it["from"][0], maps.epoch)), default=0)


def starts_of(log: model.Model, entries: List[Line], left_out: Iterable[str] = ()) -> Set[int]:
    """The epochs that have to be starts. Where a reason is left out, those of it aren't."""
    maps, out = log.maps, frozenset(left_out)
    if not maps.epochs:
        return set()
    starts = opened(log, out)
    booted = boots(maps, opened(log))
    starts |= set(booted.values()) if "boots" not in out else set()
    starts |= outlived(maps, booted, starts) if "lost" not in out else set()
    more = deaths(maps, blocks_of(maps.epochs, starts))
    while "deaths" not in out and not more <= starts:
        starts |= more
        more = deaths(maps, blocks_of(maps.epochs, starts))
    reports = [it for it in entries if it["op"] in ("info", "entries")]
    early = reports[: reported_by_destroyed(maps, reports)]
    blocks = blocks_of(maps.epochs, starts)
    if "gone" not in out and len(blocks) > 1 and any(it["stamp"] > blocks[-2][0] for it in early):
        starts.add(before(maps, maps.epoch))
    return starts | {maps.epochs[0], maps.epoch}


def most_starts(log: model.Model) -> int:
    """How many starts are enough: the first epochs of intervals that may matter, three for each device, the first and the last."""
    return len(opened(log)) + 3 * len(log.maps.states.epochs) + 3


# The incremental of a block


class Joined:
    """The log that is left, as far as it was made, beside the maps of the whole one."""

    def __init__(self, whole: Maps, trees: Dict[int, List[Line]]):
        self.whole, self.trees = whole, trees  # the trees by the epochs that gave them
        self.log = model.Model(3)
        self.lines: List[Line] = []

    def put(self, line: Line) -> bool:
        """Takes a line; whether it was accepted."""
        self.lines.append(line)
        answer = self.log.answer(grammar.compact(line))
        return answer is not None and not answer.code

    def incremental(self, block: Block) -> Line:
        """The incremental that leads from the map so far to that of the end of the block."""
        start, end, last = block[0], block[-1], self.whole.epoch
        inc: Line = {"op": "inc", "v": 3, "after": self.log.maps.epoch, "epoch": start}
        inc.update(self.devices(end, end == last))
        known = [osd for osd in sorted(self.whole.states.epochs) if self.log.maps.exists(osd, last) or osd in inc["up"]]
        inc["weight"] = [list(it) for it in self.weights(known, end)]
        inc["up_thru"] = [list(it) for it in self.up_thrus(known, start, end)]
        inc["lost"] = [list(it) for it in self.losses(known, start, end)]
        inc.update(self.pools(end))
        inc["temp"] = [[*group, list(places)] for group, places in self.temps(end)]
        found = {key: value for key, value in inc.items() if value != []}
        tree = self.whole.trees.when(None, end)
        return {**found, "crush": self.trees[tree]} if tree >= start else found

    def devices(self, end: int, is_last: bool) -> Dict[str, List[int]]:
        """Devices that boot, fall, and are destroyed: that is put off to the last incremental."""
        found: Dict[str, List[int]] = {"up": [], "down": [], "gone": []}
        mine = self.log.maps
        for osd in sorted(self.whole.states.epochs):
            is_up, was_up = self.whole.is_up(osd, end), mine.is_up(osd, mine.epoch)
            if is_up != was_up:
                found["up" if is_up else "down"].append(osd)
            elif is_last and not self.whole.exists(osd, end) and mine.exists(osd, mine.epoch):
                found["gone"].append(osd)
        return found

    def weights(self, known: List[int], end: int) -> Iterator[Tuple[int, int]]:
        for osd in known:
            now = self.whole.weights.last(osd, end, FULL)
            if now != self.log.maps.weights.last(osd, end, FULL):
                yield osd, now

    def up_thrus(self, known: List[int], start: int, end: int) -> Iterator[Tuple[int, int]]:
        """No later than the start, which compares with the first epochs of intervals alike."""
        for osd in known:
            now = min(self.whole.up_thru(osd, end), start)
            if now != self.log.maps.up_thru(osd, end):
                yield osd, now

    def losses(self, known: List[int], start: int, end: int) -> Iterator[Tuple[int, int]]:
        """Of devices that aren't up; one that is ahead of the start has to wait for the next block."""
        for osd in known:
            lost = self.whole.losts.last(osd, end, 0)
            if lost <= start and lost != self.log.maps.losts.last(osd, end, 0) and not self.whole.is_up(osd, end):
                yield osd, lost

    def pools(self, end: int) -> Dict[str, List[Any]]:
        """Pools that are made, of the sizes of the end, and new sizes of the others."""
        found: Dict[str, List[Any]] = {"pools": [], "sizes": []}
        for pool, made in self.whole.made.items():
            if self.whole.made_at[pool] > end:
                continue
            size, min_size = self.whole.sizes.last(pool, end, None)
            if pool not in self.log.maps.made:
                found["pools"].append({**made, "size": size, "min_size": min_size})
            elif self.log.maps.sizes.last(pool, end, None) != (size, min_size):
                found["sizes"].append([pool, size, min_size])
        return found

    def temps(self, end: int) -> Iterator[Tuple[Group, Any]]:
        for group in sorted(self.whole.temps.epochs):
            now = self.whole.temps.last(group, end, [])
            if now != self.log.maps.temps.last(group, end, []):
                yield group, now


# The log


def joined(entries: List[Line], left_out: Iterable[str] = ()) -> Optional[List[Line]]:
    """The entries of a legal log with its incrementals joined; None where the log that is made isn't legal. Incrementals before
    the first that are joined stay as they are."""
    log = model.Model(3)
    for it in entries:
        log.submit(it)
    incs = {it["epoch"]: it for it in entries if it["op"] == "inc"}
    reports = [it for it in entries if it["op"] in ("info", "entries")]
    blocks = blocks_of(log.maps.epochs, starts_of(log, entries, left_out))
    if len(blocks) == len(incs):
        return entries
    made = Joined(log.maps, {epoch: it["crush"] for epoch, it in incs.items() if "crush" in it})
    same = len(list(itertools.takewhile(lambda block: len(block) == 1 and "gone" not in incs[block[0]], blocks[:-1])))
    early = reported_by_destroyed(log.maps, reports)
    is_legal = all(made.put(incs[epoch]) for epoch, in blocks[:same])
    is_legal = is_legal and all(made.put(made.incremental(block)) for block in blocks[same:-1])
    is_legal = is_legal and all(map(made.put, reports[:early])) and made.put(made.incremental(blocks[-1]))
    ends = [it for it in entries if it["op"] == "close"]
    return made.lines if is_legal and all(map(made.put, [*reports[early:], *ends])) else None


def by_model(text: bytes, left_out: Iterable[str] = ()) -> Tuple[bytes, bytes]:
    """What `compact --join` may write of a script, and what it says on standard error then."""
    taken, refused = compact.taken_of(text, 3)
    kept = taken.kept()
    entries = [taken.entries[at] for at in kept]
    lines = {id(entry): taken.lines[at] for entry, at in zip(entries, kept)}
    found = [lines.get(id(it)) or grammar.compact(it) for it in joined(entries, left_out) or entries]
    return compact.text_of(found), compact.message(len(taken.lines), len(found), refused)
