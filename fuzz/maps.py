"""The map that a list of incrementals says, by docs/RULES.md ("Maps", "Where a group lies").

Each fact is kept as the list of all that was said of it, with its epochs; the fact of an epoch is the last up to it.
"""

import bisect
import itertools
from typing import Any, Dict, List, NamedTuple, Optional, Tuple

import placement
from codes import Code, are_faulty, code_of

Place = Optional[int]
Group = Tuple[int, int]
Incremental = Dict[str, Any]

MOST_GROUPS, MOST_PLACES = 16_384, 16
NAMES = {
    10: "EpochGap", 11: "Twice", 12: "UnknownDevice", 13: "AlreadyUp", 14: "AlreadyDown", 15: "StillUp", 16: "UpThruBack",
    17: "Ahead", 18: "BadPool", 19: "PoolKnown", 20: "BadTemp", 21: "TreeFault",
}


class Membership(NamedTuple):
    """On which devices a group lies at an epoch, and of what size its pool is."""

    up: Tuple[Place, ...]
    up_primary: Place
    acting: Tuple[Place, ...]
    acting_primary: Place
    size: int
    min_size: int


def primary_of(places: Any) -> Place:
    return next((it for it in places if it is not None), None)


def repeats(items: List[Any]) -> bool:
    return len(set(items)) != len(items)


class Said:
    """What was said of each thing of one kind: values with their epochs, in order."""

    def __init__(self) -> None:
        self.epochs: Dict[Any, List[int]] = {}
        self.values: Dict[Any, List[Any]] = {}

    def say(self, thing: Any, epoch: int, value: Any) -> None:
        self.epochs.setdefault(thing, []).append(epoch)
        self.values.setdefault(thing, []).append(value)

    def last(self, thing: Any, epoch: int, otherwise: Any) -> Any:
        """What was said last up to the epoch."""
        count = bisect.bisect_right(self.epochs.get(thing, ()), epoch)
        return self.values[thing][count - 1] if count else otherwise

    def when(self, thing: Any, epoch: int) -> int:
        """The epoch up to this one in which something was said last, else 0."""
        count = bisect.bisect_right(self.epochs.get(thing, ()), epoch)
        return self.epochs[thing][count - 1] if count else 0


class Maps:
    """The maps of all epochs up to the last. An epoch that was passed over has the map before it."""

    def __init__(self) -> None:
        self.epoch = 0
        self.epochs: List[int] = []  # of the incrementals
        self.made: Dict[int, Dict[str, Any]] = {}  # pools by number
        self.made_at: Dict[int, int] = {}
        self.codes: Dict[int, Code] = {}
        self.states, self.boots = Said(), Said()  # of a device; a state is "up", "down" or "gone"
        self.weights, self.up_thrus, self.losts = Said(), Said(), Said()
        self.sizes, self.temps, self.trees, self.weighings = Said(), Said(), Said(), Said()
        self.placements: Dict[Any, List[Place]] = {}
        self.memberships: Dict[Any, Membership] = {}

    def epochs_from(self, epoch: int) -> List[int]:
        """The epochs of the incrementals from this one on."""
        return self.epochs[bisect.bisect_left(self.epochs, epoch) :]

    # Facts of an epoch

    def exists(self, osd: int, epoch: int) -> bool:
        return self.states.last(osd, epoch, "gone") != "gone"

    def is_up(self, osd: int, epoch: int) -> bool:
        return self.states.last(osd, epoch, "gone") == "up"

    def up_from(self, osd: int, epoch: int) -> int:
        return self.boots.when(osd, epoch)

    def up_thru(self, osd: int, epoch: int) -> int:
        return self.up_thrus.last(osd, epoch, 0)

    def has(self, group: Group) -> bool:
        return group[0] in self.made and group[1] < self.made[group[0]]["pg_num"]

    def code(self, pool: int) -> Code:
        return self.codes[pool]

    def status(self, osd: int, first: int) -> str:
        """What became of a device of an interval that began in the epoch `first`."""
        if self.is_up(osd, self.epoch):
            return "Up"
        if not self.exists(osd, self.epoch):
            return "Gone"
        return "Lost" if self.lost_at(osd) > first else "Down"

    def lost_at(self, osd: int) -> int:
        return self.losts.last(osd, self.epoch, 0)

    # Where a group lies

    def placement(self, group: Group, size: int, epoch: int) -> List[Place]:
        """The placement of a group that is there. It is kept: it hangs on the tree, the weights and the size alone."""
        key = group, size, self.trees.when(None, epoch), self.weighings.when(None, epoch)
        if key not in self.placements:
            tree = self.trees.last(None, epoch, None)
            weight = lambda osd: self.weights.last(osd, epoch, placement.FULL)  # noqa: E731
            self.placements[key] = placement.placed(tree, self.made[group[0]], size, weight, group[1])
        return self.placements[key]

    def filtered(self, pool: int, places: List[Place], epoch: int) -> Tuple[Place, ...]:
        """The list without the devices that aren't up; where a place is a slot their places are emptied."""
        up = tuple(osd if osd is not None and self.is_up(osd, epoch) else None for osd in places)
        return tuple(osd for osd in up if osd is not None) if self.code(pool) is None else up

    def membership(self, group: Group, epoch: int) -> Membership:
        """The membership of a group in an epoch in which its pool is there. It is kept, as no later line changes it."""
        if (group, epoch) not in self.memberships:
            size, min_size = self.sizes.last(group[0], epoch, None)
            up = self.filtered(group[0], self.placement(group, size, epoch), epoch)
            acting = self.filtered(group[0], self.temps.last(group, epoch, []), epoch) or up
            found = Membership(up, primary_of(up), acting, primary_of(acting), size, min_size)
            self.memberships[group, epoch] = found
        return self.memberships[group, epoch]

    # The next incremental

    def refusal(self, inc: Incremental) -> Optional[Tuple[int, Optional[int]]]:
        """The number of the first reason to refuse the incremental, with the fault of its tree."""
        number = next((number for number, holds in self.reasons(inc) if holds), None)
        if number is not None:
            return number, None
        fault = placement.tree_fault(placement.buckets_of(inc["crush"])) if "crush" in inc else None
        return None if fault is None else (21, fault)

    def reasons(self, inc: Incremental) -> Any:
        """Says of each reason but the tree's, in order, whether it holds."""
        now, epoch = self.epoch, inc["epoch"]
        up, down, gone = (inc.get(key, []) for key in ("up", "down", "gone"))
        weight, up_thru, lost = (inc.get(key, []) for key in ("weight", "up_thru", "lost"))
        named = [*down, *gone, *(osd for osd, _ in itertools.chain(weight, up_thru, lost))]
        yield 10, inc.get("after", max(0, epoch - 1)) != now or epoch <= now
        yield 11, self.names_twice(inc, up + down + gone, (weight, up_thru, lost))
        yield 12, any(not self.exists(osd, now) and osd not in up for osd in named)
        yield 13, any(self.is_up(osd, now) for osd in up)
        yield 14, any(not self.is_up(osd, now) for osd in down)
        is_up_then = {osd: osd in up or (self.is_up(osd, now) and osd not in down + gone) for osd, _ in lost}
        yield 15, any(self.is_up(osd, now) for osd in gone) or any(is_up_then.values())
        yield 16, any(value < self.up_thru(osd, now) for osd, value in up_thru)
        yield 17, any(value > epoch for _, value in up_thru + lost)
        yield 18, self.has_bad_pool(inc.get("pools", []), inc.get("sizes", []))
        yield 19, any(pool["id"] in self.made for pool in inc.get("pools", []))
        yield 20, any(self.is_bad_temp(inc, *temp) for temp in inc.get("temp", []))

    def names_twice(self, inc: Incremental, booted_or_not: List[int], told: Any) -> bool:
        pools = [pool["id"] for pool in inc.get("pools", [])] + [pool for pool, _, _ in inc.get("sizes", [])]
        groups = [(pool, pg) for pool, pg, _ in inc.get("temp", [])]
        return any(map(repeats, (booted_or_not, pools, groups, *([osd for osd, _ in pairs] for pairs in told))))

    def has_bad_pool(self, pools: List[Dict[str, Any]], sizes: List[List[int]]) -> bool:
        for pool in pools:
            size = pool["size"]
            if not (1 <= pool["pg_num"] <= 1024 and 1 <= size <= 16):
                return True
            if not (1 <= pool.get("k", 1) <= size and 1 <= pool["min_size"] <= size):
                return True
            if pool["kind"] == "grouped" and are_faulty(pool["groups"], size):
                return True
        if sum(pool["pg_num"] for pool in [*self.made.values(), *pools]) > MOST_GROUPS:
            return True
        for pool, size, min_size in sizes:
            if pool not in self.made or not (1 <= size <= 16 and 1 <= min_size <= size):
                return True
            if self.code(pool) is not None and size != self.made[pool]["size"]:
                return True
        return False

    def is_bad_temp(self, inc: Incremental, pool: int, pg: int, places: List[Place]) -> bool:
        made = {**self.made, **{it["id"]: it for it in inc.get("pools", [])}}
        if pool not in made or pg >= made[pool]["pg_num"]:
            return True
        if len(places) > MOST_PLACES or repeats([osd for osd in places if osd is not None]):
            return True
        if made[pool]["kind"] == "replicated":
            return None in places
        return bool(places) and len(places) != made[pool]["size"]

    def take(self, inc: Incremental) -> None:
        """Takes an incremental that isn't refused."""
        self.epoch = epoch = inc["epoch"]
        self.epochs.append(epoch)
        for key in ("up", "down", "gone"):
            for osd in inc.get(key, []):
                self.states.say(osd, epoch, key)
        for osd in inc.get("up", []):
            self.boots.say(osd, epoch, None)
        for said, key in ((self.weights, "weight"), (self.up_thrus, "up_thru"), (self.losts, "lost")):
            for osd, value in inc.get(key, []):
                said.say(osd, epoch, value)
        for pool in inc.get("pools", []):
            self.made[pool["id"]], self.made_at[pool["id"]] = pool, epoch
            self.codes[pool["id"]] = code_of(pool)
            self.sizes.say(pool["id"], epoch, (pool["size"], pool["min_size"]))
        for pool_id, size, min_size in inc.get("sizes", []):
            self.sizes.say(pool_id, epoch, (size, min_size))
        for pool_id, pg, places in inc.get("temp", []):
            self.temps.say((pool_id, pg), epoch, places)
        if "crush" in inc:
            self.trees.say(None, epoch, placement.tree_of(placement.buckets_of(inc["crush"])))
        if inc.get("weight"):
            self.weighings.say(None, epoch, None)
