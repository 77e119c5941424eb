"""A script's lines by the groups that they concern, so that some groups are asked without the lines of the others."""

from typing import Any, Dict, Iterable, Iterator, List, NamedTuple, Optional, Set, Tuple

from .maps import Group
from .nodes import compact
from .steps import Member, Pool, View, pool_of

Line = Dict[str, Any]

OF_DEVICES = ("up", "down", "gone")  # keys of an incremental whose items are devices
BY_DEVICE = ("weight", "up_thru", "lost")  # those whose items begin with one


class Front(NamedTuple):
    """An incremental without its pg_temp lists, and what follows it of each group."""

    inc: Line
    text: str
    temps: Dict[Group, Any]
    reports: Dict[Group, List[Line]]
    named: Dict[str, Dict[int, Any]]  # by key the devices of the incremental, with its items
    devices: Set[int]
    rest: str  # the text without devices

    def of(self, osds: Iterable[int]) -> Line:
        """The incremental without other devices."""
        kept = {key: [items[osd] for osd in osds if osd in items] for key, items in self.named.items()}
        return {key: kept.get(key, value) for key, value in self.inc.items() if kept.get(key, value)}


class Parts:
    """The lines of a script, by group."""

    def __init__(self, lines: Iterable[Line]):
        self.fronts: List[Front] = []
        self.made: Dict[int, Line] = {}  # the pools
        self.sizes: Dict[int, Tuple[int, int]] = {}
        self.up: Dict[int, int] = {}  # the devices that are up, with the epochs in which they booted
        self.known: Set[int] = set()  # the devices that exist
        self.has_tree = False
        self.infos: Dict[Group, Dict[Member, Line]] = {}  # the last of each member
        for line in lines:
            if line["op"] == "inc":
                self.take(line)
            elif "pg" in line and line["op"] != "ask":
                self.take_report(line, (line["pg"][0], line["pg"][1]))

    def take(self, line: Line) -> None:
        inc = {key: value for key, value in line.items() if key != "temp"}
        temps = {(entry[0], entry[1]): entry for entry in line.get("temp", ())}
        named = {key: {osd: osd for osd in inc[key]} for key in OF_DEVICES if key in inc}
        named.update({key: {item[0]: item for item in inc[key]} for key in BY_DEVICE if key in inc})
        devices = {osd for items in named.values() for osd in items}
        rest = {key: value for key, value in inc.items() if key not in named}
        self.fronts.append(Front(inc, compact(inc), temps, {}, named, devices, compact(rest)))
        self.has_tree = self.has_tree or bool(line.get("crush"))
        for pool in line.get("pools", ()):
            self.made[pool["id"]] = pool
        for pool, size, min_size in line.get("sizes", ()):
            self.sizes[pool] = size, min_size
        for osd in (*line.get("down", ()), *line.get("gone", ())):
            self.up.pop(osd, None)
        self.up.update((osd, line["epoch"]) for osd in line.get("up", ()))
        self.known = (self.known | set(line.get("up", ()))) - set(line.get("gone", ()))

    def take_report(self, line: Line, group: Group) -> None:
        self.fronts[-1].reports.setdefault(group, []).append(line)
        infos, member = self.infos.setdefault(group, {}), (line["from"][0], line["from"][1])
        if line["op"] == "info" and line["stamp"] >= infos.get(member, line)["stamp"]:
            infos[member] = line

    def is_down(self, osd: int) -> bool:
        """Tells whether a device is down and may come back."""
        return osd in self.known and osd not in self.up

    def epoch(self) -> int:
        """The script's last epoch."""
        return int(self.fronts[-1].inc["epoch"])

    def counts(self) -> Dict[int, int]:
        """The pools, and how many groups they have."""
        return {pool: made["pg_num"] for pool, made in self.made.items()}

    def pool(self, group: Group) -> Pool:
        made = pool_of(self.made[group[0]])
        size, min_size = self.sizes.get(group[0], (made.size, made.min_size))
        return made._replace(size=size, min_size=min_size)

    # Lines

    def whole(self) -> Iterator[str]:
        """All lines."""
        for front in self.fronts:
            yield front.text[:-1] + f',"temp":{compact(list(front.temps.values()))}}}' if front.temps else front.text
            for reports in front.reports.values():
                yield from map(compact, reports)

    def of(self, groups: Iterable[Group]) -> "Part":
        """The script of some groups."""
        return Part(self, list(groups))

    def alone(self, group: Group) -> "Part":
        """The script of one group; where no tree places it without the devices that are never in its lists, which are most."""
        return Part(self, [group], None if self.has_tree else self.devices_of(group))

    def devices_of(self, group: Group) -> List[int]:
        """The devices that the lists and reports of a group name."""
        listed = {osd for front in self.fronts if group in front.temps for osd in front.temps[group][2] if osd is not None}
        return sorted(listed | {line["from"][0] for front in self.fronts for line in front.reports.get(group, ())})

    def lines(self, groups: Iterable[Group]) -> Iterator[Line]:
        """The lines that concern some groups, as values."""
        wanted = list(groups)
        for front in self.fronts:
            yield {**front.inc, "temp": [front.temps[group] for group in wanted if group in front.temps]}
            for group in wanted:
                yield from front.reports.get(group, ())

    # Reports

    def heard(self, group: Group, first: int) -> Dict[Member, Line]:
        """The infos that count: not older than the current interval, nor than the last boot of their device."""
        return {member: info for member, info in self.infos.get(group, {}).items()
                if info["stamp"] >= max(first, self.up.get(member[0], info["stamp"] + 1))}

    def unheard(self, group: Group, view: View) -> List[Member]:
        """The members that have to be heard and weren't."""
        heard = self.heard(group, view["first"])
        return [(osd, slot) for osd, slot in view["probe"] if (osd, slot) not in heard]


class Part:
    """The script of some groups. Without a tree a group's number plays no part, and then they have others here, so that the
    program doesn't follow groups that nobody asks for."""

    def __init__(self, parts: Parts, groups: List[Group], osds: Optional[List[int]] = None):
        self.osds = osds  # those that the script has, None for all
        self.names = {group: group for group in groups}
        pools = {pool for pool, _ in groups}
        self.counts = {pool: parts.made[pool]["pg_num"] for pool in pools}
        if not parts.has_tree:
            self.counts = dict.fromkeys(pools, 0)
            for group in groups:
                self.names[group] = group[0], self.counts[group[0]]
                self.counts[group[0]] += 1
        self.lines = [line for front in parts.fronts for line in (self.lines_of(front) if self.is_touched(front) else (front.rest,))]

    def is_touched(self, front: Front) -> bool:
        """Tells whether a front says more than its epoch of the groups."""
        if self.osds is None or "pools" in front.inc or "sizes" in front.inc:
            return True
        names = self.names.keys()
        return not (front.devices.isdisjoint(self.osds) and names.isdisjoint(front.temps.keys()) and names.isdisjoint(front.reports.keys()))

    def lines_of(self, front: Front) -> Iterator[str]:
        """The lines of a front, as far as they concern the groups."""
        temps = [[*self.names[group], front.temps[group][2]] for group in sorted(self.names.keys() & front.temps.keys())]
        inc = front.inc if self.osds is None else front.of(self.osds)
        if "pools" in inc or "sizes" in inc:
            made = [{**pool, "pg_num": self.counts[pool["id"]]} for pool in inc.get("pools", ()) if pool["id"] in self.counts]
            sizes = [size for size in inc.get("sizes", ()) if size[0] in self.counts]
            inc = {key: value for key, value in {**inc, "pools": made, "sizes": sizes}.items() if value or key == "after"}
        text = front.text if inc is front.inc else compact(inc)
        yield text[:-1] + f',"temp":{compact(temps)}}}' if temps else text
        for group in sorted(self.names.keys() & front.reports.keys()):
            for line in front.reports[group]:
                yield self.named(line)

    def named(self, line: Line) -> str:
        """A report of a group, under its number here."""
        return compact({**line, "pg": list(self.names[tuple(line["pg"])])})
