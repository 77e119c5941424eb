"""What would be of groups if devices stopped: the script with one more incremental, and the reports that members would send."""

import concurrent.futures
import os
from typing import Any, Callable, Dict, Iterable, List, NamedTuple, Set, Tuple

from .cluster import SERVES, Added, Cluster
from .maps import Group
from .nodes import compact
from .parts import Line, Part
from .steps import View

PASSING = (*SERVES, "NeedLog")  # in a cluster the log comes by itself


class Stop(NamedTuple):
    """What would be of the groups that devices touch, once these have stopped."""

    osds: Set[int]
    after: Dict[Group, View]
    ended: List[Group]  # those that served before, and wouldn't


class Stops:
    """A cluster in which devices may stop."""

    def __init__(self, cluster: Cluster):
        self.cluster, self.views = cluster, cluster.all_views()
        self.serving = {group for group, view in self.views.items() if view["verdict"] in SERVES}
        self.members: Dict[int, Set[Group]] = {}  # by device the groups that may change if it stops
        for group, view in self.views.items():
            for osd in members_of(view):
                self.members.setdefault(osd, set()).add(group)

    def touched(self, osds: Iterable[int]) -> List[Group]:
        return sorted({group for osd in osds for group in self.members.get(osd, ())})

    def of(self, osds: Iterable[int]) -> Stop:
        """What would be if these devices stopped now."""
        stopped = self.up_of(osds)
        groups = self.touched(stopped)
        after = self.cluster.views(groups, self.adding([stopped])) if groups and stopped else {}
        return Stop(stopped, after, self.ended(after, self.serving))

    def ended(self, after: Dict[Group, View], serving: Set[Group]) -> List[Group]:
        return [group for group, view in after.items() if group in serving and view["verdict"] not in PASSING]

    def one_more(self, stop: Stop) -> Dict[Group, Dict[int, str]]:
        """The groups that the stop leaves serving and one more device, stopped after it, would end: by device their verdict."""
        serving = {group for group, view in stop.after.items() if group in self.serving and view["verdict"] in PASSING}
        by_device: Dict[int, List[Group]] = {}
        for group in sorted(serving):
            for osd in members_of(stop.after[group]) - stop.osds:
                by_device.setdefault(osd, []).append(group)

        def tried(osd: int) -> Tuple[int, Dict[Group, View]]:
            groups = by_device[osd]
            return osd, self.cluster.views(groups, self.adding([stop.osds, {osd}]))

        found: Dict[Group, Dict[int, str]] = {}
        for osd, after in self.each(tried, sorted(by_device)):
            for group in self.ended(after, serving):
                found.setdefault(group, {})[osd] = after[group]["verdict"]
        return found

    @staticmethod
    def each(act: Callable[[Any], Any], things: Iterable[Any]) -> List[Any]:
        """What comes of each thing, several at a time."""
        with concurrent.futures.ThreadPoolExecutor(os.cpu_count() or 1) as pool:
            return list(pool.map(act, things))

    # Lines

    def up_of(self, osds: Iterable[int]) -> Set[int]:
        return {osd for osd in osds if osd in self.cluster.parts.up}

    def adding(self, stops: List[Set[int]]) -> Added:
        """The lines that stop devices, one set after the other: after each the members that were heard report again, and the
        map records that they are up."""
        def lines(groups: List[Group], part: Part) -> List[str]:
            found, gone, epoch = [], set(), self.cluster.parts.epoch()
            heard = [info for group in groups for info in self.heard(group)]
            for osds in stops:
                gone |= osds
                left = [info for info in heard if info["from"][0] not in gone]
                found.append(compact({"op": "inc", "epoch": epoch + 1, "down": sorted(osds)}))
                found += [part.named({**info, "stamp": epoch + 1}) for info in left]
                epoch += 2
                thru = [[osd, epoch] for osd in sorted({info["from"][0] for info in left})]
                found.append(compact({"op": "inc", "epoch": epoch, **({"up_thru": thru} if thru else {})}))
            return found
        return lines

    def heard(self, group: Group) -> List[Line]:
        """The infos of a group of the script that count."""
        view = self.views[self.cluster.numbers.in_ceph(group)]
        return list(self.cluster.parts.heard(group, view["first"]).values())


def members_of(view: View) -> Set[int]:
    """The devices whose stop may change a group."""
    return {osd for osd in (*view["acting"], *view["up"], *(osd for osd, _ in view["probe"])) if osd is not None}
