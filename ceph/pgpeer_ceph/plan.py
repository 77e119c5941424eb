"""The verb `plan`: which devices to start, in which order, what each frees, and what stays."""

import argparse
import collections
import concurrent.futures
import itertools
import os
from typing import Any, Dict, Iterable, Iterator, List, Tuple

from .buckets import hosts_of
from .cluster import SERVES, Cluster
from .folder_told import caveats_named, printable, table
from .maps import Group, group_text
from .nodes import compact
from .output import write
from .program import option_of_program
from .reasons import Reasons
from .rules import word_of
from .starts import Need, Plan, Start, need_of, plan_of
from .steps import Pool, View
from .waits import last_members, waits_for, waits_for_backfill

MOST_GROUPS = 8  # that a step names
MOST_STAYING = 200
MOST_WAYS = 16  # that are listed of one group
ABOUT = """\
Tells from a FOLDER that fetch filled which devices to start so that groups are no longer Down, without a primary, or Short where
devices that served them last are down: a small set, each step the one that frees most, and its size beside a number below which no
set can be. No step declares a device lost. Then it tells which groups stay as they are, and what each waits for. A group that is
freed hears its members first, and may wait for backfill before it is active. Nothing is started: the steps are for you to take,
`systemctl start ceph-osd@ID` on the host that is named, or under cephadm `ceph orch daemon start osd.ID`.

Status 0: the plan was written. Status 2: the command line or the input is wrong.
"""


class Planned:
    """A cluster, the groups that don't serve, and what to start for them."""

    def __init__(self, cluster: Cluster, with_losses: bool = False):
        self.cluster, carried = cluster, cluster.carried()
        self.with_losses = with_losses
        self.why: Dict[Group, Reasons] = {}  # of those that were asked for
        self.left_out = [group for group in cluster.groups if group not in carried]
        self.views = {group: view for group, view in cluster.all_views().items() if view["verdict"] not in SERVES}
        self.needs = self.needs_of([group for group, view in self.views.items() if view["verdict"] in ("Down", "NoPrimary", "Short")])
        self.plan: Plan = plan_of(self.needs)
        self.then = self.views_then()

    def needs_of(self, groups: List[Group]) -> Dict[Group, Need]:
        """What each group needs, where a start helps; groups whose intervals are alike are asked once."""
        alike: Dict[Any, List[Group]] = {}
        for group in groups:
            alike.setdefault(self.likeness(group), []).append(group)
        with concurrent.futures.ThreadPoolExecutor(os.cpu_count() or 1) as pool:
            found = list(pool.map(self.need, (same[0] for same in alike.values())))
        return {group: need for same, need in zip(alike.values(), found) for group in same if need.sets}

    def likeness(self, group: Group) -> Any:
        """What decides which starts help: verdict, code, acting set, and the intervals that matter with their devices."""
        view, pool = self.views[group], self.cluster.pool(group)
        past = tuple((it["first"], it["last"], tuple(it["acting"])) for it in view["intervals"])
        for_backfill = waits_for_backfill(self.cluster, group, view)
        return view["verdict"], pool._replace(groups=repr(pool.groups)), past, tuple(view["acting"]), for_backfill

    def reasons(self, group: Group) -> Reasons:
        """Why a group doesn't serve, which is asked once."""
        if group not in self.why:
            self.why[group] = self.cluster.reasons(group, self.with_losses)
        return self.why[group]

    def need(self, group: Group) -> Need:
        """What the program names; of a group that nothing blocks, devices that served it last, as many as it lacks."""
        view, cluster = self.views[group], self.cluster
        need = Need(frozenset(), False) if view["verdict"] == "Short" else need_of(self.reasons(group))
        if need.sets or view["verdict"] == "Down" or waits_for_backfill(cluster, group, view):
            return need
        count = lacking(view, cluster.pool(group))
        ways = itertools.combinations(last_members(cluster, view), count)
        listed = [frozenset(osds) for osds in itertools.islice(ways, MOST_WAYS + 1)]
        return Need(frozenset(listed[:MOST_WAYS]), len(listed) > MOST_WAYS)

    def views_then(self) -> Dict[Group, View]:
        """What the program says of the groups once all devices of the plan have booted."""
        osds = sorted(self.plan.osds())
        if not osds:
            return {}
        inc = {"op": "inc", "epoch": self.cluster.parts.epoch() + 1, "up": osds}
        return self.cluster.views(self.needs, lambda *_: [compact(inc)])

    def staying(self) -> List[Group]:
        """The groups that no step frees, by what the program says after all steps."""
        held = {group for group, view in self.then.items() if view["verdict"] == "Down"}
        return [group for group in self.views if group not in self.needs or group in held]


def lacking(view: View, pool: Pool) -> int:
    """How many members a group lacks to serve, or to be led."""
    members = sum(osd is not None for osd in view["acting"])
    return max(1, max(pool.min_size, pool.k or 1) - members) if view["verdict"] == "Short" else 1


def lines_of(planned: Planned) -> Iterator[str]:
    cluster, told = planned.cluster, verdicts_text(planned.views.values()) or "none"
    epoch = cluster.last.key("epoch").count()
    yield f"Groups that don't serve in epoch {epoch}: {len(planned.views):,} of {len(cluster.groups):,} ({told})"
    yield from steps_text(planned)
    yield from staying_text(planned)
    if planned.left_out:
        yield f"not in the script: {len(planned.left_out):,} groups (--pg carries one)"
    yield from caveats_named(cluster.notes)


def steps_text(planned: Planned) -> Iterator[str]:
    plan = planned.plan
    if not plan.steps:
        yield "There is no device to start that frees one."
        return
    yield f"Starting {count_of(len(plan.osds()), 'device')} frees {count_of(len(planned.needs), 'group')}; {bound_text(plan)}"
    yield ""
    yield from table([("step", "start", "host", "down since", "frees", "left", "groups"), *rows_of(planned)])
    yield ""
    yield f"Before they report, the freed are {verdicts_text(planned.then.values())}; then some may wait for backfill."


def verdicts_text(views: Iterable[View]) -> str:
    """How many groups have each verdict."""
    counts = collections.Counter(view["verdict"] for view in views)
    return ", ".join(f"{verdict} {count:,}" for verdict, count in counts.most_common())


def bound_text(plan: Plan) -> str:
    if not plan.is_least_known:
        return f"at least {plan.least} {'are' if plan.least != 1 else 'is'} needed by the groups whose ways are all listed"
    return "no fewer do" if plan.least == len(plan.osds()) else f"at least {plan.least} {'are' if plan.least != 1 else 'is'} needed"


def count_of(count: int, word: str) -> str:
    return f"{count:,} {word}{'' if count == 1 else 's'}"


def rows_of(planned: Planned) -> Iterator[Tuple[str, ...]]:
    hosts, devices, left = hosts_of(planned.cluster), planned.cluster.devices(), len(planned.needs)
    for number, step in enumerate(planned.plan.steps, 1):
        left -= len(step.frees)
        names = ", ".join(f"osd.{osd}" for osd in step.osds)
        on = ", ".join(sorted({hosts.get(osd, "-") for osd in step.osds}))
        since = ", ".join(str(devices.get(osd, {}).get("down_at", "?")) for osd in step.osds)
        yield str(number), names, on, f"epoch {since}", f"{len(step.frees):,}", f"{left:,}", groups_text(step)


def groups_text(step: Start) -> str:
    named = " ".join(group_text(group) for group in step.frees[:MOST_GROUPS])
    return named + (" .." if len(step.frees) > MOST_GROUPS else "")


# What stays


def staying_text(planned: Planned) -> Iterator[str]:
    staying = planned.staying()
    if not staying:
        return
    yield ""
    yield f"No step frees {count_of(len(staying), 'group')}:"
    rows = [staying_row(planned, group) for group in staying[:MOST_STAYING]]
    yield from table([("PG", "here", "Ceph", "waits for"), *rows])
    if len(staying) > MOST_STAYING:
        yield f".. and {len(staying) - MOST_STAYING:,} more"


def staying_row(planned: Planned, group: Group) -> Tuple[str, ...]:
    said, view = planned.cluster.said.get(group), planned.views[group]
    return group_text(group), view["verdict"], word_of(said.state) if said else "unknown", waits_for(planned.cluster, group, view)


# The verb


def run(options: argparse.Namespace) -> int:
    planned = Planned(Cluster(options.folder, options.program))
    write(printable(lines_of(planned)))
    return 0


def add_to(verbs: Any) -> None:
    parser = verbs.add_parser("plan", help="which devices to start, in which order, and what each frees", description=ABOUT,
                              formatter_class=argparse.RawDescriptionHelpFormatter)
    parser.add_argument("folder", metavar="FOLDER", help="what fetch filled")
    option_of_program(parser)
    parser.set_defaults(run=run)
