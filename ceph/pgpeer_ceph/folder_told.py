"""What a folder says of a cluster's groups: a table of those that don't serve, or some at length, with what wasn't carried."""

import re
from typing import Dict, Iterable, Iterator, List, NamedTuple, Optional, Sequence, Set, Tuple

from .cluster import Cluster
from .group_told import Told, lines_of
from .maps import Group, group_text
from .nodes import Unusable
from .notes import MOST_THINGS, Notes, one_line
from .rules import rule_of
from .steps import History, View
from .waits import waits_for

MOST_DEVICES = 12  # that are named below a table
SHOWN = 3  # things of a cause, in a table
OF_GROUP = re.compile(r"^(\d{1,9}\.[0-9a-f]{1,8})\b")
OF_POOL = re.compile(r"\bpool (\d+)\b")
OF_DEVICE = re.compile(r"^osd\.(\d+)\b")

Row = Tuple[str, ...]


def table(rows: Sequence[Row]) -> Iterator[str]:
    """Rows as columns."""
    widths = [max(map(len, column)) for column in zip(*rows)]
    for row in rows:
        yield "  ".join(cell.ljust(width) for cell, width in zip(row, widths)).rstrip()


# All groups


def row_of(cluster: Cluster, group: Group, view: Optional[View]) -> Row:
    said = cluster.said.get(group)
    theirs = (said.state, str(said.epoch)) if said else ("not kept", "")
    if view is None:
        return group_text(group), *theirs, "not in the script", "", ""
    agree, rule = rule_of(cluster, group, view)
    return group_text(group), *theirs, view["verdict"], waits_for(cluster, group, view), "" if agree else rule or "no rule says why"


def is_told(cluster: Cluster, group: Group, view: Optional[View]) -> bool:
    """Tells whether a group has a row: one that isn't active by Ceph, or doesn't serve here."""
    said = cluster.said.get(group)
    return said is None or not said.is_active() or view is not None and view["verdict"] != "Serve"


def whole_text(cluster: Cluster) -> Iterator[str]:
    """The table of all groups that aren't active, which devices block most, and what wasn't carried."""
    carried = cluster.carried()
    views = cluster.all_views()
    told = [group for group in cluster.groups if is_told(cluster, group, views.get(group))]
    left = f", {len(carried):,} of them in the script" if len(carried) < len(cluster.groups) else ""
    epoch = cluster.last.key("epoch").count()
    yield f"{len(cluster.groups):,} groups in epoch {epoch}{left}: {len(cluster.groups) - len(told):,} active, {len(told):,} not"
    if told:
        yield ""
        yield from table([("PG", "Ceph", "epoch", "here", "waits", "rule"), *(row_of(cluster, it, views.get(it)) for it in told)])
        yield from blockers(views)
    yield from caveats(cluster.notes, [], True)


def blockers(views: Dict[Group, View]) -> Iterator[str]:
    """The devices that block groups, those of most first."""
    counts: Dict[int, int] = {}
    for view in views.values():
        for osd in view["blocked_by"]:
            counts[osd] = counts.get(osd, 0) + 1
    ordered = sorted(counts, key=lambda osd: (-counts[osd], osd))
    if ordered:
        yield ""
        yield "groups blocked: " + ", ".join(f"osd.{osd} {counts[osd]:,}" for osd in ordered[:MOST_DEVICES]) + (
            f" and {len(ordered) - MOST_DEVICES} more devices" if len(ordered) > MOST_DEVICES else "")


# Some groups


def told_of(cluster: Cluster, group: Group, with_losses: bool) -> Told:
    """All that is known of a group."""
    view = cluster.views([group]).get(group)
    if view is None or "ok" not in view:
        raise Unusable(f"the map has no group {group_text(group)}")
    own = cluster.in_script(group)
    history = History(*own)
    for line in cluster.parts.lines([own]):
        history.take(line)
    agree, rule = rule_of(cluster, group, view)
    named = "" if agree else rule or "another state, and no rule of ours says why"
    infos = cluster.parts.infos.get(own, {})
    return Told(group_text(group), view, history, cluster.epochs, cluster.reasons(group, with_losses), cluster.said.get(group), named, infos)


def groups_text(cluster: Cluster, groups: Iterable[Group], with_losses: bool) -> Iterator[str]:
    """Groups at length, each with what of it wasn't carried."""
    for at, group in enumerate(groups):
        told = told_of(cluster, group, with_losses)
        yield from [""] if at else []
        yield from lines_of(told)
        devices = {osd for it in (told.view, *told.view["intervals"]) for osd in (*it["acting"], *it["up"]) if osd is not None}
        yield from caveats(cluster.notes, [group], False, devices)


# What wasn't carried


class Concern(NamedTuple):
    """What a note's thing is about, as far as its words tell."""

    group: Optional[str]
    pool: Optional[int]
    osd: Optional[int]

    def touches(self, group: Group, devices: Set[int]) -> bool:
        if self.group is not None:
            return self.group == group_text(group)
        if self.pool is not None:
            return self.pool == group[0]
        return self.osd is None or self.osd in devices


def concern_of(thing: str) -> Concern:
    group, pool, osd = (pattern.search(thing) for pattern in (OF_GROUP, OF_POOL, OF_DEVICE))
    return Concern(group[1] if group else None, int(pool[1]) if pool else None, int(osd[1]) if osd else None)


def caveats(notes: Notes, groups: List[Group], is_table: bool, devices: Iterable[int] = ()) -> Iterator[str]:
    """What wasn't carried over and touches the groups; of all groups in a table, where each cause has one line."""
    known, found = set(devices), []
    for cause, things in notes.things.items():
        own = [it for it in things if is_table or any(concern_of(it).touches(group, known) for group in groups)]
        if own:
            most = SHOWN if is_table else MOST_THINGS
            more = f" and {len(own) - most} more" if len(own) > most else ""
            found.append(one_line(f"{cause}: {', '.join(own[:most])}{more}"))
    if found:
        yield "" if is_table else "  not carried over:"
        yield from ((f"not carried over: {it}" if is_table else f"    {it}") for it in found)


def caveats_named(notes: Notes) -> Iterator[str]:
    """That not all was carried over, and what tells it."""
    if notes.things:
        yield ""
        yield f"Not all was carried over (explain tells {len(notes.things)} cause{'' if len(notes.things) == 1 else 's'})."


def folder_text(folder: str, program: str, groups: List[Group], with_losses: bool) -> str:
    cluster = Cluster(folder, program, groups)
    lines = groups_text(cluster, groups, with_losses) if groups else whole_text(cluster)
    return printable(lines)


def printable(lines: Iterable[str]) -> str:
    """Lines for a terminal, which obeys none of their marks."""
    return "".join(f"{one_line(line)}\n" for line in lines)
