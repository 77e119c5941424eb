"""The verb `report`: a page of a cluster's groups by epoch, what blocks them and what helps, as one file."""

import argparse
import concurrent.futures
import datetime
import gc
import os
import re
import sys
import time
from typing import Any, Dict, Iterator, List, Optional, Tuple

from . import __version__
from .buckets import hosts_of, places_of
from .cluster import SERVES, Cluster
from .maps import Group, group_text
from .nodes import Unusable
from .one_file import page
from .output import write
from .plan import Planned, bound_text, count_of
from .program import option_of_program
from .progress import Progress
from .reasons import Reasons
from .rules import rule_of
from .steps import UNKNOWN, History
from .stops import Stops
from .timeline import Past, Timeline
from .waits import waits_for
from .what_if import ENDS, row_of
from .words import ending, lost_text

VERDICTS = ("Down", "Incomplete", "NoPrimary", "Short", "Waiting", "NeedLog", "NeedUpThru", "Serve", UNKNOWN)  # as the page has them
MOST_SPANS = 1_000_000  # intervals of all groups
MOST_NAMED = 200  # groups that a step names
MOST_TOLD = 400  # explanations
UP, IN = 2, 4
ABOUT = """\
Writes a page about the cluster that fetch or record kept in FOLDER, as one file that loads nothing from elsewhere: what helps, the
cluster epoch by epoch, who blocks, all groups with filters, each one's intervals, and how many groups stop serving if a host stops.
Any browser of 2023 or later shows it.

Status 0: the page was written. Status 2: the command line or the input is wrong, or a write failed; with --output there is no page
then.
"""


class Report:
    """The data of a page, for a cluster."""

    def __init__(self, cluster: Cluster, kind: str):
        self.cluster, self.kind, self.progress = cluster, kind, Progress()
        self.hosts = hosts_of(cluster)
        self.progress.show("groups by epoch")
        self.timeline = Timeline(cluster)
        self.groups, self.facts = cluster.groups, History(0, 0)
        for front in cluster.parts.fronts:
            self.facts.take_facts(front.inc)
        self.places = {group: at for at, group in enumerate(self.groups)}
        self.pasts = {cluster.numbers.in_ceph(own): past for own, past in self.timeline.pasts.items()}
        self.first = cluster.epochs.first
        self.last = cluster.last.key("epoch").count()
        self.host_names = sorted(set(self.hosts.values()))
        self.notes = list(self.own_notes())

    def own_notes(self) -> Iterator[str]:
        carried = self.cluster.carried()
        left = [group for group in self.groups if group not in carried]
        if left:
            yield f"{count_of(len(left), 'group')} of {len(self.groups):,} aren't in the script (script --pg carries one)"
        if not self.timeline.is_whole:
            yield "the verdicts of the past of groups that serve now: there are too many of them"

    def data(self) -> Dict[str, Any]:
        blocked = {self.places[it]: sorted(past.view["blocked_by"]) for it, past in self.pasts.items() if past.view["blocked_by"]}
        devices = self.devices()
        found = {
            "first": self.first, "last": self.last, "clock": self.clock(), "hosts": self.host_names, "devices": devices, "pools": self.pools(),
            **self.columns(), "rules": self.rules(), "blocked": blocked, "serving": sum(past.view["verdict"] in SERVES for past in self.pasts.values()),
            "blockers": self.blockers(blocked, devices), **self.advice(), "whatIf": self.what_if(),
        }
        self.progress.clear()
        return {**found, "notes": [*self.notes, *self.cluster.notes.lines()]}

    def in_page(self, epoch: int) -> int:
        """Ceph's epoch for one of the script's, none before the page's first."""
        found = self.cluster.epochs.in_ceph(epoch)
        return self.first if found is None else max(self.first, min(found, self.last))

    # Epochs and devices

    def clock(self) -> List[Optional[int]]:
        """The seconds of the maps, each as the difference to the one before that is known."""
        found: List[Optional[int]] = []
        before = 0
        for epoch in range(self.first, self.last + 1):
            second = seconds_of(self.cluster.modified.get(epoch))
            found.append(None if second is None else second - before)
            before = before if second is None else second
        return found

    def devices(self) -> List[Dict[str, Any]]:
        """Each device with its states by epoch."""
        runs: Dict[int, List[List[int]]] = {}
        states: Dict[int, int] = {}
        for front in self.cluster.parts.fronts:
            inc, before = front.inc, dict(states)
            for osd in inc.get("up", ()):
                states[osd] = states.get(osd, IN) & IN | UP
            for osd in inc.get("down", ()):
                states[osd] = states.get(osd, 0) & IN | 1
            for osd, weight in inc.get("weight", ()):
                states[osd] = states.get(osd, 1) & 3 | (IN if weight else 0)
            for osd in inc.get("gone", ()):
                states[osd] = 0
            for osd in {*inc.get("up", ()), *inc.get("down", ()), *inc.get("gone", ()), *(osd for osd, _ in inc.get("weight", ()))}:
                if states.get(osd) != before.get(osd):
                    take_run(runs.setdefault(osd, []), self.in_page(inc["epoch"]), states[osd])
        named = {host: at for at, host in enumerate(self.host_names)}
        return [{"id": osd, "host": named.get(self.hosts.get(osd, ""), -1), "runs": runs[osd]} for osd in sorted(runs) if runs[osd] != [[self.first, 0]]]

    def pools(self) -> List[Dict[str, Any]]:
        found = []
        for node in sorted(self.cluster.last.key("pools").items(), key=lambda node: node.key("pool").whole()):
            number = node.key("pool").whole()
            name = node.key("pool_name").text() if node.has("pool_name") else ""
            pool = next((self.cluster.pool(it) for it in self.pasts if it[0] == number), None)
            size, least = node.key("size").count(), node.count_of("min_size")
            found.append({"id": number, "name": name, "text": pool.text() if pool else "", "size": size, "min_size": least,
                          "by_place": bool(pool and pool.is_by_place())})
        return found

    # Groups

    def columns(self) -> Dict[str, Any]:
        """The groups, their intervals and verdicts as columns; epochs are differences."""
        sets: Dict[Tuple[Optional[int], ...], int] = {}
        states: Dict[str, int] = {}
        found: Dict[str, List[int]] = {key: [] for key in ("pool", "seed", "state", "spans", "begins", "acting", "up", "flags", "runs", "turns", "verdicts")}
        pools = {pool: at for at, pool in enumerate(sorted({pool for pool, _ in self.groups}))}
        most = self.most_spans()
        for group in self.groups:
            said = self.cluster.said.get(group)
            found["pool"].append(pools[group[0]])
            found["seed"].append(group[1])
            found["state"].append(states.setdefault(said.state if said else "", len(states)))
            self.take_spans(found, sets, self.pasts.get(group), most)
            self.take_turns(found, group)
        return {"groups": found, "sets": [list(it) for it in sets], "states": list(states)}

    def most_spans(self) -> int:
        """How many intervals a group may have so that all have room."""
        counts = sorted(len(past.spans) for past in self.pasts.values())
        most = counts[-1] if counts else 0
        while sum(min(count, most) for count in counts) > MOST_SPANS:
            most = most * 9 // 10
        if counts and most < counts[-1]:
            self.notes.append(f"intervals before the last {most} of groups that have more")
        return most

    def take_spans(self, found: Dict[str, List[int]], sets: Dict[Tuple[Optional[int], ...], int], past: Optional[Past], most: int) -> None:
        spans = past.spans[-most:] if past and most else []
        kept = [(self.in_page(span.first), span) for span in spans]
        kept = [it for at, it in enumerate(kept) if at + 1 == len(kept) or it[0] < kept[at + 1][0]]  # those of the page's epochs
        before = self.first
        by_report = self.by_report(past)
        for epoch, span in kept:
            acting, up = tuple(span.acting), tuple(span.up)
            found["begins"].append(epoch - before)
            found["acting"].append(sets.setdefault(acting, len(sets)))
            found["up"].append(sets.setdefault(up, len(sets)) if up and up != acting else -1)
            found["flags"].append((1 if span.wrote else 0) + (2 if span.first in by_report else 0) + (4 if span.matters else 0))
            before = epoch
        found["spans"].append(len(kept))

    def by_report(self, past: Optional[Past]) -> Any:
        """The intervals that matter and that a report alone says may have gone read-write."""
        return self.facts.by_report(past.view) if past and past.view["intervals"] else ()

    def take_turns(self, found: Dict[str, List[int]], group: Group) -> None:
        own = self.cluster.in_script(group) if group in self.pasts else None
        turns = self.timeline.turns.get(own, []) if own else []
        kept: List[List[int]] = []
        for epoch, verdict in turns or [(1, UNKNOWN)]:
            take_run(kept, self.in_page(epoch), VERDICTS.index(verdict))
        found["runs"].append(len(kept))
        found["turns"] += [epoch - (kept[at - 1][0] if at else self.first) for at, (epoch, _) in enumerate(kept)]
        found["verdicts"] += [verdict for _, verdict in kept]

    def rules(self) -> Dict[int, str]:
        """The groups of which Ceph says otherwise, each with the rule."""
        told = ((group, rule_of(self.cluster, group, past.view)) for group, past in self.pasts.items())
        return {self.places[group]: rule or "no rule says why" for group, (agree, rule) in told if not agree}

    def blockers(self, blocked: Dict[int, List[int]], devices: List[Dict[str, Any]]) -> List[Dict[str, Any]]:
        counts: Dict[int, int] = {}
        for osds in blocked.values():
            for osd in osds:
                counts[osd] = counts.get(osd, 0) + 1
        since = {it["id"]: down_since(it["runs"]) for it in devices}
        return [{"osd": osd, "blocks": counts[osd], "since": since.get(osd, 0) if since.get(osd, 0) > self.first else 0}
                for osd in sorted(counts, key=lambda osd: (-counts[osd], osd))]

    # What helps

    def advice(self) -> Dict[str, Any]:
        """What to start, what stays, and why each group doesn't serve."""
        self.progress.show("what helps")
        planned = Planned(self.cluster, True)
        devices = self.cluster.devices()
        steps = [{
            "what": "Start " + " and ".join(f"osd.{osd}" for osd in step.osds), "count": len(step.frees),
            "where": ", ".join(sorted({self.hosts[osd] for osd in step.osds if osd in self.hosts})),
            "groups": [group_text(group) for group in sorted(step.frees)[:MOST_NAMED]],
            "more": "; ".join(f"osd.{osd} is down since epoch {devices[osd]['down_at']}" for osd in step.osds if devices.get(osd, {}).get("down_at")),
        } for step in planned.plan.steps]
        why = self.reasons(planned)
        lead = f"Starting {count_of(len(planned.plan.osds()), 'device')} frees {count_of(len(planned.needs), 'group')}; {bound_text(planned.plan)}." if steps else ""
        losses: Dict[str, List[str]] = {}
        for group, reasons in why.items():
            if lost_text(reasons):
                losses.setdefault(lost_text(reasons), []).append(group_text(group))
        told = {self.places[group]: {"says": it.says, "helps": list(filter(None, [ending(it)])), "losses": list(filter(None, [lost_text(it)])),
                                     "unheard": sorted({osd for osd, _ in it.unheard}) if it.verdict == "Waiting" else []} for group, it in why.items()}
        return {"why": told, "helps": {"lead": lead, "steps": steps, "stays": list(staying_lines(planned)),
                                       "losses": [{"groups": named, "what": text} for text, named in losses.items()]}}

    def reasons(self, planned: Planned) -> Dict[Group, Reasons]:
        """Why groups don't serve; of groups that are alike one is explained."""
        alike: Dict[Any, List[Group]] = {}
        for group, view in planned.views.items():
            unheard = tuple(self.cluster.unheard(group, view)) if view["verdict"] == "Waiting" else ()
            alike.setdefault((planned.likeness(group), tuple(view["acting"]), tuple(view["up"]), unheard), []).append(group)
        classes = sorted(alike.values(), key=lambda groups: -len(groups))
        if len(classes) > MOST_TOLD:
            self.notes.append(f"why {count_of(sum(map(len, classes[MOST_TOLD:])), 'group')} that are alike to few others don't serve (explain tells it)")
        with concurrent.futures.ThreadPoolExecutor(os.cpu_count() or 1) as pool:
            found = list(pool.map(lambda groups: planned.reasons(groups[0]), classes[:MOST_TOLD]))
        return {group: it for groups, it in zip(classes, found) for group in groups}

    # What if

    def what_if(self) -> Dict[str, Any]:
        """The table of what stops serving if a part of the tree stops."""
        self.progress.show(f"what if a {self.kind} stops")
        try:
            places = places_of(self.cluster, self.kind)
        except Unusable as fault:
            self.notes.append(f"what if a {self.kind} stops: {fault}")
            self.kind, places = "osd", places_of(self.cluster, "osd")
        stops = Stops(self.cluster)
        found = stops.each(lambda place: (place, stops.of(place.osds)), places)
        found.sort(key=lambda it: (-len(it[1].ended), it[0].name, it[0].osds))
        rows = [[number_of(cell) for cell in row_of(place, stop)] for place, stop in found]
        words = (f"{len(stops.serving):,} of {count_of(len(stops.views), 'group')} serve in epoch {self.last}. Past intervals count here, "
                 "of which ceph osd ok-to-stop knows nothing.")
        return {"head": ["Device" if self.kind == "osd" else self.kind.capitalize(), "Devices up", "Groups touched", "Stop serving", *ENDS, "Other"], "rows": rows, "words": words}


def staying_lines(planned: Planned) -> Iterator[str]:
    """How many groups no step frees, by what they wait for."""
    found: Dict[Tuple[str, str], List[Group]] = {}
    for group in planned.staying():
        key = planned.views[group]["verdict"], waits_for(planned.cluster, group, planned.views[group])
        found.setdefault(key, []).append(group)
    for (verdict, what), groups in sorted(found.items(), key=lambda it: -len(it[1]))[:MOST_NAMED]:
        named = ", ".join(group_text(group) for group in groups[:6]) + (" and others" if len(groups) > 6 else "")
        is_one = len(groups) == 1
        yield f"No start frees {count_of(len(groups), 'group')} ({named}), which {'is' if is_one else 'are'} {verdict}: {what}."


def take_run(runs: List[List[int]], epoch: int, state: int) -> None:
    """Adds what holds from an epoch on, in the place of what held from the same epoch on."""
    if runs and runs[-1][0] == epoch:
        runs.pop()
    if not runs or runs[-1][1] != state:
        runs.append([epoch, state])


def down_since(runs: List[List[int]]) -> int:
    """The epoch since which a device is down without a break; 0 where it is up."""
    since = 0
    for epoch, state in runs:
        since = 0 if state & UP else since or epoch
    return since


def seconds_of(text: Any) -> Optional[int]:
    """The seconds of a time as Ceph prints it."""
    found = re.match(r"(\d{4})-(\d\d)-(\d\d)[ T](\d\d):(\d\d):(\d\d)(?:\.\d+)?(?:([+-])(\d\d):?(\d\d))?", text) if isinstance(text, str) else None
    if not found:
        return None
    away = (int(found[8]) * 3600 + int(found[9]) * 60) * (-1 if found[7] == "-" else 1) if found[7] else 0
    try:
        return int(datetime.datetime(*(int(it) for it in found.groups()[:6]), tzinfo=datetime.timezone.utc).timestamp()) - away
    except ValueError:
        return None


def number_of(cell: str) -> Any:
    return int(cell.replace(",", "")) if re.fullmatch(r"[0-9,]+", cell) else cell


# The verb


def run(options: argparse.Namespace) -> int:
    gc.disable()  # what is read stays to the end; looking through it again and again took a quarter of the time
    cluster = Cluster(options.folder, options.program)
    report = Report(cluster, options.each)
    data = report.data()
    fsid = cluster.last.key("fsid").text() if cluster.last.has("fsid") else ""
    title = f"Ceph cluster {fsid}" if fsid else "Ceph cluster"
    made = time.strftime("%Y-%m-%d %H:%M UTC", time.gmtime())
    about = (f"{count_of(len(cluster.groups), 'group')} in epochs {report.first} to {report.last}, from the folder {options.folder}. "
             f"Made by pgpeer-ceph {__version__} on {made}.")
    if options.output is None and hasattr(sys.stdout, "reconfigure"):
        sys.stdout.reconfigure(encoding="utf-8")
    write(page(title, about, data), options.output)
    return 0


def add_to(verbs: Any) -> None:
    parser = verbs.add_parser("report", help="a page about a cluster, as one file", description=ABOUT,
                              formatter_class=argparse.RawDescriptionHelpFormatter)
    parser.add_argument("folder", metavar="FOLDER", help="what fetch or record filled")
    parser.add_argument("--output", "-o", metavar="PAGE", help="the page's file, which is written whole or not at all")
    parser.add_argument("--each", default="host", metavar="KIND", help="what may stop: host, rack, osd or another kind of the tree (host)")
    option_of_program(parser)
    parser.set_defaults(run=run)
