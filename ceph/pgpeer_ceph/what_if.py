"""The verb `what-if`: which groups would stop serving if devices stopped."""

import argparse
import collections
from typing import Any, Counter, Dict, Iterator, List, Tuple

from .buckets import Place, place_of, places_of
from .cluster import Cluster
from .folder_told import caveats_named, printable, table
from .maps import Group, group_text
from .nodes import Unusable
from .output import write
from .placed import Unplaced, placed
from .plan import count_of, verdicts_text
from .program import option_of_program
from .rules import members_of
from .stops import Stop, Stops
from .waits import are_enough
from .words import osds_text

ENDS = ("Short", "Down", "NoPrimary")
MOST_ROWS = 400
MOST_WORST = 8
ABOUT = """\
Tells from a FOLDER that fetch filled which groups would be Short, Down or without a primary if devices stopped now, and which
after one more failure; and, by Ceph's own osdmaptool, where those that the stop touches would lie once the devices are out. With
--each it counts for every host, rack or device how many groups stop serving if it stops. The program is asked, on the script of
the folder with one more incremental, the members that are left having reported; so past intervals count, of which `ceph osd
ok-to-stop` knows nothing. Nothing is stopped.

Status 0: it was told. Status 2: the command line or the input is wrong, or the cluster has no such place.
"""


# Some devices


def stop_text(stops: Stops, places: List[Place]) -> Iterator[str]:
    """What would be if all devices of these places stopped."""
    osds = {osd for place in places for osd in place.osds}
    stop = stops.of(osds)
    already = osds - stop.osds
    yield f"If {' and '.join(place.text() for place in places)} stopped: {count_of(len(stop.osds), 'device')}" + (
        f" ({osds_text(already)} {'is' if len(already) == 1 else 'are'} down already)" if already else "")
    after = stops.one_more(stop)
    yield from counts_text(stops, stop, after)
    yield from rows_text(stop, after)
    yield from out_text(stops, stop)


def counts_text(stops: Stops, stop: Stop, after: Dict[Group, Dict[int, str]]) -> Iterator[str]:
    yield f"  now: {count_of(len(stop.after), 'group')} touched, {ended_text(stop)}"
    down = len(stops.views) - len(stops.serving)
    if down:
        yield f"  {count_of(down, 'group')} of the cluster {'does' if down == 1 else 'do'}n't serve as it is"
    worst: Counter[int] = collections.Counter(osd for ends in after.values() for osd in ends)
    named = ", ".join(f"osd.{osd} {count:,}" for osd, count in worst.most_common(MOST_WORST))
    yield f"  after one more failure: {count_of(len(after), 'group')} more could stop serving" + (f", by device: {named}" if named else "")


def ended_text(stop: Stop) -> str:
    """How many groups stop serving, by verdict."""
    told = verdicts_text(stop.after[group] for group in stop.ended)
    return f"{len(stop.ended):,} stop serving" + (f" ({told})" if told else "")


def rows_text(stop: Stop, after: Dict[Group, Dict[int, str]]) -> Iterator[str]:
    """The groups that stop serving, now or after one more failure."""
    told = [*stop.ended, *sorted(after)]
    rows: List[Tuple[str, ...]] = [("PG", "after", "acting", "one more failure")]
    for group in told[:MOST_ROWS]:
        view = stop.after[group]
        acting = " ".join("none" if osd is None else str(osd) for osd in view["acting"]) or "nobody"
        rows.append((group_text(group), view["verdict"], acting, more_text(after.get(group, {}))))
    if told:
        yield ""
        yield from table(rows)
    if len(told) > MOST_ROWS:
        yield f".. and {len(told) - MOST_ROWS:,} more"


def more_text(ends: Dict[int, str]) -> str:
    """The verdicts that one more device brings, as `Short by osd.3 or osd.5`."""
    by_verdict: Dict[str, List[int]] = {}
    for osd, verdict in sorted(ends.items()):
        by_verdict.setdefault(verdict, []).append(osd)
    return ", ".join(f"{verdict} by {' or '.join(f'osd.{osd}' for osd in osds)}" for verdict, osds in by_verdict.items())


# Once they are out


def out_text(stops: Stops, stop: Stop) -> Iterator[str]:
    """What Ceph's placement has of the groups that the stop touches, once the devices are out."""
    yield ""
    try:
        sets = placed(stops.cluster, stop.osds)
    except Unplaced as fault:
        yield f"Once they are out: not told, since {fault}."
        return
    whole, serving, short = [], [], []
    for group in stop.after:
        pool = stops.cluster.pool(group)
        up = members_of(list(sets[group].up), pool) if group in sets else set()
        (whole if len(up) == pool.size else serving if are_enough(up, pool) else short).append(group)
    down = [group for group in stop.ended if stop.after[group]["verdict"] == "Down"]
    yield f"Once they are out, after backfill: {len(whole):,} of the touched groups are whole, {len(serving):,} serve with fewer than size"
    yield f"members, {len(short):,} have fewer than min_size{names_of(short)}. Down stays Down{names_of(down)}."


def names_of(groups: List[Group]) -> str:
    named = " ".join(group_text(group) for group in groups[:MOST_WORST])
    return f" ({named}{' ..' if len(groups) > MOST_WORST else ''})" if groups else ""


# Each place


def each_text(stops: Stops, kind: str) -> Iterator[str]:
    """A table of all places of a kind, those whose stop ends most groups first."""
    places = places_of(stops.cluster, kind)
    found = stops.each(lambda place: (place, stops.of(place.osds)), places)
    found.sort(key=lambda it: (-len(it[1].ended), it[0].name if kind != "osd" else "", it[0].osds))
    yield f"{len(stops.serving):,} of {len(stops.views):,} groups serve in epoch {stops.cluster.last.key('epoch').count()}"
    yield ""
    yield from table([(kind, "up", "touched", "stop serving", *ENDS, "other"), *(row_of(place, stop) for place, stop in found)])


def row_of(place: Place, stop: Stop) -> Tuple[str, ...]:
    verdicts = collections.Counter(stop.after[group]["verdict"] for group in stop.ended)
    other = len(stop.ended) - sum(verdicts[verdict] for verdict in ENDS)
    counts = (len(stop.after), len(stop.ended), *(verdicts[verdict] for verdict in ENDS), other)
    return place.name, f"{len(stop.osds)} of {len(place.osds)}", *(f"{count:,}" for count in counts)


# The verb


def run(options: argparse.Namespace) -> int:
    if bool(options.stop) == bool(options.each):
        raise Unusable("what-if wants --stop PLACE, or --each KIND")
    cluster = Cluster(options.folder, options.program)
    places = [place_of(cluster, words) for words in options.stop]
    if options.each:
        places_of(cluster, options.each)
    stops = Stops(cluster)
    lines = stop_text(stops, places) if places else each_text(stops, options.each)
    write(printable([*lines, *caveats_named(cluster.notes)]))
    return 0


def add_to(verbs: Any) -> None:
    parser = verbs.add_parser("what-if", help="which groups would stop serving if devices stopped", description=ABOUT,
                              formatter_class=argparse.RawDescriptionHelpFormatter)
    parser.add_argument("folder", metavar="FOLDER", help="what fetch filled")
    parser.add_argument("--stop", action="append", default=[], metavar="PLACE", help="a device or a bucket: osd.7, host:h3, rack:r1")
    parser.add_argument("--each", metavar="KIND", help="host, rack, osd or another kind of the tree")
    option_of_program(parser)
    parser.set_defaults(run=run)
