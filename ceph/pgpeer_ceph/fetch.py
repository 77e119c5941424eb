"""The verb `fetch`: keeps in a folder what `script` reads, by the commands of Ceph."""

import argparse
import concurrent.futures
import time
from typing import Any, Callable, Dict, Iterable, List, Optional, Union

from .calls import Ceph, NoAnswer, ceph_of
from .fetched import FetchedMaps, Folder
from .librados import Connection, connected
from .maps import group_text, named_group, read_group
from .nodes import MOST, Node, Unusable
from .notes import Notes
from .output import tell
from .progress import Progress
from .reports import is_active
from .sets import stats_of

QUERY_SECONDS, QUERY_TRIES = 15, 2
SILENT = "reports of groups that gave no answer"
UNASKED = "reports of groups that weren't asked before the time was up (--seconds)"
LED_BY_NOBODY = "reports of groups without a primary, which nobody can give"
ABOUT = """\
Keeps in a folder what `script` reads: what `ceph pg dump` says, the queries of groups, those that aren't active first, the use of
devices, and then maps, trees and where groups lie, up to the last epoch that a report names. It changes nothing in the cluster.
Where librados is there (Debian's python3-rados), one connection serves all calls, else commands are called. Each file is written
whole as it comes, and a second call goes on where the first one ended. What fails is tried again; what is lacking in the end is
told, and kept in the folder for `script` to tell.

Status 0: what there was is in the folder. Status 2: the command line is wrong, there is no command of Ceph's, no map was fetched,
or a write failed.
"""


def best_of(ceph: Ceph) -> Union[Ceph, Connection]:
    """By librados where that is there, else by commands."""
    return connected(ceph) or ceph


class Fetch:
    """A folder as it is filled from a cluster."""

    def __init__(self, options: argparse.Namespace):
        self.options, self.notes, self.progress = options, Notes(), Progress()
        self.ceph = best_of(ceph_of(options.ceph))
        self.folder = Folder(options.folder)
        self.wanted = [group_text(named_group(words)) for words in options.pg]
        self.stats: Optional[Dict[str, Node]] = None
        self.unasked: Dict[str, None] = {}
        self.named = 0  # the last epoch that a report names

    def run(self) -> None:
        try:
            self.fetch_groups()
            self.fetch_value("df.json", "osd", "df", "tree")
            maps = FetchedMaps(self.ceph, self.folder, self.notes, self.side_by_side)
            maps.fetch(self.options.since, min(self.options.until, self.named or MOST))
            maps.fetch_trees()
            maps.fetch_last_map()
            if not self.options.no_groups:
                maps.fetch_sets()
        finally:
            self.progress.clear()
            for group in self.unasked:
                self.notes.tell(UNASKED, group)
            self.folder.keep_notes(self.notes)

    def side_by_side(self, what: str, act: Callable[[Any], Any], things: Iterable[Any]) -> List[Any]:
        """Has so many jobs act on all things, and says how far they are."""
        found, listed = [], list(things)
        pool = concurrent.futures.ThreadPoolExecutor(self.options.jobs)
        try:
            for done, answer in enumerate(pool.map(act, listed), 1):
                found.append(answer)
                self.progress.show(f"{what}: {done:,} of {len(listed):,}")
        finally:
            pool.shutdown(cancel_futures=True)
        return found

    def fetch_value(self, name: str, *words: str) -> Optional[Node]:
        """Keeps an answer under a name."""
        self.progress.show(" ".join(words))
        try:
            node = self.ceph.value(*words)
        except NoAnswer as fault:
            self.notes.tell("answers of commands that failed", str(fault))
            return None
        self.folder.keep(name, node.value)
        return node

    # Groups

    def fetch_groups(self) -> None:
        """Keeps what the cluster says of all groups, and queries of those that are wanted, as far as time allows."""
        dump = self.fetch_value("pgs.json", "pg", "dump")
        end = time.monotonic() + self.options.seconds
        if dump is not None:
            self.stats = {group_text(read_group(stat.key("pgid"))): stat for stat in stats_of(dump)}
        groups = self.groups()
        self.unasked = dict.fromkeys(groups)
        epochs = self.side_by_side("queries", lambda group: self.query(group, end), groups)
        reported = (stat.count_of("reported_epoch") for stat in (self.stats or {}).values() if is_active(stat.key("state").text()))
        self.named = max([*epochs, *reported], default=0)

    def groups(self) -> List[str]:
        """The groups to ask: those that aren't active, those that aren't clean, the others, and last those that may not answer."""
        if self.stats is None:
            return self.groups_of_map()
        unknown = [group for group in self.wanted if group not in self.stats]
        if unknown:
            raise Unusable(f"the cluster has no group {unknown[0]}")
        led = {group: stat.key("state").text().split("+") for group, stat in self.stats.items() if self.is_wanted(group)}
        for group in [it for it in led if self.stats[it].key("acting_primary").whole() < 0]:
            self.notes.tell(LED_BY_NOBODY, group)
            del led[group]
        return sorted(led, key=lambda group: ("stale" in led[group], "active" in led[group], "clean" in led[group]))

    def groups_of_map(self) -> List[str]:
        """All groups that the map has, where there is nothing that tells their states."""
        if self.wanted:
            return self.wanted
        try:
            pools = self.ceph.value("osd", "dump").key("pools").items()
        except NoAnswer:
            return []
        sizes = ((pool.key("pool").whole(), pool.key("pg_num").count()) for pool in pools)
        names = (group_text((pool, pg)) for pool, count in sizes for pg in range(min(count, 1 << 16)))
        return [group for group in names if self.is_wanted(group)]

    def is_wanted(self, group: str) -> bool:
        pools = self.options.pool
        return group in self.wanted if self.wanted else not pools or int(group.split(".")[0]) in pools

    def query(self, group: str, end: float) -> int:
        """Keeps the query of a group, and gives its epoch; 0 where there is none."""
        name = f"{group}.query.json"
        node = self.folder.kept(name)
        if node is None or not self.is_fresh(node, group):
            if time.monotonic() > end:
                return 0
            try:
                words = ("--connect-timeout", "5", "tell", group, "query")
                node = self.ceph.value(*words, tries=QUERY_TRIES, seconds=QUERY_SECONDS)
                epoch = node.key("epoch").count()
            except Unusable as fault:
                if not isinstance(fault, NoAnswer):
                    raise
                self.notes.tell(SILENT, group)
                self.unasked.pop(group, None)
                return 0
            self.folder.keep(name, node.value)
        epoch = node.count_of("epoch")
        self.unasked.pop(group, None)
        return epoch

    def is_fresh(self, node: Node, group: str) -> bool:
        """Tells whether a query that an earlier call kept still says what the cluster says of the group."""
        stat = (self.stats or {}).get(group)
        if stat is None:
            return False
        same = all(node.has(key) and node.key(key).value == stat.key(key).value for key in ("state", "up", "acting"))
        return same and node.count_of("epoch") >= stat.count_of("mapping_epoch")


# The verb


def run(options: argparse.Namespace) -> int:
    if options.jobs < 1 or options.seconds < 0:
        raise Unusable("--jobs is at least 1, and --seconds at least 0")
    task = Fetch(options)
    task.run()
    for told in task.notes.lines():
        tell(f"not fetched: {told}")
    if not task.folder.epochs():
        raise Unusable(f"{options.folder}: no map was fetched")
    return 0


def add_to(verbs: Any) -> None:
    parser = verbs.add_parser("fetch", help="keep a cluster's maps and reports in a folder", description=ABOUT,
                              formatter_class=argparse.RawDescriptionHelpFormatter)
    parser.add_argument("folder", metavar="FOLDER", help="the folder, which is made where it isn't there")
    parser.add_argument("--ceph", default="ceph", metavar="WORDS", help="how ceph is called, as 'ceph -n client.look' or 'cephadm shell -- ceph'")
    parser.add_argument("--pg", action="append", default=[], metavar="PG", help="query this group, and others only where they are named")
    parser.add_argument("--pool", type=int, action="append", default=[], metavar="ID", help="query groups of this pool alone")
    parser.add_argument("--jobs", type=int, default=4, metavar="N", help="how many commands run side by side (4)")
    parser.add_argument("--seconds", type=float, default=120, metavar="N", help="begin no query after so many seconds (120)")
    parser.add_argument("--from", dest="since", type=int, default=0, metavar="EPOCH", help="the first epoch")
    parser.add_argument("--to", dest="until", type=int, default=MOST, metavar="EPOCH", help="the last epoch")
    parser.add_argument("--no-groups", action="store_true", help="don't keep where groups lie, for a tree of list buckets")
    parser.set_defaults(run=run)
