"""The verb `record`: what `fetch` keeps, followed until it is ended.

Beside the files of `fetch` the folder then has `EPOCH-TIME.pgs.json`, the groups of which `ceph pg dump` said something else than
before, and `PG.EPOCH.query.json`, what a group said in a state that has passed. `script` reads them all.
"""

import argparse
import fcntl
import os
import signal
import time
from typing import IO, Any, Dict, List

from .calls import ENDING, NoCommand, ceph_of, end_all
from .fetch import Fetch
from .fetched import NOTES, FetchedMaps
from .maps import group_text, read_group
from .nodes import MOST, Node, Unusable
from .output import tell
from .room import bytes_of, make_room
from .sets import stats_of

KEYS = ("pgid", "state", "version", "reported_epoch", "log_start", "mapping_epoch", "last_epoch_clean", "up", "up_primary", "acting",
        "acting_primary")
PLACE = ("up", "up_primary", "acting", "acting_primary", "mapping_epoch")
PASSING = {"scrubbing", "deep", "snaptrim", "snaptrim_wait", "laggy", "wait"}  # words of a state that say nothing of peering
GAP = "rounds of record without an answer"
TRIMMED = "maps that the monitor didn't give, as after they were trimmed"
WHOLE = "whole"  # in the file of what couldn't be kept: the epoch up to which nothing else is lacking
LEAST_SECONDS = 10  # in which a round may begin queries
AGAIN = 6  # rounds after which a group that stays inactive is queried again
MOST_NEW = 64  # maps of a round, beyond which the monitor is asked first which it has
MOST_THINGS = 100  # that are kept of what was lacking, for each cause
ABOUT = """\
Keeps in a folder what fetch keeps, and goes on: each new map before the monitors trim it, the groups of which `ceph pg dump` says
something else than before, and queries of those that aren't active, before devices die. It changes nothing in the cluster. Each
file is written whole. Where the folder grows beyond --size, the oldest epochs go. A fault of the cluster is told and tried again
in the next round. SIGTERM and SIGINT end it; a second call goes on where the first one ended.

Status 0: it was ended. Status 2: the command line is wrong, the first round failed, another call records into the folder, or a
write failed.
"""


class Record(Fetch):
    """A folder as it follows a cluster."""

    def __init__(self, options: argparse.Namespace):
        super().__init__(options)
        self.told: Dict[str, Dict[str, Any]] = {}  # what was kept last of each group
        self.asked: Dict[str, int] = {}  # the rounds in which groups were queried
        self.rounds = 0
        self.silent_since, self.is_told_large = "", False
        self.maps = FetchedMaps(self.ceph, self.folder, self.notes, self.side_by_side)
        self.last = 0  # the epoch up to which all is kept that the monitor had
        self.most = bytes_of(options.size)
        self.clear_parts()
        self.read_told()

    # Going on

    def clear_parts(self) -> None:
        """Removes what a call that was killed had half written."""
        for name in os.listdir(self.folder.path):
            if name.startswith(".part-") or name.endswith((".getmap", ".getcrushmap")) and name.startswith("."):
                os.unlink(self.folder.at(name))

    def read_told(self) -> None:
        """Reads what an earlier call kept of each group, what it couldn't keep, and how far it had come."""
        before = self.folder.kept("pgs.json")
        notes = self.folder.kept(NOTES)
        try:
            self.told = {name_of(stat): slim(stat) for stat in stats_of(before)} if before else {}
            for cause in (GAP, TRIMMED):
                for thing in notes.key("not_fetched").items_of(cause) if notes else ():
                    self.notes.tell(cause, thing.text())
            self.last = notes.count_of(WHOLE) if notes and self.folder.epochs() else 0
        except Unusable:
            self.told = {}

    # Rounds

    def follow(self) -> None:
        """Round after round; a fault of the first one ends it."""
        while not ENDING.is_set():
            begin = time.monotonic()
            self.round()
            self.rounds += 1
            if self.rounds == self.options.rounds:
                return
            ENDING.wait(max(0.0, begin + self.options.every - time.monotonic()))

    def round(self) -> None:
        try:
            self.keep_round()
        except NoCommand:
            raise
        except Unusable as fault:
            if ENDING.is_set():
                return
            if self.rounds == 0:
                raise
            if not self.silent_since:
                tell(f"no answer, which is tried again: {fault}")
            self.silent_since = self.silent_since or now()
        else:
            if self.silent_since:
                tell(f"it answers again, after {self.silent_since}")
                self.note_gap()
        finally:
            self.progress.clear()

    def note_gap(self) -> None:
        """Keeps for `script` that nothing was kept for a time."""
        self.notes.tell(GAP, f"{self.silent_since} to {now()}")
        self.silent_since = ""
        self.keep_lacking()

    def keep_lacking(self) -> None:
        """Keeps what couldn't be kept, the last of it."""
        for things in self.notes.things.values():
            for old in list(things)[:-MOST_THINGS]:
                del things[old]
        self.folder.keep_notes(self.notes, **{WHOLE: self.last})

    def keep_round(self) -> None:
        """Keeps what is new; reports before maps, so that no report is of a later epoch than the last map."""
        changed = self.keep_groups()
        self.keep_queries(changed)
        if self.keep_maps():
            self.fetch_value("df.json", "osd", "df", "tree")
            self.keep_lacking()
        if not make_room(self.folder, self.most) and not self.is_told_large:
            self.is_told_large = True
            tell(f"{self.folder.path} is larger than --size, and what is left is needed")

    # Groups

    def keep_groups(self) -> List[str]:
        """Keeps the groups of which `ceph pg dump` says something else than before; gives their names."""
        stats = {name_of(stat): slim(stat) for stat in stats_of(self.ceph.value("pg", "dump", "pgs"))}
        changed = [name for name, stat in stats.items() if face(stat) != face(self.told.get(name, {}))]
        gone = [name for name in self.told if name not in stats]
        if changed or gone:
            told = [stats[name] for name in changed]
            epoch = max([Node(stat, "pg dump").count_of("reported_epoch") for stat in told], default=self.last)
            if told:
                self.folder.keep(f"{epoch}-{now()}.pgs.json", {"pg_stats": told})
            self.told = stats
            self.folder.keep("pgs.json", {"pg_stats": list(stats.values())})
        return changed

    def keep_queries(self, changed: List[str]) -> None:
        """Queries the groups that aren't active: those that changed, and others from time to time."""
        for name in changed:
            self.pass_on(name)
            self.asked.pop(name, None)
        down = [name for name, stat in self.told.items() if "active" not in words_of(stat) and stat.get("acting_primary", -1) >= 0]
        due = [name for name in down if self.rounds - self.asked.get(name, -AGAIN) >= AGAIN and self.is_wanted(name)]
        end = time.monotonic() + max(self.options.every, LEAST_SECONDS)
        self.side_by_side("queries", lambda name: self.keep_query(name, end), due)

    def keep_query(self, name: str, end: float) -> None:
        if time.monotonic() > end:
            return
        try:
            node = self.ceph.value("--connect-timeout", "5", "tell", name, "query", tries=1, seconds=15)
            node.key("epoch").count()
        except NoCommand:
            raise
        except Unusable:
            return  # it is asked again in the next round
        self.asked[name] = self.rounds
        self.folder.keep(f"{name}.query.json", node.value)

    def pass_on(self, name: str) -> None:
        """Gives the query of a state that has passed the name of its epoch."""
        node = self.folder.kept(f"{name}.query.json")
        if node is not None and node.has("epoch"):
            os.replace(self.folder.at(f"{name}.query.json"), self.folder.at(f"{name}.{node.key('epoch').count()}.query.json"))

    # Maps

    def keep_maps(self) -> bool:
        """Keeps each new map with its tree, and where groups lie; tells whether there was one."""
        new = self.new_maps() if self.maps.versions else self.first_maps()
        if not new:
            return False
        self.maps.fetch_trees()
        self.maps.fetch_last_map()
        if not self.options.no_groups:
            self.maps.fetch_sets()
        self.goes_on()
        is_newer, self.last = new[-1] > self.last, new[-1]
        last = self.maps.versions[self.last]
        self.maps.versions = {epoch: version for epoch, version in self.maps.versions.items() if version == last}
        return is_newer

    def first_maps(self) -> List[int]:
        """Keeps the maps that the monitor has, from the epoch on up to which an earlier call kept all."""
        self.maps.fetch(max(self.options.since, self.last), MOST)
        self.goes_on()
        found = sorted(self.maps.versions)
        for epoch in self.folder.epochs():
            node = self.folder.kept(f"{epoch}.osd.json") if os.path.isfile(self.folder.at(f"{epoch}.crush.json")) else None
            if node is not None:
                self.maps.versions[epoch] = node.count_of("crush_version")
        return found

    def new_maps(self) -> List[int]:
        last = self.ceph.value("osd", "dump").key("epoch").count()
        wanted = range(self.last + 1, last + 1)
        if len(wanted) > MOST_NEW:
            return self.first_maps()
        found = self.side_by_side("maps", self.maps.fetch_map, wanted)
        self.goes_on()
        for epoch, is_there in zip(wanted, found):
            if not is_there:
                self.notes.tell(TRIMMED, f"epoch {epoch}")
        return [epoch for epoch, is_there in zip(wanted, found) if is_there]

    @staticmethod
    def goes_on() -> None:
        """Ends the round where the process is to end, since what failed then says nothing of the cluster."""
        if ENDING.is_set():
            raise Unusable("it was ended")


def name_of(stat: Node) -> str:
    return group_text(read_group(stat.key("pgid")))


def slim(stat: Node) -> Dict[str, Any]:
    """What is kept of a group: what `script` reads."""
    stat.key("state").text()
    if stat.has("acting_primary"):
        stat.key("acting_primary").whole()
    return {key: stat.value[key] for key in KEYS if stat.has(key)}


def words_of(stat: Dict[str, Any]) -> List[str]:
    return [word for word in stat.get("state", "").split("+") if word not in PASSING]


def face(stat: Dict[str, Any]) -> Any:
    """What of a group begins a new file where it changes: not its writes, nor that it is scrubbed."""
    return words_of(stat), [stat.get(key) for key in PLACE]


def now() -> str:
    """The time, to a thousandth of a second, as the name of a file may have it."""
    second = time.time()
    return time.strftime("%Y%m%dT%H%M%S", time.gmtime(second)) + f"{int(second * 1000) % 1000:03}Z"


# The verb


def locked(folder: str) -> IO[str]:
    """Has no other call record into the folder."""
    lock = open(os.path.join(folder, ".lock"), "w", encoding="utf-8")
    try:
        fcntl.flock(lock, fcntl.LOCK_EX | fcntl.LOCK_NB)
    except OSError as fault:
        raise Unusable(f"{folder}: another call records into it") from fault
    return lock


def end(number: int, frame: Any) -> None:
    end_all()


def run(options: argparse.Namespace) -> int:
    if options.jobs < 1 or options.every <= 0 or options.rounds < 0:
        raise Unusable("--jobs is at least 1, --every above 0, and --rounds at least 0")
    bytes_of(options.size)
    ceph_of(options.ceph)
    os.makedirs(options.folder, exist_ok=True)
    with locked(options.folder):
        for number in (signal.SIGTERM, signal.SIGINT):
            signal.signal(number, end)
        Record(options).follow()
    return 0


def add_to(verbs: Any) -> None:
    parser = verbs.add_parser("record", help="follow a cluster into a folder", description=ABOUT,
                              formatter_class=argparse.RawDescriptionHelpFormatter)
    parser.add_argument("folder", metavar="FOLDER", help="the folder, which is made where it isn't there")
    parser.add_argument("--every", type=float, default=10, metavar="SECONDS", help="begin a round so often (10)")
    parser.add_argument("--size", default="2G", metavar="BYTES", help="how large the folder may get, as 500M or 2G (2G)")
    parser.add_argument("--rounds", type=int, default=0, metavar="N", help="end after so many rounds")
    parser.add_argument("--ceph", default="ceph", metavar="WORDS", help="how ceph is called, as 'cephadm shell -- ceph'")
    parser.add_argument("--pool", type=int, action="append", default=[], metavar="ID", help="query groups of this pool alone")
    parser.add_argument("--jobs", type=int, default=4, metavar="N", help="how many commands run side by side (4)")
    parser.add_argument("--from", dest="since", type=int, default=0, metavar="EPOCH", help="the first epoch")
    parser.add_argument("--no-groups", action="store_true", help="don't keep where groups lie, for a tree of list buckets")
    parser.set_defaults(run=run, pg=[], seconds=0, until=MOST)
