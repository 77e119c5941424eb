"""What a script says of one group, entry by entry, as the program answers it."""

import bisect
import json
import subprocess
import tempfile
from typing import Any, Dict, FrozenSet, Generator, Iterable, Iterator, List, NamedTuple, Optional, Set, Tuple, cast

from .epochs import Epochs
from .maps import named_group
from .nodes import Unusable, ranges, text_of
from .numbers import Numbers
from .program import FORMAT
from .reasons import Reasons, explained

ENTRIES = ("inc", "info", "entries", "close")
MOST_EPOCH = 2**32 - 1
UNKNOWN = "Unknown"  # in the place of a verdict

Member = Tuple[int, int]  # a device and its slot
Entry = Tuple[int, str, Dict[str, Any]]  # the number of its line, its text and its value
View = Dict[str, Any]


class Event(NamedTuple):
    """What an incremental does to a device: "up", "down" or "gone"."""

    osd: int
    kind: str


class Step(NamedTuple):
    """An entry that was taken, and the answer about the group after it; only the last step's has the past intervals."""

    op: str
    events: List[Event]
    view: View
    unheard: List[Member]

    def verdict(self) -> str:
        """The verdict, unknown where the group waits to hear from all and no report of the interval was kept so far."""
        is_unknown = self.view["verdict"] == "Waiting" and len(self.unheard) == len(self.view["probe"])
        return UNKNOWN if is_unknown else str(self.view["verdict"])

    def state(self) -> Tuple[Any, ...]:
        """What the picture shows of the group after the entry."""
        return self.view["first"], self.verdict(), self.view["blocked_by"], self.unheard


class Span(NamedTuple):
    """An interval; rw is None in the current one. It is one by report where no map says that it may have gone read-write."""

    first: int
    last: int
    up: List[Optional[int]]
    acting: List[Optional[int]]
    primary: Optional[int]
    rw: Optional[bool]
    by_report: bool = False

    def devices(self) -> Iterator[int]:
        return (osd for osd in self.up + self.acting if osd is not None)


class Pool(NamedTuple):
    kind: str
    k: Optional[int]  # in an erasure pool
    size: int
    min_size: int
    groups: Any = ()  # in a grouped pool: of each part its slots, and how many of them are enough

    def text(self) -> str:
        code = f", any {self.k} shards are enough" if self.k else ""
        if self.groups:
            code = ", enough with " + " and ".join(part_text(slots, least) for slots, least in self.groups)
        return f"{self.kind} pool, size {self.size}, min_size {self.min_size}{code}"

    def is_by_place(self) -> bool:
        """Tells whether a member's slot is its place in the list."""
        return self.kind != "replicated"

    def are_enough(self, slots: Iterable[int]) -> bool:
        have = set(slots)
        if self.groups:
            return all(len(have & set(part)) >= least for part, least in self.groups)
        return len(have) >= (self.k or 1)


def part_text(slots: List[int], least: int) -> str:
    """A part of a code, as `2 of shards 0-2`, or as `shard 3` where it is one."""
    name = f"shard{'s' if len(slots) > 1 else ''} {ranges(slots)}"
    return name if least == len(slots) == 1 else f"{least} of {name}"


def pool_of(entry: Dict[str, Any]) -> Pool:
    """The pool that an entry makes, which the program takes."""
    return Pool(entry["kind"], entry.get("k"), entry["size"], entry["min_size"], entry.get("groups", ()))


class Group(NamedTuple):
    """All that is drawn of a group."""

    name: str
    pool: Pool
    steps: List[Step]
    by_report: FrozenSet[int] = frozenset()  # the first epochs of intervals that reports alone say may have gone read-write
    why: Optional[Reasons] = None  # what is said of it after the last step

    def spans(self) -> List[Span]:
        view = self.steps[-1].view
        past = [Span(it["first"], it["last"], it["up"], it["acting"], it["acting_primary"], it["rw"], it["first"] in self.by_report)
                for it in view["intervals"]]
        return past + [Span(view["first"], view["epoch"], view["up"], view["acting"], view["acting_primary"], None)]


Facts = Dict[int, List[Tuple[int, int]]]  # by device the epochs in which a fact was given, and what it was then


def fact_at(facts: Facts, osd: int, epoch: int) -> int:
    """What was given last of a device, up to an epoch; 0 where nothing was."""
    given = facts.get(osd, [])
    at = bisect.bisect_right(given, (epoch, MOST_EPOCH + 1))
    return given[at - 1][1] if at else 0


class History:
    """What the taken entries say of devices, the group's pool and its reports."""

    def __init__(self, pool: int, pg: int):
        self.pool, self.pg = pool, pg
        self.booted: Dict[int, int] = {}  # the epochs since which devices are up
        self.stamps: Dict[Member, int] = {}  # the greatest of each member
        self.gone: Set[int] = set()  # devices that were destroyed
        self.boots: Facts = {}
        self.thrus: Facts = {}
        self.losts: Facts = {}
        self.made: Optional[Pool] = None

    def take(self, entry: Dict[str, Any]) -> List[Event]:
        """Takes an entry; gives what it does to devices."""
        if entry["op"] == "info" and entry["pg"] == [self.pool, self.pg]:
            osd, slot = entry["from"]
            self.stamps[osd, slot] = max(entry["stamp"], self.stamps.get((osd, slot), 0))
        if entry["op"] != "inc":
            return []
        for pool in entry.get("pools", []):
            if pool["id"] == self.pool:
                self.made = pool_of(pool)
        for number, size, min_size in entry.get("sizes", []):
            if number == self.pool and self.made:
                self.made = self.made._replace(size=size, min_size=min_size)
        self.take_facts(entry)
        events = [Event(osd, kind) for kind in ("up", "down", "gone") for osd in entry.get(kind, [])]
        for osd, kind in events:
            self.booted.pop(osd, None)
            self.gone.discard(osd)
            if kind == "up":
                self.booted[osd] = entry["epoch"]
            elif kind == "gone":
                self.gone.add(osd)
        return events

    def take_facts(self, inc: Dict[str, Any]) -> None:
        boots = [(osd, inc["epoch"]) for osd in inc.get("up", [])]
        for facts, given in ((self.boots, boots), (self.thrus, inc.get("up_thru", [])), (self.losts, inc.get("lost", []))):
            for osd, value in given:
                facts.setdefault(osd, []).append((inc["epoch"], value))

    def is_lost(self, osd: int, first: int) -> bool:
        """Tells whether a device is taken for lost in a past interval that began in the epoch `first`."""
        is_up_or_gone = osd in self.booted or osd in self.gone
        return not is_up_or_gone and fact_at(self.losts, osd, MOST_EPOCH) > first

    def by_report(self, view: View) -> FrozenSet[int]:
        """The first epochs of past intervals that may have gone read-write and whose last maps don't say so: then a report
        says that the group was clean in them."""
        return frozenset(it["first"] for it in view["intervals"] if it["rw"] and not self.is_recorded(it))

    def is_recorded(self, interval: Dict[str, Any]) -> bool:
        """Tells whether the map of an interval's last epoch says that its primary was up in it."""
        primary, first, last = interval["acting_primary"], interval["first"], interval["last"]
        return fact_at(self.thrus, primary, last) >= first >= fact_at(self.boots, primary, last)

    def unheard(self, view: View) -> List[Member]:
        """The members that have to be heard and have no info that counts."""
        return [(osd, slot) for osd, slot in view["probe"] if not self.heard((osd, slot), view["first"])]

    def heard(self, member: Member, first: int) -> bool:
        """A report counts if its stamp isn't before the current interval, and its device is up and booted no later."""
        since = self.booted.get(member[0])
        return since is not None and self.stamps.get(member, -1) >= max(first, since)


# Scripts


def read_script(path: str) -> List[Entry]:
    """The entries of a script."""
    entries = []
    for number, line in enumerate(text_of(path).split("\n"), 1):
        if not line.strip(" \t\r"):
            continue
        try:
            value = json.loads(line)
        except (ValueError, RecursionError) as fault:
            raise Unusable(f"{path}, line {number} is not JSON: {fault}") from fault
        if not isinstance(value, dict) or not isinstance(value.get("op"), str):
            raise Unusable(f"{path}, line {number} is no object with a key 'op'")
        if value["op"] in ENTRIES:
            entries.append((number, line, value))
    return entries


def up_to(entries: List[Entry], epoch: int) -> List[Entry]:
    """The entries before the first incremental of a later epoch."""
    def is_later(value: Dict[str, Any]) -> bool:
        return value["op"] == "inc" and isinstance(value.get("epoch"), int) and value["epoch"] > epoch

    end = next((at for at, (_, _, value) in enumerate(entries) if is_later(value)), len(entries))
    return entries[:end]


# The program


READ_BYTES = 1 << 20  # at a time: answers with thousands of intervals are long


def streamed(program: str, lines: Iterable[str]) -> Generator[bytes, None, None]:
    """The program's answers to the lines, one after the other."""
    with tempfile.TemporaryFile() as script, tempfile.TemporaryFile() as errors:
        script.writelines(line.encode() + b"\n" for line in lines)
        script.seek(0)
        try:
            run = subprocess.Popen([program, "run", *FORMAT], bufsize=READ_BYTES, stdin=script, stdout=subprocess.PIPE, stderr=errors)
        except OSError as fault:
            raise Unusable(f"{program}: {fault.strerror}") from fault
        assert run.stdout is not None
        try:
            yield from run.stdout
        finally:
            run.stdout.close()
            status = run.wait()
        if status != 0:
            errors.seek(0)
            said = errors.read(1000).decode(errors="replace").strip()
            raise Unusable(f"{program} ended with status {status}: {said}")


def answer_of(line: bytes, program: str) -> Dict[str, Any]:
    try:
        found = json.loads(line)
    except (ValueError, RecursionError) as fault:
        raise Unusable(f"{program} gave an answer that is not JSON") from fault
    if not isinstance(found, dict):
        raise Unusable(f"{program} gave an answer that is no object")
    return found


def answers(program: str, lines: List[str]) -> List[Dict[str, Any]]:
    """The program's answers to lines none of which is blank."""
    found = [answer_of(line, program) for line in streamed(program, lines)]
    if len(found) != len(lines):
        raise Unusable(f"{program} gave {len(found)} answers to {len(lines)} lines")
    return found


INTERVALS = b'"intervals":['


def without_intervals(line: bytes) -> bytes:
    """An answer without its past intervals, which make most of it where they are many."""
    begin, end = line.find(INTERVALS), line.rfind(b'],"les":')
    return line if begin < 0 or end < begin else line[: begin + len(INTERVALS)] + line[end:]


# The group


class AskedScript(NamedTuple):
    """A script that is asked about a group after those of its entries that may change something for it."""

    entries: List[Entry]
    after: List[bool]


def devices_of(view: View, entries: List[Entry], group: List[int]) -> Set[int]:
    """The devices that were ever in up or acting of the group, or sent a report of it."""
    lists = [view["up"], view["acting"], *(it[key] for it in view["intervals"] for key in ("up", "acting"))]
    reporters = {entry["from"][0] for _, _, entry in entries if entry.get("pg") == group and is_pair(entry.get("from"))}
    return {osd for places in lists for osd in places if osd is not None} | reporters


def is_pair(value: Any) -> bool:
    return isinstance(value, list) and len(value) == 2 and isinstance(value[0], int)


def may_touch(entry: Dict[str, Any], group: List[int], devices: Set[int]) -> bool:
    """Tells whether the entry, if it is taken, may change more of the group's view than count and epoch."""
    if entry["op"] != "inc":
        return entry.get("pg") == group
    if any(entry.get(key) for key in ("weight", "crush", "pools", "sizes")):
        return True
    temps, named = entry.get("temp"), [entry.get(key) for key in ("up", "down", "gone", "up_thru", "lost")]
    if isinstance(temps, list) and any(isinstance(it, list) and it[:2] == group for it in temps):
        return True
    items = (it for part in named if isinstance(part, list) for it in part)
    return any((it[0] if isinstance(it, list) and it else it) in devices for it in items if not isinstance(it, dict))


def followed(program: str, path: str, pool: int, pg: int, since: int = 0, until: int = MOST_EPOCH,
             epochs: Epochs = Epochs()) -> Tuple[Group, List[str]]:
    """The group after each entry from the map of the epoch `since` on, up to the epoch `until`; and what was refused. Why it
    doesn't serve is said in the epochs of Ceph."""
    every, group = read_script(path), [pool, pg]
    entries = up_to(every, until)
    lines = [line for _, line, _ in entries]
    question = json.dumps({"op": "ask", "pg": group})
    *said, last = answers(program, [*lines, question])
    if "ok" not in last:
        raise missing_group(path, f"{pool}.{pg:x}", pools_of(entry for _, _, entry in entries))
    if len(up_to(every, since)) < len(every):  # an epoch that was passed over has the map before it
        since = max((it["epoch"] for it in said if "ok" in it and it["epoch"] <= since), default=since)
    devices = devices_of(last, entries, group)
    asked = AskedScript(entries, [may_touch(entry, group, devices) for _, _, entry in entries])
    found, refused = steps_of(program, path, asked, group, since, last)
    return found._replace(why=explained(program, lines, found.name, epochs)), refused


def lines_of(asked: AskedScript, question: str) -> Iterator[str]:
    for (_, line, _), is_asked in zip(asked.entries, asked.after):
        yield line
        if is_asked:
            yield question


def steps_of(program: str, path: str, asked: AskedScript, group: List[int], since: int, last: View) -> Tuple[Group, List[str]]:
    """The group's steps from an epoch on."""
    said = streamed(program, lines_of(asked, json.dumps({"op": "ask", "pg": group})))
    history, view = History(*group), cast(View, {})
    steps: List[Step] = []
    refused: List[str] = []
    try:
        for (number, _, entry), is_asked in zip(asked.entries, asked.after):
            taken = answer_of(next(said), program)
            found = next(said) if is_asked else b""
            if "ok" not in taken:
                key = f" ({taken['key']})" if "key" in taken else ""
                refused.append(f"{path}, line {number} was refused: {taken.get('refused')}{key}")
                continue
            events = history.take(entry)
            if is_asked and taken["epoch"] >= since or not view and found:
                view = answer_of(without_intervals(found), program)
            view = {**view, "epoch": taken["epoch"], "count": taken["count"]} if view else view
            if "ok" in view and taken["epoch"] >= since:
                steps.append(Step(entry["op"], events, view, history.unheard(view)))
    except StopIteration:
        raise Unusable(f"{program} gave fewer answers than there are lines") from None
    finally:
        said.close()
    if not steps or history.made is None:
        raise Unusable(f"{path} has no entry of the group {group[0]}.{group[1]:x} in these epochs")
    steps[-1] = steps[-1]._replace(view=last)
    return Group(f"{group[0]}.{group[1]:x}", history.made, steps, history.by_report(last)), refused


# Groups


def group_of(words: str, numbers: Numbers = Numbers()) -> Tuple[int, int]:
    """The script's pool and number of a group that a command line names as Ceph does."""
    pool, pg = numbers.in_script(named_group(words))
    if not (1 <= pool <= 255 and pg <= 1023):
        raise Unusable(f"there can be no group '{words}'")
    return pool, pg


def pools_of(entries: Iterable[Dict[str, Any]]) -> Dict[int, int]:
    """The pools that a script makes, and how many groups they have."""
    pools = [pool for entry in entries for pool in entry.get("pools") or [] if isinstance(pool, dict)]
    numbers = ((pool.get("id"), pool.get("pg_num")) for pool in pools)
    return {pool: count for pool, count in numbers if isinstance(pool, int) and isinstance(count, int)}


def missing_group(path: str, words: str, pools: Dict[int, int]) -> Unusable:
    """That a script makes no such group, and which it makes."""
    there = ", ".join(f"{pool}.0 to {pool}.{count - 1:x}" if count > 1 else f"{pool}.0" for pool, count in sorted(pools.items()))
    return Unusable(f"{path} makes no group {words}; it has {there or 'none'}")
