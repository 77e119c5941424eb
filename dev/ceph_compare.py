"""Holds what the program says of groups against what a real cluster said of them, step by step.

Each difference has the name of a rule that explains it, or none. docs/REAL_MAPS.md tells what each rule is.
"""

import collections
from dataclasses import dataclass, field
from typing import Any, Counter, Dict, Iterator, List, NamedTuple, Optional, Set, Tuple

import ceph_package  # noqa: F401
from ceph_outages import Record, StepRecord
from pgpeer_ceph.folder import Dumps, version_of
from pgpeer_ceph.history import history
from pgpeer_ceph.maps import ERASURE, Code, Group, code_of, group_text
from pgpeer_ceph.nodes import Node, compact
from pgpeer_ceph.notes import Notes
from pgpeer_ceph.reports import MOST_ENTRIES, Line, Member, Query, read_query
from pgpeer_ceph.sets import Where, printed_sets
from pgpeer_ceph.steps import View, answers
from pgpeer_ceph.story import Selection

Interval = Tuple[int, int, Tuple[Member, ...]]

# The rules, in the order of docs/REAL_MAPS.md.
CLEAN = "last clean"
SUPERSEDED = "superseded"
PARTICIPANTS = "participants"
NO_LEADER = "no leader"
FEW_SHARDS = "few shards"
HEARD_BEFORE = "heard before"
TWICE = "device twice"
UP_ALONE = "up alone"
UNSETTLED = "unsettled"

# What `history` tells of groups, and the rule that it makes; of several the last.
TOLD = {"changes of up sets alone, which begin an interval in Ceph": UP_ALONE, "pg_temp lists, left out": TWICE, "acting sets, left out": TWICE}


class Difference(NamedTuple):
    """What differs of a group after a step, and the rule that explains it; "" where none does."""

    seed: int
    step: int
    group: str
    what: str
    ours: str
    theirs: str
    rule: str


@dataclass
class Result:
    """What was compared."""

    states: int = 0
    steps: int = 0
    agree: Counter[str] = field(default_factory=collections.Counter)
    differ: List[Difference] = field(default_factory=list)
    verdicts: Counter[Tuple[str, str]] = field(default_factory=collections.Counter)
    seconds: float = 0.0

    def unnamed(self) -> List[Difference]:
        return [it for it in self.differ if not it.rule]


class Devices(NamedTuple):
    """What the last map says of devices."""

    up: Set[int]
    exists: Set[int]
    lost_at: Dict[int, int]
    down_at: Dict[int, int]

    def status(self, osd: int, first: int) -> str:
        if osd in self.up:
            return "Up"
        if osd not in self.exists:
            return "Gone"
        return "Lost" if self.lost_at[osd] > first else "Down"

    def as_at(self, since: int) -> "Devices":
        """With those for up that were it in an epoch from this one on."""
        return self._replace(up=self.up | {osd for osd, epoch in self.down_at.items() if epoch > since})


def devices_of(osdmap: Dict[str, Any]) -> Devices:
    osds = osdmap["osds"]
    up, exists = {it["osd"] for it in osds if it["up"]}, {it["osd"] for it in osds}
    return Devices(up, exists, *({it["osd"]: it[key] for it in osds} for key in ("lost_at", "down_at")))


class PoolCode(NamedTuple):
    """What of a pool plays a part: its code, as the script has it; None where it is replicated."""

    code: Optional[Code]

    def members(self, places: Any) -> Tuple[Member, ...]:
        return tuple(sorted((osd, 0 if self.code is None else at) for at, osd in enumerate(places) if osd is not None))

    def are_enough(self, members: Any) -> bool:
        slots = {slot for _, slot in members}
        return bool(slots) if self.code is None else self.code.are_enough(slots)


def rules_of(osdmap: Dict[str, Any]) -> Dict[int, PoolCode]:
    return {pool["pool"]: PoolCode(pool_code(osdmap, pool) if pool["type"] == ERASURE else None) for pool in osdmap["pools"]}


def pool_code(osdmap: Dict[str, Any], pool: Dict[str, Any]) -> Code:
    name = pool["erasure_code_profile"]
    return code_of(Node(osdmap["erasure_code_profiles"][name], name), pool["size"])


# What Ceph would say by our intervals


def without_superseded(intervals: List[Interval]) -> List[Interval]:
    """Ceph drops an interval once a later one has no member that it hadn't."""
    return [it for at, it in enumerate(intervals) if not any(set(later[2]) <= set(it[2]) for later in intervals[at + 1 :])]


def wrote(view: View, rule: PoolCode) -> List[Interval]:
    return [(it["first"], it["last"], rule.members(it["acting"])) for it in view["intervals"] if it["rw"]]


def blocked(intervals: List[Interval], les: int, devices: Devices, rule: PoolCode) -> Set[int]:
    """The devices that are down in intervals that block."""
    found: Set[int] = set()
    for first, last, members in intervals:
        status = {member: devices.status(member[0], first) for member in members}
        counted = [member for member, it in status.items() if it in ("Up", "Lost")]
        if last >= les and not rule.are_enough(counted):
            found |= {member[0] for member, it in status.items() if it == "Down"}
    return found


def participants(view: View, since: int, devices: Devices, rule: PoolCode) -> Set[Member]:
    """The members of past intervals that are up, whether these may have gone read-write or not."""
    past = (it for it in view["intervals"] if it["last"] >= since)
    return {member for it in past for member in rule.members(it["acting"]) if member[0] in devices.up}


def expected_state(view: View) -> str:
    """The word of Ceph for a verdict."""
    return {"Serve": "active", "Short": "peered", "Down": "down", "Incomplete": "incomplete",
            "Waiting": "peering", "NeedUpThru": "peering"}.get(view["verdict"], view["verdict"])


def ceph_state(state: str) -> str:
    words = state.split("+")
    return next((word for word in ("down", "incomplete", "active", "peered", "peering", "activating") if word in words), state)


# Comparing


class Case(NamedTuple):
    """A group after a step, as both say it."""

    view: View
    where: Where
    query: Optional[Query]
    devices: Devices
    rule: PoolCode
    is_settled: bool


class Finding(NamedTuple):
    what: str
    ours: Any
    theirs: Any
    rule: str = ""


def compared(case: Case) -> List[Finding]:
    """What both say of a group, thing by thing, with the rule where they differ and one explains it."""
    view, where = case.view, case.where
    found = [Finding("up", tuple(view["up"]), where.up), Finding("up primary", view["up_primary"], where.up_primary),
             Finding("acting", tuple(view["acting"]), where.acting),
             Finding("acting primary", view["acting_primary"], where.acting_primary)]
    if case.query is None:
        rule = NO_LEADER if where.acting_primary is None else UNSETTLED
        return [*found, Finding("state", expected_state(view), "no answer", rule)]
    found.append(Finding("interval since", view["first"], case.query.since))
    found.append(state_finding(case, case.query))
    return found + (peering_findings(case, case.query) if case.query.told_from else [])


def state_finding(case: Case, query: Query) -> Finding:
    ours, theirs, rule = expected_state(case.view), ceph_state(query.state), ""
    if ours == "peered" and theirs == "incomplete" and not case.rule.are_enough(case.rule.members(case.view["acting"])):
        rule = FEW_SHARDS
    elif case.view["verdict"] == "Down" and theirs in ("active", "peered") and not blocked_at_first(case):
        rule = HEARD_BEFORE
    elif ours != theirs and not case.is_settled:
        rule = UNSETTLED
    return Finding("state", ours, theirs, rule if ours != theirs else "")


def blocked_at_first(case: Case) -> Set[int]:
    """The devices that blocked the group when its current interval began."""
    view = case.view
    return blocked(wrote(view, case.rule), view["les"], case.devices.as_at(view["first"]), case.rule)


def peering_findings(case: Case, query: Query) -> List[Finding]:
    """Past intervals, who is probed and who blocks."""
    view, devices, rule = case.view, case.devices, case.rule
    ours = wrote(view, rule)
    theirs = [(past.first, past.last, tuple(sorted(past.acting))) for past in query.past]
    since_clean = [it for it in ours if it[1] >= query.told_from]
    listed = without_superseded(since_clean)
    named = SUPERSEDED if listed != since_clean else CLEAN
    found = [Finding("past intervals", ours, theirs, named if listed == theirs != ours else "")]
    probe, probed = {tuple(it) for it in view["probe"]}, set(query.probing or ())
    wider = probe | participants(view, query.told_from, devices, rule)
    found.append(Finding("probed", sorted(probe), sorted(probed), PARTICIPANTS if wider == probed != probe else ""))
    ours_blocked, theirs_blocked = set(view["blocked_by"]), set(query.blocked_by)
    by_rules = blocked(listed, view["les"], devices, rule)
    rule_name = named if by_rules == theirs_blocked != ours_blocked else ""
    found.append(Finding("blocked by", sorted(ours_blocked), sorted(theirs_blocked), rule_name))
    return found


# A record


def step_script(record: Record, step: StepRecord) -> Tuple[List[str], List[Group], Dict[str, str]]:
    """The lines up to a step, with its reports alone; the groups that are asked for at the end; and the rules of groups that
    couldn't be carried whole."""
    maps = {epoch: Node(it, f"epoch {epoch}") for epoch, it in record.maps.items() if epoch <= step.epoch}
    versions = {version_of(node) for node in maps.values()}
    trees = {version: Node(it, f"tree {version}") for version, it in record.trees.items() if version in versions}
    queries = [Node(it, f"query of {group}") for group, it in step.queries.items()]
    notes = Notes()
    sets = {epoch: printed_sets(text, "osdmaptool") for epoch, text in record.sets.items() if epoch <= step.epoch}
    made = history(Dumps(maps, trees, sets, queries=queries), Selection([], own_sets=bool(sets), ask=True), notes)
    told = {thing.split()[0]: rule for cause, rule in TOLD.items() for thing in notes.things.get(cause, ())}
    groups: List[Group] = [(line["pg"][0], line["pg"][1]) for line in made.lines if line["op"] == "ask"]
    return [compact(it) for line in made.lines for it in (line, *entries(line))], groups, told


def entries(line: Line) -> Iterator[Line]:
    """Log entries of an info in the place of those that a running device doesn't give: of the right numbers, without names."""
    if line["op"] != "info":
        return
    numbers, epoch = range(line["log_tail"][1] + 1, line["last_update"][1] + 1), line["last_update"][0]
    for at in range(0, len(numbers), MOST_ENTRIES):
        log = [[epoch, number, "modify", "unknown"] for number in numbers[at : at + MOST_ENTRIES]]
        yield {"op": "entries", **{key: line[key] for key in ("pg", "from", "stamp")}, "log": log}


def compare_step(program: str, record: Record, at: int, result: Result) -> None:
    step = record.steps[at]
    lines, groups, told = step_script(record, step)
    said = answers(program, lines)
    refused = [(line, answer) for line, answer in zip(lines, said) if "ok" not in answer]
    for line, answer in refused:
        result.differ.append(Difference(record.seed, at, "", "refused", line[:200], str(answer), ""))
    theirs = printed_sets(step.groups, "osdmaptool")
    devices, rules = devices_of(record.maps[step.epoch]), rules_of(record.maps[step.epoch])
    queries = {name: read_query(Node(it, name)) for name, it in step.queries.items()}
    result.steps += 1
    for group, view in zip(groups, said[len(said) - len(groups) :]):
        if "ok" not in view:
            continue
        query = queries.get(group_text(group))
        case = Case(view, theirs[group], query, devices, rules[group[0]], step.is_settled)
        result.states += 1
        result.verdicts[view["verdict"], ceph_state(query.state) if query else "no answer"] += 1
        for finding in compared(case):
            if finding.what.startswith("up") and record.sets:
                continue  # up sets aren't carried beside Ceph's acting sets
            of_group = told.get(group_text(group), "")
            named = finding.rule or ("" if of_group == UP_ALONE and finding.what.startswith("acting") else of_group)
            take_finding(record, at, group, finding._replace(rule=named), result)


def take_finding(record: Record, at: int, group: Group, finding: Finding, result: Result) -> None:
    if finding.ours == finding.theirs:
        result.agree[finding.what] += 1
    else:
        texts = str(finding.ours), str(finding.theirs)
        result.differ.append(Difference(record.seed, at, group_text(group), finding.what, *texts, finding.rule))


def compare_record(program: str, record: Record, result: Result) -> None:
    for at in range(len(record.steps)):
        compare_step(program, record, at, result)
    result.seconds += record.seconds


def table(result: Result) -> str:
    """How often each thing agreed or differed, by rule, in Markdown."""
    lines = ["| Compared | agree | differ | rule |", "|---|---:|---:|---|"]
    rules = collections.Counter((it.what, it.rule or "NONE") for it in result.differ)
    for what in dict.fromkeys([*result.agree, *(it.what for it in result.differ)]):
        named = {rule: count for (thing, rule), count in rules.items() if thing == what}
        told = ", ".join(f"{rule} {count}" for rule, count in sorted(named.items()))
        lines.append(f"| {what} | {result.agree[what]} | {sum(named.values())} | {told} |")
    return "\n".join(lines)


def verdict_table(result: Result) -> str:
    lines = ["| pgpeer | Ceph | states |", "|---|---|---:|"]
    return "\n".join(lines + [f"| {ours} | {theirs} | {count} |" for (ours, theirs), count in sorted(result.verdicts.items())])
