#!/usr/bin/env python3
"""Says which answers a script must have: a model of the program, written from docs/FORMAT.md and docs/RULES.md.

    fuzz/model.py < SCRIPT > ANSWERS

It works by whole lists and shares no code with the program. It is never out of memory.
"""

import json
import sys
from typing import Any, Dict, Iterator, List, NamedTuple, Optional, Tuple

import codes
import lines
import maps
import peering
import placement
from maps import Group

MOST_TAKEN = 65_535  # entries of the log, except a Close
REPORT_NAMES = {60: "UnknownGroup", 61: "UnknownMember", 62: "FutureStamp", 63: "BadVersion"}


class Answer(NamedTuple):
    """An answer with what is counted of it: the operation, where the line has one, the code of a refusal or 0, and what else
    the line is, where it isn't refused."""

    text: str
    op: str
    code: int
    detail: str = ""
    about: Tuple[str, ...] = ()


compact = json.JSONEncoder(separators=(",", ":"), ensure_ascii=False, sort_keys=True).encode


def versions_of(report: Dict[str, Any]) -> List[Tuple[int, int]]:
    if report["op"] == "info":
        return [tuple(report["last_update"]), tuple(report["log_tail"])]
    return [(epoch, v) for epoch, v, _, _ in report["log"]]


def is_bad_report(report: Dict[str, Any]) -> bool:
    """Tells whether a version or an epoch of the report can't be."""
    versions, stamp = versions_of(report), report["stamp"]
    if any((epoch == 0) != (v == 0) or epoch > stamp for epoch, v in versions):
        return True
    if report["op"] == "entries":
        return (0, 0) in versions
    if max(report["les"], report["history_les"], report.get("last_epoch_clean", 0)) > stamp:
        return True
    last, tail = versions
    return tail > last or tail[1] > last[1] or (tail[1] == last[1] and tail != last)


class Model:
    """The log of a script, as far as it was read."""

    def __init__(self, last: int = 2) -> None:
        """Lines up to the last version are read."""
        self.last = last
        self.count = 0
        self.is_closed = False
        self.maps = maps.Maps()
        self.reports: Dict[Group, List[Dict[str, Any]]] = {}
        self.histories: Dict[Group, List[peering.State]] = {}
        self.views: Dict[Group, Tuple[int, Dict[str, Any]]] = {}

    def answer(self, line: bytes) -> Optional[Answer]:
        """The answer to the next line, which has no line feed; None where the line is blank."""
        if lines.is_blank(line):
            return None
        command = lines.read(line, self.last)
        if isinstance(command, lines.Fault):
            key = {} if command.key is None else {"key": command.key}
            return Answer(compact({"code": command.code, **key, "refused": command.name}), command.op, command.code)
        handlers = {"ask": self.ask, "locate": self.locate, "trace": self.trace}
        found = handlers.get(command.op, self.submit)(command.value)
        return found if found.code else found._replace(about=tuple(self.about(command.value)))

    def about(self, value: Dict[str, Any]) -> Iterator[str]:
        """What is counted of a line that isn't refused, beside its answer."""
        if "v" in value:
            yield f"lines of version {value['v']}"
        if value.get("last_epoch_clean", 0) > 0:
            yield "infos of a clean epoch"
        if any(pool["kind"] == "grouped" for pool in value.get("pools", ())):
            yield "incrementals with grouped pools"
        if any(bucket["alg"] == "straw2" for bucket in value.get("crush", ())):
            yield "incrementals with straw2 buckets"
        if value["op"] == "inc" and value["epoch"] > value.get("after", value["epoch"]) + 1:
            yield "incrementals that pass over epochs"
        if value["op"] == "trace" and codes.is_grouped(codes.code_of(value["code"])):
            yield "traces of grouped codes"
        if value["op"] == "ask":
            group = tuple(value["pg"])
            if codes.is_grouped(self.maps.code(group[0])):
                yield "questions about grouped pools"
            if self.raised(group):
                yield "questions with a flag that a clean epoch raised"

    def raised(self, group: Group) -> List[int]:
        """The first epochs of the group's past intervals that have their flags by a clean epoch alone."""
        infos = [report for report in self.reports.get(group, []) if report["op"] == "info"]
        if peering.cleans_of(infos) <= {0}:
            return []
        found, plain = self.view(group)["intervals"], peering.intervals(self.maps.code(group[0]), self.histories[group])
        return [past["first"] for past, it in zip(found, plain) if past["rw"] and not it.rw]

    def refused(self, op: str, code: int, name: str, tree: Optional[int] = None) -> Answer:
        more = {} if tree is None else {"tree": tree}
        return Answer(compact({"code": code, "refused": name, **more}), op, code, str(tree or ""))

    # Entries

    def submit(self, entry: Dict[str, Any]) -> Answer:
        op = entry["op"]
        if self.is_closed:
            return self.refused(op, 64, "Closed")
        refusal = self.refusal_of(entry)
        if refusal is not None:
            return self.refused(op, *refusal)
        if self.count >= MOST_TAKEN and op != "close":
            return self.refused(op, 50, "LogFull")
        self.count += 1
        if op == "inc":
            self.maps.take(entry)
        elif op == "close":
            self.is_closed = True
        else:
            self.reports.setdefault(tuple(entry["pg"]), []).append(entry)
        return Answer(compact({"count": self.count, "epoch": self.maps.epoch, "ok": op}), op, 0)

    def refusal_of(self, entry: Dict[str, Any]) -> Any:
        """Why the entry is refused by the map that the log makes: a number, its name, and the fault of a tree."""
        if entry["op"] == "close":
            return None
        if entry["op"] == "inc":
            found = self.maps.refusal(entry)
            return found and (found[0], maps.NAMES[found[0]], found[1])
        found = next((number for number, holds in self.reasons(entry) if holds), None)
        return found and (found, REPORT_NAMES[found])

    def reasons(self, report: Dict[str, Any]) -> Any:
        group, (osd, slot) = tuple(report["pg"]), report["from"]
        yield 60, not self.maps.has(group)
        slots = 1 if self.maps.code(group[0]) is None else self.maps.made[group[0]]["size"]
        yield 61, not self.maps.exists(osd, self.maps.epoch) or slot >= slots
        yield 62, report["stamp"] > self.maps.epoch
        yield 63, is_bad_report(report)

    # Questions

    def view(self, group: Group) -> Dict[str, Any]:
        """All that the log says of a group that is there. It is kept until the log gets longer."""
        count, found = self.views.get(group, (-1, {}))
        if count != self.count:
            history = self.histories.setdefault(group, [])
            begin = history[-1].epoch + 1 if history else self.maps.made_at[group[0]]
            history += [peering.state(self.maps, group, it) for it in self.maps.epochs_from(begin)]
            found = peering.view(self.maps, group, history, self.reports.get(group, []))
            self.views[group] = self.count, found
        return found

    def ask(self, question: Dict[str, Any]) -> Answer:
        group = tuple(question["pg"])
        if not self.maps.has(group):
            return self.refused("ask", 40, "UnknownGroup")
        found = self.view(group)
        return Answer(compact({**found, "count": self.count, "ok": "ask", "pg": group}), "ask", 0, found["verdict"])

    def locate(self, question: Dict[str, Any]) -> Answer:
        pool = question["pool"]
        if pool not in self.maps.made:
            return self.refused("locate", 42, "UnknownPool")
        hashed = placement.name_hash(question["name"].encode())
        group = pool, placement.stable_mod(hashed, self.maps.made[pool]["pg_num"])
        where = peering.shown(self.maps.membership(group, self.maps.epoch))
        return Answer(compact({**where, "epoch": self.maps.epoch, "ok": "locate", "pg": group}), "locate", 0)

    def trace(self, question: Dict[str, Any]) -> Answer:
        states = []
        for epoch, it in enumerate(question["epochs"], 1):
            up, acting = tuple(it["up"]), tuple(it["acting"])
            lists = up, maps.primary_of(up), acting, maps.primary_of(acting)
            states.append(peering.State(epoch, maps.Membership(*lists, it["size"], it["min_size"]), it["up_from"], it["up_thru"]))
        *past, now = peering.intervals(codes.code_of(question["code"]), states)
        return Answer(compact({"first": now.first, "intervals": peering.past_shown(past), "ok": "trace"}), "trace", 0)


def main() -> None:
    model = Model(3 if sys.argv[1:] == ["--format", "3"] else 2)
    for line in sys.stdin.buffer:
        answer = model.answer(line.removesuffix(b"\n"))
        if answer is not None:
            sys.stdout.buffer.write(answer.text.encode() + b"\n")
            sys.stdout.buffer.flush()


if __name__ == "__main__":
    main()
