"""Ends of logs at which groups are down, or have another verdict that comes seldom: of generated logs, and made by hand."""

import collections
import json
import random
from typing import Any, Dict, Iterator, List, NamedTuple, Optional, Tuple

import grammar
import laws
import model
import outage
import rules
from maps import Group

MOST_ENDS = 3  # of a log


class End(NamedTuple):
    """A script up to a line, and what the model makes of it."""

    name: str
    lines: List[bytes]
    log: model.Model
    groups: List[Group]  # that are explained
    refused: List[str]  # how the lines that are refused are told, up to the fault's name

    def script(self) -> bytes:
        return b"".join(line + b"\n" for line in self.lines)

    def options(self) -> List[str]:
        """The words that have the program read its lines."""
        return ["--format", "3"] if self.log.last == 3 else []

    def entries(self) -> List[bytes]:
        """The lines that the log takes."""
        log, taken = model.Model(self.log.last), []
        for line in self.lines:
            before = log.count
            log.answer(line)
            if log.count > before:
                taken.append(line)
        return taken


def first_groups(log: model.Model) -> List[Group]:
    """The first groups of each pool, which the stories are about."""
    return [(pool, pg) for pool, made in log.maps.made.items() for pg in range(min(made["pg_num"], 2))]


def ended(name: str, lines: List[bytes], groups: Optional[List[Group]] = None, last: int = 2) -> End:
    """The end of a script of these lines, up to the last version; the first groups are explained where none are named."""
    log, refused = model.Model(last), []
    for number, line in enumerate(lines, 1):
        answer = log.answer(line)
        if answer is not None and answer.code:
            refused.append(f"line {number}: {json.loads(answer.text)['refused']}")
    return End(name, lines, log, first_groups(log) if groups is None else groups, refused)


def lines_of(rng: random.Random) -> Iterator[Tuple[bytes, model.Model]]:
    """The lines of a script, each with the log that it leaves: an outage's, or those of the logs of the laws, and broken ones."""
    last = rng.choice((2, 2, 3))
    if rng.random() < 0.75:
        log = model.Model(last)
        story: grammar.Story = outage.Outage(rng, log)
        next_line = story.line
    else:
        watch = laws.Watch(rng, collections.Counter(), last)
        log, story, next_line = watch.log, watch.story, watch.next_line
    broken = rng.choice((0, 0, 0.1))
    for _ in range(rng.choice((50, 100, 200))):
        line = next_line()
        if rng.random() < broken:
            line = rules.broken(rng, line, log.maps, list(story.devices))
        text = grammar.compact(line)
        log.answer(text)
        yield text, log


def interest(log: model.Model, groups: List[Group], most: int) -> Tuple[Any, ...]:
    """What of an end makes it another one than those before it: how the groups are blocked, and their verdicts."""
    found = []
    for group in groups:
        view = log.view(group)
        osds = tuple(view["blocked_by"]) if len(view["blocked_by"]) <= most else ()
        found.append((osds and (view["first"], osds), view["verdict"]))
    return tuple(found)


def weight(state: Tuple[Any, ...]) -> int:
    """How much there is to try at an end: the devices that block groups which are Down, and verdicts that come seldom."""
    others = {"NoPrimary": 0, "Waiting": 0, "NeedLog": 3}
    return sum(3 * len(blocks[1]) if verdict == "Down" and blocks else others.get(verdict, 1) for blocks, verdict in state)


def ends_of(seed: str, number: int, most: int) -> Iterator[End]:
    """A few ends of a generated log: the weightiest, and another."""
    rng = random.Random(f"{seed}/{number}")
    lines: List[bytes] = []
    states: Dict[Tuple[Any, ...], int] = {}
    last = 2
    for line, log in lines_of(rng):
        last = log.last
        lines.append(line)
        state = interest(log, first_groups(log), most)
        if weight(state):
            states.setdefault(state, len(lines))
    places = sorted(states, key=weight, reverse=True)
    chosen = places[: MOST_ENDS - 1] + rng.sample(places, min(1, len(places)))
    for at in sorted({states[it] for it in chosen}):
        yield ended(f"{seed}-{number}-{at}", lines[:at], last=last)


def corner(name: str, pool: Dict[str, Any], *actings: List[Optional[int]]) -> End:
    """The end of a log in which these sets served a group, one after the other, all but the last wrote, and are down."""
    made = {"id": 1, "pg_num": 1, "min_size": 1, "leaf": 0, **pool}
    used = sorted({osd for places in actings[:-1] for osd in places if osd is not None})
    incs: List[Dict[str, Any]] = [{"up": list(range(16)), "pools": [made], "temp": [[1, 0, actings[0]]]}]
    for before, after in zip(actings, actings[1:]):
        leader = next(osd for osd in before if osd is not None)
        incs += [{"up_thru": [[leader, len(incs) + 1]]}, {"temp": [[1, 0, after]]}]
    incs[-1]["down"] = used
    lines = [grammar.compact({"op": "inc", "epoch": epoch, **inc}) for epoch, inc in enumerate(incs, 1)]
    return ended(name, lines, [(1, 0)])


def corners() -> Iterator[End]:
    """Ends with as many smallest sets as `explain` lists, with more that are any so many, and with others."""
    plain, shards = {"kind": "replicated", "size": 4}, {"kind": "erasure", "size": 6, "k": 3}
    yield corner("sixteen", plain, [0, 1, 2, 3], [4, 5, 6, 7], [8])
    yield corner("twenty", shards, [0, 1, 2, 3, 4, 5], [None, None, None, None, None, 6])
    yield corner("more", {**plain, "size": 6}, [0, 1, 2, 3], [4, 5, 6, 7, 8, 9], [10])
