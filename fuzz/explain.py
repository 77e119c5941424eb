#!/usr/bin/env python3
"""Tries out what `pgpeer explain` says: each set of devices that may bring a group back, by the program's own `run`.

    fuzz/explain.py [--program PATH] [--seed N] [--logs N | --minutes M] [--most N] [--keep FOLDER] [--run-alone]

Of each generated log a few ends are taken at which groups are down. For each such group each device that is down or destroyed is
started, declared lost, or left as it is, in each combination; where more than --most are down (5 if not said), those of the
intervals that block the group alone, where these are no more. The log with one incremental more that does just this is answered
by `run`. The smallest sets after which the group isn't down have to be those that `explain POOL.SEED --json --losses` names, in
its order, each with the verdict of `run`, whichever of the devices are started and which are lost. All else that it says of the
first groups of each pool, and of all groups without a group named, has to be what the model works out, prices too; and so have its
words, with and without --epoch-offset, and for which lines it tells a fault.

With --run-alone the program's `explain` isn't asked: what `run` answers is held against the model. The same seed
gives the same logs. A log with a wrong answer is kept in the folder that --keep names. The last line is
`N groups, M subsets, K wrong`: groups that were explained, subsets that were tried, and explanations that are wrong. Status
1: something was wrong.
"""

import argparse
import collections
import concurrent.futures
import itertools
import json
import os
import pathlib
import re
import subprocess
import sys
import tempfile
import time
from typing import Any, Callable, Counter, Dict, Iterator, List, NamedTuple, Optional, Set, Tuple

import grammar
import model
import reasons
import wording
from ends import End, corners, ends_of
from maps import Group, Maps
from reasons import Devices, Way

HERE = pathlib.Path(__file__).resolve().parent
sys.path.append(str(HERE.parent / "dev"))

from built import command_line  # noqa: E402

MOST_GROUPS = 40  # of a log whose groups are told together
MOST_SETS = 16  # that `explain` lists
MOST_JUDGED = 9  # devices of which it judges all sets
MOST_MODELLED = 10  # devices of which the model finds the smallest sets
OFFSET = 1000  # by which epochs are told later
SECONDS = 60  # for one run


# The program


class Failed(Exception):
    """A run of the program that ended otherwise than it should."""


def run_of(words: List[str], text: bytes) -> Tuple[List[bytes], List[bytes]]:
    """The lines that the program writes to a script, and those on standard error."""
    with tempfile.TemporaryFile() as stdin:
        stdin.write(text)
        stdin.seek(0)
        try:
            run = subprocess.run(words, stdin=stdin, capture_output=True, timeout=SECONDS)
        except subprocess.TimeoutExpired:
            raise Failed(f"{' '.join(words)} did not end") from None
    if run.returncode:
        raise Failed(f"{' '.join(words)} ended with status {run.returncode}: {run.stderr.decode(errors='replace')[-500:]}")
    return run.stdout.splitlines(), run.stderr.splitlines()


def said(words: List[str], text: bytes) -> List[bytes]:
    return run_of(words, text)[0]


Views = Dict[Group, Dict[str, Any]]


def views_after(words: List[str], before: bytes, epoch: int, way: Way, groups: List[Group]) -> Views:
    """What the groups are once devices booted, or were declared lost."""
    asks = b"".join(grammar.compact({"op": "ask", "pg": group}) + b"\n" for group in groups)
    answers = said(words, before + grammar.compact(way.incremental(epoch)) + b"\n" + asks)
    taken, *views = [json.loads(line) for line in answers[-1 - len(groups) :]]
    if taken.get("ok") != "inc" or any(view.get("ok") != "ask" for view in views):
        raise Failed(f"run answers {answers[-1 - len(groups) :]!r} after {way}")
    if any(view["verdict"] == "Down" and not view["blocked_by"] for view in views):
        raise Failed(f"a group is Down and nobody blocks it after {way}")
    return dict(zip(groups, views))


# What is tried at an end


def tried_devices(end: End, group: Group, most: int) -> Devices:
    """The devices that are tried: all that are down or destroyed, or, where these are too many, those that block the group."""
    maps, blocking = end.log.maps, tuple(end.log.view(group)["blocked_by"])
    down = tuple(osd for osd in sorted(maps.states.epochs) if not maps.is_up(osd, maps.epoch))
    devices = down if len(down) <= most else blocking
    return devices if blocking and len(devices) <= most else ()


def ways_of(maps: Maps, devices: Devices) -> Iterator[Way]:
    """Each subset of the devices to start, with each of the others to declare lost, as far as it is there."""
    for chosen in itertools.product(*(("stays", "starts", "lost") if maps.exists(osd, maps.epoch) else ("stays", "starts") for osd in devices)):
        yield Way(*(tuple(osd for osd, what in zip(devices, chosen) if what == way) for way in ("starts", "lost")))


def tries(end: End, most: int) -> Dict[Way, List[Group]]:
    """What is tried, and of which groups the answer is wanted then."""
    found: Dict[Way, List[Group]] = {}
    for group in end.groups:
        devices = tried_devices(end, group, most)
        for way in ways_of(end.log.maps, devices) if devices else ():
            found.setdefault(way, []).append(group)
    return found


class Tried(NamedTuple):
    """What `run` answers of a group after each way."""

    blocking: Devices
    verdicts: Dict[Way, str]
    down: Dict[Way, bool]

    def sets(self) -> List[Devices]:
        """The smallest sets of devices that are waited for to start."""
        return reasons.smallest(lambda osds: not self.down[Way(osds, ())], self.blocking)

    def unlike(self) -> Iterator[str]:
        """Ways that end otherwise than if all their devices were started."""
        for (starts, losses), down in self.down.items():
            if down != self.down[Way(tuple(sorted(starts + losses)), ())]:
                yield f"starting {starts} and losing {losses} is not as starting all"


def tried_by_run(pool: concurrent.futures.Executor, program: str, end: End, wanted: Dict[Way, List[Group]], most: int) -> Dict[Group, Tried]:
    """What becomes of each group, by the answers of `run`."""
    words = [program, "run", *end.options()]
    before, epoch = b"".join(line + b"\n" for line in end.entries()), end.log.maps.epoch + 1
    found: Dict[Group, Tried] = {}
    for way, views in zip(wanted, pool.map(lambda it: views_after(words, before, epoch, it, wanted[it]), wanted)):
        for group, view in views.items():
            it = found.setdefault(group, Tried(tuple(end.log.view(group)["blocked_by"]), {}, {}))
            it.verdicts[way], it.down[way] = view["verdict"], bool(view["blocked_by"])
    return found


def as_json(value: Any) -> Any:
    """The value as it is once it was written and read."""
    return json.loads(model.compact(value))


def way_shown(it: reasons.Reckoned, way: Way) -> Dict[str, Any]:
    """A way as `explain --json` shows it: what it leads to, and what it costs."""
    after = it.after(way)
    then = {"says": said_then(after), "verdict": after.view["verdict"]}
    return {"intervals": it.price(way), "lost": way.losses, "start": way.starts, "then": then, "unreadable": it.is_unreadable(way)}


def said_then(after: reasons.Reckoned, offset: int = 0) -> str:
    """What is said of a group after a way, with each epoch so much later."""
    return words_of(after, wording.shifted(as_json(after.shown()), offset)).says_then()


def shifted(found: Dict[str, Any], it: reasons.Reckoned) -> Dict[str, Any]:
    """The explanation of a group with each epoch OFFSET later."""
    later: Dict[str, Any] = wording.shifted(found, OFFSET)
    later["says"] = words_of(it, later).says()
    for way in (*later["ways"]["sets"], *later["last_resort"]):
        way["then"]["says"] = said_then(it.after(Way(tuple(way["start"]), tuple(way["lost"]))), OFFSET)
    return later


def wrong_group(found: Dict[str, Any], end: End, group: Group, tried: Dict[Group, Tried]) -> Iterator[str]:
    """What is wrong with the explanation of a group."""
    it = reasons.Reckoned(end.log, group)
    wanted = as_json(it.shown())
    wanted["says"] = words_of(it, wanted).says()
    for key in sorted({*found, *wanted} - {"ways", "last_resort"}):
        if key not in found or key not in wanted or found[key] != wanted[key]:
            yield f"{key} is {found.get(key)} and not {wanted.get(key)}"
    sets = tried[group].sets() if group in tried else it.sets() if len(it.view["blocked_by"]) <= MOST_MODELLED else None
    if sets is not None:
        yield from wrong_ways(found, it, sets)
    if group in tried:
        yield from wrong_outcomes(found, tried[group])


def wrong_ways(found: Dict[str, Any], it: reasons.Reckoned, sets: List[Devices]) -> Iterator[str]:
    """What is wrong with the ways of a group, where these are the smallest sets of devices to start."""
    ways, shape = found["ways"], reasons.any_of(sets)
    listed = [tuple(way["start"]) for way in ways["sets"]]
    if ways["more"]:
        if shape or len(sets) <= MOST_SETS and len(it.view["blocked_by"]) <= MOST_JUDGED or not listed or not set(listed) <= set(sets):
            yield f"the ways are {listed} and others, and not {sets}"
        in_each = set(listed[0]).intersection(*listed)
        if len(listed) < MOST_SETS and not all(in_each <= set(osds) for osds in sets):
            yield f"the ways {listed} share devices that not all of {sets} have"
        told = listed
    else:
        told = reasons.told_sets(sets)
        wanted = shape and {"least": shape[0], "osds": list(shape[1])}
        if listed != told or ways["any"] != wanted or any(way["lost"] for way in ways["sets"]):
            yield f"the ways are {listed} or {ways['any']}, and not {told} or {wanted}"
    rights = [*(Way(osds, ()) for osds in told), *reasons.resorts(told)]
    for way, right in itertools.zip_longest([*ways["sets"], *found["last_resort"]], rights):
        wanted = right and as_json(way_shown(it, right))
        if way != wanted:
            yield f"a way is {way} and not {wanted}"


def wrong_outcomes(found: Dict[str, Any], tried: Tried) -> Iterator[str]:
    """Ways that are told and after which `run` answers otherwise."""
    for told in (*found["ways"]["sets"], *found["last_resort"]):
        way = Way(tuple(told["start"]), tuple(told["lost"]))
        if way in tried.verdicts and (told["then"]["verdict"] != tried.verdicts[way] or tried.down[way]):
            yield f"{way} leads to {tried.verdicts[way]}, and not to {told['then']['verdict']}"


def named(group: Group) -> str:
    return f"{group[0]}.{group[1]:x}"


def words_of(it: reasons.Reckoned, found: Dict[str, Any]) -> wording.Words:
    """The words for an explanation of a group."""
    size, min_size = it.maps.sizes.last(it.group[0], it.maps.epoch, None)
    beside = wording.Beside(size, min_size, it.view["best"], it.lacks(), it.fallen(), it.view["missing"])
    return wording.Words(found, it.code, beside)


class Told(NamedTuple):
    """What `explain` writes with the same words before it: with --json, and in words, with and without an offset."""

    found: Dict[str, Any]
    later: Dict[str, Any]
    lines: List[str]
    later_lines: List[str]
    errors: List[str]


def told(program: str, end: End, *group: str) -> Told:
    later = ["--epoch-offset", str(OFFSET)]
    calls = [["--json"], ["--json", *later], [], later]
    runs = [run_of([program, "explain", *group, *words, *end.options()], end.script()) for words in calls]
    if any(errors != runs[0][1] for _, errors in runs):
        raise Failed(f"explain {' '.join(group)} tells other faults with other options")
    texts, found = [lines for lines, _ in runs], []
    for lines in texts[:2]:
        if len(lines) != 1:
            raise Failed(f"explain {' '.join(group)} --json wrote {len(lines)} lines")
        found.append(json.loads(lines[0]))
        if lines[0] != model.compact(found[-1]).encode():
            raise Failed(f"explain {' '.join(group)} --json wrote {lines[0]!r}, which is not compact or not in order")
    return Told(found[0], found[1], *([line.decode() for line in lines] for lines in (*texts[2:], runs[0][1])))


def first_difference(found: List[str], wanted: List[str]) -> Optional[str]:
    pairs = itertools.zip_longest(found, wanted)
    return next((f"it says {it!r} and not {right!r}" for it, right in pairs if it != right), None)


def wrong_words(it: Told, end: End, group: Group) -> Iterator[str]:
    """What is wrong with the words of a group, and with its later epochs, by its object."""
    reckoned = reasons.Reckoned(end.log, group)
    later = shifted(it.found, reckoned)
    if it.later != later:
        yield f"with later epochs it is {it.later} and not {later}"
    for found, lines in ((it.found, it.lines), (later, it.later_lines)):
        why = first_difference(lines, list(words_of(reckoned, found).lines()))
        if why:
            yield why


def wrong_errors(it: Told, end: End) -> Optional[str]:
    """What is wrong with the lines on standard error: one for each line that is refused, which says by what and what is wrong."""
    found = [re.sub(r"^(line \d+: \w+)(?: \(\d+\))?: .+$", r"\1", line) for line in it.errors]
    return first_difference(found, end.refused)


def wrong_by_explain(pool: concurrent.futures.Executor, program: str, end: End, tried: Dict[Group, Tried]) -> Iterator[Tuple[str, str]]:
    """What is wrong with what `explain` says at an end: of which group, and what."""
    names = [named(group) for group in end.groups]
    for group, it in zip(end.groups, pool.map(lambda name: told(program, end, name, "--losses"), names)):
        for why in [*wrong_group(it.found, end, group, tried), *wrong_words(it, end, group), wrong_errors(it, end)]:
            if why:
                yield named(group), why
    if sum(made["pg_num"] for made in end.log.maps.made.values()) <= MOST_GROUPS:
        it, wanted = told(program, end), as_json(reasons.summary(end.log))
        for found, lines, right in ((it.found, it.lines, wanted), (it.later, it.later_lines, wording.shifted(wanted, OFFSET))):
            if found != right:
                yield "all groups", f"{found} and not {right}"
            why = first_difference(lines, list(wording.summary_lines(right)))
            if why:
                yield "all groups", why


def wrong_by_model(end: End, tried: Dict[Group, Tried]) -> Iterator[Tuple[str, str]]:
    """Where `run` answers otherwise than the model."""
    for group, found in tried.items():
        it = reasons.Reckoned(end.log, group)
        if found.sets() != it.sets():
            yield named(group), f"the smallest sets are {found.sets()} by run and {it.sets()} by the model"
        yield from ((named(group), why) for why in found.unlike())
        for way, down in found.down.items():
            if down != it.is_down_with(way):
                yield named(group), f"{way} is told otherwise by run"


# Runs


class Figures:
    """What was counted."""

    def __init__(self) -> None:
        self.sums: Counter[str] = collections.Counter()
        self.verdicts: Counter[str] = collections.Counter()
        self.shapes: Counter[str] = collections.Counter()

    def count(self, end: End, ways: int, tried: Dict[Group, Tried], wrong: int) -> None:
        self.sums.update(ends=1, groups=len(end.groups), subsets=ways, wrong=wrong)
        self.verdicts.update(end.log.view(group)["verdict"] for group in end.groups)
        for it in tried.values():
            found = it.sets()
            sizes = sorted({len(osds) for osds in found})
            self.shapes[f"{'one set' if len(found) == 1 else 'several sets'} of {' or '.join(map(str, sizes))}"] += 1

    def text(self) -> str:
        verdicts = ", ".join(f"{self.verdicts[it]:,} {it}" for it in reasons.VERDICTS if self.verdicts[it])
        shapes = ", ".join(f"{count:,} {name}" for name, count in self.shapes.most_common())
        sums = f"{self.sums['groups']:,} groups, {self.sums['subsets']:,} subsets, {self.sums['wrong']:,} wrong"
        head = f"{self.sums['logs']:,} logs, {self.sums['ends']:,} ends"
        return "\n".join([head, f"Verdicts: {verdicts}.", f"Smallest sets: {shapes}.", sums])


def tried_at(pool: concurrent.futures.Executor, options: argparse.Namespace, end: End, figures: Figures) -> List[Tuple[str, str]]:
    """Tries what can be tried at an end; gives what is wrong, of which group."""
    wanted, found = tries(end, options.most), []
    tried: Dict[Group, Tried] = {}
    try:
        tried = tried_by_run(pool, options.program, end, wanted, options.most)
        check = wrong_by_model(end, tried) if options.run_alone else wrong_by_explain(pool, options.program, end, tried)
        found = list(check)
    except Failed as why:
        found = [("the program", str(why))]
    figures.count(end, len(wanted), tried, len({name for name, _ in found}))
    return found


def keep(folder: pathlib.Path, end: End, why: List[str]) -> None:
    folder.mkdir(parents=True, exist_ok=True)
    (folder / f"explain-{end.name}.jsonl").write_bytes(end.script())
    (folder / f"explain-{end.name}.why").write_text("".join(f"{it}\n" for it in [*why, *filter(None, [" ".join(end.options())])]))


def drawn(seed: str, most: int, is_over: Callable[[int], bool]) -> Iterator[Iterator[End]]:
    """The ends of one log after the other."""
    for number in itertools.count():
        if is_over(number):
            return
        yield ends_of(seed, number, most)


def fuzz(options: argparse.Namespace, is_over: Callable[[int], bool], figures: Figures) -> Iterator[str]:
    """Tries the corners, and then log after log; gives what is wrong."""
    with concurrent.futures.ThreadPoolExecutor(os.cpu_count() or 1) as pool:
        for ends in itertools.chain([corners()], drawn(options.seed, options.most, is_over)):
            for end in ends:
                wrong = [f"{name}: {why}" for name, why in tried_at(pool, options, end, figures)]
                if wrong:
                    keep(pathlib.Path(options.keep), end, wrong)
                    yield from (f"log {end.name}, {why}" for why in wrong)
            figures.sums["logs"] += 1


def main() -> int:
    parser = command_line(__doc__)
    parser.add_argument("--seed", default="1")
    parser.add_argument("--logs", type=int, metavar="N", help="how many logs (by default 40)")
    parser.add_argument("--minutes", type=float, metavar="M", help="ends after this time")
    parser.add_argument("--most", type=int, default=5, metavar="N", help="how many devices all subsets are tried of")
    parser.add_argument("--keep", default=str(HERE / "out"), metavar="FOLDER")
    parser.add_argument("--run-alone", action="store_true", help="hold `run` against the model, and don't ask `explain`")
    options = parser.parse_args()
    logs = options.logs if options.logs is not None else None if options.minutes else 40
    end = time.monotonic() + 60 * options.minutes if options.minutes else float("inf")
    figures = Figures()
    for wrong in fuzz(options, lambda number: time.monotonic() > end or logs is not None and number >= logs, figures):
        print(wrong[:2000], flush=True)
    print(figures.text())
    return 1 if figures.sums["wrong"] else 0


if __name__ == "__main__":
    sys.exit(main())
