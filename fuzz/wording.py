"""What `pgpeer explain` says in words, by the object that it gives with --json and by what stands beside it."""

from typing import Any, Dict, Iterable, Iterator, List, NamedTuple, Optional, Sequence

import reasons
from codes import Code

Shown = Dict[str, Any]
MOST_RUNS = 5  # that a sentence names


def listed(names: Iterable[str]) -> str:
    found = list(names)
    return " and ".join([", ".join(found[:-1]), found[-1]] if len(found) > 1 else found)


def devices(osds: Iterable[int]) -> str:
    return listed(f"osd.{osd}" for osd in osds)


def counted(count: int, noun: str) -> str:
    return f"{count} {noun}{'' if count == 1 else 's'}"


def are(count: int) -> str:
    return "is" if count == 1 else "are"


def runs(noun: str, spans: List[Sequence[int]]) -> str:
    """Runs of numbers, as `epoch 7` or `epochs 1 to 3 and 5`; of many the first are named."""
    names = [str(first) if first == last else f"{first} to {last}" for first, last in spans]
    is_one = len(names) == 1 and spans[0][0] == spans[0][1]
    named = listed(names) if len(names) <= MOST_RUNS else ", ".join([*names[:MOST_RUNS], "and later ones"])
    return f"{noun}{'' if is_one else 's'} {named}"


def epochs(intervals: List[Shown]) -> str:
    """The epochs of intervals; those that follow on each other are one run."""
    spans: List[List[int]] = []
    for it in intervals:
        if spans and spans[-1][1] + 1 == it["first"]:
            spans[-1][1] = it["last"]
        else:
            spans.append([it["first"], it["last"]])
    return runs("epoch", spans)


def places(osds: List[Optional[int]]) -> str:
    return f"[{', '.join('NONE' if osd is None else str(osd) for osd in osds)}]"


def shifted(found: Any, offset: int, key: str = "") -> Any:
    """The object with each epoch but 0 so much later."""
    if isinstance(found, dict):
        return {name: shifted(value, offset, name) for name, value in found.items()}
    if key in ("last_update", "log_tail"):
        return [shifted(found[0], offset, "epoch"), found[1]]
    if isinstance(found, list):
        return [shifted(it, offset) for it in found]
    is_epoch = key in ("epoch", "first", "last", "les", "stamp", "history_les", "last_epoch_clean", "clean")
    return found + offset if is_epoch and found else found


class Beside(NamedTuple):
    """What the words of a group say that its object has in no key but the sentence."""

    size: int
    min_size: int
    best: Any  # the member with the best copy
    lacks: int  # this many slots of the acting set
    fallen: List[int]  # who of those that served the group last is down
    missing: List[Shown]  # how the other copies compare with the best one, as `ask` answers


class Words:
    """The words of a group."""

    def __init__(self, found: Shown, code: Code, beside: Beside):
        self.found, self.code, self.beside = found, code, beside

    def member(self, member: Sequence[int]) -> str:
        return f"osd.{member[0]}" + ("" if self.code is None else f"({member[1]})")

    def leader(self) -> str:
        primary = self.found["acting_primary"]
        return "nobody" if primary is None else f"osd.{primary}"

    # The sentence

    def says(self) -> str:
        says: str = getattr(self, "on_" + self.found["verdict"].lower())()
        return says

    def says_then(self) -> str:
        """The sentence on a group after a way, with what it lacks besides where it has yet to hear members."""
        is_short = self.members() < self.beside.min_size or self.beside.lacks
        return self.says() + (f" {self.few()}" if self.found["verdict"] == "Waiting" and is_short else "")

    def on_noprimary(self) -> str:
        return "No device of its acting set is up, so nobody leads it." + self.starters()

    def starters(self) -> str:
        """Who might be started: who was complete when the group was last clean, or else who served it last."""
        clean = self.found["clean"]
        if clean is None or not clean["down"]:
            return self.fallen()
        down = f"{devices(clean['down'])} {are(len(clean['down']))} down"
        return f" Of those that were complete in {epochs([clean])}, when it was last clean, {down}."

    def fallen(self) -> str:
        fallen = self.beside.fallen
        return f" Of those that served it last, {devices(fallen)} {are(len(fallen))} down." if fallen else ""

    def on_down(self) -> str:
        intervals = [it["interval"] for it in self.found["blocking"]]
        down = sorted({osd for it in intervals for osd in it["down"]})
        when = epochs(intervals)
        head = f"It waits for {devices(down)}, which {are(len(down))} down"
        return f"{head}: writes may have been taken in {when}, and too few of the devices that took them are up."

    def on_waiting(self) -> str:
        return f"It has yet to hear from {listed(self.member(it) for it in self.found['unheard'])}."

    def on_incomplete(self) -> str:
        heard = self.found["heard"]
        if not any(info["complete"] for info in heard):
            return "No complete copy was heard of." + self.starters()
        last = max(info["history_les"] for info in heard)
        who = [info for info in heard if info["history_les"] == last][-1]
        knows = f"{self.member(who['from'])} knows that the group served in epoch {last}"
        return f"No copy that was heard of is complete and recent enough: {knows}, and no complete copy has served since." + self.starters()

    def on_short(self) -> str:
        return self.few() + self.fallen()

    def members(self) -> int:
        return sum(osd is not None for osd in self.found["acting"])

    def few(self) -> str:
        """What the acting set lacks."""
        members, least, lacks = self.members(), self.beside.min_size, self.beside.lacks
        if members < least:
            needs = f"it needs {counted(least - members, 'more device')}"
            return f"Its acting set has {counted(members, 'member')}, and needs at least {least}: {needs}."
        return f"The members of its acting set hold too few shards to give objects back: it needs {counted(lacks, 'more shard')}."

    def on_needlog(self) -> str:
        lacks = f"lacks the {runs('write', self.found['gaps'])}" if self.found["gaps"] else "is not in order"
        return f"The log of {self.member(self.beside.best)}, which has the best copy, {lacks}."

    def on_needupthru(self) -> str:
        wanted = f"up_thru {self.found['first']} or later"
        return f"The map has yet to record that {self.leader()}, which leads it, is up in this interval: {wanted}."

    def on_serve(self) -> str:
        lags = listed(name for name in map(self.behind, self.beside.missing) if name)
        lacks = self.found["copies"]["lacks"]
        unread = f" Too few complete copies were heard to read all that was written: it needs {lacks} more." if lacks else ""
        return f"It serves, led by {self.leader()}." + unread + (f" {lags}." if lags else "")

    def behind(self, peer: Shown) -> str:
        """A member and what it lacks; empty where it has all."""
        lacks = {"backfill": "needs a backfill", "diverged": "has diverged"}.get(peer["state"])
        if peer.get("objects"):
            lacks = f"lacks {counted(len(peer['objects']), 'object')}"
        return f"{self.member(peer['member'])} {lacks}" if lacks else ""

    # The lines

    def lines(self) -> Iterator[str]:
        found = self.found
        pool, pg = found["pg"]
        yield f"group {pool}.{pg:x} at epoch {found['epoch']}: {found['verdict']}"
        yield found["says"]
        yield ""
        sizes = f"(of size {self.beside.size}, at least {self.beside.min_size})"
        yield f"acting {places(found['acting'])}, led by {self.leader()}, since epoch {found['first']} {sizes}"
        yield f"up     {places(found['up'])}"
        served = f"It is known to have last begun to serve in epoch {found['les']}."
        yield served if found["les"] else "It is not known to have served."
        yield ""
        yield "Heard:"
        yield from [self.info(info) for info in found["heard"]] or ["  nobody"]
        if found["unheard"]:
            yield "Not heard:"
        yield from (f"  {self.member(it)}" for it in found["unheard"])
        for it in found["blocking"]:
            yield from self.interval(it)
        yield from self.ways()
        yield from self.last_resort()

    def info(self, info: Shown) -> str:
        epoch, v = info["last_update"]
        parts = [
            f"  {self.member(info['from'])}  sent in epoch {info['stamp']}",
            "complete" if info["complete"] else "not complete",
            f"last write {epoch}'{v}",
            f"began to serve in epoch {info['les']}" if info["les"] else "has not served",
        ]
        return ", ".join(parts + ([f"knows of epoch {info['history_les']}"] if info["history_les"] else []))

    def interval(self, blocking: Shown) -> Iterator[str]:
        it, lacks = blocking["interval"], blocking["lacks"]
        yield ""
        noun = "member" if self.code is None else "shard"
        needs = f"{lacks} more {noun}{'' if lacks == 1 else 's'}"
        yield f"It waits for the interval of {epochs([it])} on {places(it['acting'])}, which needs {needs}:"
        down = [(osd, slot) for slot, osd in enumerate(it["acting"]) if osd in it["down"]]
        yield f"  {listed(map(self.member, down))} {are(len(down))} down"
        fates = {
            "lost_before": "declared lost before it began, which doesn't count for it",
            "lost": "declared lost, and no longer waited for",
            "gone": "destroyed, and can't be waited for",
        }
        yield from (f"  {devices(it[key])} {'was' if len(it[key]) == 1 else 'were'} {fate}" for key, fate in fates.items() if it[key])
        leader = next(osd for osd in it["acting"] if osd is not None)
        why = f"the map recorded that its primary, osd.{leader}, was up in it"
        if blocking["clean"] is not None:
            why = f"a report says that the group was clean in epoch {blocking['clean']}"
        yield f"  it may have gone read-write: {why}"

    # What ends Down

    def ways(self) -> Iterator[str]:
        ways = self.found["ways"]
        if not ways["sets"]:
            return
        yield ""
        yield "What ends Down:" if self.found["verdict"] == "Down" else "It would be Down, too. What ends that:"
        if ways["any"] is not None and ways["any"]["least"] > 1:
            yield f"  any {ways['any']['least']} of {devices(ways['any']['osds'])} will do, such as"
        yield from self.outcomes(ways["sets"])
        if ways["more"]:
            yield "  (there may be others)"

    def last_resort(self) -> Iterator[str]:
        if self.found.get("last_resort"):
            yield ""
            yield "Last resort, with no way back. First image each disk, or export what it has of the group (ceph-objectstore-tool"
            yield "--op export). A device that is declared lost is lost to all of its groups."
            yield from self.outcomes(self.found["last_resort"])

    def outcomes(self, ways: List[Shown]) -> Iterator[str]:
        for at, way in enumerate(ways):
            deeds = [f"start {devices(way['start'])}"] if way["start"] else []
            deeds += [f"declare {devices(way['lost'])} lost"] if way["lost"] else []
            yield f"  {'or ' if at else ''}{' and '.join(deeds)}"
            then = way["then"]
            yield "    what it is then isn't known: the log takes no more" if then is None else f"    then {then['verdict']}: {then['says']}"
            yield from (f"    it goes on without what was written in {epochs([it])}, at least: {self.loss(it)}" for it in way["intervals"] if it["writes"] != "readable")
            if way["unreadable"]:
                yield "    no object can be read then: too few devices are left of all that ever served"

    def loss(self, it: Shown) -> str:
        if it["writes"] == "away":
            return f"{devices(it['down'])}, which {are(len(it['down']))} down, may have it"
        return "too few of the devices that took it are left"


def summary_lines(found: Shown) -> Iterator[str]:
    """The words of all groups together."""
    yield f"{counted(found['groups'], 'group')} at epoch {found['epoch']}"
    yield from (f"  {it} {found['verdicts'][it]}" for it in reasons.VERDICTS if it in found["verdicts"])
    if found["devices"]:
        yield ""
    for it in found["devices"]:
        alone = f", and alone frees {it['frees']}" if it["frees"] else ""
        does = [f"blocks {counted(it['blocks'], 'group')}{alone}"] if it["blocks"] else []
        does += [f"has yet to be heard by {counted(it['awaited'], 'group')}"] if it["awaited"] else []
        yield f"osd.{it['osd']} {', and '.join(does)}"
