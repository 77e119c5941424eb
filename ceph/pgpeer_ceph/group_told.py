"""A group at length: its verdict and why, where it lies, for whom it waits, and what ends that."""

from typing import Any, Dict, Iterator, List, NamedTuple, Optional

from .cluster import Said
from .epochs import Epochs
from .reasons import Reasons
from .rules import members_of, superseded
from .steps import History, Member, Pool, View
from .waits import are_enough
from .words import ending, lost_text, member_text, osds_text


Infos = Dict[Member, Dict[str, Any]]


class Told(NamedTuple):
    """A group at the end of a script, and what else is known of it."""

    name: str
    view: View
    history: History
    epochs: Epochs
    why: Reasons
    said: Optional[Said] = None  # by Ceph, where a folder tells
    rule: str = ""  # of the difference between both
    infos: Infos = {}  # the last of each member, whether it counts or not

    def pool(self) -> Pool:
        assert self.history.made is not None
        return self.history.made


def places_text(places: List[Optional[int]]) -> str:
    return "[" + ", ".join("none" if osd is None else str(osd) for osd in places) + "]"


def head(view: View, name: str, epochs: Epochs) -> str:
    blocked = f", blocked by {osds_text(view['blocked_by'])}" if view["blocked_by"] else ""
    return f"{name} in epoch {epochs.text(view['epoch'])}: {view['verdict']}{blocked}"


def blocking_text(view: View, first: int, members: List[Member], history: History, pool: Pool) -> str:
    """That an interval that matters blocks the group, and who of it is down: too few of its members are up or lost."""
    lost = {osd for osd, _ in members if history.is_lost(osd, first)}
    slots = {slot for osd, slot in members if osd in lost or [osd, slot] in view["probe"]}
    down = [osd for osd, _ in members if osd in view["blocked_by"] and osd not in lost]
    return f"; down: {osds_text(down)}" if down and not pool.are_enough(slots) else ""


def lines_of(told: Told) -> Iterator[str]:
    """All that is told of a group."""
    yield head(told.view, told.name, told.epochs)
    if told.said is not None:
        yield f"  {ceph_text(told.said, told.rule)}"
    yield f"  {backfill_text(told) or told.why.says}"
    yield from places(told)
    yield from intervals(told)
    for text in (ending(told.why), lost_text(told.why)):
        if text:
            yield f"  {text}"


def ceph_text(said: Said, rule: str) -> str:
    """What Ceph said, and the rule where the verdict is another."""
    blocked = f", blocked by {osds_text(said.blocked_by)}" if said.blocked_by else ""
    return f"Ceph says {said.state} in epoch {said.epoch}{blocked}" + (f" ({rule})" if rule else "")


def places(told: Told) -> Iterator[str]:
    """Where a group lies, and whom it hears."""
    view, text, said = told.view, told.epochs.text, told.said
    lead = "nobody" if view["acting_primary"] is None else f"osd.{view['acting_primary']}"
    up = said.up if said is not None and not any(osd is not None for osd in view["up"]) else view["up"]
    yield f"  up {places_text(up)}, acting {places_text(view['acting'])}, led by {lead}, since epoch {text(view['first'])}"
    yield f"  has to hear {', '.join(member_text(it, told.pool()) for it in view['probe']) or 'nobody'}"
    yield from copies(told)
    yield f"  last began to serve in epoch {text(view['les'])}" if view["les"] else "  nobody told when it last began to serve"


def copies(told: Told) -> Iterator[str]:
    """What members told of their copies, those that have to be heard first."""
    probe, counted = [(osd, slot) for osd, slot in told.view["probe"]], told.history.heard
    for member in (*probe, *sorted(told.infos.keys() - set(probe))):
        info, name = told.infos.get(member), member_text(member, told.pool())
        if info is None:
            yield f"    {name} wasn't heard"
        else:
            late = "" if counted(member, told.view["first"]) else ", too old"
            yield f"    {name} (epoch {told.epochs.text(info['stamp'])}{late}): {copy_text(info, told.epochs)}"


def copy_text(info: Dict[str, Any], epochs: Epochs) -> str:
    """What an info says of a copy."""
    epoch, number = info["last_update"]
    served = f"served in epoch {epochs.text(info['les'])}" if info["les"] else "never served"
    return f"{'' if info['complete'] else 'not '}complete, last write {epochs.text(epoch)}'{number}, {served}"


def intervals(told: Told) -> Iterator[str]:
    """The past intervals that may have gone read-write."""
    view, pool, text = told.view, told.pool(), told.epochs.text
    by_report = told.history.by_report(view)
    wrote = [it for it in view["intervals"] if it["rw"]]
    mattering = [it for it in wrote if it["last"] >= view["les"]]
    left_out = superseded(mattering, pool)
    yield "  past intervals that may have gone read-write and matter" + (":" if mattering else ": none")
    for it in mattering:
        members = sorted(members_of(it["acting"], pool))
        more = "; only a report says so: the group was clean in it" if it["first"] in by_report else ""
        more += " (Ceph lists a later one in its place)" if it["first"] in left_out else ""
        where = " ".join(member_text(member, pool) for member in members) + blocking_text(view, it["first"], members, told.history, pool)
        yield f"    epochs {text(it['first'])} to {text(it['last'])} on {where}{more}"
    settled = view.get("settled", 0) + len(wrote) - len(mattering)
    if settled:
        yield f"  before it last began to serve: {settled} more"


def backfill_text(told: Told) -> str:
    """That a group whose up set has members enough waits for backfill, and for no device."""
    said, pool = told.said, told.pool()
    if told.view["verdict"] != "Short" or said is None:
        return ""
    up, acting = members_of(said.up, pool), members_of(told.view["acting"], pool)
    return (f"Its acting set has {len(acting)} member{'' if len(acting) == 1 else 's'}, and its up set enough: it waits for backfill to "
            f"{osds_text(osd for osd, _ in up - acting)}, and for no device that is down.") if are_enough(up, pool) else ""
