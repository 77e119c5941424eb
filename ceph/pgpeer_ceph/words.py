"""What is said of a group: devices, verdicts and why."""

from typing import Any, Dict, Iterable, Optional, Sequence

from .reasons import Reasons, sets_text, together, way_text
from .steps import UNKNOWN, Pool, Step


def osds_text(osds: Iterable[int]) -> str:
    return together(f"osd.{osd}" for osd in sorted(set(osds)))


def member_text(member: Sequence[int], pool: Pool) -> str:
    return f"osd.{member[0]}" + (f" (shard {member[1]})" if pool.is_by_place() else "")


def reason(step: Step, pool: Pool) -> str:
    """The verdict in words, and why."""
    view, verdict = step.view, step.verdict()
    primary = view["acting_primary"]
    why = {
        UNKNOWN: "no report of this interval was kept so far",
        "NoPrimary": "no device of the acting set is up",
        "Down": f"writes may be on {osds_text(view['blocked_by'])} alone, which may come back",
        "Waiting": f"not heard yet: {', '.join(member_text(it, pool) for it in step.unheard)}",
        "Incomplete": "no copy that was heard is complete and new enough",
        "Short": short(view, pool),
        "NeedLog": f"the log of {member_text(view['best'] or (0, 0), pool)}, the best copy, has gaps",
        "NeedUpThru": f"the map doesn't say yet that osd.{primary} was up in this interval",
        "Serve": behind(view, pool),
    }
    return f"{verdict}: {why[verdict]}"


def at_end(step: Step, pool: Pool, why: Optional[Reasons]) -> str:
    """The verdict after the last step and why, as the program explains it."""
    return reason(step, pool) if why is None or step.verdict() == UNKNOWN else f"{why.verdict}. {why.says}"


def short(view: Dict[str, Any], pool: Pool) -> str:
    """What the acting set lacks. A grouped pool may have members enough, and too few of a part."""
    slots = [slot for slot, osd in enumerate(view["acting"]) if osd is not None]
    lacks_parts = pool.groups and not pool.are_enough(slots)
    return "the shards of the acting set aren't enough" if lacks_parts else "the acting set has too few members"


def behind(view: Dict[str, Any], pool: Pool) -> str:
    """Which members lack something."""
    lacks = []
    for peer in view["missing"]:
        name, count = member_text(peer["member"], pool), len(peer.get("objects", ()))
        if peer["state"] != "missing":
            lacks.append(f"{name} {'needs a backfill' if peer['state'] == 'backfill' else 'has diverged'}")
        elif count:
            lacks.append(f"{name} lacks {count} object{'s' if count > 1 else ''}")
    return ", ".join(lacks) or "all who were heard have all objects"


# What ends it


def ending(why: Reasons) -> str:
    """Which devices to start; empty where nothing that is down blocks the group."""
    if not why.blocking:
        return ""
    head = "What ends Down" if why.verdict == "Down" else "It would be Down, too; what ends that"
    return f"{head}: start {sets_text(why.ways, why.epochs)} (it may wait for backfill then)" if why.ways["sets"] else f"{head}: no start does"


def lost_text(why: Reasons) -> str:
    """Which devices to declare lost, where nothing else is left."""
    ways = why.whole.get("last_resort")
    if not ways:
        return ""
    head = "Last resort, with no way back, and for all groups of a device (image its disk, or export what it has, first)"
    return f"{head}: {'; or '.join(way_text(way, why.epochs) for way in ways)}"
