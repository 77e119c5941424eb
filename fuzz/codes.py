"""When the members at hand are enough, by docs/RULES.md ("Codes").

A code is None in a pool of whole copies, k in an erasure pool, and the list of its parts in a grouped pool: each a set of
slots with the least number of them that has to be there.
"""

import itertools
from typing import Any, Dict, FrozenSet, Iterable, List, Optional, Tuple, Union

Part = Tuple[FrozenSet[int], int]
Code = Union[None, int, Tuple[Part, ...]]
MOST_SLOTS = 16


def code_of(told: Dict[str, Any]) -> Code:
    """The code of a pool, or of a trace, as a line tells it."""
    if told["kind"] == "grouped":
        return tuple((frozenset(slots), least) for slots, least in told["groups"])
    return told["k"] if told["kind"] == "erasure" else None


def is_grouped(code: Code) -> bool:
    return isinstance(code, tuple)


def are_faulty(groups: List[Any], size: int) -> bool:
    """Tells whether no pool of this size can have these parts."""
    slots = list(itertools.chain.from_iterable(part for part, _ in groups))
    if not groups or len(set(slots)) != len(slots) or any(slot >= size for slot in slots):
        return True
    return any(not 1 <= least <= len(part) for part, least in groups)


def members(code: Code, places: Iterable[Optional[int]]) -> List[Tuple[int, int]]:
    """The members of a list: each a device with its slot, which is 0 in a pool of whole copies and else its place."""
    return [(osd, 0 if code is None else slot) for slot, osd in enumerate(places) if osd is not None]


def are_enough(code: Code, slots: Iterable[int]) -> bool:
    """Tells whether these slots are enough: one of whole copies, k of an erasure code, of each part its least number."""
    have = set(slots)
    if isinstance(code, tuple):
        return all(len(have & part) >= least for part, least in code)
    return len(have) >= (1 if code is None else code)
