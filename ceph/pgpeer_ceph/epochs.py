"""How the epochs of a script and those of Ceph go together, kept in a file beside the script.

`SCRIPT.jsonl` has `SCRIPT.epochs.json`. From Ceph's epoch `first` on, that of the script and `offset` more is Ceph's. Before
it the script makes devices, tree and pools as it found them; of Ceph's epochs before it those that reports name have the
script's epochs 1, 2, .. in order, and `older` lists them.
"""

import bisect
import json
import os
from typing import Iterable, NamedTuple, Optional, Tuple

from .nodes import Unusable, load
from .numbers import CarriedPool, Numbers


class Epochs(NamedTuple):
    """Ceph's epoch is the script's and `offset` more, from Ceph's epoch `first` on."""

    offset: int = 0
    first: int = 1
    older: Tuple[int, ...] = ()

    def in_script(self, epoch: int) -> int:
        """The script's epoch for one of Ceph's; 0 stays 0."""
        if epoch == 0 or epoch >= self.first:
            return epoch and epoch - self.offset
        return max(1, bisect.bisect_right(self.older, epoch))

    def in_ceph(self, epoch: int) -> Optional[int]:
        """Ceph's epoch for one of the script's; None where the script has an epoch that Ceph hadn't."""
        if epoch == 0 or epoch + self.offset >= self.first:
            return epoch and epoch + self.offset
        return self.older[epoch - 1] if epoch <= len(self.older) else None

    def text(self, epoch: int) -> str:
        """Ceph's epoch for one of the script's, as a person reads it."""
        found = self.in_ceph(epoch)
        return f"before {self.first}" if found is None else str(found)


def numbered(first: int, parts: int, named: Iterable[int]) -> Epochs:
    """The epochs of a script whose map is that of Ceph's epoch `first` after `parts` parts, with reports that name epochs."""
    older = tuple(sorted({epoch for epoch in named if 0 < epoch < first}))
    return Epochs(first - max(parts, len(older) + 1), first, older)


def side_path(script: str) -> str:
    """The file beside a script."""
    return (script[: -len(".jsonl")] if script.endswith(".jsonl") else script) + ".epochs.json"


def side_text(epochs: Epochs, numbers: Numbers = Numbers()) -> str:
    pools = [{"id": it.id, "pool": it.ceph, "groups": list(it.seeds)} for it in numbers.pools]
    told = {"offset": epochs.offset, "first": epochs.first, "older": list(epochs.older)}
    return json.dumps({**told, **({"pools": pools} if pools else {})}) + "\n"


def numbers_beside(script: str, side: Optional[str] = None) -> Numbers:
    """What the file beside a script says of its groups; the script's own numbers where it says nothing."""
    path = side or side_path(script)
    if side is None and (script == "-" or not os.path.exists(path)):
        return Numbers()
    pools = (it for it in load(path).items_of("pools"))
    return Numbers(CarriedPool(it.key("id").count(), it.key("pool").count(), tuple(seed.count() for seed in it.items_of("groups")))
                   for it in pools)


def epochs_of(script: str, side: Optional[str] = None) -> Epochs:
    """What the file beside a script says; the script's own epochs where there is none."""
    path = side or side_path(script)
    if side is None and (script == "-" or not os.path.exists(path)):
        return Epochs()
    node = load(path)
    offset, first = node.key("offset").whole(), node.key("first").count()
    older = tuple(it.count() for it in node.items_of("older"))
    if first - offset < 1 + len(older) or list(older) != sorted(set(older)) or older[-1:] >= (first,):
        raise Unusable(f"{path}: the epochs don't go together")
    return Epochs(offset, first, older)
