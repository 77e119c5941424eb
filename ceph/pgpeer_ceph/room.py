"""How large a folder may get, and what goes first."""

import os
import re
from typing import Dict, Iterable, List

from .fetched import Folder
from .nodes import Unusable

UNITS = {"": 1, "K": 1 << 10, "M": 1 << 20, "G": 1 << 30, "T": 1 << 40}
BY_EPOCH = re.compile(r"([0-9]{1,10})(?:\.(?:osd|crush)\.json|\.groups\.txt|-[0-9TZ]+\.pgs\.json)")
OLD_QUERY = re.compile(r"[0-9]{1,10}\.[0-9a-f]{1,8}\.([0-9]{1,10})\.query\.json")


def bytes_of(words: str) -> int:
    """A size that the command line names, as 500M."""
    found = re.fullmatch(r"([0-9]{1,12})([KMGT]?)", words)
    if not found or int(found[1]) == 0:
        raise Unusable(f"'{words}' is no size, as 500M or 2G")
    return int(found[1]) * UNITS[found[2]]


def make_room(folder: Folder, most: int) -> bool:
    """Removes the oldest epochs until no more bytes are there; tells whether it is so. The last map, its tree, and what groups said
    last stay."""
    with os.scandir(folder.path) as entries:
        sizes = {it.name: it.stat().st_size for it in entries if it.is_file() and not it.name.startswith(".")}
    over = sum(sizes.values()) - most
    if over <= 0:
        return True
    by_epoch = names_by_epoch(sizes)
    maps = sorted(epoch for epoch, names in by_epoch.items() if f"{epoch}.osd.json" in names)
    last = maps[-1] if maps else 0
    for epoch in sorted(by_epoch):
        if over <= 0:
            return True
        if epoch < last:
            hand_on_tree(folder, epoch, maps, by_epoch, sizes)
        for name in sorted(by_epoch[epoch]):  # of an epoch that goes all, else the oldest of what groups said
            if epoch < last or over > 0 and name.endswith(".pgs.json"):
                os.unlink(folder.at(name))
                over -= sizes[name]
    return over <= 0


def names_by_epoch(names: Iterable[str]) -> Dict[int, List[str]]:
    """The files that may go, by the epochs of which they tell."""
    found: Dict[int, List[str]] = {}
    for name in names:
        it = BY_EPOCH.fullmatch(name) or OLD_QUERY.fullmatch(name)
        if it:
            found.setdefault(int(it[1]), []).append(name)
    return found


def hand_on_tree(folder: Folder, epoch: int, maps: List[int], by_epoch: Dict[int, List[str]], sizes: Dict[str, int]) -> None:
    """Gives the tree of an epoch that goes to the next map, if that has the same one."""
    name, heir = f"{epoch}.crush.json", next((it for it in maps if it > epoch), 0)
    after = f"{heir}.crush.json"
    if name not in by_epoch[epoch] or not heir or after in sizes:
        return
    versions = [node.count_of("crush_version") for it in (epoch, heir) for node in [folder.kept(f"{it}.osd.json")] if node]
    if len(set(versions)) == 1 and len(versions) == 2:
        os.replace(folder.at(name), folder.at(after))
        by_epoch[epoch].remove(name)
        by_epoch[heir].append(after)
        sizes[after] = sizes.pop(name)
