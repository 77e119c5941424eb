"""Where groups would lie once devices are out, as Ceph's own osdmaptool places them by the last map."""

import os
import re
import shutil
import tempfile
from typing import Dict, Iterable, List, Optional

from .calls import NoAnswer, NoCommand, printed
from .cluster import Cluster
from .folder import BINARY
from .maps import Group
from .sets import Where, printed_sets

SECONDS = 120


def map_of(folder: str) -> Optional[str]:
    """The last map that a folder has as Ceph keeps it."""
    names = (re.fullmatch(r"([0-9]{1,10})" + re.escape(BINARY), name) for name in os.listdir(folder))
    last = max((int(found[1]) for found in names if found), default=None)
    return None if last is None else os.path.join(folder, f"{last}{BINARY}")


def weights_of(cluster: Cluster) -> Dict[int, float]:
    """The weight of each device in the tree."""
    if cluster.tree is None:
        return {}
    items = (it for bucket in cluster.tree.key("buckets").items() for it in bucket.key("items").items())
    return {it.key("id").whole(): it.key("weight").count() / 0x10000 for it in items if it.key("id").whole() >= 0}


class Unplaced(Exception):
    """Why nothing tells where groups would lie."""


def placed(cluster: Cluster, osds: Iterable[int]) -> Dict[Group, Where]:
    """Where groups lie once these devices are out."""
    path = map_of(cluster.folder)
    if path is None:
        raise Unplaced("the folder has no map for osdmaptool, as fetch keeps it")
    if not shutil.which("osdmaptool"):
        raise Unplaced("there is no osdmaptool here (Debian's ceph-osd)")
    with tempfile.TemporaryDirectory() as room:
        copy = os.path.join(room, "map")
        shutil.copyfile(path, copy)
        return printed_sets(marked_out(cluster, copy, sorted(osds)), "osdmaptool")


def marked_out(cluster: Cluster, path: str, osds: List[int]) -> str:
    """What osdmaptool prints of groups. It keeps what it marks where a weight of the tree is given too, which stays as it is."""
    weights = weights_of(cluster)
    try:
        for osd in osds:
            if osd in weights:
                printed(["osdmaptool", path, "--mark-out", str(osd), "--adjust-crush-weight", f"{osd}:{weights[osd]!r}", "--save"], SECONDS)
        return printed(["osdmaptool", path, "--test-map-pgs-dump-all"], SECONDS).decode(errors="replace")
    except (NoAnswer, NoCommand) as fault:
        raise Unplaced(str(fault)) from fault
