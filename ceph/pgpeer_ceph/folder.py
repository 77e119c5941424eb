"""What the files of a folder are: maps, trees, groups, reports and logs, told apart by what they hold.

A tree and a list of groups don't say of which epoch they are. Their file's name does: it begins as that of the epoch's map,
as in `a.osd.json` and `a.crush.json`, or with the epoch itself, as in `26.groups.txt`.
"""

import os
import re
from dataclasses import dataclass, field
from typing import Dict, List, Optional, Set, Tuple

from .lean import Lean
from .maps import Group
from .nodes import Node, Unusable, parsed, text_of
from .notes import Notes
from .sets import Where, is_printed, printed_sets

LOG_NAME = re.compile(r"(?:^|[^0-9])osd\.?(\d{1,4})[^0-9].*?(\d{1,9}\.[0-9a-f]{1,8})(?:s(\d{1,2}))?(?=[^0-9a-f]|$)")
INFO_NAME = re.compile(r"(?:^|[^0-9])osd\.?(\d{1,4})(?=[^0-9])")
BINARY = ".osdmap"  # the end of the name of a map as Ceph keeps it, for osdmaptool


@dataclass
class Dumps:
    """The dumps that were found, by epoch where they have one."""

    maps: Dict[int, Node] = field(default_factory=dict)
    trees: Dict[int, Node] = field(default_factory=dict)  # by the version of the tree
    sets: Dict[int, Dict[Group, Where]] = field(default_factory=dict)  # by epoch, of groups that lie otherwise than in the one before
    stats: List[Node] = field(default_factory=list)  # of `ceph pg dump`
    queries: List[Node] = field(default_factory=list)
    logs: List[Tuple[int, str, Node]] = field(default_factory=list)  # the device, the group with its shard
    uses: List[Node] = field(default_factory=list)  # of `ceph osd df tree`
    infos: List[Tuple[int, Node]] = field(default_factory=list)  # of stopped devices: the device and its info
    not_fetched: Notes = field(default_factory=Notes)  # what `fetch` told


@dataclass
class LooseFiles:
    """Files whose epoch their name has to tell, and the epochs of maps by the beginning of their names."""

    epochs: Dict[str, int] = field(default_factory=dict)
    trees: List[Tuple[str, Node]] = field(default_factory=list)
    groups: List[Tuple[str, str]] = field(default_factory=list)  # the text of standard input alone, which can't be read twice
    lean: Lean = field(default_factory=Lean)


def files_of(paths: List[str]) -> List[str]:
    """The files, and those of folders, in order."""
    found = []
    for path in paths:
        if os.path.isdir(path):
            try:
                names = sorted(os.listdir(path))
            except OSError as fault:
                raise Unusable(f"{path}: {fault.strerror}") from fault
            inside = (os.path.join(path, name) for name in names if not name.startswith(".") and not name.endswith(BINARY))
            found += [it for it in inside if os.path.isfile(it)]
        else:
            found.append(path)
    return found


def stem(path: str) -> str:
    """The beginning of a file's name, which files of one epoch share."""
    name = os.path.basename(path)
    return re.sub(r"\.?(osdmap|osd|map|crush|groups|pgs)?\.(json|txt)$", "", name)


def kind_of(node: Node) -> str:
    """What a dump is, by its keys."""
    for kind, keys in (("map", ("epoch", "osds", "pools")), ("tree", ("buckets", "rules")), ("log", ("pg_log_t",)),
                       ("query", ("info", "peer_info", "acting")), ("stats", ("pg_stats",)), ("stats", ("pg_map",)),
                       ("info", ("pgid", "last_update", "history")), ("use", ("nodes", "summary")), ("notes", ("not_fetched",))):
        if all(node.has(key) for key in keys):
            return kind
    return ""


def read_folder(paths: List[str], notes: Notes) -> Dumps:
    dumps, loose = Dumps(), LooseFiles()
    named = [path for path in paths if not os.path.isdir(path)]
    for path in files_of(paths):
        try:
            text, node, kind = told_apart(path)
        except Unusable as fault:
            if path in named:
                raise
            notes.tell("files that are no dump of Ceph's", str(fault))
        else:
            take_file(path, text, node, kind, dumps, loose)
    if not dumps.maps:
        raise Unusable(f"{' '.join(paths)}: no map, as `ceph osd dump --format json` prints it")
    place_trees(dumps, loose)
    place_sets(dumps, loose)
    return dumps


def told_apart(path: str) -> Tuple[str, Node, str]:
    """A file's text, its value and what it is."""
    text = text_of(path)
    where = "standard input" if path == "-" else path
    if is_printed(text):
        return text, Node(None, where), "groups"
    node = parsed(text, where)
    kind = kind_of(node)
    if not kind:
        raise Unusable(f"{where} is no map, tree, list of groups, query, info or log of Ceph's")
    return text, node, kind


def take_file(path: str, text: str, node: Node, kind: str, dumps: Dumps, loose: LooseFiles) -> None:
    node = Node(loose.lean.value(kind, node.value), node.where)
    if kind == "groups":
        loose.groups.append((path, text if path == "-" else ""))
    elif kind == "map":
        add_map(path, node, dumps, loose)
    elif kind == "tree":
        loose.trees.append((path, node))
    elif kind == "query":
        dumps.queries.append(node)
    elif kind == "stats":
        dumps.stats.append(node)
    elif kind == "notes":
        take_notes(node.key("not_fetched"), dumps.not_fetched)
    elif kind == "log":
        dumps.logs.append((*log_of(path), node))
    elif kind == "info":
        dumps.infos.append((device_of(path), node))
    elif kind == "use":
        dumps.uses.append(node)


def take_notes(node: Node, notes: Notes) -> None:
    """Takes what `fetch` kept of what it couldn't fetch."""
    if not isinstance(node.value, dict):
        raise Unusable(f"{node.where} is no object")
    for cause in node.value:
        for thing in node.key(cause).items():
            notes.tell(cause, thing.text())


def add_map(path: str, node: Node, dumps: Dumps, loose: LooseFiles) -> None:
    epoch = node.key("epoch").count()
    if epoch == 0:
        raise Unusable(f"{node.where}.epoch is 0")
    known = dumps.maps.get(epoch)
    if known is not None and known.value != node.value:
        raise Unusable(f"{path} and {known.where} are two maps of epoch {epoch}")
    other = next(iter(dumps.maps.values()), None)
    if other is not None and fsid_of(other) != fsid_of(node):
        raise Unusable(f"{path} and {other.where} are maps of two clusters")
    dumps.maps[epoch] = node
    loose.epochs[stem(path)] = epoch


def fsid_of(node: Node) -> str:
    return node.key("fsid").text() if node.has("fsid") else ""


def log_of(path: str) -> Tuple[int, str]:
    """The device and the group of a log, by the name of its file."""
    found = LOG_NAME.search(os.path.basename(path))
    if not found:
        raise Unusable(f"{path}: the name of a log's file has to tell the device and the group, as osd.2-1.0.log.json")
    return int(found[1]), found[2] + (f"s{found[3]}" if found[3] else "")


def device_of(path: str) -> int:
    """The device of an info, by the name of its file."""
    found = INFO_NAME.search(os.path.basename(path))
    if not found:
        raise Unusable(f"{path}: the name of an info's file has to tell the device, as osd.2-1.0.info.json")
    return int(found[1])


def epoch_of(path: str, loose: LooseFiles) -> int:
    name = stem(path)
    if name in loose.epochs:
        return loose.epochs[name]
    if re.fullmatch(r"[0-9]{1,10}", name):
        return int(name)
    if len(loose.epochs) == 1:
        return next(iter(loose.epochs.values()))
    raise Unusable(f"{path}: of which epoch? Its name has to begin as that of a map's file, or with the epoch: EPOCH.groups.txt")


def version_of(node: Node) -> int:
    return node.count_of("crush_version")


def place_trees(dumps: Dumps, loose: LooseFiles) -> None:
    """Finds the version of each tree, by the map of its epoch."""
    versions = {version_of(node) for node in dumps.maps.values()}
    for path, node in loose.trees:
        version = version_at(epoch_of(path, loose), dumps) if len(versions) > 1 or len(loose.trees) > 1 else next(iter(versions))
        if version is None:
            raise Unusable(f"{path}: there is no map of its epoch")
        known: Optional[Node] = dumps.trees.get(version)
        if known is not None and known.value != node.value:
            raise Unusable(f"{path} and {known.where} are two trees of version {version}")
        dumps.trees[version] = node


def version_at(epoch: int, dumps: Dumps) -> Optional[int]:
    return version_of(dumps.maps[epoch]) if epoch in dumps.maps else None


def place_sets(dumps: Dumps, loose: LooseFiles) -> None:
    """Reads where groups lie, in the order of epochs: of each those lines alone that the one before hasn't."""
    before: Set[str] = set()
    last = ""
    for epoch, path, text in sorted((epoch_of(path, loose), path, text) for path, text in loose.groups):
        text, sets = text or text_of(path), dumps.sets.setdefault(epoch, {})
        if text != last:
            lines = text.splitlines()
            sets.update(printed_sets("\n".join(line for line in lines if line not in before), path))
            before, last = set(lines), text
