"""The folder that `fetch` fills, and the maps, trees and sets that it keeps there."""

import contextlib
import os
import re
import shutil
from typing import Any, Callable, Dict, List, Optional, Union

from .calls import Ceph, NoAnswer, printed, tried
from .folder import BINARY
from .librados import Connection
from .nodes import Node, Unusable, compact, load, parsed
from .notes import Notes
from .output import write

NOTES = "fetch.json"  # what couldn't be fetched
MOST_FAULTS = 3  # maps that fail one after the other, before which no other is tried


class Folder:
    """A folder of dumps."""

    def __init__(self, path: str):
        self.path = path
        os.makedirs(path, exist_ok=True)

    def at(self, name: str) -> str:
        return os.path.join(self.path, name)

    def keep(self, name: str, value: Any) -> None:
        """Writes a value, whole or not at all."""
        write(compact(value) + "\n", self.at(name))

    def kept(self, name: str) -> Optional[Node]:
        """The value of a file; None where there is none that can be read."""
        try:
            return load(self.at(name)) if os.path.isfile(self.at(name)) else None
        except Unusable:
            return None

    def epochs(self) -> List[int]:
        """The epochs whose maps are here."""
        found = (re.fullmatch(r"([0-9]{1,10})\.osd\.json", name) for name in os.listdir(self.path))
        return sorted(int(it[1]) for it in found if it)

    def keep_notes(self, notes: Notes, **more: Any) -> None:
        """Keeps what couldn't be fetched, and what else is to be known then, unless nothing was fetched."""
        if not os.listdir(self.path):
            return
        self.keep(NOTES, {"not_fetched": {cause: list(things) for cause, things in notes.things.items()}, **more})


class FetchedMaps:
    """The maps of a cluster, with their trees and with where groups lie."""

    def __init__(self, ceph: Union[Ceph, Connection], folder: Folder, notes: Notes, side_by_side: Callable[..., List[Any]]):
        self.ceph, self.folder, self.notes, self.side_by_side = ceph, folder, notes, side_by_side
        self.versions: Dict[int, int] = {}  # of trees, by epoch
        self.fsid = self.known_fsid()

    def known_fsid(self) -> Optional[str]:
        """The cluster whose maps are here already."""
        for epoch in self.folder.epochs()[-1:]:
            node = self.folder.kept(f"{epoch}.osd.json")
            return node.key("fsid").text() if node is not None and node.has("fsid") else None
        return None

    # Maps

    def fetch(self, since: int, until: int) -> None:
        """Keeps the maps of these epochs, as far as the monitor has them, the last first."""
        try:
            report = self.ceph.value("report")
            first, last = (report.key(f"osdmap_{end}_committed").count() for end in ("first", "last"))
        except NoAnswer as fault:
            self.notes.tell("the epochs that the monitor has", str(fault))
            first, last = 1, self.ceph.value("osd", "dump").key("epoch").count()
        if since > last or until < first:
            raise Unusable(f"the monitor has the maps of epochs {first} to {last}")
        if 0 < since < first:
            self.notes.tell("maps that the monitor has no more", f"before epoch {first}")
        wanted = range(min(until, last), max(since, first, 1) - 1, -1)
        missing: List[int] = []
        for at in range(0, len(wanted), 64):
            part = wanted[at : at + 64]
            found = self.side_by_side(f"maps {wanted[-1]} to {wanted[0]}", self.fetch_map, part)
            missing += [epoch for epoch, is_there in zip(part, found) if not is_there]
            if len(found) >= MOST_FAULTS and not any(found[-MOST_FAULTS:]):
                missing += wanted[at + 64 :]
                break
        for epoch in sorted(missing):
            self.notes.tell("maps that the monitor didn't give, as after they were trimmed", f"epoch {epoch}")

    def fetch_map(self, epoch: int) -> bool:
        """Keeps the map of an epoch; tells whether it is there."""
        name = f"{epoch}.osd.json"
        node = self.folder.kept(name)
        if node is None:
            try:
                node = self.ceph.value("osd", "dump", str(epoch))
            except NoAnswer:
                return False
            fsid = node.key("fsid").text() if node.has("fsid") else None
            if self.fsid not in (None, fsid):
                raise Unusable(f"{self.folder.path} has maps of another cluster, {self.fsid}")
            self.folder.keep(name, node.value)
        self.versions[epoch] = node.count_of("crush_version")
        return True

    # Trees

    def fetch_trees(self) -> None:
        """Keeps a tree for each version that the maps have."""
        firsts: Dict[int, int] = {}
        for epoch in sorted(self.versions):
            firsts.setdefault(self.versions[epoch], epoch)
        there = {self.versions.get(epoch) for epoch in self.versions if self.folder.kept(f"{epoch}.crush.json") is not None}
        lacking = {version: epoch for version, epoch in firsts.items() if version not in there}
        if lacking:
            self.fetch_last_tree(lacking)
        for epoch in lacking.values():
            self.fetch_tree(epoch)

    def fetch_last_tree(self, lacking: Dict[int, int]) -> None:
        """Keeps the tree that the cluster has now, which needs no other tool, if it is one that is lacking."""
        try:
            before, tree, after = (self.ceph.value(*words) for words in (("osd", "dump"), ("osd", "crush", "dump"), ("osd", "dump")))
        except NoAnswer:
            return
        version = before.count_of("crush_version")
        if version == after.count_of("crush_version") and version in lacking:
            self.folder.keep(f"{lacking.pop(version)}.crush.json", tree.value)

    def fetch_tree(self, epoch: int) -> None:
        """Keeps the tree of an epoch, by crushtool."""
        if not self.tool("crushtool"):
            self.notes.tell("trees of earlier epochs (install crushtool, of Debian's ceph-base)", f"epoch {epoch}")
            return
        try:
            text = self.by_tool(("osd", "getcrushmap", str(epoch)), ["crushtool", "-i", "", "--dump"])
            self.folder.keep(f"{epoch}.crush.json", parsed(text, "crushtool").value)
        except NoAnswer as fault:
            self.notes.tell("trees of earlier epochs", f"epoch {epoch}: {fault}")

    def fetch_last_map(self) -> None:
        """Keeps the last map as Ceph keeps it, by which osdmaptool places groups."""
        last = max(self.folder.epochs(), default=0)
        old = [name for name in os.listdir(self.folder.path) if name.endswith(BINARY)]
        if not last or f"{last}{BINARY}" in old:
            return
        try:
            write(self.ceph.binary("osd", "getmap", str(last)), self.folder.at(f"{last}{BINARY}"))
        except NoAnswer as fault:
            self.notes.tell("the last map for osdmaptool", str(fault))
        else:
            for name in old:
                os.unlink(self.folder.at(name))

    def tool(self, name: str) -> List[str]:
        """How a tool is called: on this host, or in the container in which `ceph` is, which then has the folder under its own
        name; no word where it isn't there."""
        if shutil.which(name):
            return [name]
        words, path = self.ceph.words, os.path.abspath(self.folder.path)
        if "--" not in words or not any(os.path.basename(word) == "cephadm" for word in words):
            return []
        return [*words[: words.index("--")], "--mount", f"{path}:{path}", "--", name]

    def by_tool(self, words: Any, tool: List[str]) -> str:
        """What a tool prints of what `ceph` gives; the tool's empty word is the file."""
        made, path = self.ceph.binary(*words), os.path.abspath(self.folder.at(f".{words[-1]}.{words[1]}"))
        try:
            with open(path, "wb") as file:
                file.write(made)
            return tried(lambda: printed([*self.tool(tool[0]), *(word or path for word in tool[1:])])).decode(errors="replace")
        finally:
            with contextlib.suppress(FileNotFoundError):
                os.unlink(path)

    # Sets

    def fetch_sets(self) -> None:
        """Keeps where groups lie in each epoch, for trees that a script can't have."""
        lacking = [epoch for epoch in sorted(self.versions) if not os.path.isfile(self.folder.at(f"{epoch}.groups.txt"))]
        if lacking and not self.tool("osdmaptool"):
            self.notes.tell("where groups lie in each epoch (install osdmaptool, of Debian's ceph-osd)", f"{len(lacking)} epochs")
            return
        self.side_by_side("where groups lie", self.fetch_sets_of, lacking)

    def fetch_sets_of(self, epoch: int) -> None:
        try:
            text = self.by_tool(("osd", "getmap", str(epoch)), ["osdmaptool", "", "--test-map-pgs-dump-all"])
            write(text, self.folder.at(f"{epoch}.groups.txt"))
        except NoAnswer as fault:
            self.notes.tell("where groups lie in some epochs", f"epoch {epoch}: {fault}")
