"""Snapshots: what a follower needs to go on from a place, kept in etcd in pieces.

A snapshot is whole once its manifest stands, which is written last, and by the leader alone. Pieces without one are what a maker
left that was lost in between; the next maker takes them away.
"""

import hashlib
import json
import secrets
import zlib
from typing import Callable, List, NamedTuple, Tuple

from . import gateway
from .gateway import Body, Gateway
from .keys import Keys
from .log import Identity
from .tokens import Known

PIECE = 512 * 1024  # bytes, a third of what etcd takes in a request
KEPT = 2  # snapshots


class Snapshot(NamedTuple):
    """The log up to a place, as a script that was compacted there, and the tokens that are known there."""

    place: int
    script: Tuple[bytes, ...]
    tokens: Tuple[Known, ...]


class Manifest(NamedTuple):
    """What a snapshot in etcd consists of."""

    place: int
    maker: str
    pieces: int
    size: int
    sha256: str


class Broken(Exception):
    """A snapshot that isn't whole: it was deleted meanwhile, or damaged."""


class Deposed(Exception):
    """Another follower is the leader by now."""


def packed(snapshot: Snapshot) -> bytes:
    """A snapshot as bytes."""
    first = {"place": snapshot.place, "lines": len(snapshot.script), "tokens": len(snapshot.tokens)}
    tokens = [json.dumps([it.token, it.place, it.digest, it.answer.decode()]).encode() for it in snapshot.tokens]
    return zlib.compress(b"".join(it + b"\n" for it in (json.dumps(first).encode(), *tokens, *snapshot.script)), 6)


def unpacked(text: bytes) -> Snapshot:
    try:
        head, *lines = zlib.decompress(text).split(b"\n")
        first = json.loads(head)
        known = [Known(token, place, digest, answer.encode()) for token, place, digest, answer in map(json.loads, lines[: first["tokens"]])]
        script = lines[first["tokens"] : -1]
        if len(script) != first["lines"]:
            raise ValueError("lines are missing")
        return Snapshot(first["place"], tuple(script), tuple(known))
    except (ValueError, KeyError, TypeError, zlib.error) as fault:
        raise Broken(f"the snapshot can't be read: {fault}") from None


class Store:
    """One caller's way to the snapshots of a log, for one thread."""

    def __init__(self, keys: Keys, identity: Identity, to_etcd: Gateway):
        self.keys, self.identity, self.to_etcd = keys, identity, to_etcd

    def manifests(self) -> List[Manifest]:
        """Of the snapshots that are whole, the earliest first."""
        found = []
        for item in self.to_etcd.range(self.keys.snapshots, self.keys.snapshots_end):
            try:
                found.append(Manifest(**json.loads(item.value)))
            except (ValueError, TypeError):
                continue  # of no version that is known
        return sorted(found)

    def load(self, manifest: Manifest) -> Snapshot:
        top, text = self.keys.pieces_of(manifest.place, manifest.maker), b""
        for number in range(manifest.pieces):
            found = self.to_etcd.range(top + b"%06d" % number)
            if not found:
                raise Broken(f"piece {number} of the snapshot of place {manifest.place} isn't there")
            text += found[0].value
        if len(text) != manifest.size or hashlib.sha256(text).hexdigest() != manifest.sha256:
            raise Broken(f"the snapshot of place {manifest.place} has other bytes than it should")
        snapshot = unpacked(text)
        if snapshot.place != manifest.place:
            raise Broken(f"the snapshot of place {manifest.place} is of place {snapshot.place}")
        return snapshot

    def latest(self, after: int) -> Snapshot:
        """The latest snapshot, where it is of a place after this one. Broken: there is none that can be read."""
        manifests = [it for it in self.manifests() if it.place > after]
        if not manifests:
            raise Broken(f"there is no snapshot of a place after {after}")
        return self.load(manifests[-1])

    def fenced(self, fence: Body, operations: List[Body], *compares: Body) -> None:
        """A transaction of the leader. Deposed: it is the leader no more, or there is such a snapshot."""
        is_this = gateway.has_value(self.keys.identity, self.identity.value)
        if not self.to_etcd.transaction([is_this, fence, *compares], operations).succeeded:
            raise Deposed

    def store(self, snapshot: Snapshot, fence: Body, keep: Callable[[], object] = int) -> Manifest:
        """Writes a snapshot, its manifest last. `keep` is called before each piece, and keeps the lease. Deposed."""
        text, maker = packed(snapshot), secrets.token_hex(8)
        top = self.keys.pieces_of(snapshot.place, maker)
        pieces = [text[at : at + PIECE] for at in range(0, len(text), PIECE)]
        for number, piece in enumerate(pieces):
            keep()
            self.fenced(fence, [gateway.put(top + b"%06d" % number, piece)])
        made = Manifest(snapshot.place, maker, len(pieces), len(text), hashlib.sha256(text).hexdigest())
        key = self.keys.snapshot(snapshot.place)
        self.fenced(fence, [gateway.put(key, json.dumps(made._asdict()).encode())], gateway.was_created(key, 0))
        return made

    def clean(self, fence: Body) -> int:
        """Deletes all but the last two snapshots, pieces of no snapshot, and the log before the last two. Gives the last place
        that was deleted, 0 if none."""
        manifests = self.manifests()
        kept, gone = manifests[-KEPT:], manifests[:-KEPT]
        if gone:
            self.fenced(fence, [gateway.delete(self.keys.snapshot(it.place)) for it in gone[:100]])
        tops = {self.keys.pieces_of(it.place, it.maker) for it in kept}
        names = {it.key.rpartition(b"/")[0] + b"/" for it in self.to_etcd.range(self.keys.pieces, self.keys.pieces_end, keys_only=True)}
        for top in sorted(names - tops):
            self.fenced(fence, [gateway.delete(top, top[:-1] + b"0")])
        if len(kept) < KEPT:
            return 0
        first = kept[0].place
        self.fenced(fence, [gateway.delete(self.keys.place(0), self.keys.place(first + 1))])
        return first
