"""A gateway to an etcd in memory: what one node does, with faults on order."""

import base64
import threading
import unittest
from typing import Any, Callable, Dict, List, Optional

from pgpeer_follow import snapshot
from pgpeer_follow.faults import Unsure
from pgpeer_follow.gateway import Done, Gateway, Item
from pgpeer_follow.keys import Keys
from pgpeer_follow.log import Log, join


def raw(text: str) -> bytes:
    return base64.b64decode(text)


class Store:
    """What all gateways of a test share."""

    def __init__(self) -> None:
        self.items: Dict[bytes, Item] = {}
        self.revision = 1
        self.leases: Dict[int, List[bytes]] = {}
        self.granted = 0
        self.lock = threading.RLock()
        self.before: Optional[Callable[[], None]] = None  # is called once, before the next transaction
        self.faults: List[Exception] = []  # each raised by a transaction in its place
        self.late: List[Exception] = []  # each raised by a transaction that was done


class FakeGateway(Gateway):
    """Speaks to a Store as a Gateway does to etcd."""

    def __init__(self, store: Store):
        self.store = store

    def close(self) -> None:
        pass

    def transaction(self, compares: Any, success: Any, failure: Any = ()) -> Done:
        store = self.store
        with store.lock:
            before, store.before = store.before, None
            if before:
                before()
            if store.faults:
                raise store.faults.pop(0)
            holds = all(self.holds(it) for it in compares)
            writes = any("request_range" not in it for it in success)
            store.revision += holds and writes
            found = [it for it in map(self.do, success if holds else failure) if it is not None]
            if writes and store.late:
                raise store.late.pop(0)
            return Done(holds, store.revision, found)

    def holds(self, compare: Any) -> bool:
        item = self.store.items.get(raw(compare["key"]))
        if compare["target"] == "VALUE":
            return item is not None and item.value == raw(compare["value"])
        return (item.created if item else 0) == compare["create_revision"]

    def do(self, operation: Any) -> Optional[List[Item]]:
        if "request_range" in operation:
            return self.found(operation["request_range"])
        if "request_put" in operation:
            asked = operation["request_put"]
            key, old = raw(asked["key"]), self.store.items.get(raw(asked["key"]))
            created, version = (old.created, old.version + 1) if old else (self.store.revision, 1)
            self.store.items[key] = Item(key, raw(asked["value"]), created, self.store.revision, version)
            if asked["lease"]:
                self.store.leases.setdefault(asked["lease"], []).append(key)
        else:
            for item in self.found(operation["request_delete_range"]):
                del self.store.items[item.key]
        return None

    def found(self, asked: Any) -> List[Item]:
        key, end = raw(asked["key"]), raw(asked.get("range_end", ""))
        keys = sorted(it for it in self.store.items if (key <= it < end if end else it == key))
        return [self.store.items[it] for it in keys][: asked.get("limit") or None]

    def range(self, key: bytes, end: bytes = b"", limit: int = 0, keys_only: bool = False) -> List[Item]:
        with self.store.lock:
            return self.found({"key": base64.b64encode(key), "range_end": base64.b64encode(end), "limit": limit})

    def grant(self, seconds: int) -> int:
        with self.store.lock:
            self.store.granted += 1
            self.store.leases[self.store.granted] = []
            return self.store.granted

    def keep(self, lease: int) -> bool:
        return lease in self.store.leases

    def revoke(self, lease: int) -> None:
        with self.store.lock:
            for key in self.store.leases.pop(lease, []):
                self.store.items.pop(key, None)


def lost(store: Store) -> None:
    """The next transaction that writes is done, and its answer is lost."""
    store.late.append(Unsure("lost"))


class WithLog(unittest.TestCase):
    """A log in a store of its own."""

    def setUp(self) -> None:
        self.store = Store()
        self.keys, self.etcd = Keys("/pgpeer/"), FakeGateway(self.store)
        self.identity = join(self.keys, self.etcd, may_make=True)
        self.log = Log(self.keys, self.identity, self.etcd)
        self.snapshots = snapshot.Store(self.keys, self.identity, self.etcd)
