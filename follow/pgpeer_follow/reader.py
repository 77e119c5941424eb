"""Reads the log: from the last place that is known to its end, and then by a watch. It never asks etcd for an old revision, so what
etcd has compacted doesn't matter."""

import contextlib
import logging
import threading
import time
from typing import Callable, List, Optional

from .faults import CoreFault, Fault, TwoLogs, Unavailable
from .gateway import Gateway, Item, Watch
from .keys import Entry, Keys, entry_of
from .log import Log
from .replica import Replica
from .snapshot import Broken, Snapshot, Store

PAUSE = 0.2  # seconds between two tries
PATIENCE = 60.0  # seconds for which a snapshot is looked for where the log lacks a place

log = logging.getLogger(__name__)


class Behind(Exception):
    """The log no longer has the next place."""


class Reader:
    """The thread that reads, and by which entries are applied."""

    def __init__(self, keys: Keys, replica: Replica):
        self.keys, self.replica = keys, replica
        self.stopping = threading.Event()
        self.watch: Optional[Watch] = None
        self.reconnects = -1  # after the first
        self.starts_over = 0
        self.is_applying = False
        self.behind_since = 0.0

    def run(self, to_log: Log, store: Store, to_etcd: Gateway, broken: Callable[[Fault], None]) -> None:
        """Until `stopping` is set."""
        with contextlib.suppress(Broken, Fault):
            self.apply_snapshot(store.latest(0))
        while not self.stopping.is_set():
            try:
                revision = self.catch_up(to_log)
                self.reconnects += 1
                self.follow(to_etcd, revision + 1)
            except Behind:
                self.start_over(store, broken)
            except Unavailable as fault:
                log.debug("reader: %s", fault)
            except Fault as fault:
                broken(fault)
            self.stopping.wait(PAUSE)

    def apply(self, entries: List[Entry]) -> None:
        self.is_applying = True
        try:
            self.replica.apply(entries)
        finally:
            self.is_applying = False

    def catch_up(self, to_log: Log) -> int:
        """Reads the log to its end, and gives a revision at which that was its end. Behind, TwoLogs, Unavailable."""
        while not self.stopping.is_set():
            place = self.replica.place
            page = to_log.page(place)
            if page.head < place:
                raise TwoLogs(f"the log ends at place {page.head}, and place {place} was read")
            if [it.place for it in page.entries] != list(range(place + 1, place + 1 + len(page.entries))):
                raise Behind
            if not page.entries and page.head > place:
                raise Behind
            self.behind_since = 0.0
            self.apply(page.entries)
            if self.replica.place >= page.head:
                return page.revision
        raise Unavailable("the follower ends")

    def follow(self, to_etcd: Gateway, revision: int) -> None:
        """Applies entries as they come. Ends by Unavailable, or where a place was missed."""
        self.watch = to_etcd.watch(self.keys.place(0), self.keys.log_end, revision)
        try:
            for items in self.watch.batches():
                entries = self.next_of(items)
                if entries is None:
                    return
                self.apply(entries)
                if self.stopping.is_set():
                    return
        finally:
            self.watch.close()
            self.watch = None
            to_etcd.turn()  # the node may be one that hears nothing

    def next_of(self, items: List[Item]) -> Optional[List[Entry]]:
        """The entries of a watch that are next; None where a place was missed. TwoLogs."""
        entries: List[Entry] = []
        for item in items:
            place, last = self.keys.place_of(item.key), self.replica.place + len(entries)
            if place is None or item.version != 1:
                raise TwoLogs(f"{item.key!r} isn't of this log, or was written twice")
            if place > last + 1:
                return None
            if place == last + 1:
                entries.append(entry_of(place, item.value))
        return entries

    def start_over(self, store: Store, broken: Callable[[Fault], None]) -> None:
        """Goes on from the latest snapshot. The log is no whole one where there is none for long."""
        self.behind_since = self.behind_since or time.monotonic()
        try:
            self.apply_snapshot(store.latest(self.replica.place))
        except (Broken, Unavailable, CoreFault) as fault:
            log.warning("no snapshot yet: %s", fault)
            if isinstance(fault, Broken) and time.monotonic() - self.behind_since > PATIENCE:
                broken(TwoLogs("the log lacks a place, and no snapshot has it"))

    def apply_snapshot(self, snapshot: Snapshot) -> None:
        self.is_applying = True
        try:
            self.replica.start_over(snapshot)
        finally:
            self.is_applying = False
        self.starts_over += 1
        log.info("goes on from the snapshot of place %d", snapshot.place)

    def kick(self) -> None:
        """Ends a watch that brings nothing, so that another one is begun; called by another thread."""
        watch = self.watch
        if watch:
            watch.stop()

    def stop(self) -> None:
        self.stopping.set()
        self.kick()
