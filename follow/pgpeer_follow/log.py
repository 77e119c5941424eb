"""The log in etcd: which one it is, its places, and how lines get the next ones."""

import json
import secrets
from typing import List, NamedTuple, Optional, Sequence

from . import gateway
from .faults import NoLog, TwoLogs, Unavailable, Unsure
from .gateway import Body, Done, Gateway
from .keys import Entry, Keys, entry_of

FIRST, MOST = 64, 256  # entries in a page
PAGE_BYTES = 4 << 20  # about as many a page has, where lines are long


class Identity(NamedTuple):
    """Which log this is: its id, and the value that says so, which each transaction compares."""

    log: str
    value: bytes


class Page(NamedTuple):
    """Entries that follow one another, the last place of the log, and the revision at which both stood so."""

    entries: List[Entry]
    head: int
    revision: int


def made(keys: Keys, to_etcd: Gateway) -> None:
    """Makes the log, unless somebody was faster. TwoLogs: the prefix lies in that of another log."""
    for key in keys.outer_identities():
        if to_etcd.range(key, keys_only=True):
            raise TwoLogs(f"{key.decode()} is another log, in which this prefix lies")
    value = json.dumps({"format": 1, "log": secrets.token_hex(16)}).encode()
    absent = [gateway.was_created(it, 0) for it in (keys.identity, keys.head)]
    try:
        to_etcd.transaction(absent, [gateway.put(keys.identity, value), gateway.put(keys.head, b"0")])
    except Unsure:
        pass  # the next look tells


def join(keys: Keys, to_etcd: Gateway, wanted: str = "", may_make: bool = False) -> Identity:
    """Finds the log under the prefix, or makes it. NoLog, TwoLogs, Unavailable."""
    look = [gateway.get(keys.identity), gateway.get(keys.top, keys.top_end, limit=1, keys_only=True)]
    found, others = to_etcd.transaction([], look).found
    if not found:
        if others:
            raise TwoLogs(f"{others[0].key!r} stands under the prefix, and no log")
        if not may_make:
            raise NoLog(f"no log stands under {keys.top.decode()}")
        made(keys, to_etcd)
        found = to_etcd.range(keys.identity)
    if not found:
        raise Unsure("the log that was made can't be found yet")
    try:
        told = json.loads(found[0].value)
        log, is_known = str(told["log"]), told["format"] == 1
    except (ValueError, KeyError, TypeError):
        log, is_known = "", False
    if not is_known:
        raise TwoLogs(f"{keys.identity.decode()} names no log that this version reads")
    if wanted and wanted != log:
        raise TwoLogs(f"the log is {log}, and {wanted} is meant")
    return Identity(log, found[0].value)


class Log:
    """One caller's way to the log, for one thread."""

    def __init__(self, keys: Keys, identity: Identity, to_etcd: Gateway):
        self.keys, self.identity, self.to_etcd = keys, identity, to_etcd
        self.limit = FIRST

    def is_this(self) -> Body:
        return gateway.has_value(self.keys.identity, self.identity.value)

    def head_in(self, done: Done, identity: int, head: int) -> int:
        """The last place, of a transaction that read the identity and the head at these numbers."""
        for number, key, is_it in (
            (identity, self.keys.identity, lambda value: value == self.identity.value),
            (head, self.keys.head, bytes.isdigit),
        ):
            if not done.found[number] or not is_it(done.found[number][0].value):
                raise TwoLogs(f"{key.decode()} isn't as this log had it")
        return int(done.found[head][0].value)

    def head(self) -> int:
        """The last place of the log, as a majority of the nodes has it now."""
        return self.head_in(self.to_etcd.transaction([], [gateway.get(self.keys.identity), gateway.get(self.keys.head)]), 0, 1)

    def page(self, after: int) -> Page:
        """The next entries after a place, and the head. Where the first of them isn't at the next place, it was deleted."""
        first = self.keys.place(after + 1)
        reads = [gateway.get(self.keys.identity), gateway.get(self.keys.head), gateway.get(first, self.keys.log_end, self.limit)]
        try:
            done = self.to_etcd.transaction([], reads)
        except Unavailable:
            self.limit = max(1, self.limit // 4)
            raise
        entries, size = [], 0
        for item in done.found[2]:
            place = self.keys.place_of(item.key)
            if place is None or item.version != 1:
                raise TwoLogs(f"{item.key!r} isn't of this log, or was written twice")
            entries.append(entry_of(place, item.value))
            size += len(item.value)
        self.limit = max(1, self.limit // 2) if size > PAGE_BYTES else min(MOST, 2 * self.limit)
        return Page(entries, self.head_in(done, 0, 1), done.revision)

    def append(self, head: int, values: Sequence[bytes], fence: Optional[Body] = None) -> Optional[int]:
        """Puts entries at the places after this head, all or none. None: they stand. Else nothing was put, and the number is the
        log's last place, which may be this head where the fence didn't hold. Unsure: they may stand."""
        keys, last = self.keys, head + len(values)
        compares = [self.is_this(), gateway.has_value(keys.head, b"%d" % head), gateway.was_created(keys.place(head + 1), 0)]
        puts = [gateway.put(keys.place(head + 1 + at), value) for at, value in enumerate(values)]
        looks = [gateway.get(keys.identity), gateway.get(keys.head), gateway.get(keys.place(head + 1), keys_only=True)]
        done = self.to_etcd.transaction([*compares, *([fence] if fence else [])], [*puts, gateway.put(keys.head, b"%d" % last)], looks)
        if done.succeeded:
            return None
        now = self.head_in(done, 0, 1)
        if now == head and done.found[2]:
            raise TwoLogs(f"{keys.place(head + 1).decode()} stands behind the log's last place")
        return now
