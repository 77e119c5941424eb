"""One follower: the log in memory, and the threads that read it, append to it, look how old it is, and keep it short."""

import logging
import os
import secrets
import socket
import threading
import time
from typing import Any, Callable, Dict, Optional, Tuple

from .appender import Appender, Submission
from .core import Program
from .election import Election
from .faults import CoreFault, Fault, NoLog, Unavailable, WrongCluster
from .gateway import Access, Gateway
from .keeper import Keeper
from .keys import Keys
from .log import Identity, Log, join
from .reader import Reader
from .replica import Asked, Replica
from .snapshot import Store

LOOK = 0.5  # seconds between two looks at the log's last place
FRESH = 3.0  # seconds: an answer that is older says so
LEASE = 10  # seconds
RESIGNING = 2.0  # seconds for which a leader that ends waits for etcd

log = logging.getLogger(__name__)


class Settings:
    """What a follower is told at its start."""

    def __init__(self, program: Program, wait: float = 10.0, every: int = 10_000, log_id: str = "", may_make: bool = False):
        self.program, self.wait, self.every = program, wait, every
        self.log_id, self.may_make = log_id, may_make


class Follower:
    """What stands behind the sockets. Any number of threads call `ask`, `append` and `find`."""

    def __init__(self, keys: Keys, access: Access, settings: Settings):
        self.keys, self.access, self.settings = keys, access, settings
        self.appender = Appender(settings.wait)
        self.replica = Replica(settings.program, self.appender.heard)
        self.reader = Reader(keys, self.replica)
        self.keeper = Keeper(self.replica, settings.every)
        self.name = f"{socket.gethostname()}.{os.getpid()}.{secrets.token_hex(4)}"
        self.identity: Optional[Identity] = None
        self.fault: Optional[Fault] = None  # of the log itself: from then on nothing is answered
        self.head = 0  # the log's last place, as far as was looked
        self.looked: Optional[Tuple[float, int]] = None  # when the last place was looked at, and what it was, until it is read
        self.fresh = 0.0  # what stood at this time was read; 0 at the start
        self.is_ready = threading.Event()  # the log was read once to its end
        self.lost: Optional[Fault] = Unavailable("etcd wasn't asked yet")  # why the last look failed
        self.stopping = threading.Event()
        self.main: Optional[threading.Thread] = None

    # The threads

    def start(self) -> None:
        self.main = self.thread(self.run_all)

    def thread(self, act: Callable[..., Any], *values: Any) -> threading.Thread:
        made = threading.Thread(target=self.guarded, args=(act, *values), name=act.__name__, daemon=True)
        made.start()
        return made

    def guarded(self, act: Callable[..., Any], *values: Any) -> None:
        """A thread that ends by what nobody thought of takes the process with it: a follower without it would seem well."""
        try:
            act(*values)
        except Exception:
            log.exception("a thread ended")
            os._exit(70)

    def gateway(self) -> Gateway:
        return Gateway(self.access, secrets.randbelow(len(self.access.endpoints)))

    def run_all(self) -> None:
        """Joins the log, and begins all that goes on from then."""
        identity = self.joined()
        if identity is None:
            return
        self.identity = identity
        log.info("follows the log %s under %s", identity.log, self.keys.top.decode())
        for run, *values in (
            (self.reader.run, Log(self.keys, identity, self.gateway()), Store(self.keys, identity, self.gateway()), self.gateway(), self.broken),
            (self.appender.run, Log(self.keys, identity, self.gateway()), self.replica, self.broken),
            (self.look, Log(self.keys, identity, self.gateway())),
        ):
            self.thread(run, *values)
        of_leader = self.gateway()
        election = Election(self.keys, identity, of_leader, self.name, LEASE)
        self.keeper.run(election, Log(self.keys, identity, of_leader), Store(self.keys, identity, of_leader), self.broken)

    def joined(self) -> Optional[Identity]:
        """The log's identity, once etcd tells it."""
        to_etcd = self.gateway()
        while not self.stopping.is_set():
            try:
                identity = join(self.keys, to_etcd, self.settings.log_id, self.settings.may_make)
                self.fault = None
                return identity
            except NoLog as fault:
                self.fault = fault  # somebody may make it yet
            except Fault as fault:
                if isinstance(fault, Unavailable) or fault.name == "Unsure":
                    log.warning("can't join yet: %s", fault)
                    self.lost = fault
                else:
                    self.broken(fault)
                    return None
            self.stopping.wait(LOOK)
        return None

    def look(self, to_log: Log) -> None:
        """Looks at the log's last place again and again."""
        stuck = time.monotonic()
        while not self.stopping.wait(LOOK):
            begun = time.monotonic()
            try:
                self.head = to_log.head()
                self.lost = None
                self.note_look(begun)
            except Unavailable as fault:
                self.lost = fault
            except Fault as fault:
                self.broken(fault)
            is_well = not self.lost and self.replica.place >= self.head
            if is_well or self.reader.is_applying:
                stuck = time.monotonic()
            elif time.monotonic() - stuck > FRESH:
                self.reader.kick()
                stuck = time.monotonic()
            self.replica.end_hung()

    def note_look(self, begun: float) -> None:
        """The head stood at this time; once it is read, no answer is older than that."""
        place = self.replica.place
        if self.looked and place >= self.looked[1]:
            self.fresh, self.looked = self.looked[0], None
            self.is_ready.set()
        if place >= self.head:
            self.fresh = begun
            self.is_ready.set()
        elif not self.looked:
            self.looked = (begun, self.head)

    def broken(self, fault: Fault) -> None:
        if self.fault is None or self.fault.name == NoLog.name:
            log.error("%s: %s", fault.name, fault)
        self.fault = fault

    def stop(self) -> None:
        self.stopping.set()
        self.reader.stop()
        self.keeper.stopping.set()
        self.appender.stop()
        if self.main:
            self.main.join(RESIGNING)
        self.replica.end()

    # What is asked of it

    def age(self) -> float:
        """Seconds: all that stood in the log so long ago was read."""
        return time.monotonic() - self.fresh

    def check(self) -> None:
        """Waits for the log to be read for the first time. Raises what is wrong with it."""
        if not self.fault:
            self.is_ready.wait(self.settings.wait)
        fault = self.fault
        if not fault and not self.is_ready.is_set():
            is_other = isinstance(self.lost, WrongCluster)
            fault = self.lost if is_other else Unavailable(f"the log isn't read yet: {self.lost or 'it is long'}")
        if fault:
            raise fault.with_traceback(None)  # the same fault is raised many times

    def until(self) -> float:
        return time.monotonic() + self.settings.wait

    def submit(self, token: str, line: bytes) -> Submission:
        """A line that is to stand in the log; without a token it gets one."""
        return self.appender.submit(token or f"f-{secrets.token_hex(8)}", line)

    def ask(self, line: bytes, after: int) -> Asked:
        """Tells the program a question once a place was read. The answer comes later."""
        self.check()
        return self.replica.ask(line, after, self.until())

    def find(self, token: str, after: int) -> Optional[int]:
        """The place of a token's line, None where none stood as this was called. Unavailable, NotYet."""
        self.check()
        assert self.identity
        to_etcd = self.gateway()
        try:
            head = Log(self.keys, self.identity, to_etcd).head()
        finally:
            to_etcd.close()
        self.replica.wait(max(head, after), self.until())
        known = self.replica.tokens.get(token)
        return known.place if known else None

    def health(self) -> Dict[str, Any]:
        place, has_core = self.replica.at()
        fault = self.fault or self.lost
        state = fault.name if fault else "following" if has_core else CoreFault.name
        return {
            "head": max(self.head, place),
            "is_ready": self.is_ready.is_set(),
            "leader": self.keeper.is_leader,
            "log": self.identity.log if self.identity else None,
            "place": place,
            "snapshot": self.replica.base.place,
            "state": state,
        }
