"""What the leader does: marks where the log is compacted, snapshots, and deleting what two snapshots made needless."""

import contextlib
import logging
import threading
import time
from typing import Callable

from .election import Election
from .faults import Fault, NotYet, Unavailable, Unsure
from .keys import MARK
from .log import Log
from .replica import Replica
from .snapshot import Deposed, Store

LOOK = 0.5  # seconds between two looks
MARKING = 2.0  # seconds for which the next place is sought for a mark

log = logging.getLogger(__name__)


class Keeper:
    """One follower's part in keeping the log short, for one thread."""

    def __init__(self, replica: Replica, every: int):
        self.replica, self.every = replica, every
        self.stopping = threading.Event()
        self.is_leader = False
        self.stored = 0  # the place of the last whole snapshot, as far as this follower looked
        self.made = 0  # snapshots that this follower made

    def run(self, election: Election, to_log: Log, store: Store, broken: Callable[[Fault], None]) -> None:
        """Until `stopping` is set."""
        is_clean = False
        while not self.stopping.wait(LOOK):
            led, self.is_leader = self.is_leader, election.leads()
            is_clean = is_clean and led
            if not self.is_leader:
                continue
            try:
                is_clean = self.look(election, to_log, store, is_clean)
            except Deposed:
                election.lose()
            except (Unavailable, Unsure) as fault:
                log.debug("keeper: %s", fault)
                is_clean = False
            except Fault as fault:
                broken(fault)
        election.resign()

    def look(self, election: Election, to_log: Log, store: Store, is_clean: bool) -> bool:
        """One step of a leader. Tells whether all that is needless is deleted."""
        if not is_clean:
            manifests = store.manifests()
            self.stored = manifests[-1].place if manifests else 0
        base = self.replica.base
        if base.place > self.stored:
            made = store.store(base, election.fence(), election.leads)
            self.stored = base.place
            self.made += 1
            log.info("snapshot of place %d: %d lines, %d bytes in %d pieces", made.place, len(base.script), made.size, made.pieces)
            is_clean = False
        elif self.is_due():
            self.mark(self.replica.place, election, to_log)
        if not is_clean:
            gone = store.clean(election.fence())
            if gone:
                log.info("the log up to place %d is deleted", gone)
        return True

    def is_due(self) -> bool:
        """Tells whether there are enough places since the last mark. A replica that passes one changes its base first."""
        place = self.replica.place
        return place - self.replica.base.place >= self.every

    def mark(self, place: int, election: Election, to_log: Log) -> None:
        """Has each follower compact its script at the next place. Where lines of others are faster for long, or a mark that is put
        already takes its time, it is left to the next look."""
        until = time.monotonic() + MARKING
        with contextlib.suppress(NotYet):
            while time.monotonic() < until and self.is_due():
                now = to_log.append(place, [MARK], election.fence())
                if now is None:
                    log.info("a mark at place %d", place + 1)
                    self.replica.wait(place + 1, until)
                    return
                if now <= place:
                    raise Deposed
                self.replica.wait(now, until)
                place = self.replica.place
