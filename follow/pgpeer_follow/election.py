"""Who makes snapshots: the follower whose key stands, which goes with its lease. No clock of a follower decides anything."""

import logging
import time

from . import gateway
from .faults import Fault
from .gateway import Body, Gateway
from .keys import Keys
from .log import Identity

log = logging.getLogger(__name__)


class Election:
    """One follower's candidacy, for one thread."""

    def __init__(self, keys: Keys, identity: Identity, to_etcd: Gateway, name: str, seconds: int):
        self.keys, self.identity, self.to_etcd = keys, identity, to_etcd
        self.name, self.seconds = name, seconds
        self.lease = 0
        self.revision = 0  # at which the leader's key was made, where it is this follower's
        self.kept = 0.0  # when the lease was last kept

    def fence(self) -> Body:
        """What holds as long as this follower is the leader: to be compared by each write of the leader."""
        return gateway.was_created(self.keys.leader, self.revision)

    def leads(self) -> bool:
        """Keeps or seeks the leadership; to be called often. Tells whether this follower has it, as far as it knows."""
        try:
            if self.lease and time.monotonic() - self.kept > self.seconds / 3:
                self.keep()
            if not self.revision:
                self.seek()
        except Fault as fault:
            log.debug("election: %s", fault)
        return self.revision != 0

    def keep(self) -> None:
        if self.to_etcd.keep(self.lease):
            self.kept = time.monotonic()
        else:
            self.lose()

    def lose(self) -> None:
        """The leadership is another's by now, or nobody's."""
        if self.revision:
            log.info("no longer the leader")
        self.lease = self.revision = 0

    def seek(self) -> None:
        found = self.to_etcd.range(self.keys.leader)
        if found:
            if self.lease and found[0].value == self.name.encode():
                self.revision = found[0].created  # of a transaction whose answer was lost
            return
        if not self.lease:
            self.lease, self.kept = self.to_etcd.grant(self.seconds), time.monotonic()
        is_free = [gateway.has_value(self.keys.identity, self.identity.value), gateway.was_created(self.keys.leader, 0)]
        done = self.to_etcd.transaction(is_free, [gateway.put(self.keys.leader, self.name.encode(), self.lease)])
        if done.succeeded:
            self.revision = done.revision
            log.info("the leader from now on")

    def resign(self) -> None:
        """Lets another follower lead at once."""
        lease, self.lease, self.revision = self.lease, 0, 0
        try:
            if lease:
                self.to_etcd.revoke(lease)
        except Fault:
            pass  # the lease runs out
