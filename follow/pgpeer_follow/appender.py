"""Appends lines to the log: each claims the next place, and stands once.

A follower appends only behind a last place up to which it has read the log itself, and etcd compares that place. So it knows each
token that stands there. A transaction whose answer was lost can't be done later either, once another one has moved the last place.
"""

import contextlib
import queue
import threading
import time
from typing import Any, Callable, Dict, List, Optional

from .faults import Busy, Fault, NotYet, TokenUsed, Unanswered, Unavailable, Unsure
from .keys import digest_of, value_of
from .log import Log
from .replica import Replica
from .tokens import Known

MOST_WAITING = 10_000  # lines
MOST_WAITING_BYTES = 64 << 20
BATCH, BATCH_BYTES = 100, 1 << 20  # lines, and their bytes, in a transaction; a longer line goes alone
PAUSE = 0.05  # seconds between two tries, where etcd can't be reached
PATIENCE = 2.0  # seconds for which a line that stands is waited for, before the next is tried


class Submission:
    """A line that somebody wants to stand in the log, and what came of it."""

    def __init__(self, token: str, line: bytes, until: float):
        self.token, self.line, self.until = token, line, until
        self.place = 0  # once it is known to stand
        self.answer = b""
        self.fault: Optional[Fault] = None
        self.may_stand = False  # since a transaction with it was sent, and its end isn't known
        self.is_given_up = False  # by whom waited for it; it is sent no more
        self.why: Fault = Unavailable()  # why the last try failed
        self.is_over = threading.Event()

    def end(self, fault: Optional[Fault] = None) -> None:
        self.fault = fault
        self.is_over.set()

    def outcome(self) -> None:
        """Raises what was wrong; else `place` and `answer` are there."""
        if self.fault:
            raise self.fault.with_traceback(None)
        if self.place and not self.answer:
            raise Unanswered("the line stands, and its answer is still to come", place=self.place, token=self.token)
        if not self.place and self.may_stand:
            raise Unsure("the line may stand: tell it once more, with its token", token=self.token)
        if not self.place:
            raise type(self.why)(f"the line doesn't stand: {self.why}", token=self.token)


class Appender:
    """The lines that wait for their places, and the thread that appends them, in the order in which they came."""

    def __init__(self, seconds: float):
        self.seconds = seconds  # in which a line is appended and answered, or given up
        self.lines: "queue.Queue[Optional[Submission]]" = queue.Queue()
        self.lock = threading.Lock()  # holds what stands below
        self.waiting: Dict[str, List[Submission]] = {}
        self.bytes = 0
        self.before: List[bool] = []  # of the lines that were claimed last, whether they might have stood before

    def submit(self, token: str, line: bytes) -> Submission:
        """A line that is to stand behind all places that were read. Busy: too many wait."""
        it = Submission(token, line, time.monotonic() + self.seconds)
        with self.lock:
            if self.lines.qsize() >= MOST_WAITING or self.bytes + len(line) > MOST_WAITING_BYTES:
                raise Busy("too many lines wait for their places")
            self.bytes += len(line)
            self.waiting.setdefault(token, []).append(it)
        self.lines.put(it)
        return it

    def wait(self, it: Submission) -> None:
        """Waits until a line has its answer, or its time is over. Raises what was wrong."""
        it.is_over.wait(max(0.0, it.until - time.monotonic()))
        with self.lock:
            it.is_given_up = True
            self.bytes -= len(it.line)
            others = [other for other in self.waiting.get(it.token, []) if other is not it]
            if others:
                self.waiting[it.token] = others
            else:
                self.waiting.pop(it.token, None)
            it.outcome()

    def heard(self, known: Known) -> None:
        """A line of the log was answered; called by the thread that reads answers."""
        with self.lock:
            for it in self.waiting.get(known.token, ()):
                if digest_of(it.line) == known.digest:
                    it.place, it.answer = known.place, known.answer
                    it.end()

    def stop(self) -> None:
        self.lines.put(None)

    # The thread

    def run(self, to_log: Log, replica: Replica, broken: Callable[[Fault], Any]) -> None:
        """Appends until `stop`. `broken` is called with a fault of the log itself."""
        batch: List[Submission] = []
        while True:
            if not batch:
                first = self.lines.get()
                if first is None:
                    return
                batch = [first]
            self.fill(batch)
            head = replica.place  # before tokens are looked at, so that all up to it are known
            batch = self.still_open(batch, replica)
            part = self.claimed(batch)
            if not part:
                continue
            try:
                self.try_once(part, head, to_log, replica)
            except (Unavailable, Unsure) as fault:
                for it in part:
                    it.why = fault
                time.sleep(PAUSE)
            except Fault as fault:
                broken(fault)
                for it in batch:
                    it.end(fault)

    def fill(self, batch: List[Submission]) -> None:
        """Takes more of those that wait."""
        while len(batch) < BATCH:
            try:
                it = self.lines.get_nowait()
            except queue.Empty:
                return
            if it is None:
                self.stop()
                return
            batch.append(it)

    def claimed(self, batch: List[Submission]) -> List[Submission]:
        """As many as one transaction takes, without those that nobody waits for any more. From now on they may stand."""
        size, part = 0, []
        with self.lock:
            for it in batch:
                size += len(it.line)
                if part and size > BATCH_BYTES:
                    break
                if not it.is_given_up:
                    part.append((it, it.may_stand))
                    it.may_stand = True
        self.before = [may_stand for _, may_stand in part]
        return [it for it, _ in part]

    def still_open(self, batch: List[Submission], replica: Replica) -> List[Submission]:
        """Those that still have to be appended: neither does their token stand, nor did who waited give up."""
        left, tokens = [], set()
        for it in batch:
            known = replica.tokens.get(it.token)
            if known and known.digest != digest_of(it.line):
                it.end(TokenUsed("the token stands with another line", place=known.place, token=it.token))
            elif known:
                it.place = known.place
                if known.answer:
                    self.heard(known)
            elif it.is_given_up or it.fault or it.place:
                continue
            elif it.token in tokens:
                self.lines.put(it)  # the same token twice: looked at once more when the first one stands
            else:
                tokens.add(it.token)
                left.append(it)
        return left

    def try_once(self, part: List[Submission], head: int, to_log: Log, replica: Replica) -> None:
        """One transaction. Waits until the log was read up to its last place, so that tokens tell which lines stand."""
        try:
            now = to_log.append(head, [value_of(it.token, it.line) for it in part])
        except Unavailable:
            self.unclaim(part)
            raise
        if now is None:
            for at, it in enumerate(part):
                it.place = head + 1 + at
        else:
            self.unclaim(part)
        with contextlib.suppress(NotYet):
            replica.wait(head + len(part) if now is None else now, time.monotonic() + PATIENCE)

    def unclaim(self, part: List[Submission]) -> None:
        """The last transaction didn't put these lines."""
        with self.lock:
            for it, before in zip(part, self.before):
                it.may_stand = before
