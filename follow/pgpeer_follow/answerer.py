"""Answers the lines of one connection, in their order.

Lines that came together are worked on together: entries go to etcd side by side, questions to the program without waiting for the
answers before. A question waits for the entries before it, so a connection reads what it wrote, and its places never decrease.
"""

import time
from typing import Any, Callable, Dict, List, Optional, Tuple

from . import envelope
from .appender import Submission
from .envelope import Refused, Request
from .faults import CoreFault, Fault
from .follower import FRESH, Follower
from .metrics import Counts
from .replica import Asked

TRIES = 5  # of a question whose program ended before its answer

Reply = Callable[[], bytes]  # waits for an answer, and gives it


class Answerer:
    """What one connection has been told so far."""

    def __init__(self, follower: Follower, counts: Counts):
        self.follower, self.counts = follower, counts
        self.floor = 0  # the last place that was told
        self.open: List[Submission] = []  # entries before the next line whose answers weren't waited for

    def answers(self, lines: List[bytes]) -> bytes:
        """The answers to lines that came together; a blank line has none."""
        replies = [self.begun(it) for it in lines if not envelope.is_blank(it)]
        self.open = []
        return b"".join(reply() + b"\n" for reply in replies)

    def begun(self, line: bytes) -> Reply:
        """Begins to answer a line."""
        self.counts.lines["asks"] += 1
        try:
            request = envelope.read(line)
            if request.op == "health":
                return self.own({"ok": "health", **self.follower.health()})
            if request.op == "place":
                return self.found(request)
            return self.entry(request) if request.is_entry() else self.question(request)
        except Refused as refused:
            return self.refusal(refused)
        except Fault as fault:
            return self.fault(fault)

    def entry(self, request: Request) -> Reply:
        self.follower.check()
        if request.after > self.follower.replica.place:
            self.settle()
        self.follower.replica.wait(request.after, self.follower.until())
        it = self.follower.submit(request.token, request.line)
        self.open.append(it)

        def reply() -> bytes:
            try:
                self.follower.appender.wait(it)
            except Fault as fault:
                return self.fault(fault)()
            self.floor = max(self.floor, it.place)
            self.counts.lines["appends"] += 1
            return self.counted(envelope.answer_of(it.place, None, it.answer), it.answer)

        return reply

    def settle(self) -> None:
        """Waits for the entries before a line."""
        for it in self.open:
            it.is_over.wait(max(0.0, it.until - time.monotonic()))
            self.floor = max(self.floor, it.place)
        self.open = []

    def question(self, request: Request) -> Reply:
        self.settle()
        fresh = self.follower.fresh
        asked = self.follower.ask(request.line, max(request.after, self.floor))

        def reply() -> bytes:
            try:
                at, answer, known = self.answered(request, asked, fresh)
            except Fault as fault:
                return self.fault(fault)()
            self.floor = max(self.floor, at)
            return self.counted(envelope.answer_of(at, self.age(known), answer), answer)

        return reply

    def answered(self, request: Request, asked: Asked, fresh: float) -> Tuple[int, bytes, float]:
        """Waits for an answer, and gives its place, the answer, and the time from which on all is in it. Where the program ended
        before, the question is told to the next one. CoreFault, NotYet."""
        for _ in range(TRIES):
            if not asked.is_over.wait(self.follower.settings.wait):
                raise CoreFault("the program doesn't answer")
            if asked.answer is not None:
                return asked.at, asked.answer, fresh
            fresh = self.follower.fresh
            asked = self.follower.ask(request.line, asked.at)
        raise CoreFault("the program ends again and again")

    def found(self, request: Request) -> Reply:
        self.settle()
        place = self.follower.find(request.token, max(request.after, self.floor))
        return self.own({"ok": "place", "place": place})

    def own(self, told: Dict[str, Any]) -> Reply:
        """An answer of the follower's own, of now."""
        fresh, at = self.follower.fresh, self.follower.replica.place
        self.floor = max(self.floor, at)
        return lambda: envelope.answer_of(at, self.age(fresh), envelope.compact(told))

    def age(self, fresh: float) -> Optional[int]:
        """Whole seconds since all that stood was known, where they are many."""
        age = time.monotonic() - fresh
        return int(age) if fresh and age > FRESH else None

    def counted(self, reply: bytes, answer: bytes) -> bytes:
        if answer.startswith(b'{"code":'):
            self.counts.refused(answer)
        return reply

    def refusal(self, refused: Refused) -> Reply:
        self.counts.refusals[refused.name] += 1
        more = {"key": refused.key} if refused.key else {}
        return self.own({"code": refused.code, "refused": refused.name, **more})

    def fault(self, fault: Fault) -> Reply:
        self.counts.refusals[fault.name] += 1
        return self.own({"code": fault.code, "refused": fault.name, "says": str(fault), **fault.more})
