"""The log up to a place, in memory and in the program: what a follower answers from.

The log decides what the program is told: at a mark each follower compacts its script and begins a new program with what stays. So
any two followers at one place have told their programs the same, wherever they began.
"""

import contextlib
import logging
import threading
import time
from typing import Callable, List, Optional, Sequence, Tuple

from .core import Answered, Core, Program, compacted
from .faults import CoreFault, NotYet
from .keys import Entry, digest_of
from .snapshot import Snapshot
from .tokens import Known, Tokens

BLOCK = 256  # lines that are written to the program at once
SHORTEST_PAUSE, LONGEST_PAUSE = 0.2, 5.0  # seconds between two tries to run the program
MEMORY = (b'{"code":41,', b'{"code":51,')  # how a refusal for want of memory begins: it says nothing of the log
TAKEN = tuple(b'"ok":"%s"}' % op for op in (b"inc", b"info", b"entries", b"close"))  # how the answer to an entry ends
NOTHING = Snapshot(0, (), ())

Heard = Callable[[Known], None]  # is called with a line that was answered

log = logging.getLogger(__name__)


class Asked:
    """A question that was told to the program, the place of its answer, and the answer: None where the program ended before."""

    def __init__(self) -> None:
        self.is_over = threading.Event()
        self.answer: Optional[bytes] = None
        self.at = 0

    def end(self, answer: Optional[bytes]) -> None:
        self.answer = answer
        self.is_over.set()


class Replica:
    """What the follower has of the log. One thread applies entries, any number ask."""

    def __init__(self, program: Program, heard: Heard):
        self.program, self.heard = program, heard
        self.change = threading.Condition()  # holds what stands below
        self.core: Optional[Core] = None
        self.newest: Optional[Core] = None  # one that is begun, and isn't used yet
        self.place = 0  # the last place that was told to the program, or will be once it runs
        self.base = NOTHING  # with what the program began
        self.since: List[Entry] = []  # lines after the base
        self.tokens = Tokens()
        self.heard_place = 0  # the last place whose line has its answer
        self.restarts = -1  # of the program, after its first start
        self.is_ended = False
        self.needs_core = threading.Event()
        self.needs_core.set()
        self.reviver = threading.Thread(target=self.revive, name="reviver", daemon=True)
        self.reviver.start()

    # The program

    def revive(self) -> None:
        """Runs the program anew whenever it ended or is worn, with all lines up to the place."""
        pause = SHORTEST_PAUSE
        while True:
            self.needs_core.wait()
            self.needs_core.clear()
            if self.is_ended:
                return
            try:
                begun = time.monotonic()
                if not self.renew():
                    continue
            except CoreFault as fault:
                log.error("the program: %s", fault)
                self.needs_core.set()
            is_quiet = time.monotonic() - begun > LONGEST_PAUSE or not self.needs_core.wait(SHORTEST_PAUSE)
            pause = SHORTEST_PAUSE if is_quiet else min(2 * pause, LONGEST_PAUSE)
            if not is_quiet:
                time.sleep(pause)

    def renew(self) -> bool:
        """Puts a new program in the place of one that ended or is worn. Tells whether there was need."""
        with self.change:
            old = self.core
            if old and not old.has_ended and not old.is_worn():
                return False
            self.core = None
            self.core = self.started()
            self.restarts += 1
            self.change.notify_all()
        if old:
            old.end()
        return True

    def ended(self, core: Core) -> None:
        """A program has ended, by itself or since it was let go."""
        if core is self.core and not self.is_ended:
            log.warning("the program has ended, and is run anew")
        self.needs_core.set()

    def begun(self) -> Core:
        self.newest = Core(self.program, self.ended)
        return self.newest

    def started(self) -> Core:
        """A new program, told all lines up to the place. The lock is held."""
        core = self.begun()
        try:
            self.tell_base(core, self.base.script)
            self.heard_place = self.base.place
            self.tell_lines(core, self.since)
        except CoreFault:
            core.kill()
            raise
        return core

    def tell_base(self, core: Core, script: Sequence[bytes]) -> None:
        """Tells the lines of a snapshot, each of which the program has to take; where it doesn't, it is ended."""

        def taken(answer: Optional[bytes]) -> None:
            if answer is not None and not answer.endswith(TAKEN):
                log.error("a line of the snapshot is answered %r", answer[:200])
                core.kill()

        for at in range(0, len(script), BLOCK):
            block = script[at : at + BLOCK]
            core.tell(block, [taken] * len(block))

    def tell_lines(self, core: Core, entries: Sequence[Entry]) -> None:
        for at in range(0, len(entries), BLOCK):
            block = entries[at : at + BLOCK]
            core.tell([it.line for it in block], [self.hears(core, it) for it in block])

    def hears(self, core: Core, entry: Entry) -> Answered:
        """What is done with the answer to a line of the log."""

        def answered(answer: Optional[bytes]) -> None:
            if answer is None:
                return  # the line is told anew, to another program
            if answer.startswith(MEMORY):
                log.error("the program was out of memory at place %d", entry.place)
                core.kill()
                return
            known = self.tokens.get(entry.token)
            if known and known.place == entry.place:
                known.answer = answer
                self.heard(known)
            self.heard_place = entry.place

        return answered

    # The log

    def apply(self, entries: Sequence[Entry]) -> None:
        """The next entries of the log, by the thread that applies."""
        lines: List[Entry] = []
        for entry in entries:
            if entry.is_mark:
                self.apply_lines(lines)
                self.apply_mark(entry.place)
                lines = []
            else:
                lines.append(entry)
        self.apply_lines(lines)

    def apply_lines(self, entries: Sequence[Entry]) -> None:
        """Entries that are no marks. One without a line changes nothing but the place."""
        if not entries:
            return
        with self.change:
            lines = [it for it in entries if it.line]
            for it in lines:
                self.tokens.note(it.token, it.place, digest_of(it.line))
            self.since.extend(lines)
            self.place = entries[-1].place
            if self.core:
                try:
                    self.tell_lines(self.core, lines)
                except CoreFault:
                    self.needs_core.set()
            self.change.notify_all()

    def apply_mark(self, place: int) -> None:
        """Begins a new program with what stays of the script. The old one answers questions meanwhile. A program that can't be run
        is tried until it can: no other way leads past a mark."""
        while not self.is_ended:
            if not self.has_heard_all():
                time.sleep(0.01)
                continue
            try:
                script = compacted(self.program, [*self.base.script, *(it.line for it in self.since)])
                base = Snapshot(place, tuple(script), tuple(self.tokens.all(place)))
                self.switch(base)
                return
            except CoreFault as fault:
                log.error("at the mark of place %d: %s", place, fault)
                time.sleep(1.0)

    def has_heard_all(self) -> bool:
        with self.change:
            return not self.since or self.heard_place == self.since[-1].place

    def switch(self, base: Snapshot) -> None:
        """Goes on with a base and a program that was told it."""
        core = self.begun()
        try:
            self.tell_base(core, base.script)
        except CoreFault:
            core.kill()
            raise
        with self.change:
            old, self.core = self.core, core
            self.base, self.since, self.place = base, [], base.place
            self.change.notify_all()
        if core.has_ended:
            self.needs_core.set()
        if old:
            old.end()

    def start_over(self, snapshot: Snapshot) -> None:
        """Goes on from a snapshot of a later place."""
        self.tokens = Tokens(snapshot.tokens, self.tokens.window)
        self.switch(snapshot)
        for it in snapshot.tokens:
            self.heard(it)

    # Questions

    def wait(self, place: int, until: float) -> None:
        """Waits until the log was read up to a place, at most until this time. NotYet."""
        with self.change:
            self.wait_within(place, until)

    def wait_within(self, place: int, until: float) -> None:
        while self.place < place:
            left = until - time.monotonic()
            if left <= 0 or self.is_ended:
                raise NotYet(f"place {place} isn't there yet")
            self.change.wait(left)

    def ask(self, line: bytes, after: int, until: float) -> Asked:
        """Tells the program a line that is no entry of the log, once that place was read. NotYet, CoreFault."""
        with self.change:
            self.wait_within(after, until)
            while True:
                if self.core:
                    if self.core.is_worn():
                        self.needs_core.set()
                    with contextlib.suppress(CoreFault):
                        asked = Asked()
                        self.core.tell([line], [self.questioned(self.core, asked)])
                        asked.at = self.place
                        return asked
                left = until - time.monotonic()
                if left <= 0 or self.is_ended:
                    raise CoreFault("the program doesn't run")
                self.change.wait(min(left, 0.1))

    def questioned(self, core: Core, asked: Asked) -> Answered:
        """What is done with the answer to a question. A program that took one for an entry has another log than the others."""

        def answered(answer: Optional[bytes]) -> None:
            if answer is not None and answer.endswith(TAKEN):
                log.error("the program took a question for an entry")
                core.kill()
                answer = None
            asked.end(answer)

        return answered

    def at(self) -> Tuple[int, bool]:
        """The place, and whether the program runs."""
        return self.place, self.core is not None and not self.core.has_ended

    def end_hung(self) -> None:
        """Ends a program that doesn't answer, so that it is run anew."""
        for core in (self.core, self.newest):
            if core and core.hangs():
                log.error("the program doesn't answer, and is ended")
                core.kill()

    def end(self) -> None:
        self.is_ended = True
        for core in (self.core, self.newest):
            if core:
                core.kill()
        self.needs_core.set()
        with self.change:
            self.change.notify_all()
