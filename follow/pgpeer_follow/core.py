"""The program as a child, at the other end of two pipes.

A pipe and not the library by ctypes: whatever becomes of the program, the follower stays; and lines and answers are those of
`pgpeer run` by their bytes, with no room to be reckoned and no lock round a call.
"""

import collections
import io
import subprocess
import threading
import time
from typing import Callable, Deque, List, NamedTuple, Optional, Sequence

from .faults import CoreFault

Answered = Callable[[Optional[bytes]], None]  # is called with an answer, or with None where the program ended before

COMPACTING = 600.0  # seconds at most
MOST_LINES, MOST_BYTES = 900_000, 3_900_000_000  # nearly as many as the program takes in one run
HANGS = 30.0  # seconds without an answer, after which a program is given up


class Program(NamedTuple):
    """The built program, and up to which version it reads lines."""

    path: str
    version: str = "2"

    def run(self) -> List[str]:
        return [self.path, "run", "--format", self.version]

    def compact(self) -> List[str]:
        """In version 3 incrementals can be joined too."""
        return [self.path, "compact", *(["--join"] if self.version == "3" else []), "--format", self.version]


class Core:
    """`PROGRAM run`. One caller writes at a time; a thread hands each answer to whoever told the line, in the order of the lines."""

    def __init__(self, program: Program, at_end: Callable[["Core"], None]):
        self.at_end = at_end
        self.waiting: Deque[Answered] = collections.deque()
        self.lock = threading.Lock()
        self.has_ended = False
        self.is_void = False  # what it says from now on isn't handed out
        self.lines = self.bytes = 0  # that it was told
        self.moved = time.monotonic()  # when it last answered, or was told a line with nothing before it
        try:
            self.child = subprocess.Popen(program.run(), stdin=subprocess.PIPE, stdout=subprocess.PIPE, bufsize=0)
        except OSError as fault:
            raise CoreFault(f"{program.path} can't be run: {fault.strerror}") from None
        threading.Thread(target=self.hand_out, name="core", daemon=True).start()

    def tell(self, lines: Sequence[bytes], answered: Sequence[Answered]) -> None:
        """Writes lines, none of which is blank. CoreFault: the program has ended; what it had from these lines has no answer."""
        left = memoryview(b"".join(line + b"\n" for line in lines))
        with self.lock:
            if self.has_ended:
                raise CoreFault("the program has ended")
            if not self.waiting:
                self.moved = time.monotonic()
            self.waiting.extend(answered)
            self.lines += len(lines)
            self.bytes += len(left)
            try:
                assert self.child.stdin
                while left:
                    left = left[self.child.stdin.write(left) :]
            except (OSError, ValueError):
                raise CoreFault("the program takes no lines") from None

    def hand_out(self) -> None:
        """Reads answers until the program ends."""
        try:
            with io.BufferedReader(self.child.stdout) as out:  # type: ignore[arg-type]
                for line in out:
                    if self.is_void or not line.endswith(b"\n") or not self.waiting:
                        break
                    self.moved = time.monotonic()
                    self.waiting.popleft()(line[:-1])
        finally:
            self.child.kill()
            self.child.wait()
            with self.lock:
                self.has_ended = True
                self.close_input()
            while self.waiting:
                self.waiting.popleft()(None)
            self.at_end(self)

    def kill(self) -> None:
        """Ends the program at once. Who waits for an answer gets None, also where the program has said it already."""
        self.is_void = True
        self.child.kill()

    def end(self) -> None:
        """Lets the program answer what it was told, and then end."""
        with self.lock:
            self.close_input()

    def close_input(self) -> None:
        if self.child.stdin:
            self.child.stdin.close()

    def is_worn(self) -> bool:
        """Tells whether the program will soon have had as many lines as it takes."""
        return self.lines > MOST_LINES or self.bytes > MOST_BYTES

    def hangs(self) -> bool:
        """Tells whether the program owes an answer for too long."""
        return bool(self.waiting) and time.monotonic() - self.moved > HANGS


def compacted(program: Program, script: Sequence[bytes]) -> List[bytes]:
    """The lines that stand for a script once it is compacted: the same for every follower. CoreFault: the program didn't say."""
    text = b"".join(line + b"\n" for line in script)
    try:
        ended = subprocess.run(program.compact(), input=text, capture_output=True, timeout=COMPACTING, check=False)
    except (OSError, subprocess.TimeoutExpired) as fault:
        raise CoreFault(f"compact didn't end: {fault}") from None
    if ended.returncode:
        raise CoreFault(f"compact ended with status {ended.returncode}: {ended.stderr.decode(errors='replace')[:200]}")
    return ended.stdout.split(b"\n")[:-1]
