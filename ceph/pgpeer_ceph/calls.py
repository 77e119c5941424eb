"""How Ceph's commands are called: with a bound on their time, and once more where they fail."""

import shlex
import subprocess
import threading
from typing import Any, Callable, List, NamedTuple, Set

from .nodes import Node, Unusable, parsed

SECONDS = 30  # for one command
TRIES = 3
PAUSE = 0.5  # seconds before the second try, twice as many before the third
RUNNING: Set["subprocess.Popen[bytes]"] = set()
ENDING = threading.Event()  # set once no command is begun or tried again


class NoAnswer(Unusable):
    """A command gave no usable answer each time that it was tried."""


class NoCommand(Unusable):
    """There is no such command, or it can't be called."""


class Ceph(NamedTuple):
    """The words that call `ceph`."""

    words: List[str]

    def value(self, *words: str, tries: int = TRIES, seconds: float = SECONDS) -> Node:
        """What `ceph` prints as JSON."""
        command = [*self.words, *words, "--format", "json"]
        where = f"`{shlex.join(command)}`"
        return tried(lambda: parsed(printed(command, seconds).decode(errors="replace"), where), tries)

    def binary(self, *words: str) -> bytes:
        """What `ceph` prints as it is."""
        return tried(lambda: printed([*self.words, *words]))


def ceph_of(words: str) -> Ceph:
    try:
        return Ceph(shlex.split(words) or ["ceph"])
    except ValueError as fault:
        raise Unusable(f"--ceph '{words}': {fault}") from fault


def tried(call: Callable[[], Any], tries: int = TRIES) -> Any:
    """What the call gives, tried so many times while it fails."""
    for passed in range(1, tries + 1):
        try:
            return call()
        except NoCommand:
            raise
        except Unusable as fault:
            if passed == tries or ENDING.wait(PAUSE * passed):
                raise NoAnswer(str(fault)) from fault
    raise AssertionError("no try")


def printed(words: List[str], seconds: float = SECONDS) -> bytes:
    """What a command prints."""
    if ENDING.is_set():
        raise NoAnswer(f"`{shlex.join(words)}` wasn't begun")
    try:
        run = subprocess.Popen(words, stdin=subprocess.DEVNULL, stdout=subprocess.PIPE, stderr=subprocess.PIPE)
    except OSError as fault:
        raise NoCommand(f"{words[0]}: {fault.strerror}") from fault
    RUNNING.add(run)
    try:
        out, errors = run.communicate(timeout=seconds)
    except subprocess.TimeoutExpired as fault:
        raise NoAnswer(f"`{shlex.join(words)}` had no answer within {seconds:.0f} seconds") from fault
    finally:
        RUNNING.discard(run)
        if run.poll() is None:
            run.kill()
            run.communicate()
    if run.returncode != 0:
        lines = errors.decode(errors="replace").strip().splitlines() or ["no word"]
        raise NoAnswer(f"`{shlex.join(words)}` ended with {run.returncode}: {lines[-1]}")
    return out


def end_all() -> None:
    """Ends the commands that run, and has none begin."""
    ENDING.set()
    for run in list(RUNNING):
        run.terminate()
