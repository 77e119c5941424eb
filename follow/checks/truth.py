"""Holds what followers answered against the program, run on the lines of the log."""

import json
import math
import re
import subprocess
import threading
import time
from collections import defaultdict
from typing import Any, DefaultDict, Dict, List, NamedTuple, Sequence, Tuple

import cluster  # noqa: F401  (finds the package)
from pgpeer_follow.core import Program
from pgpeer_follow.faults import Fault
from pgpeer_follow.keys import Entry, Keys
from pgpeer_follow.log import Log, join

COUNT = re.compile(rb'"count":\d+')
FULL = b'"refused":"LogFull"'
AT_MARKS = {"2": ("--format", "2"), "3": ("--join", "--format", "3")}  # options of `compact`, by the version of lines


class Recorder:
    """Reads the log from its first place on while it grows, so that it has what is deleted later."""

    def __init__(self, made: "cluster.Cluster", prefix: str = "/pgpeer/"):
        self.made, self.keys = made, Keys(prefix)
        self.entries: List[Entry] = []
        self.stopping = threading.Event()
        self.thread = threading.Thread(target=self.run, daemon=True)
        self.thread.start()

    def run(self) -> None:
        to_etcd = self.made.to_etcd()
        while not self.stopping.is_set():
            try:
                log = Log(self.keys, join(self.keys, to_etcd), to_etcd)
                while not self.stopping.wait(0.2):
                    self.read(log)
            except Fault:
                time.sleep(0.2)

    def read(self, log: Log) -> int:
        """Reads to the end, and gives the last place."""
        while True:
            page = log.page(len(self.entries))
            for entry in page.entries:
                if entry.place != len(self.entries) + 1:
                    raise AssertionError(f"place {entry.place} follows {len(self.entries)}")
                self.entries.append(entry)
            if len(self.entries) >= page.head:
                return page.head

    def finish(self, seconds: float = 60.0) -> List[Entry]:
        """The whole log."""
        self.stopping.set()
        self.thread.join(10)
        end = time.monotonic() + seconds
        while True:
            try:
                to_etcd = self.made.to_etcd()
                self.read(Log(self.keys, join(self.keys, to_etcd), to_etcd))
                return self.entries
            except Fault:
                if time.monotonic() > end:
                    raise
                time.sleep(0.5)


class Answer(NamedTuple):
    """What a follower said to a question, or to an entry: then `line` is empty, and `at` is the entry's place."""

    at: int
    line: bytes
    answer: bytes


def piped(words: Sequence[str], lines: Sequence[bytes]) -> List[bytes]:
    text = b"".join(it + b"\n" for it in lines)
    ended = subprocess.run(words, input=text, stdout=subprocess.PIPE, stderr=subprocess.DEVNULL, check=True)
    return ended.stdout.split(b"\n")[:-1]


def wanted_of(program: Program, log: Sequence[Entry], asked: Dict[int, List[bytes]], follows_marks: bool) -> Tuple[Dict[int, bytes], Dict[int, List[bytes]]]:
    """What the program answers to the entries, by their places, and to the questions at each place: on the lines of the log, and
    with marks followed on what `compact` leaves at each with the lines since."""
    script: List[bytes] = list(asked.get(0, []))
    whose: List[Tuple[int, bool]] = [(0, False)] * len(script)
    kept: List[bytes] = []  # lines of the log since the base, with the base
    entries: Dict[int, bytes] = {}
    questions: DefaultDict[int, List[bytes]] = defaultdict(list)

    def play() -> None:
        for (place, is_entry), answer in zip(whose, piped([program.path, "run", "--format", program.version], script)):
            if is_entry:
                entries[place] = answer
            elif place >= 0:
                questions[place].append(answer)

    for entry in log:
        if entry.is_mark and follows_marks:
            play()
            kept = piped([program.path, "compact", *AT_MARKS[program.version]], kept)
            script, whose = list(kept), [(-1, False)] * len(kept)
        elif entry.line:
            kept.append(entry.line)
            script.append(entry.line)
            whose.append((entry.place, True))
        here = asked.get(entry.place, [])
        script.extend(here)
        whose.extend([(entry.place, False)] * len(here))
    play()
    return entries, questions


def left_of(answer: bytes, version: str) -> Any:
    """What is the same in an answer on the whole log and one behind marks: all but the count, and in version 3 but the past
    intervals that ended before the group last began to serve."""
    if version == "2" or not answer:
        return COUNT.sub(b"", answer)
    found = json.loads(answer)
    return {
        key: [it for it in value if it["last"] >= found["les"]] if key == "intervals" and "les" in found else value
        for key, value in found.items()
        if key != "count"
    }


def first_full(entries: Dict[int, bytes]) -> float:
    """The first place whose entry found the log full."""
    return min((place for place, answer in entries.items() if FULL in answer), default=math.inf)


def faults_of(program: Program, log: Sequence[Entry], answers: Sequence[Answer]) -> List[str]:
    """What is wrong with answers: they aren't the program's on the log up to their place, byte for byte; or, but for what marks
    take away, on the log without its marks, until that is full."""
    asked: DefaultDict[int, List[bytes]] = defaultdict(list)
    for it in answers:
        if it.line:
            asked[it.at].append(it.line)
    faults: List[str] = []
    for follows_marks in (True, False):
        entries, questions = wanted_of(program, log, asked, follows_marks)
        end = math.inf if follows_marks else first_full(entries)
        left = {place: iter(it) for place, it in questions.items()}
        for it in answers:
            wanted = next(left[it.at], b"") if it.line else entries.get(it.at, b"")
            found = it.answer
            is_so = found == wanted or not follows_marks and left_of(found, program.version) == left_of(wanted, program.version)
            if not is_so and it.at < end:
                faults.append(f"at {it.at}, {'with' if follows_marks else 'without'} marks: {it.line!r} is answered {found!r}, and not {wanted!r}")
    return faults


def misplaced(log: Sequence[Entry], told: Dict[str, Tuple[int, bytes]], unsure: Dict[str, bytes]) -> List[str]:
    """What is wrong with the log: a line that was acknowledged isn't at its place, or a line is there twice, or nobody told it."""
    faults, seen = [], {}
    for entry in log:
        if not entry.token:
            if not entry.is_mark:
                faults.append(f"place {entry.place} can't be read")
            continue
        if entry.token in seen:
            faults.append(f"{entry.token} stands at {seen[entry.token]} and at {entry.place}")
        seen[entry.token] = entry.place
        line = told[entry.token][1] if entry.token in told else unsure.get(entry.token)
        if line != entry.line:
            faults.append(f"place {entry.place} has a line that nobody told: {entry}")
    for token, (place, _) in told.items():
        if seen.get(token) != place:
            faults.append(f"{token} was acknowledged at {place}, and stands at {seen.get(token)}")
    return faults
