"""Clients that append and ask at once through all followers, and note what they were told."""

import random
import threading
import time
from collections import Counter
from typing import Dict, List, Optional, Tuple

import cluster
from truth import Answer
from workload import Line, Workload, told

from pgpeer_follow import envelope

AGAIN = ("Unavailable", "Unsure", "Unanswered", "NotYet", "Busy", "CoreFault", "WrongCluster", "Memory")


class Load:
    """What several clients share: the lines that are still to be told, and what came of those that were."""

    def __init__(self, ports: List[int], rng: random.Random, lines: int, client_seconds: float = 30.0, pause: float = 0.0):
        self.ports, self.rng, self.left = ports, rng, lines
        self.client_seconds, self.pause = client_seconds, pause
        self.workload = Workload(rng)
        self.order = threading.Lock()  # of lines
        self.lock = threading.Lock()  # holds what stands below
        self.answers: List[Answer] = []
        self.told: Dict[str, Tuple[int, bytes]] = {}
        self.unsure: Dict[str, bytes] = {}
        self.wrong: List[str] = []
        self.again: Counter[str] = Counter()  # why lines were told once more
        self.ages: Counter[int] = Counter()
        self.stopping = threading.Event()

    def run(self, count: int, seconds: float) -> None:
        """Runs as many clients until all lines are told, for so long at most."""
        clients = [threading.Thread(target=Teller(self, at).run, daemon=True) for at in range(count)]
        for it in clients:
            it.start()
        end = time.monotonic() + seconds
        for it in clients:
            it.join(max(0.1, end - time.monotonic()))
        self.stopping.set()
        for it in clients:
            it.join(2 * self.client_seconds + 60)
            if it.is_alive():
                self.wrong.append("a client hangs")


class Teller:
    """One client. It goes from follower to follower, and tells a line until it knows what came of it."""

    def __init__(self, load: Load, number: int):
        self.load, self.number = load, number
        self.rng = random.Random(f"{number}/{load.rng.random()}")
        self.client: Optional[cluster.Client] = None
        self.count = 0
        self.floor = 0  # the last place that it was told

    def run(self) -> None:
        load = self.load
        try:
            while not load.stopping.is_set():
                with load.order:
                    if load.left <= 0:
                        return
                    load.left -= 1
                    line = load.workload.entry() if load.told else load.workload.first()
                    if line["op"] == "inc":
                        self.append(line)
                if line["op"] != "inc":
                    self.append(line)
                if self.rng.random() < 0.5:
                    self.ask(load.workload.question())
                time.sleep(load.pause)
        except Exception as fault:  # any other end of a client would hide
            with load.lock:
                load.wrong.append(f"client {self.number}: {fault!r}")
        finally:
            self.close()

    def close(self) -> None:
        if self.client:
            self.client.close()
        self.client = None

    def raw(self, line: bytes) -> bytes:
        """Tells a line to any follower. OSError where none answers."""
        if not self.client or self.rng.random() < 0.05:
            self.close()
            self.client = cluster.Client(self.rng.choice(self.load.ports), self.load.client_seconds)
        try:
            return self.client.raw(line)
        except OSError:
            self.close()
            raise

    def until_answered(self, line: bytes) -> Optional[bytes]:
        """The answer, once it is one; None where the load is stopped before."""
        while not self.load.stopping.is_set():
            try:
                reply = self.raw(line)
            except OSError as fault:
                self.load.again[type(fault).__name__] += 1
                time.sleep(0.05)
                continue
            why = next((it for it in AGAIN if f'"refused":"{it}"'.encode() in reply), None)
            if why is None:
                return reply
            self.load.again[why] += 1
            self.close()
            time.sleep(0.05)
        return None

    def append(self, line: Line) -> None:
        self.count += 1
        token, text = f"c{self.number}-{self.count}", told(line)
        with self.load.lock:
            self.load.unsure[token] = text
        after = self.floor
        reply = self.until_answered(told({**line, "token": token, "after": after}))
        if reply is None:
            return
        place, _, answer = envelope.split(reply)
        with self.load.lock:
            del self.load.unsure[token]
            self.load.told[token] = (place, text)
            self.load.answers.append(Answer(place, b"", answer))
            if place <= after:
                self.load.wrong.append(f"{token} stands at {place}, and was told after {after}")
        self.floor = max(self.floor, place)

    def ask(self, line: Line) -> None:
        after, text = self.floor, told(line)
        reply = self.until_answered(told({**line, "after": after}))
        if reply is None:
            return
        at, age, answer = envelope.split(reply)
        with self.load.lock:
            self.load.answers.append(Answer(at, text, answer))
            if age is not None:
                self.load.ages[age] += 1
            if at < after:
                self.load.wrong.append(f"a question after {after} is answered at {at}")
        self.floor = max(self.floor, at)
