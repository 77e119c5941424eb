"""Lines for checks: a small map whose devices come and go, what members report, and questions."""

import json
import random
from typing import Any, Dict, List

DEVICES, GROUPS, SIZE = 12, 32, 3

Line = Dict[str, Any]


def told(line: Line) -> bytes:
    return json.dumps(line, separators=(",", ":"), ensure_ascii=False).encode()


class Workload:
    """Lines of one log. Incrementals have to be appended in the order in which they are made, and each before the next line."""

    def __init__(self, rng: random.Random):
        self.rng, self.epoch = rng, 1
        self.up = set(range(DEVICES))
        self.writes = 0

    def first(self) -> Line:
        pool = {"id": 1, "pg_num": GROUPS, "kind": "replicated", "size": SIZE, "min_size": 2, "leaf": 0}
        tree = [{"id": -1, "type": 1, "alg": "uniform", "items": list(range(DEVICES))}]
        weights = [[it, 65536] for it in range(DEVICES)]
        return {"op": "inc", "epoch": 1, "up": list(range(DEVICES)), "weight": weights, "pools": [pool], "crush": tree}

    def entry(self) -> Line:
        """An entry; a few are refused."""
        kind = self.rng.random()
        if kind < 0.05:
            return self.inc()
        if kind < 0.08:
            return {"op": "inc", "epoch": self.epoch, "down": [self.rng.randrange(DEVICES)]}  # a gap
        return self.log_entries() if kind < 0.3 else self.info()

    def inc(self) -> Line:
        self.epoch += 1
        line: Line = {"op": "inc", "epoch": self.epoch}
        device = self.rng.randrange(DEVICES)
        if device in self.up and len(self.up) > SIZE:
            self.up.remove(device)
            line["down"] = [device]
        elif device not in self.up:
            self.up.add(device)
            line["up"] = [device]
        else:
            line["up_thru"] = [[device, self.epoch - 1]]
        return line

    def report(self, op: str) -> Line:
        stamp = max(1, self.epoch - self.rng.choice((0, 0, 0, 1, 3)))
        return {"op": op, "pg": self.group(), "from": [self.rng.randrange(DEVICES), 0], "stamp": stamp}

    def group(self) -> List[int]:
        return [1, self.rng.randrange(GROUPS)]

    def info(self) -> Line:
        line = self.report("info")
        les = self.rng.randint(0, line["stamp"])
        last = [self.rng.randint(1, line["stamp"]), self.rng.randint(1, 100)] if self.rng.random() < 0.8 else [0, 0]
        known = {"les": les, "history_les": self.rng.randint(0, les), "last_update": last, "log_tail": [0, 0]}
        return {**line, **known, "complete": self.rng.random() < 0.9}

    def log_entries(self) -> Line:
        line = self.report("entries")
        count = self.rng.randint(1, 5)
        names = ("a", "b", "rbd_data.1", "é", '"\\')
        log = [[line["stamp"], it + 1, self.rng.choice(("modify", "delete")), self.rng.choice(names)] for it in range(count)]
        return {**line, "log": log}

    def question(self) -> Line:
        if self.rng.random() < 0.7:
            return {"op": "ask", "pg": self.group()}
        return {"op": "locate", "pool": 1, "name": f"object {self.rng.randrange(1000)}"}
