#!/usr/bin/env python3
"""Runs one script many times with workers, and compares the bytes each time with a run without.

    dev/repeat_run.py [--program PATH] [--times N] [--shards S] [--workers W] [--seconds T]

N is 1000, and S and W are 4. The script has eight groups, two for each of four shards: after each of some maps every group is
reported of and asked about, by turns with look-ups, and a Close stands before the last questions. A run has T seconds, 60 where
nothing is said. It ends at the first run that differs, and exits with 1 there.
"""

import json
import sys
import time
from typing import Any, Dict, Iterator, List, Optional

from built import command_line
from compare_workers import difference, ended

GROUPS, DEVICES, MAPS = range(8), list(range(6)), range(2, 8)


def acting(pg: int) -> List[int]:
    """The three devices that act for a group."""
    return [(pg + place) % len(DEVICES) for place in range(3)]


def report(op: str, pg: int, osd: int, epoch: int, **more: Any) -> Dict[str, Any]:
    return {"op": op, "pg": [1, pg], "from": [osd, 0], "stamp": epoch, **more}


def reports(epoch: int, pg: int) -> Iterator[Dict[str, Any]]:
    """What the members of a group tell after the map of this epoch: the first is a write ahead, and sends its log."""
    for place, osd in enumerate(acting(pg)):
        versions = {"last_update": [1, 3 if place == 0 else 2], "log_tail": [0, 0]}
        yield report("info", pg, osd, epoch, les=0, history_les=0, **versions, complete=True)
    log = [[1, v, "modify", f"object-{v % 2}"] for v in range(1, 4)]
    yield report("entries", pg, acting(pg)[0], epoch, log=log)


def lines() -> Iterator[Dict[str, Any]]:
    """The commands of the script."""
    tree = [{"id": -1, "type": 1, "alg": "uniform", "items": DEVICES}]
    pool = {"id": 1, "pg_num": len(GROUPS), "kind": "replicated", "size": 3, "min_size": 2, "leaf": 0}
    temps = [[1, pg, acting(pg)] for pg in GROUPS]
    outs = [[osd, 0] for osd in DEVICES]  # so that pg_temp alone says who acts
    yield {"op": "inc", "epoch": 1, "up": DEVICES, "weight": outs, "crush": tree, "pools": [pool], "temp": temps}
    for epoch in MAPS:
        fallen, told = (epoch - 2) // 2, [[osd, epoch] for osd in DEVICES if osd != (epoch - 2) // 2]
        change = {"down": [fallen]} if epoch % 2 == 0 else {"up": [fallen]}
        yield {"op": "inc", "epoch": epoch, "up_thru": told, **change}
        for pg in GROUPS:
            yield from reports(epoch, pg)
            yield {"op": "ask", "pg": [1, pg]}
            yield {"op": "locate", "pool": 1, "name": f"object-{epoch}-{pg}"}
    yield {"op": "close"}
    yield from ({"op": "ask", "pg": [1, pg]} for pg in GROUPS)


def script() -> bytes:
    return b"".join(json.dumps(line, separators=(",", ":")).encode() + b"\n" for line in lines())


def main(words: Optional[List[str]] = None) -> int:
    parser = command_line(__doc__)
    parser.add_argument("--times", type=int, default=1000, metavar="N")
    parser.add_argument("--shards", type=int, default=4, metavar="S")
    parser.add_argument("--workers", type=int, default=4, metavar="W")
    parser.add_argument("--seconds", type=float, default=60.0, metavar="T")
    options = parser.parse_args(words)
    text, begun = script(), time.monotonic()
    wanted = ended(options.program, text, 1, 0, options.seconds)
    if wanted is None or wanted.status != 0:
        print(f"without workers: {wanted or f'no end in {options.seconds} seconds'}")
        return 1
    for number in range(1, options.times + 1):
        found = ended(options.program, text, options.shards, options.workers, options.seconds)
        what = difference(wanted, found)
        if what:
            print(f"run {number}: {what}")
            return 1
    spent = time.monotonic() - begun
    answers = wanted.out.count(b"\n")
    runs = f"{options.times} runs of {answers} answers with --shards {options.shards} --workers {options.workers}"
    print(f"{runs}: the same bytes each time, {spent:.1f} seconds")
    return 0


if __name__ == "__main__":
    sys.exit(main())
