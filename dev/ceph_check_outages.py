"""Runs clusters through outages, or takes what was kept of them, and prints how the program's answers compare with Ceph's.

Each cluster is run by a process of its own, since Ceph's client library may end it; then the cluster is made once more.
"""

import concurrent.futures
import os
import pathlib
import subprocess
import sys
import tempfile
import time
from typing import Dict, Iterator, List, NamedTuple, Optional

import ceph_package  # noqa: F401
from ceph_cluster import room, run
from ceph_compare import Result, compare_record, table, verdict_table
from ceph_outages import Record, kept, lived
from pgpeer_ceph.maps import group_text
from pgpeer_ceph.sets import printed_sets

MOST_SHOWN = 30
TRIES = 3  # of a cluster
MOST_SECONDS = 120  # of a cluster, and as many of each step


class Life(NamedTuple):
    """A cluster that is to be made."""

    seed: int
    steps: int
    is_straw2: bool


def leaders(text: str) -> Dict[str, Optional[int]]:
    """Who leads each group, by what osdmaptool printed."""
    return {group_text(group): where.acting_primary for group, where in printed_sets(text, "osdmaptool").items()}


def made(life: Life) -> Optional[Record]:
    """What Ceph said in a cluster's life; None where it failed each time."""
    with tempfile.TemporaryDirectory() as folder:
        path = os.path.join(folder, "record.json")
        words = [sys.executable, __file__, str(life.seed), str(life.steps), str(int(life.is_straw2)), path]
        for _ in range(TRIES):
            try:
                run_of = subprocess.run(words, capture_output=True, text=True, timeout=MOST_SECONDS * (1 + life.steps))
            except subprocess.TimeoutExpired:
                print(f"cluster {life.seed}: no end", file=sys.stderr)
                continue
            if run_of.returncode == 0:
                return kept(path)
            said = run_of.stderr.strip().splitlines() or ["no word"]
            print(f"cluster {life.seed}: ended with status {run_of.returncode}: {said[-1]}", file=sys.stderr)
    return None


def make(words: List[str]) -> int:
    """Makes one cluster, and keeps what Ceph said."""
    life = Life(int(words[0]), int(words[1]), words[2] == "1")
    with room() as folder:
        lived(folder, *life, leaders).keep(words[3])
    return 0


def records(lives: List[Life], jobs: int) -> Iterator[Record]:
    with concurrent.futures.ThreadPoolExecutor(jobs) as pool:
        for record in pool.map(made, lives):
            if record is not None:
                yield record


def outages(program: str, lives: List[Life], jobs: int, folder: Optional[str]) -> int:
    """The status of a comparison with these clusters."""
    begun, result, clusters = time.monotonic(), Result(), 0
    if folder:
        os.makedirs(folder, exist_ok=True)
    for record in records(lives, jobs):
        clusters += 1
        if folder:
            record.keep(f"{folder}/{record.seed}.outage.json")
        compare_record(program, record, result)
        print(f"cluster {record.seed}: {len(record.steps)} steps in {record.seconds:.0f} s", file=sys.stderr)
    print(run("osdmaptool", "--version").strip())
    return reported(result, clusters, time.monotonic() - begun, len(lives) - clusters)


def again(program: str, folder: str) -> int:
    """The status of a comparison with what was kept."""
    begun, result = time.monotonic(), Result()
    paths = sorted(pathlib.Path(folder).glob("*.outage.json"))
    for path in paths:
        compare_record(program, kept(str(path)), result)
    return reported(result, len(paths), time.monotonic() - begun, 0)


def reported(result: Result, clusters: int, seconds: float, failed: int) -> int:
    unnamed = result.unnamed()
    print(f"{clusters} clusters, {result.steps} steps, {result.states} states of groups, {seconds:.0f} s; "
          f"{len(unnamed)} differences without a rule" + (f"; {failed} clusters failed" if failed else ""))
    print(f"\n{table(result)}\n\n{verdict_table(result)}")
    for it in unnamed[:MOST_SHOWN]:
        print(f"cluster {it.seed}, step {it.step + 1}, {it.group}: {it.what}: pgpeer {it.ours}, Ceph {it.theirs}")
    return 1 if unnamed or failed or not result.states else 0


if __name__ == "__main__":
    sys.exit(make(sys.argv[1:]))
