#!/usr/bin/env python3
"""Runs followers and nodes of etcd for a time, while they are killed and stopped at random, and checks all that clients were told.

    follow/checks/long_run.py [--program PATH] [--format V] [--minutes T] [--pause S] [--every N] [--seed S]

Clients append and ask through all followers, with time-outs of a few seconds, after which they tell the same line to another one.
Meanwhile every few seconds a node of etcd, a follower or the program of a follower gets SIGKILL and is run again, or SIGSTOP and
later SIGCONT; half of the nodes that are hit are the leader, and at times two nodes are away at once, so that there is no majority.
At the end all is held against the whole log as in many.py. Prints a table in Markdown. Status 1: something was wrong.
"""

import argparse
import os
import pathlib
import random
import signal
import sys
import threading
import time
from collections import Counter
from typing import List

import cluster
import outages
import truth
from load import Load

from pgpeer_follow.core import Program

SETTLING = 180.0  # seconds within which all follow, once nothing is killed any more


class Nuisance:
    """Kills and stops processes of a cluster, and runs them again."""

    def __init__(self, made: cluster.Cluster, rng: random.Random):
        self.made, self.rng = made, rng
        self.done: Counter[str] = Counter()
        self.stopping = threading.Event()

    def run(self) -> None:
        while not self.stopping.wait(self.rng.uniform(1, 8)):
            self.rng.choice((self.hit_node, self.hit_node, self.hit_follower, self.hit_follower, self.hit_core, self.hit_majority))()

    def hit(self, process: cluster.Process, what: str) -> None:
        if self.rng.random() < 0.5:
            self.done[f"{what}, SIGKILL"] += 1
            process.kill()
            self.stopping.wait(self.rng.uniform(0, 6))
            process.start()
        else:
            self.done[f"{what}, SIGSTOP"] += 1
            process.send(signal.SIGSTOP)
            self.stopping.wait(self.rng.choice((1, 3, 8, 20)))
            process.send(signal.SIGCONT)

    def hit_node(self) -> None:
        leader = outages.leading_node(self.made)
        if self.rng.random() < 0.5:
            self.hit(leader, "leading node of etcd")
        else:
            self.hit(self.rng.choice([it for it in self.made.nodes if it is not leader]), "other node of etcd")

    def hit_majority(self) -> None:
        """Two nodes at once."""
        nodes = self.rng.sample(self.made.nodes, 2)
        self.done["two nodes at once, SIGSTOP"] += 1
        for it in nodes:
            it.send(signal.SIGSTOP)
        self.stopping.wait(self.rng.uniform(2, 15))
        for it in nodes:
            it.send(signal.SIGCONT)

    def hit_follower(self) -> None:
        """The follower that makes snapshots, half of the time."""
        process, what = self.rng.choice(self.made.followers), "follower"
        if self.rng.random() < 0.5:
            for it, port in zip(self.made.followers, self.made.ports):
                try:
                    with cluster.Client(port, 2) as client:
                        if client.tell({"op": "health"}).get("leader"):
                            process, what = it, "follower that makes snapshots"
                except OSError:
                    continue
        self.hit(process, what)

    def hit_core(self) -> None:
        """The program of a follower."""
        process = self.rng.choice(self.made.followers)
        if not process.child:
            return
        try:
            threads = pathlib.Path(f"/proc/{process.child.pid}/task").glob("*/children")
            children = [it for thread in threads for it in thread.read_text().split()]
            for it in children:
                self.done["program of a follower, SIGKILL"] += 1
                os.kill(int(it), signal.SIGKILL)
        except (OSError, ValueError):
            return


def table(rows: List[str]) -> str:
    return "\n".join(["| | |", "|---|---:|", *rows])


def settled(made: cluster.Cluster, load: Load) -> List[truth.Answer]:
    for port in made.ports:
        made.wait_for(port, SETTLING)
    return outages.asked_alike(made, load)


def options() -> argparse.Namespace:
    parser = cluster.command_line(__doc__)
    parser.add_argument("--format", default="2", choices=("2", "3"), help="of the followers")
    parser.add_argument("--minutes", type=float, default=60.0, metavar="T")
    parser.add_argument("--pause", type=float, default=0.05, metavar="S", help="seconds, of each client after a line")
    parser.add_argument("--every", type=int, default=2000, metavar="N", help="places between two marks")
    parser.add_argument("--seed", default="1", metavar="S")
    return parser.parse_args()


def say(text: str) -> None:
    print(text, flush=True)


def main() -> int:
    told = options()
    rng = random.Random(told.seed)
    with cluster.Cluster(program=told.program, words=["--snapshot-every", str(told.every), "--wait", "6", "--format", told.format]) as made:
        recorder = truth.Recorder(made)
        load = Load(made.ports, rng, 10**9, client_seconds=4.0, pause=told.pause)
        nuisance = Nuisance(made, random.Random(f"{told.seed}/nuisance"))
        threads = [threading.Thread(target=nuisance.run), threading.Thread(target=load.run, args=(4, 60 * told.minutes))]
        begun = time.monotonic()
        for it in threads:
            it.start()
        while threads[1].is_alive() and time.monotonic() - begun < 60 * told.minutes + 120:
            threads[1].join(60)
            hits = sum(nuisance.done.values())
            say(f"{time.monotonic() - begun:.0f} s: {len(load.told):,} lines, {hits} hits, {load.wrong[:3]}")
        took = time.monotonic() - begun
        nuisance.stopping.set()
        threads[0].join()
        load.answers += settled(made, load)
        log = recorder.finish()
        starts_over = sum(it.read_text().count("goes on from the snapshot") for it in made.folder.glob("f*.log"))
        wrong = load.wrong + truth.misplaced(log, load.told, load.unsure) + truth.faults_of(Program(told.program, told.format), log, load.answers)
    rows = [
        f"| minutes | {took / 60:.0f} |",
        f"| places of the log | {len(log):,} |",
        f"| lines that were acknowledged | {len(load.told):,} |",
        f"| marks, after which a snapshot is made | {sum(it.is_mark for it in log)} |",
        f"| snapshots from which a follower went on | {starts_over} |",
        *(f"| {what} | {count:,} |" for what, count in sorted(nuisance.done.items())),
        *(f"| told once more: {what} | {count:,} |" for what, count in sorted(load.again.items())),
        f"| answers that said how old they are | {sum(load.ages.values()):,} |",
        f"| the oldest of them, seconds | {max(load.ages, default=0)} |",
        f"| answers held against the program | {len(load.answers):,} |",
        f"| wrong | {len(wrong)} |",
    ]
    for text in wrong[:20]:
        say(f"    {text[:600]}")
    say(table(rows))
    return 1 if wrong else 0


if __name__ == "__main__":
    sys.exit(main())
