#!/usr/bin/env python3
"""Holds three followers over three nodes of etcd against the program.

    follow/checks/many.py [--program PATH] [--format V] [--lines N] [--every N] [--seed S] [--seconds T]

Four clients append lines at once through all followers, and ask. In the midst a follower is killed and run again, and so is the
node of etcd that leads. Then the whole log is read from etcd. Each answer, with its place, has to be that of `pgpeer run` on the
lines of the log up to that place, byte for byte; where the log was compacted, on what `pgpeer compact` left there and the lines
since. On the whole log without compaction it has to be the same but for its count, and with --format 3, where incrementals are
joined, but for past intervals that ended before `les`. Each line that was acknowledged has to stand at its place, once. A follower
that begins anew, from a snapshot, has to answer as the others do, and what two snapshots make needless has to be deleted. Then bad
lines get their named refusals, and a follower without etcd goes on (`outages.py`).

The last line is `N checks, M wrong`. Status 1: something was wrong. Needs etcd.
"""

import random
import sys
import threading
import time
from typing import List

import cluster
import outages
import truth
from load import Load

from pgpeer_follow.core import Program


def disturb(made: cluster.Cluster, load: Load, total: int, notes: List[str]) -> None:
    """Kills a follower after a third of the lines, and a node of etcd after two thirds; both are run again."""
    for share, process, name in ((1 / 3, made.followers[1], "a follower"), (2 / 3, outages.leading_node(made), "the leading node")):
        while load.left > total * (1 - share) and not load.stopping.is_set():
            time.sleep(0.05)
        process.kill()
        time.sleep(1.0)
        process.start()
        notes.append(f"{name} was killed and run again with {total - load.left} lines told")


def checked(program: Program, lines: int, every: int, seed: str, seconds: float) -> List[int]:
    """Runs all of it; gives how many checks there were, and how many were wrong."""
    words = ["--snapshot-every", str(every), "--format", program.version]
    with cluster.Cluster(program=program.path, words=words) as made:
        recorder = truth.Recorder(made)
        load = Load(made.ports, random.Random(seed), lines)
        notes: List[str] = []
        nuisance = threading.Thread(target=disturb, args=(made, load, lines, notes), daemon=True)
        nuisance.start()
        begun = time.monotonic()
        load.run(4, seconds)
        took = time.monotonic() - begun
        nuisance.join(30)
        made.followers[0].kill()
        made.followers[0].start()
        for port in made.ports:
            made.wait_for(port, 60)
        load.answers += outages.asked_alike(made, load)
        log = recorder.finish()
        wrong = load.wrong + truth.misplaced(log, load.told, load.unsure) + truth.faults_of(program, log, load.answers)
        if load.left > 0:
            wrong.append(f"{load.left} lines weren't told in {seconds:.0f} seconds")
        marks = sum(it.is_mark for it in log)
        print(f"{len(load.told):,} lines in {took:.0f} s, {len(log):,} places, {marks} marks, {len(load.answers):,} answers; {'; '.join(notes)}")
        print(f"told once more: {dict(load.again)}")
        found = outages.kept_short(made, log, program.version) + outages.named_refusals(made) + outages.without_etcd(made)
    wrong += [says for is_well, says in found if not is_well]
    for says in wrong[:20]:
        print(f"    {says[:600]}")
    return [len(load.answers) + len(load.told) + len(found), len(wrong)]


def main() -> int:
    parser = cluster.command_line(__doc__)
    parser.add_argument("--format", default="2", choices=("2", "3"), help="of the followers")
    parser.add_argument("--lines", type=int, default=5000, metavar="N")
    parser.add_argument("--every", type=int, default=1200, metavar="N", help="places between two marks")
    parser.add_argument("--seed", default="1", metavar="S")
    parser.add_argument("--seconds", type=float, default=600.0, metavar="T", help="for all lines at most")
    options = parser.parse_args()
    checks, wrong = checked(Program(options.program, options.format), options.lines, options.every, options.seed, options.seconds)
    print(f"{checks} checks, {wrong} wrong")
    return 1 if wrong else 0


if __name__ == "__main__":
    sys.exit(main())
