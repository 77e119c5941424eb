#!/usr/bin/env python3
"""Tells two followers more maps than a log takes.

    follow/checks/endless.py [--program PATH] [--maps N] [--every N] [--seed S]

They read lines of version 3, so incrementals are joined at marks, and nothing may be refused. Blocks of lines go to one and the
other by turns: devices of a small map fall and come back, and groups tell that they serve. After each block the other one is asked,
and is told a line of the block again. At the end a follower begins anew, from a snapshot. Answers are held against the program as
in many.py. The last line is `N checks, M wrong`. Status 1: something was wrong. Needs etcd.
"""

import random
import sys
import time
from typing import List, Tuple

import cluster
import outages
import truth
from workload import GROUPS, Line, Workload, told

from pgpeer_follow import envelope
from pgpeer_follow.core import Program
from pgpeer_follow.keys import Entry

BLOCK = 200  # lines that are told at once
SERVING = 0.1  # of the lines: a group tells that it serves


def block_of(work: Workload) -> List[Line]:
    lines = []
    for _ in range(BLOCK):
        if work.rng.random() < SERVING:
            line = work.info()
            lines.append({**line, "les": line["stamp"], "history_les": line["stamp"]})
        else:
            lines.append(work.inc())
    return lines


class Teller:
    """One client of both followers, which knows the whole log: what it was told, and marks at the places between."""

    def __init__(self, ports: List[int], rng: random.Random):
        self.clients, self.rng = [cluster.Client(it, 120) for it in ports], rng
        self.log: List[Entry] = []
        self.answers: List[truth.Answer] = []
        self.wrong: List[str] = []

    def tell(self, lines: List[Line], number: int) -> None:
        """Tells a block to one follower, and asks the other."""
        one, other = self.clients[number % 2], self.clients[1 - number % 2]
        after, texts = len(self.log), [told(it) for it in lines]
        tokens = [f"b{number}-{at}" for at in range(len(lines))]
        sent = [told({**line, "token": token, "after": after}) for line, token in zip(lines, tokens)]
        one.send(b"\n".join(sent))
        replies = [one.receive() for _ in sent]
        for reply, token, text in zip(replies, tokens, texts):
            at, _, answer = envelope.split(reply)
            self.log += [Entry(place, is_mark=True) for place in range(len(self.log) + 1, at)]
            self.log.append(Entry(at, token, text))
            self.answers.append(truth.Answer(at, b"", answer))
            if b'"ok":' not in answer or at != len(self.log):
                self.wrong.append(f"{token} is answered {reply!r} behind {len(self.log)} places")
        again = self.rng.randrange(len(sent))
        reply = other.raw(sent[again])
        if reply != replies[again]:
            self.wrong.append(f"{tokens[again]} is answered {replies[again]!r}, and told again {reply!r}")
        self.ask(other, self.rng.randrange(GROUPS))

    def ask(self, client: cluster.Client, group: int) -> None:
        line = {"op": "ask", "pg": [1, group]}
        at, _, answer = envelope.split(client.raw(told({**line, "after": len(self.log)})))
        if at > len(self.log):
            self.log.append(Entry(at, is_mark=True))
        self.answers.append(truth.Answer(at, told(line), answer))


def checked(program: Program, maps: int, every: int, seed: str) -> Tuple[int, List[str]]:
    """Runs all of it; gives how many checks there were, and what was wrong."""
    rng = random.Random(seed)
    work = Workload(rng)
    words = ["--snapshot-every", str(every), "--format", program.version]
    with cluster.Cluster(nodes=1, followers=2, program=program.path, words=words) as made:
        teller, number, begun = Teller(made.ports, rng), 0, time.monotonic()
        teller.tell([work.first()], number)
        while work.epoch < maps and not teller.wrong:
            number += 1
            teller.tell(block_of(work), number)
        took = time.monotonic() - begun
        made.followers[0].kill()
        made.followers[0].start()
        made.wait_for(made.ports[0], 120)
        teller.clients[0] = cluster.Client(made.ports[0])
        for client in teller.clients:
            for group in range(GROUPS):
                teller.ask(client, group)
        found = outages.kept_short(made, teller.log, program.version)
    marks = sum(it.is_mark for it in teller.log)
    print(f"{work.epoch:,} maps, {len(teller.log):,} places and {marks} marks in {took:.0f} s; {found[-1][1]}")
    wrong = teller.wrong + truth.faults_of(program, teller.log, teller.answers) + [says for is_well, says in found if not is_well]
    return len(teller.answers) + number + len(found), wrong


def main() -> int:
    parser = cluster.command_line(__doc__)
    parser.add_argument("--format", default="3", choices=("2", "3"), help="of the followers; with 2 the log gets full")
    parser.add_argument("--maps", type=int, default=70_000, metavar="N")
    parser.add_argument("--every", type=int, default=5_000, metavar="N", help="places between two marks")
    parser.add_argument("--seed", default="1", metavar="S")
    options = parser.parse_args()
    checks, wrong = checked(Program(options.program, options.format), options.maps, options.every, options.seed)
    for says in wrong[:20]:
        print(f"    {says[:600]}")
    print(f"{checks} checks, {len(wrong)} wrong")
    return 1 if wrong else 0


if __name__ == "__main__":
    sys.exit(main())
