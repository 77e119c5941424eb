#!/usr/bin/env python3
"""Measures followers of one log beside the program on one pipe.

    bench/measure_follow.py [--program PATH] [--questions N] [--appends N] [--rounds N]

Three nodes of etcd and one or three followers run on the loopback, with their files in a folder of the system for temporary ones.
Four clients each keep 64 lines on the way. The program on a pipe gets the same lines, 64 on the way. Then one client appends a
line, and asks each follower with the line's place as `after`: what is measured is the time from sending the line to the last of
the answers. Prints a table in Markdown. Needs etcd and the built program.
"""

import pathlib
import random
import statistics
import subprocess
import sys
import threading
import time
from typing import List, Sequence

ROOT = pathlib.Path(__file__).resolve().parent.parent
sys.path.insert(0, str(ROOT / "follow/checks"))

import cluster  # noqa: E402
from workload import GROUPS, Workload, told  # noqa: E402

CLIENTS, WINDOW = 4, 64


def questions(count: int) -> List[bytes]:
    return [told({"op": "ask", "pg": [1, at % GROUPS]}) for at in range(count)]


def entries(count: int) -> List[bytes]:
    """Infos of the first map, all of which are taken."""
    work = Workload(random.Random(1))
    return [told(work.info()) for _ in range(count)]


def through_pipe(program: str, first: bytes, lines: Sequence[bytes]) -> float:
    """Lines a second."""
    with subprocess.Popen([program, "run"], stdin=subprocess.PIPE, stdout=subprocess.PIPE) as run:
        assert run.stdin and run.stdout
        begun = 0.0
        for block in ([first], *blocks(lines)):
            run.stdin.write(b"".join(it + b"\n" for it in block))
            run.stdin.flush()
            for _ in block:
                run.stdout.readline()
            begun = begun or time.monotonic()
        took = time.monotonic() - begun
        run.stdin.close()
    return len(lines) / took


def blocks(lines: Sequence[bytes]) -> List[Sequence[bytes]]:
    return [lines[at : at + WINDOW] for at in range(0, len(lines), WINDOW)]


def through_followers(ports: Sequence[int], lines: Sequence[bytes]) -> float:
    """Lines a second, by clients that share the followers."""

    def tell(at: int) -> None:
        with cluster.Client(ports[at % len(ports)], 120) as client:
            for block in blocks(lines[at::CLIENTS]):
                client.send(b"\n".join(block))
                for _ in block:
                    reply = client.receive()
                    if b'"refused":"U' in reply:
                        raise AssertionError(reply)

    clients = [threading.Thread(target=tell, args=(at,)) for at in range(CLIENTS)]
    begun = time.monotonic()
    for it in clients:
        it.start()
    for it in clients:
        it.join()
    return len(lines) / (time.monotonic() - begun)


def until_all_answer(ports: Sequence[int], lines: Sequence[bytes]) -> List[float]:
    """Seconds from sending each entry to the answers of all followers that know of it."""
    clients, took = [cluster.Client(it) for it in ports], []
    for line in lines:
        begun = time.monotonic()
        place = int(clients[0].raw(line)[len(b'{"at":') :].partition(b",")[0])
        for it in clients:
            it.send(told({"op": "ask", "pg": [1, 0], "after": place}))
        for it in clients:
            it.receive()
        took.append(time.monotonic() - begun)
    for it in clients:
        it.close()
    return took


def main() -> None:
    parser = cluster.command_line(__doc__)
    parser.add_argument("--questions", type=int, default=40_000, metavar="N")
    parser.add_argument("--appends", type=int, default=10_000, metavar="N")
    parser.add_argument("--rounds", type=int, default=300, metavar="N")
    options = parser.parse_args()
    first = told(Workload(random.Random(1)).first())
    asked, appended = questions(options.questions), entries(options.appends)
    pipe = through_pipe(options.program, first, asked), through_pipe(options.program, first, appended)
    rows = [("`pgpeer run` on a pipe", *pipe, [])]
    for count in (1, 3):
        with cluster.Cluster(followers=count, program=options.program) as made:
            with cluster.Client(made.ports[0]) as client:
                client.raw(first)
            rates = through_followers(made.ports, asked), through_followers(made.ports, appended)
            rows.append((f"{count} follower{'s' if count > 1 else ''}", *rates, until_all_answer(made.ports, entries(options.rounds))))
    print("| | answers a second | of the pipe | appends a second | of the pipe | until all answer, ms: median | worst |")
    print("| --- | ---: | ---: | ---: | ---: | ---: | ---: |")
    for name, answers, appends, took in rows:
        last = f"{1000 * statistics.median(took):.1f} | {1000 * max(took):.0f}" if took else " | "
        print(f"| {name} | {answers:,.0f} | {answers / pipe[0]:.3f} | {appends:,.0f} | {appends / pipe[1]:.4f} | {last} |")


if __name__ == "__main__":
    main()
