#!/usr/bin/env python3
"""Cuts one of three hosts off from the others, and looks what its follower answers.

    follow/checks/partition.py [--program PATH]

A host is a network namespace with a node of etcd and a follower; its link goes down. First the host of the node that leads is cut
off, then another one. The follower in the minority has to answer from what it knows and say how old that is, to refuse entries
within the bound, and never to answer a place that it doesn't have; the others go on. Once the link is back it has to catch up, and
the line that was refused, told again with its token, has to stand once. The last line is `N checks, M wrong`. Status 3: it needs
root, `ip` and etcd, and was skipped.
"""

import os
import pathlib
import random
import subprocess
import sys
import tempfile
import time
from typing import List, Tuple

import cluster
from outages import INFO
from workload import Workload

SKIPPED = 3
HOSTS = 3
NET = "10.231.77"
Found = List[Tuple[bool, str]]


def ip(*words: str) -> None:
    subprocess.run(["ip", *words], check=True, capture_output=True)


class Hosts:
    """Namespaces on one bridge, which stands in a namespace of its own."""

    def __init__(self, program: str):
        self.room = tempfile.TemporaryDirectory(prefix="pgpeer-follow-")
        self.folder = pathlib.Path(self.room.name)
        self.hub = f"pgf{os.getpid()}"
        self.names = [f"{self.hub}-{at}" for at in range(HOSTS)]
        self.sockets = [str(self.folder / f"s{at}") for at in range(HOSTS)]
        members = ",".join(f"n{at}=http://{NET}.{at + 1}:2380" for at in range(HOSTS))
        self.nodes = [self.process(at, f"n{at}", self.etcd(at, members)) for at in range(HOSTS)]
        self.followers = [self.process(at, f"f{at}", self.follower(at, program)) for at in range(HOSTS)]

    def process(self, at: int, name: str, words: List[str]) -> cluster.Process:
        return cluster.Process(["ip", "netns", "exec", self.names[at], *words], self.folder / f"{name}.log")

    def etcd(self, at: int, members: str) -> List[str]:
        client, peer = f"http://{NET}.{at + 1}:2379", f"http://{NET}.{at + 1}:2380"
        urls = ["--listen-client-urls", client, "--advertise-client-urls", client]
        urls += ["--listen-peer-urls", peer, "--initial-advertise-peer-urls", peer, "--initial-cluster", members]
        return ["etcd", "--name", f"n{at}", "--data-dir", str(self.folder / f"n{at}"), *urls, "--logger", "zap", "--log-level", "error"]

    def follower(self, at: int, program: str) -> List[str]:
        endpoints = ",".join(f"http://{NET}.{it + 1}:2379" for it in range(HOSTS))
        words = [sys.executable, "-m", "pgpeer_follow", "--create", "--endpoints", endpoints, "--allow-plain"]
        return [*words, "--program", program, "--socket", self.sockets[at], "--wait", "8"]

    def __enter__(self) -> "Hosts":
        ip("netns", "add", self.hub)
        try:
            ip("-n", self.hub, "link", "add", "bridge", "type", "bridge")
            ip("-n", self.hub, "link", "set", "bridge", "up")
            for at, name in enumerate(self.names):
                ip("netns", "add", name)
                ip("-n", self.hub, "link", "add", f"to{at}", "type", "veth", "peer", "name", "eth0", "netns", name)
                ip("-n", self.hub, "link", "set", f"to{at}", "master", "bridge", "up")
                ip("-n", name, "addr", "add", f"{NET}.{at + 1}/24", "dev", "eth0")
                for device in ("eth0", "lo"):
                    ip("-n", name, "link", "set", device, "up")
            for it in [*self.nodes, *self.followers]:
                it.start()
            for path in self.sockets:
                cluster.wait_for(path, self.folder)
        except BaseException:
            self.__exit__()
            raise
        return self

    def __exit__(self, *_: object) -> None:
        for it in [*self.followers, *self.nodes]:
            it.end()
        for name in [*self.names, self.hub]:
            subprocess.run(["ip", "netns", "del", name], check=False, capture_output=True)
        self.room.cleanup()

    def link(self, at: int, way: str) -> None:
        ip("-n", self.hub, "link", "set", f"to{at}", way)

    def leader(self) -> int:
        """The host whose node of etcd leads."""
        for at in range(HOSTS):
            words = [sys.executable, "-c", STATUS, f"{NET}.{at + 1}"]
            told = subprocess.run(["ip", "netns", "exec", self.names[at], *words], capture_output=True, check=False, timeout=20)
            if told.stdout.strip() == b"leads":
                return at
        return 0


STATUS = """
import http.client, json, sys
link = http.client.HTTPConnection(sys.argv[1], 2379, timeout=5)
link.request("POST", "/v3/maintenance/status", "{}")
said = json.loads(link.getresponse().read())
print("leads" if said["leader"] == said["header"]["member_id"] else "follows")
"""


def cut(hosts: Hosts, at: int, what: str) -> Found:
    """Cuts a host off, asks both sides, and joins them again."""
    found: Found = []
    ask = {"op": "ask", "pg": [1, 0]}

    def check(is_well: bool, says: str) -> None:
        found.append((is_well, f"{what}: {says}"))

    others = [it for it in range(HOSTS) if it != at]
    hosts.link(at, "down")
    try:
        with cluster.Client(hosts.sockets[at]) as minority, cluster.Client(hosts.sockets[others[0]], 60) as majority:
            known = minority.tell({"op": "health"})["at"]
            time.sleep(6)
            for _ in range(6):
                reply = majority.tell({**INFO, "token": f"majority-{at}"})
                if "ok" in reply:
                    break
            check("ok" in reply, f"the majority takes an entry: {reply}")
            place = reply["at"]
            reply = minority.tell({**ask, "after": known})
            first = reply.get("age", 0)
            check(known <= reply["at"] < place and first >= 3, f"the minority answers from place {known} on: {reply}")
            begun = time.monotonic()
            reply = minority.tell({**INFO, "token": f"minority-{at}"})
            took = time.monotonic() - begun
            check(reply.get("refused") in ("Unavailable", "Unsure") and took < 12, f"it refuses an entry in {took:.1f} s: {reply}")
            reply = minority.tell({**ask, "after": place})
            check(reply.get("refused") == "NotYet" and reply["age"] > first, f"it doesn't have place {place}: {reply}")
            check(minority.tell({"op": "health"})["state"] == "Unavailable", "its health says so")
    finally:
        hosts.link(at, "up")
    return found + back(hosts, at, others[1], place, what)


def back(hosts: Hosts, at: int, other: int, place: int, what: str) -> Found:
    """What a follower answers once its host is joined again."""
    cluster.wait_for(hosts.sockets[at], hosts.folder, 60)
    with cluster.Client(hosts.sockets[at]) as client, cluster.Client(hosts.sockets[other]) as another:
        reply = client.tell({"op": "ask", "pg": [1, 0], "after": place})
        found = [(reply["at"] >= place and "age" not in reply, f"{what}: it has caught up: {reply}")]
        reply = client.tell({**INFO, "token": f"minority-{at}"})
        again = another.tell({**INFO, "token": f"minority-{at}"})
        found.append(("ok" in reply and reply == again, f"{what}: the refused line stands once: {reply}, {again}"))
    return found


def main() -> int:
    options = cluster.command_line(__doc__).parse_args()
    try:
        ip("netns", "add", f"pgf{os.getpid()}-try")
        ip("netns", "del", f"pgf{os.getpid()}-try")
    except (OSError, subprocess.CalledProcessError):
        print("skipped, since no namespaces can be made here")
        return SKIPPED
    found: Found = []
    with Hosts(options.program) as hosts:
        with cluster.Client(hosts.sockets[0]) as client:
            client.tell(Workload(random.Random(1)).first())
        first = hosts.leader()
        found += cut(hosts, first, "the host of the leading node")
        others = {*range(HOSTS)} - {first, hosts.leader()}
        found += cut(hosts, min(others), "another host")
    return cluster.counted(found)


if __name__ == "__main__":
    sys.exit(main())
