"""A Ceph cluster of one monitor on the loopback address, whose devices keep their stores in memory."""

import contextlib
import ctypes
import json
import os
import pathlib
import random
import shutil
import socket
import subprocess
import tempfile
import time
import uuid
from typing import Any, Dict, Iterator, List, NamedTuple, Optional, Tuple

import ceph_package  # noqa: F401
from pgpeer_ceph.nodes import Unusable
from pgpeer_ceph.trees import PROFILE

MOST_SECONDS = 60  # for one command
DEVICES = 24  # where nothing else is said
LIBC = ctypes.CDLL(None)


class Dumps(NamedTuple):
    """A map, its tree and where its groups lie, as Ceph's tools print them."""

    osdmap: str
    crush: str
    groups: str


@contextlib.contextmanager
def room() -> Iterator[str]:
    """A folder that is gone afterwards."""
    folder = tempfile.mkdtemp(prefix="pgpeer-ceph-")
    try:
        yield folder
    finally:
        shutil.rmtree(folder, ignore_errors=True)


def run(*words: str) -> str:
    """What the command prints."""
    try:
        done = subprocess.run(words, capture_output=True, text=True, timeout=MOST_SECONDS)
    except subprocess.TimeoutExpired as fault:
        raise Unusable(f"{' '.join(words)}: no answer within {MOST_SECONDS} seconds") from fault
    if done.returncode != 0:
        raise Unusable(f"{' '.join(words)}: {done.stderr.strip()[-500:]}")
    return done.stdout


def end_with_parent() -> None:
    """Has the kernel end the process once its parent ends, however that comes."""
    LIBC.prctl(1, 9)  # PR_SET_PDEATHSIG, SIGKILL


def free_port() -> int:
    """A port that nobody has, below those that the kernel gives to whoever asks, so that two clusters seldom pick the same."""
    for _ in range(1000):
        port = random.SystemRandom().randrange(12000, 32000)
        with contextlib.suppress(OSError), socket.socket() as taken:
            taken.bind(("127.0.0.1", port))
            return port
    raise Unusable("there is no free port")


CONF = """\
[global]
fsid = {fsid}
mon host = v1:127.0.0.1:{port}/0
auth cluster required = none
auth service required = none
auth client required = none
keyring = {folder}/keyring
log file = {folder}/$name.log
admin socket = {folder}/$name.asok
run dir = {folder}
mon data = {folder}/mon
mon allow pool size one = true
mon allow pool delete = true
mon max pg per osd = 100000
mon osd min in ratio = 0
mon osd min up ratio = 0
mon osd report timeout = 86400
mon osd down out interval = 0
mon data avail crit = 1
mon osd crush smoke test = false
paxos propose interval = 0.02
paxos min wait = 0.01
osd pool default pg autoscale mode = off
osd objectstore = memstore
memstore device bytes = 67108864
osd data = {folder}/osd$id
osd class load list =
osd crush update on start = false
osd class update on start = {classes}
"""


def tree_text(tree: Dict[str, Tuple[str, str, Dict[str, float]]], rules: List[str], devices: int = DEVICES) -> str:
    """A tree for crushtool, of buckets from the lowest: by name their type, kind, and items with weights."""
    tunables = {**PROFILE, "straw_calc_version": 1, "allowed_bucket_algs": 54}
    lines = [f"tunable {name} {value}" for name, value in tunables.items()]
    lines += [f"device {osd} osd.{osd}" for osd in range(devices)]
    lines += [f"type {number} {name}" for number, name in enumerate(("osd", "host", "rack", "row", "root"))]
    for at, (name, (kind, alg, items)) in enumerate(tree.items()):
        lines += [f"{kind} {name} {{", f"id {-1 - at}", f"alg {alg}", "hash 0"]
        lines += [f"item {item} weight {weight:.5f}" for item, weight in items.items()] + ["}"]
    root = list(tree)[-1]
    for number, step in enumerate(rules):
        kind = "erasure" if "indep" in step else "replicated"
        lines += [f"rule rule{number} {{", f"id {number}", f"type {kind}", "min_size 1", "max_size 16"]
        *sets, choice = step.split("; ")
        lines += [*(f"step {it}" for it in sets), f"step take {root}", f"step {choice}", "step emit", "}"]
    return "\n".join(lines) + "\n"


def even_tree(hosts: int, racks: int, algs: str, rules: List[str], devices: int = DEVICES) -> str:
    """A tree of all devices in this many hosts, these in racks (none where it is 0), with the kinds of host, rack and root."""
    host_alg, rack_alg, root_alg = algs.split()
    share, tree = devices // hosts, {}
    for host in range(hosts):
        tree[f"h{host}"] = ("host", host_alg, {f"osd.{host * share + at}": 1.0 for at in range(share)})
    tops = {f"h{host}": 1.0 * share for host in range(hosts)}
    if racks:
        each = hosts // racks
        for rack in range(racks):
            tree[f"r{rack}"] = ("rack", rack_alg, {f"h{rack * each + at}": 1.0 * share for at in range(each)})
        tops = {f"r{rack}": each * 1.0 * share for rack in range(racks)}
    tree["all"] = ("root", root_alg, tops)
    return tree_text(tree, rules, devices)


class Cluster:
    """A monitor, and devices that are in its map as if they ran."""

    def __init__(self, folder: str):
        self.folder, self.conf, self.fsid = folder, f"{folder}/ceph.conf", str(uuid.uuid4())
        port = free_port()
        pathlib.Path(self.conf).write_text(CONF.format(fsid=self.fsid, port=port, folder=folder, classes="false"))
        run("monmaptool", "--create", "--fsid", self.fsid, "--addv", "a", f"[v1:127.0.0.1:{port}/0]", f"{folder}/monmap")
        run("ceph-authtool", "--create-keyring", f"{folder}/keyring", "--gen-key", "-n", "mon.", "--cap", "mon", "allow *")
        run("ceph-mon", "-c", self.conf, "--mkfs", "-i", "a", "--monmap", f"{folder}/monmap", "--keyring", f"{folder}/keyring")
        self.monitor = self.start("ceph-mon", "-i", "a")

    def start(self, *words: str) -> subprocess.Popen:
        quiet = subprocess.DEVNULL
        return subprocess.Popen([*words, "-c", self.conf, "-f"], stdout=quiet, stderr=quiet, preexec_fn=end_with_parent)

    def stop(self) -> None:
        self.monitor.kill()
        self.monitor.wait()

    def ceph(self, *words: str) -> str:
        """What `ceph` prints. At times it asks before it knows the monitor; then nothing was done, and it is called again."""
        for left in reversed(range(5)):
            try:
                return run("ceph", "-c", self.conf, "--connect-timeout", str(MOST_SECONDS), *words)
            except Unusable as fault:
                if left == 0 or "problem getting command descriptions" not in str(fault):
                    raise
        raise AssertionError

    def osdmap(self) -> Dict[str, Any]:
        return json.loads(self.ceph("osd", "dump", "--format", "json"))

    def add(self, count: int) -> None:
        """Adds devices, each of which boots once."""
        for _ in range(count):
            self.ceph("osd", "new", str(uuid.uuid4()))
        self.ceph("osd", "set", "nodown")
        self.boot(range(count))
        self.ceph("osd", "unset", "nodown")

    def boot(self, osds: Any) -> None:
        """Has the devices boot, one after the other. The flag nodown keeps each up once it is stopped."""
        ids = {osd["osd"]: osd["uuid"] for osd in self.osdmap()["osds"]}
        for osd in osds:
            shutil.rmtree(f"{self.folder}/osd{osd}", ignore_errors=True)
            os.mkdir(f"{self.folder}/osd{osd}")
            run("ceph-osd", "-c", self.conf, "-i", str(osd), "--mkfs", "--osd-uuid", ids[osd])
            daemon = self.start("ceph-osd", "-i", str(osd))
            try:
                self.wait_for(osd)
            finally:
                daemon.kill()
                daemon.wait()

    def wait_for(self, osd: int) -> None:
        end = time.monotonic() + MOST_SECONDS
        while not any(it["osd"] == osd and it["up"] for it in self.osdmap()["osds"]):
            if time.monotonic() > end:
                raise Unusable(f"osd.{osd} didn't boot")
            time.sleep(0.1)

    def clear(self) -> None:
        """Takes the pools away, and has each device up, in and of full weight."""
        osdmap = self.osdmap()
        for pool in osdmap["pools"]:
            name = pool["pool_name"]
            self.ceph("osd", "pool", "rm", name, name, "--yes-i-really-really-mean-it")
        for osd in osdmap["osds"]:
            if osd["weight"] != 1:
                self.ceph("osd", "reweight", str(osd["osd"]), "1")
            if osd["primary_affinity"] != 1:
                self.ceph("osd", "primary-affinity", str(osd["osd"]), "1")
        self.ceph("osd", "set", "nodown")
        self.boot([osd["osd"] for osd in osdmap["osds"] if not osd["up"]])
        self.ceph("osd", "unset", "nodown")

    def tree(self, text: str) -> None:
        """Gives the map another tree, from the text that crushtool compiles."""
        pathlib.Path(f"{self.folder}/tree.txt").write_text(text)
        run("crushtool", "-c", f"{self.folder}/tree.txt", "-o", f"{self.folder}/tree")
        self.ceph("osd", "setcrushmap", "-i", f"{self.folder}/tree")

    def replicated(self, name: str, groups: int, size: int, min_size: int, rule: str) -> int:
        """Makes a replicated pool; gives its number."""
        self.ceph("osd", "pool", "create", name, str(groups), str(groups), "replicated", rule)
        self.ceph("osd", "pool", "set", name, "size", str(size), "--yes-i-really-mean-it")
        self.ceph("osd", "pool", "set", name, "min_size", str(min_size))
        return self.osdmap()["pool_max"]

    def erasure(self, name: str, groups: int, k: int, m: int, rule: Optional[str] = None) -> int:
        """Makes an erasure pool; gives its number. Without a rule Ceph makes its own."""
        profile = f"{name}-{k}-{m}"
        self.ceph("osd", "erasure-code-profile", "set", profile, f"k={k}", f"m={m}", "--force")
        self.ceph("osd", "pool", "create", name, str(groups), str(groups), "erasure", profile, *([rule] if rule else []))
        return self.osdmap()["pool_max"]

    def temp(self, pool: int, group: int, osds: List[int]) -> None:
        self.ceph("osd", "pg-temp", f"{pool}.{group:x}", *(str(osd) for osd in osds))

    def each(self, words: str, osds: List[int], *more: str) -> None:
        for osd in osds:
            self.ceph("osd", *words.split(), str(osd), *more)

    def dumps(self) -> Dumps:
        self.ceph("osd", "getmap", "-o", f"{self.folder}/map")
        groups = run("osdmaptool", f"{self.folder}/map", "--test-map-pgs-dump-all")
        return Dumps(self.ceph("osd", "dump", "--format", "json"), self.ceph("osd", "crush", "dump"), groups)
