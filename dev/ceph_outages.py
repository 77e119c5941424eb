"""Takes a real Ceph cluster through random outages, and keeps what Ceph says of each group after each step.

A cluster has four to six devices that keep their stores in memory, a replicated pool and an erasure pool. A step is one to
three events: a device is stopped, started, told to be down while it runs, killed so that its store is gone, given up for lost,
removed or destroyed, weighed anew; objects are written; min_size is changed. Then the cluster is left alone until nothing
changes any more. Needs python3-rados, which Debian's ceph-common depends on.
"""

import json
import os
import pathlib
import random
import shutil
import subprocess
import sys
import time
import uuid
from dataclasses import asdict, dataclass, field
from typing import Any, Callable, Dict, List, Optional, Tuple

import ceph_package  # noqa: F401
from ceph_cluster import MOST_SECONDS, Cluster, run, tree_text
from pgpeer_ceph.nodes import Unusable

DEBIAN = "/usr/lib/python3/dist-packages"
SETTLED, PATIENCE, POLL = 0.6, 14.0, 0.3  # seconds
BY_DEVICE = ["choose firstn 0 type osd", "choose indep 0 type osd"]
RESTLESS = ("activating", "recover", "backfill", "creating", "unknown", "snaptrim")
MORE_CONF = """\
osd heartbeat grace = 6
osd heartbeat interval = 2
osd fast shutdown = false
mon osd min down reporters = 1
mon allow pool size one = true
osd recovery sleep = 0
osd max backfills = 8
osd mon report interval = 1
rados osd op timeout = 3
rados mon op timeout = 20
"""


@dataclass
class StepRecord:
    """What Ceph said after a step."""

    events: List[str]
    epoch: int
    groups: str  # what osdmaptool printed
    queries: Dict[str, Any] = field(default_factory=dict)
    is_settled: bool = True


@dataclass
class Record:
    """A cluster's life: its maps by epoch, its trees by version, and its steps."""

    seed: int
    maps: Dict[int, Any] = field(default_factory=dict)
    trees: Dict[int, Any] = field(default_factory=dict)
    steps: List[StepRecord] = field(default_factory=list)
    sets: Dict[int, str] = field(default_factory=dict)  # what osdmaptool printed of each epoch, where buckets are straw2
    seconds: float = 0.0

    def keep(self, path: str) -> None:
        pathlib.Path(path).write_text(json.dumps(asdict(self)))


def kept(path: str) -> Record:
    """A record that was kept."""
    try:
        value = json.loads(pathlib.Path(path).read_text())
        found = Record(value["seed"], seconds=value["seconds"])
        dicts = [{int(key): it for key, it in value.get(name, {}).items()} for name in ("maps", "trees", "sets")]
        found.maps, found.trees, found.sets = dicts
        found.steps = [StepRecord(**step) for step in value["steps"]]
    except (ValueError, KeyError, TypeError, AttributeError) as fault:
        raise Unusable(f"{path} is no record of a cluster: {fault}") from fault
    return found


class LiveCluster(Cluster):
    """A cluster whose devices run."""

    def __init__(self, folder: str, rng: random.Random):
        super().__init__(folder)
        self.rng = rng
        self.daemons: Dict[int, "subprocess.Popen[bytes]"] = {}
        self.ids: Dict[int, str] = {}
        self.dead: List[int] = []  # devices whose stores are gone
        with open(self.conf, "a", encoding="utf-8") as conf:
            conf.write(MORE_CONF)
        sys.path.append(DEBIAN)
        import rados  # of python3-rados
        self.rados = rados.Rados(conffile=self.conf, name="client.admin")
        self.rados.connect(timeout=MOST_SECONDS)

    def close(self) -> None:
        for daemon in self.daemons.values():
            daemon.kill()
            daemon.wait()
        self.rados.shutdown()
        self.stop()

    def command(self, words: Dict[str, Any]) -> bytes:
        text = json.dumps({"format": "json", **words})
        status, out, said = self.rados.mon_command(text, b"")
        if "wrong fsid" in said:  # the client doesn't know the cluster yet
            time.sleep(1)
            status, out, said = self.rados.mon_command(text, b"")
        if status != 0:
            raise Unusable(f"{words}: {said}")
        return out

    def dump(self, epoch: Optional[int] = None) -> Dict[str, Any]:
        return json.loads(self.command({"prefix": "osd dump", **({"epoch": epoch} if epoch else {})}))

    def make(self, devices: int, alg: str) -> None:
        """Makes devices, the tree and two pools."""
        self.add_devices(devices)
        self.tree(tree_text({"all": ("root", alg, {f"osd.{osd}": 1.0 for osd in range(devices)})}, BY_DEVICE, devices))
        size = self.rng.choice((2, 3, 3))
        self.replicated("rep", 8, size, self.rng.randint(1, size), "rule0")
        k, m = self.rng.choice(((2, 1), (2, 2), (3, 1), (3, 2)) if devices > 4 else ((2, 1), (2, 2)))
        self.erasure("ec", 8, k, m, "rule1")
        self.ceph("osd", "pool", "set", "ec", "min_size", str(self.rng.randint(k, min(k + m, max(k, 3)))))

    def add_devices(self, devices: int) -> None:
        """Makes devices that run."""
        for osd in range(devices):
            self.ids[osd] = str(uuid.uuid4())
            self.command({"prefix": "osd new", "uuid": self.ids[osd]})
        for osd in range(devices):
            self.build(osd)
            self.daemons[osd] = self.start("ceph-osd", "-i", str(osd))
        for osd in range(devices):
            self.until(lambda: self.is_up(osd))

    def build(self, osd: int) -> None:
        shutil.rmtree(f"{self.folder}/osd{osd}", ignore_errors=True)
        os.mkdir(f"{self.folder}/osd{osd}")
        run("ceph-osd", "-c", self.conf, "-i", str(osd), "--mkfs", "--osd-uuid", self.ids[osd])

    def until(self, holds: Callable[[], bool], seconds: float = MOST_SECONDS) -> bool:
        end = time.monotonic() + seconds
        while not holds():
            if time.monotonic() > end:
                return False
            time.sleep(0.1)
        return True

    def state(self, osd: int) -> List[str]:
        return next((it["state"] for it in self.dump()["osds"] if it["osd"] == osd), [])

    def is_up(self, osd: int) -> bool:
        return "up" in self.state(osd)

    # Events

    def stop_device(self, osd: int) -> None:
        daemon = self.daemons.pop(osd)
        daemon.terminate()
        try:
            daemon.wait(20)
        except subprocess.TimeoutExpired:
            daemon.kill()
            daemon.wait()
            self.dead.append(osd)
        self.command({"prefix": "osd down", "ids": [str(osd)]})

    def kill_device(self, osd: int) -> None:
        daemon = self.daemons.pop(osd)
        daemon.kill()
        daemon.wait()
        self.dead.append(osd)
        self.command({"prefix": "osd down", "ids": [str(osd)]})

    def start_device(self, osd: int) -> None:
        self.daemons[osd] = self.start("ceph-osd", "-i", str(osd))
        self.until(lambda: self.is_up(osd), 15)

    def flap(self, osd: int) -> None:
        self.command({"prefix": "osd down", "ids": [str(osd)]})
        self.until(lambda: self.is_up(osd), 10)

    def lose(self, osd: int) -> None:
        self.command({"prefix": "osd lost", "id": osd, "yes_i_really_mean_it": True})

    def remove(self, osd: int) -> None:
        self.command({"prefix": "osd rm", "ids": [str(osd)]})

    def destroy(self, osd: int) -> None:
        self.command({"prefix": "osd destroy-actual", "id": osd, "yes_i_really_mean_it": True})

    def reweigh(self, osd: int) -> None:
        self.command({"prefix": "osd reweight", "id": osd, "weight": self.rng.choice((0.0, 0.3, 0.6, 1.0, 1.0))})

    def set_min_size(self, _: int) -> None:
        size = next(it["size"] for it in self.dump()["pools"] if it["pool_name"] == "rep")
        self.command({"prefix": "osd pool set", "pool": "rep", "var": "min_size", "val": str(self.rng.randint(1, size))})

    def write(self, _: int) -> None:
        """Writes objects, as far as groups take them within a second."""
        for pool in ("rep", "ec"):
            with self.rados.open_ioctx(pool) as pool_io:
                names = (f"o{self.rng.randrange(40)}" for _ in range(12))
                waiting = [pool_io.aio_write_full(name, os.urandom(64)) for name in names]
                end = time.monotonic() + 1
                while time.monotonic() < end and not all(it.is_complete() for it in waiting):
                    time.sleep(0.05)

    def choices(self) -> List[Tuple[int, str, Callable[[int], None], List[int]]]:
        """The events that can happen, each with its weight, and to which devices."""
        exists = {it["osd"]: it["state"] for it in self.dump()["osds"]}
        running = [osd for osd in self.daemons if osd in exists]
        down = [osd for osd in exists if osd not in self.daemons and "up" not in exists[osd]]
        stopped = [osd for osd in down if osd not in self.dead and "destroyed" not in exists[osd]]
        dead = [osd for osd in down if osd in self.dead]
        few = len(exists) > 3
        return [
            (7, "stop", self.stop_device, running if len(running) > 1 else []), (6, "start", self.start_device, stopped),
            (3, "down", self.flap, running), (4, "write", self.write, [0]), (2, "reweight", self.reweigh, running),
            (1, "kill", self.kill_device, running if few and len(running) > 2 and len(self.dead) < 2 else []),
            (2, "lost", self.lose, down), (2, "rm", self.remove, dead if few else []),
            (1, "destroy", self.destroy, [osd for osd in dead if "destroyed" not in exists[osd]] if few else []),
            (1, "min_size", self.set_min_size, [0]),
        ]

    def event(self) -> str:
        able = [choice for choice in self.choices() if choice[3]]
        _, name, act, devices = self.rng.choices(able, [choice[0] for choice in able])[0]
        osd = self.rng.choice(devices)
        act(osd)
        return name if name in ("write", "min_size") else f"{name} osd.{osd}"

    # What Ceph says

    def query(self, group: str) -> Optional[Dict[str, Any]]:
        status, out, _ = self.rados.pg_command(group, json.dumps({"prefix": "query", "pgid": group, "format": "json"}), b"")
        try:
            return json.loads(out) if status == 0 else None
        except ValueError:
            return None

    def sets(self, epoch: Optional[int] = None) -> str:
        binary = f"{self.folder}/map"
        pathlib.Path(binary).write_bytes(self.command({"prefix": "osd getmap", **({"epoch": epoch} if epoch else {})}))
        return run("osdmaptool", binary, "--test-map-pgs-dump-all")

    def tree_of(self, epoch: int) -> Dict[str, Any]:
        binary = f"{self.folder}/tree.bin"
        self.ceph("osd", "getcrushmap", str(epoch), "-o", binary)
        return json.loads(run("crushtool", "-i", binary, "--dump"))

    def settled(self, leaders: Callable[[str], Dict[str, Optional[int]]]) -> StepRecord:
        """What Ceph says once nothing changes any more, or patience is at its end."""
        end, before, since = time.monotonic() + PATIENCE, None, 0.0
        while True:
            epoch, groups = self.dump()["epoch"], self.sets()
            led = [group for group, leader in leaders(groups).items() if leader is not None]
            queries = {group: self.query(group) for group in led}
            states = epoch, {group: it and (it["state"], it["epoch"], it["up"], it["acting"]) for group, it in queries.items()}
            is_calm = all(it and it["epoch"] == epoch and not any(word in it["state"] for word in RESTLESS) for it in queries.values())
            is_same = self.dump()["epoch"] == epoch
            if not (is_calm and is_same and states == before):
                since = time.monotonic()
            before = states
            is_settled = is_calm and is_same and time.monotonic() - since > SETTLED
            if is_settled or time.monotonic() > end and is_same:
                answered = {group: it for group, it in queries.items() if it and it["epoch"] == epoch}
                return StepRecord([], epoch, groups, answered, is_settled)
            time.sleep(POLL)


def lived(folder: str, seed: int, steps: int, is_straw2: bool, leaders: Callable[[str], Dict[str, Optional[int]]]) -> Record:
    """A cluster's life of `steps` steps."""
    begun, rng, record = time.monotonic(), random.Random(seed), Record(seed)
    cluster = LiveCluster(folder, rng)
    try:
        cluster.make(rng.choice((4, 4, 5, 6)), "straw2" if is_straw2 else rng.choice(("list", "uniform")))
        cluster.settled(leaders)
        for _ in range(steps):
            events = []
            for _ in range(rng.choice((1, 1, 2, 2, 3))):
                events.append(cluster.event())
                time.sleep(rng.choice((0.2, 1.0, 2.0)))
            step = cluster.settled(leaders)
            step.events = events
            record.steps.append(step)
        for epoch in range(1, record.steps[-1].epoch + 1):
            record.maps[epoch] = cluster.dump(epoch)
        for epoch, osdmap in record.maps.items():
            if is_straw2:
                record.sets[epoch] = cluster.sets(epoch)
            if osdmap["crush_version"] not in record.trees:
                record.trees[osdmap["crush_version"]] = cluster.tree_of(epoch)
    finally:
        cluster.close()
    record.seconds = time.monotonic() - begun
    return record
