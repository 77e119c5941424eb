"""Takes a Ceph cluster with a manager through an outage, as its operator sees it: `pgpeer-ceph fetch` alone keeps what it says.

Nine devices in three hosts, under straw2 buckets, have a large pool of three copies, one of two copies and an erasure pool. After
each step every group's state in Ceph stands beside the verdict of the folder that was fetched then. Each difference has the name
of a rule, or none; docs/REAL_MAPS.md tells what each rule is. Beside all that `pgpeer-ceph record` follows the cluster, and is
killed at times. In the end its folder has to have each map, and the verdicts that it tells of the epochs of all steps stand beside
Ceph's states of then. Needs python3-rados and ceph-mgr.
"""

import json
import os
import pathlib
import random
import re
import shutil
import signal
import subprocess
import sys
import time
from collections import Counter
from dataclasses import dataclass, field
from typing import Any, Dict, List, NamedTuple, Optional, Set, Tuple

import ceph_package
from ceph_cluster import end_with_parent, even_tree, room
from ceph_outages import RESTLESS, LiveCluster
from pgpeer_ceph.cluster import Cluster
from pgpeer_ceph.maps import read_group
from pgpeer_ceph.nodes import Node, Unusable
from pgpeer_ceph.rules import OURS, rule_of, word_of
from pgpeer_ceph.timeline import Timeline

HOSTS, DEVICES = 3, 9
BY_HOST = ["chooseleaf firstn 0 type host", "chooseleaf indep 0 type host"]
LASTING = ("unfound", "toofull")
PATIENCE, POLL = 240.0, 1.0  # seconds
MOST_SHOWN = 20
RECORDED = "recorded"  # the folder of `record`
PYTHON = shutil.which("python3", path="/usr/bin") or sys.executable  # Debian's, which has librados
TOOL = [PYTHON, str(ceph_package.TOP / "ceph/pgpeer-ceph")]
MORE_CONF = """\
osd heartbeat grace = 600
osd crush chooseleaf type = 1
mgr data = {folder}/mgr
mgr stats period = 1
mgr initial modules =
memstore device bytes = 268435456
osd op num shards = 2
osd op num threads per shard = 1
ms async op threads = 1
osd min pg log entries = 10
osd max pg log entries = 50
osd map cache size = 40
osd max backfills = 16
osd recovery max active = 16
"""


class HostCluster(LiveCluster):
    """Nine devices in three hosts, and a manager."""

    def __init__(self, folder: str, groups: int):
        super().__init__(folder, random.Random(1))
        with open(self.conf, "a", encoding="utf-8") as conf:
            conf.write(MORE_CONF.format(folder=folder))
        os.mkdir(f"{folder}/mgr")
        self.manager = self.start("ceph-mgr", "-i", "x")
        self.make_hosts(groups)

    def close(self) -> None:
        self.manager.kill()
        self.manager.wait()
        super().close()

    def make_hosts(self, groups: int) -> None:
        self.add_devices(DEVICES)
        self.tree(even_tree(HOSTS, 0, "straw2 straw2 straw2", BY_HOST, DEVICES))
        few = max(groups // 32, 8)
        self.replicated("copies", groups, 3, 2, "rule0")
        self.replicated("pairs", few, 2, 1, "rule0")
        self.erasure("coded", few, 2, 1, "rule1")

    def manager_says(self, words: Dict[str, Any]) -> Any:
        """What the manager says, which a busy machine may keep from it for a while."""
        for left in reversed(range(5)):
            status, out, said = self.rados.mgr_command(json.dumps({"format": "json", **words}), b"")
            if status == 0:
                return json.loads(out)
            if left == 0:
                raise Unusable(f"{words}: {said or os.strerror(-status)}")
            time.sleep(POLL)
        raise AssertionError

    def states(self) -> Dict[str, Tuple[str, int]]:
        """What the manager was told last of each group, and of which epoch."""
        found = self.manager_says({"prefix": "pg dump", "dumpcontents": ["pgs"]})
        stats = found["pg_stats"] if "pg_stats" in found else found["pg_map"]["pg_stats"]
        return {it["pgid"]: (it["state"], it["reported_epoch"]) for it in stats}

    def calm(self, seconds: float = PATIENCE) -> bool:
        """Waits until no group changes any more; tells whether it came to that."""
        end, before = time.monotonic() + seconds, None
        while time.monotonic() < end:
            states = self.states()
            now = {group: state for group, (state, _) in states.items()}
            told = [state.split("+") for state in now.values() if "stale" not in state]  # by those that are there to tell
            words = {word for own in told for word in own if not word.endswith(LASTING)}
            if now == before and not any(rest in word for word in words for rest in (*RESTLESS, "peering")):
                return True
            before = now
            time.sleep(POLL)
        return False

    def split(self, pool: str) -> None:
        """Has a pool of twice as many groups, which the manager makes one after the other."""
        def count(key: str) -> int:
            return int(next(it[key] for it in self.dump()["pools"] if it["pool_name"] == pool))

        wanted = 2 * count("pg_num")
        for key in ("pg_num", "pgp_num"):
            self.ceph("osd", "pool", "set", pool, key, str(wanted))
        self.until(lambda: count("pg_num") == count("pg_placement_num") == wanted, PATIENCE)

    def fill(self, pool: str, count: int) -> None:
        """Writes objects, as far as groups take them within some seconds."""
        with self.rados.open_ioctx(pool) as pool_io:
            waiting = [pool_io.aio_write_full(f"o{at}", os.urandom(64)) for at in range(count)]
            end = time.monotonic() + 20
            while time.monotonic() < end and not all(it.is_complete() for it in waiting):
                time.sleep(0.1)


# What is kept


def called(*words: str) -> str:
    """What the command prints; what it says on standard error is said on."""
    run = subprocess.run([*TOOL, *words], capture_output=True, text=True)
    sys.stderr.write("".join(f"    {line[:200]}\n" for line in run.stderr.splitlines()))
    if run.returncode != 0:
        raise Unusable(f"pgpeer-ceph {' '.join(words)}: {run.stderr.strip()[-500:]}")
    return run.stdout


class Recorder:
    """A `record` of the cluster, which is killed and begun once more at times."""

    def __init__(self, cluster: HostCluster, folder: str):
        self.cluster, self.folder = cluster, folder
        self.words = [*TOOL, "record", folder, "--every", "1", "--ceph", f"ceph -c {cluster.conf}"]
        self.run = self.begin()

    def begin(self) -> "subprocess.Popen[bytes]":
        return subprocess.Popen(self.words, preexec_fn=end_with_parent)

    def kill(self) -> None:
        """Kills it, and begins it once more."""
        self.run.kill()
        self.run.wait()
        self.run = self.begin()

    def takes_the_end(self) -> bool:
        """Whether it has come so far that SIGTERM ends it in order, or has ended."""
        if self.run.poll() is not None:
            return True
        caught = re.search(r"SigCgt:\t(\w+)", pathlib.Path(f"/proc/{self.run.pid}/status").read_text())
        return caught is not None and bool(int(caught[1], 16) >> (signal.SIGTERM - 1) & 1)

    def end(self) -> None:
        """Ends it once it has the last map, and holds its maps against the cluster's."""
        last = self.cluster.dump()["epoch"]
        is_there = self.cluster.until(lambda: all(map(os.path.isfile, self.paths(last))) or self.run.poll() is not None)
        self.cluster.until(self.takes_the_end)
        self.run.terminate()
        if self.run.wait() or not is_there:
            raise Unusable(f"record ended with status {self.run.returncode}, and {'has' if is_there else 'lacks'} the last map")
        for epoch in range(1, last + 1):
            if not all(map(os.path.isfile, self.paths(epoch))):
                raise Unusable(f"record lacks epoch {epoch} of {last}")
            if json.loads(pathlib.Path(self.paths(epoch)[0]).read_text()) != self.cluster.dump(epoch):
                raise Unusable(f"record has another map of epoch {epoch}")

    def paths(self, epoch: int) -> List[str]:
        """What there has to be of an epoch."""
        return [f"{self.folder}/{epoch}.{kind}" for kind in ("osd.json", "groups.txt")]


class Followed(NamedTuple):
    """How a step of a plan went: how many groups it frees, how many it freed, and how many were blocked before it."""

    osds: List[int]
    frees: int
    freed: int
    blocked: int


class Operator:
    """A cluster, and the folders that were fetched of it, with what Ceph said of each group then."""

    def __init__(self, cluster: HostCluster, program: str, folder: str):
        self.cluster, self.program, self.folder, self.count = cluster, program, folder, 0
        self.states: Dict[str, str] = {}
        self.followed: List[Followed] = []
        os.makedirs(folder, exist_ok=True)
        self.recorder = Recorder(cluster, f"{folder}/{RECORDED}")

    def step(self, name: str, wait: bool = True) -> str:
        """Has the cluster settle, and fetches it into a folder of its own."""
        is_calm = wait and self.cluster.calm()
        self.count += 1
        folder, begun = f"{self.folder}/{self.count:02}", time.monotonic()
        called("fetch", folder, "--ceph", f"ceph -c {self.cluster.conf}")
        seconds = time.monotonic() - begun
        states = {group: state for group, (state, _) in self.cluster.states().items()}
        for group in states:
            query = self.cluster.query(group) if is_calm else None
            states[group] = query["state"] if query else states[group]
        self.states = states
        self.keep(folder, name, is_calm)
        words = Counter(map(word_of, states.values()))
        print(f"{self.count}. {name}: {dict(words)}, fetched in {seconds:.0f} s" + ("" if is_calm else ", restless"), file=sys.stderr, flush=True)
        if self.count % 3 == 0:
            self.recorder.kill()
        return folder

    def keep(self, folder: str, name: str, is_calm: bool) -> None:
        """Keeps beside a folder what Ceph said of the groups."""
        record = {"name": name, "is_calm": is_calm, "epoch": self.cluster.dump()["epoch"], "states": self.states}
        pathlib.Path(f"{folder}.states.json").write_text(json.dumps(record))

    def end(self) -> List[Followed]:
        """Ends the recording, and gives how plans went."""
        self.recorder.end()
        return self.followed

    def follow(self, folder: str) -> None:
        """Starts devices as `plan` says of the folder that was fetched last, and holds what becomes active against it."""
        text = called("plan", folder, "--program", self.program)
        pathlib.Path(f"{folder}.plan.txt").write_text(text)
        rows = [re.split(r" {2,}", row) for row in text.splitlines() if re.match(r"\d+ +osd\.", row)]
        for _, start, _, _, frees, *_ in rows:
            blocked, osds = self.blocked(), [int(osd) for osd in re.findall(r"osd\.(\d+)", start)]
            for osd in osds:
                self.cluster.start_device(osd)
            self.step(f"plan: {start} started")
            self.followed.append(Followed(osds, int(frees.replace(",", "")), len(blocked - self.blocked()), len(blocked)))

    def blocked(self) -> Set[str]:
        return {group for group, state in self.states.items() if word_of(state) != "active"}


# What happens


def lived(cluster: HostCluster, program: str, folder: str, is_short: bool) -> List[Followed]:
    """Stops, an outing, returns, an outage that blocks groups, and a loss; of a short life the outage alone."""
    operator = Operator(cluster, program, folder)
    write(cluster)
    operator.recorder.kill()
    operator.step("healthy")
    if not is_short:
        moved(cluster, operator)
    blocked(cluster, operator)
    if not is_short:
        lost(cluster, operator)
    return operator.end()


def moved(cluster: HostCluster, operator: Operator) -> None:
    """A host's devices stop, one of them is out, both come back, and a pool is split."""
    cluster.stop_device(0)
    operator.step("osd.0 stopped")
    write(cluster)
    cluster.stop_device(1)
    operator.step("osd.1 of the same host stopped")
    cluster.command({"prefix": "osd out", "ids": ["0"]})
    operator.step("osd.0 out, at once", wait=False)
    operator.step("osd.0 out, later")
    cluster.start_device(0)
    cluster.start_device(1)
    cluster.command({"prefix": "osd in", "ids": ["0"]})
    operator.step("both back, at once", wait=False)
    operator.step("both back, later")
    cluster.split("pairs")
    operator.step("pool pairs split into twice as many groups")


def blocked(cluster: HostCluster, operator: Operator) -> None:
    """Devices of all hosts stop one after the other, and those come back that `plan` names, and then all."""
    cluster.stop_device(3)
    write(cluster)
    cluster.stop_device(6)
    operator.step("osd.3 stopped, then osd.6 of another host")
    cluster.start_device(3)
    cluster.stop_device(8)
    cluster.stop_device(1)
    operator.follow(operator.step("osd.3 back, osd.8 and osd.1 stopped"))
    for osd in set(range(DEVICES)) - set(cluster.daemons):
        cluster.start_device(osd)
    operator.step("all back")


def lost(cluster: HostCluster, operator: Operator) -> None:
    """A device dies while another one is stopped, and is given up."""
    cluster.stop_device(4)
    write(cluster)
    cluster.kill_device(7)
    cluster.start_device(4)
    operator.step("osd.4 stopped, osd.7 died, osd.4 back")
    cluster.lose(7)
    operator.step("osd.7 declared lost")
    cluster.command({"prefix": "osd out", "ids": ["7"]})
    operator.step("osd.7 out")


def write(cluster: HostCluster) -> None:
    for pool in ("copies", "pairs", "coded"):
        cluster.fill(pool, 300)


# What the folders say


@dataclass
class Result:
    """How many groups have which state and verdict, by the rule where they differ, over all steps; and of which none says why."""

    counts: Counter[Tuple[str, str, str]] = field(default_factory=Counter)
    steps: List[Tuple[str, Counter[str], Counter[str]]] = field(default_factory=list)  # name, words of those that agree, rules of others
    unnamed: List[str] = field(default_factory=list)
    recorded: Counter[str] = field(default_factory=Counter)  # how often a state and what was recorded of its epoch agree, or which
    seconds: float = 0.0


def compare_step(program: str, folder: str, result: Result) -> None:
    """Holds Ceph's state of each group against the verdict of the folder."""
    begun = time.monotonic()
    record = json.loads(pathlib.Path(f"{folder}.states.json").read_text())
    cluster = Cluster(folder, program)
    views = cluster.all_views()
    agree, rules = Counter[str](), Counter[str]()
    for name, state in record["states"].items():
        group = read_group(Node(name, name))
        theirs, view = word_of(state), views.get(group)
        ours, rule = (view["verdict"], rule_of(cluster, group, view)[1]) if view else ("none", "")
        if theirs in OURS.get(ours, ()):
            result.counts[theirs, ours, ""] += 1
            agree[theirs] += 1
            continue
        rule = rule or ("" if record["is_calm"] else "unsettled")
        result.counts[theirs, ours, rule or "NONE"] += 1
        rules[rule or "NONE"] += 1
        if not rule:
            blocked = view["blocked_by"] if view else ""
            result.unnamed.append(f"{record['name']}: {name} is {state} in Ceph, and {ours} {blocked} here")
    result.steps.append((record["name"], agree, rules))
    result.seconds += time.monotonic() - begun


def compare_recorded(program: str, folder: str, result: Result) -> None:
    """Holds Ceph's state of each group, after each step, against the verdict that the recorded folder tells of its epoch."""
    begun = time.monotonic()
    timeline = Timeline(Cluster(f"{folder}/{RECORDED}", program))
    cluster = timeline.cluster
    turns = {cluster.numbers.in_ceph(own): found for own, found in timeline.turns.items()}
    for path in sorted(pathlib.Path(folder).glob("*.states.json")):
        record = json.loads(path.read_text())
        last = cluster.epochs.in_script(record["epoch"])
        for name, state in record["states"].items() if record["is_calm"] else ():
            theirs = word_of(state)
            ours = [verdict for epoch, verdict in turns.get(read_group(Node(name, name)), ()) if epoch <= last][-1:] or ["none"]
            result.recorded["" if theirs in OURS.get(ours[0], ()) else f"{theirs} is {ours[0]}"] += 1
    result.seconds += time.monotonic() - begun


def table(result: Result) -> str:
    """The steps in Markdown, with Ceph's words for groups that agree, and below them states and verdicts."""
    words = sorted({word for _, agree, _ in result.steps for word in agree})
    lines = [f"| Step | {' | '.join(words)} | differ by rule |", "|---" + "|---:" * len(words) + "|---|"]
    for name, agree, rules in result.steps:
        told = ", ".join(f"{rule} {count:,}" for rule, count in rules.most_common())
        lines.append(f"| {name} | {' | '.join(f'{agree[word]:,}' for word in words)} | {told} |")
    lines += ["", "| Ceph | here | groups | rule |", "|---|---|---:|---|"]
    lines += [f"| {theirs} | {ours} | {count:,} | {rule} |" for (theirs, ours, rule), count in sorted(result.counts.items())]
    return "\n".join(lines)


def operated(program: str, groups: int, is_short: bool, folder: Optional[str]) -> int:
    """The status of an outage of a cluster whose largest pool has so many groups."""
    with room() as own:
        kept = folder or f"{own}/kept"
        cluster = HostCluster(own, groups)
        try:
            followed = lived(cluster, program, kept, is_short)
        finally:
            cluster.close()
        status = again(program, kept)
    for it in followed:
        print(f"plan: {' '.join(f'osd.{osd}' for osd in it.osds)} frees {it.frees} groups by it, {it.freed} in Ceph, of {it.blocked}")
    return 1 if not followed or any(it.frees != it.freed for it in followed) else status


def again(program: str, folder: str) -> int:
    """The status of a comparison of what was kept in a folder."""
    result = Result()
    for record in sorted(pathlib.Path(folder).glob("*.states.json")):
        compare_step(program, str(record)[: -len(".states.json")], result)
        print(result.steps[-1], file=sys.stderr, flush=True)
    if os.path.isdir(f"{folder}/{RECORDED}"):
        compare_recorded(program, folder, result)
    print(f"{sum(result.counts.values()):,} states of groups, {len(result.unnamed)} differences without a rule, {result.seconds:.0f} s\n")
    print(table(result))
    told = ", ".join(f"{what or 'agree'} {count:,}" for what, count in result.recorded.most_common())
    print(f"\nAs recorded, in the epochs of calm steps: {told or 'nothing'}.")
    print("\n".join(result.unnamed[:MOST_SHOWN]))
    return 1 if result.unnamed or not result.counts else 0
