#!/usr/bin/env python3
"""Compares where groups lie by pgpeer, and whether they serve, with what Ceph says, on maps and clusters that Ceph made.

    dev/check_against_ceph.py [--program PATH] [--keep FOLDER] [NAME...]
    dev/check_against_ceph.py --outages N [--steps N] [--seed N] [--jobs N] [--straw2] [--program PATH] [--keep FOLDER]
    dev/check_against_ceph.py --operator [GROUPS] [--short] [--program PATH] [--keep FOLDER]
    dev/check_against_ceph.py --again FOLDER [--program PATH]

Needs Debian's ceph-base, ceph-common, ceph-mon and ceph-osd.

The first form has maps. Two are made by `osdmaptool --createsimple` and `crushtool --build`. For the others a monitor runs on
the loopback address in a folder of its own; each of 24 devices boots once, as an OSD that keeps its store in memory, and is
stopped again while the flag nodown keeps it up. Then trees, pools, devices that are down, out, reweighted or removed, and
pg_temp lists are given by `ceph`, as an operator would. Each map is taken over by `pgpeer-ceph map`, every group is asked for, and
the up and acting sets and primaries are compared with those of `osdmaptool --test-map-pgs-dump-all`. Prints a table in
Markdown. The maps of its first part have to agree; those of the second hold what it says that it can't carry over,
and their differences are counted. --keep writes each map's dumps into FOLDER. NAME is a map to make; without one all are made.

The second form takes N clusters whose devices run through random outages, and compares all groups after each step: sets,
primaries, past intervals, who is probed, who blocks, and the state. Each difference is counted under the rule that explains
it. The third takes nine devices in three hosts through one outage, as `pgpeer-ceph fetch` alone keeps it, and holds the state of
each group against the verdict of that folder, and against that which `pgpeer-ceph record` tells of the same epoch in the end;
GROUPS (64) are those of the largest pool. --keep keeps what Ceph said, and --again compares that once more, without Ceph. Outages
need python3-rados, and the third form ceph-mgr.

Status 1: a group of the first part differs, or a difference has no rule. Status 2: the command line is wrong.
"""

import argparse
import os
import pathlib
import shutil
import subprocess
import sys
from typing import Any, Callable, Dict, Iterator, List, NamedTuple, Tuple

from built import ROOT, command_line
import ceph_package  # noqa: F401
import ceph_check_outages
import ceph_operator
from ceph_cluster import DEVICES, Cluster, Dumps, even_tree, room, run, tree_text
from pgpeer_ceph.maps import ERASURE
from pgpeer_ceph.nodes import Unusable, parsed
from pgpeer_ceph.output import ended
from pgpeer_ceph.sets import Where, printed_sets
from pgpeer_ceph.steps import answers

TOOLS = ("osdmaptool", "crushtool", "monmaptool", "ceph", "ceph-authtool", "ceph-mon", "ceph-osd")
MOST_SHOWN = 5  # differences of a map that has to differ


# Comparing


def pgpeer_says(program: str, script: str) -> Dict[Tuple[int, int], Where]:
    """Where each group lies by the program's answers to the script, all of whose lines have to be taken."""
    found, lines = {}, script.splitlines()
    for line, answer in zip(lines, answers(program, lines)):
        if "ok" not in answer:
            raise Unusable(f"{answer} is the answer to {line[:200]}")
        if answer["ok"] == "ask":
            (pool, pg), up, acting = answer["pg"], tuple(answer["up"]), tuple(answer["acting"])
            found[pool, pg] = Where(up, answer["up_primary"], acting, answer["acting_primary"])
    return found


def script_of(dumps: Dumps, folder: str) -> Tuple[str, str]:
    """The script that `pgpeer-ceph map` makes of the dumps, with a question for each group, and what it tells."""
    files = []
    for name, text in (("osdmap.json", dumps.osdmap), ("crush.json", dumps.crush)):
        files.append(os.path.join(folder, name))
        pathlib.Path(files[-1]).write_text(text)
    tool = [sys.executable, str(ROOT / "ceph/pgpeer-ceph"), "map", "--alone", "--straw2", "--ask", *files]
    run = subprocess.run(tool, capture_output=True, text=True)
    if run.returncode != 0:
        raise Unusable(run.stderr)
    return run.stdout, run.stderr


class Row(NamedTuple):
    """What one map had, and how many of its groups agree."""

    name: str
    replicated: int
    erasure: int
    down: int
    out: int
    reweighted: int
    temps: int
    same: int
    other: List[str]
    left_out: int
    told: str


def compared(program: str, name: str, dumps: Dumps, folder: str) -> Row:
    script, told = script_of(dumps, folder)
    ours, theirs = pgpeer_says(program, script), printed_sets(dumps.groups, name)
    if ours.keys() - theirs.keys():
        raise Unusable(f"{name}: Ceph has no groups {sorted(ours.keys() - theirs.keys())}")
    other = [f"{p}.{g:x}: pgpeer {ours[p, g]}, Ceph {theirs[p, g]}" for p, g in sorted(ours) if ours[p, g] != theirs[p, g]]
    osdmap = parsed(dumps.osdmap, name).value
    erasure = {pool["pool"] for pool in osdmap["pools"] if pool["type"] == ERASURE}
    in_erasure = sum(pool in erasure for pool, _ in theirs)
    osds = osdmap["osds"]
    return Row(
        name=name, replicated=len(theirs) - in_erasure, erasure=in_erasure, down=sum(not osd["up"] for osd in osds),
        out=sum(osd["weight"] == 0 for osd in osds), reweighted=sum(0 < osd["weight"] < 1 for osd in osds),
        temps=len(osdmap["pg_temp"]), same=len(ours) - len(other), other=other, left_out=len(theirs) - len(ours), told=told,
    )


def table(rows: List[Row]) -> str:
    """The rows in Markdown, and their sum."""
    titles = ("Map", "replicated", "erasure", "down", "out", "reweighted", "pg_temp", "agree", "differ", "left out")
    lines = [f"| {' | '.join(titles)} |", "|---" + "|---:" * (len(titles) - 1) + "|"]
    cells: List[List[Any]] = [[row.name, *row[1:8], len(row.other), row.left_out] for row in rows]
    sums = [sum(cell[at] for cell in cells) for at in range(1, 10)]
    for cell in [*cells, ["all", *sums[:2], "", "", "", *sums[5:]]]:
        lines.append("| " + " | ".join(str(value) for value in cell) + " |")
    return "\n".join(lines)


# The maps


BY_HOST = ["chooseleaf firstn 0 type host", "choose indep 0 type osd"]
BY_RACK = ["chooseleaf firstn 0 type rack", "chooseleaf indep 0 type host"]


def built(folder: str, name: str, layers: str, out: List[int]) -> Dumps:
    """A map of osdmaptool and a tree of crushtool, with the devices up and in but one that is out."""
    path = f"{folder}/{name}"
    run("osdmaptool", path, "--createsimple", str(DEVICES), "--with-default-pool", "--pg-bits", "2", "--clobber")
    run("crushtool", "--build", "--num_osds", str(DEVICES), *layers.split(), "-o", f"{path}.tree")
    run("osdmaptool", path, "--import-crush", f"{path}.tree")
    marks = ["--mark-up-in", *(word for osd in out for word in ("--mark-out", str(osd)))]
    run("osdmaptool", path, "--export-crush", f"{path}.crush")
    return Dumps(run("osdmaptool", path, *marks, "--dump", "json"), run("crushtool", "-i", f"{path}.crush", "--dump"),
                 run("osdmaptool", path, *marks, "--test-map-pgs-dump-all"))


def whole(cluster: Cluster) -> None:
    """Each device up and in; list buckets over uniform ones."""
    cluster.tree(even_tree(8, 0, "uniform list list", BY_HOST))
    cluster.replicated("rep", 64, 3, 2, "rule0")
    cluster.erasure("ec", 64, 4, 2, "rule1")


def down(cluster: Cluster) -> None:
    """Devices of several hosts down, one host whole."""
    cluster.tree(even_tree(8, 0, "list list list", BY_HOST))
    cluster.replicated("rep", 64, 3, 2, "rule0")
    cluster.erasure("ec", 64, 4, 2, "rule1")
    cluster.each("down", [0, 5, 9, 10, 11])


def out(cluster: Cluster) -> None:
    """Devices out and reweighted; pg_num is no power of two."""
    cluster.tree(even_tree(8, 0, "uniform uniform uniform", BY_HOST))
    cluster.replicated("rep", 72, 3, 2, "rule0")
    cluster.erasure("ec", 50, 3, 2, "rule1")
    cluster.each("out", [2, 3, 4, 13])
    cluster.each("reweight", [6, 7, 14, 20], "0.35")


def temps(cluster: Cluster) -> None:
    """Devices down, out and reweighted, and pg_temp lists, some with devices that are down."""
    cluster.tree(even_tree(6, 0, "list uniform list", BY_HOST))
    pool, coded = cluster.replicated("rep", 64, 3, 2, "rule0"), cluster.erasure("ec", 64, 2, 2, "rule1")
    for group in range(0, 20, 4):
        cluster.temp(pool, group, [group, group + 1, group + 2])
        cluster.temp(coded, group, [group + 3, group + 2, group + 1, group])
    cluster.each("reweight", [1, 8], "0.7")
    cluster.each("out", [12, 17])
    cluster.each("down", [0, 1, 2, 3, 9, 16])


def racks(cluster: Cluster) -> None:
    """Three levels; the failure domains are rack and host."""
    cluster.tree(even_tree(12, 4, "uniform list list", BY_RACK))
    cluster.replicated("rep", 64, 3, 2, "rule0")
    cluster.erasure("ec", 64, 5, 3, "rule1")
    cluster.each("out", [7, 8, 19])
    cluster.each("down", [3, 4, 22])
    cluster.each("reweight", [11, 12], "0.5")


def uneven(cluster: Cluster) -> None:
    """Hosts of 1 to 6 devices and of uneven weights, 0 among them."""
    tree, first = {}, 0
    for host, share in enumerate((1, 2, 3, 4, 4, 4, 6)):
        items = {f"osd.{first + at}": round(0.25 * ((first + at) % 6), 5) for at in range(share)}
        tree[f"h{host}"], first = ("host", "list", items), first + share
    tops = {name: sum(items.values()) for name, (_, _, items) in tree.items()}
    cluster.tree(tree_text({**tree, "all": ("root", "list", tops)}, BY_HOST))
    cluster.replicated("rep", 64, 3, 2, "rule0")
    cluster.erasure("ec", 64, 3, 3, "rule1")
    cluster.each("reweight", [1, 4, 10, 16], "0.15")
    cluster.each("down", [5, 15, 21])
    cluster.each("out", [23])


def rounds(cluster: Cluster) -> None:
    """Uniform buckets whose items are a multiple of the pool's size, with many devices out, so that rounds are many."""
    cluster.tree(even_tree(12, 2, "uniform uniform uniform", ["chooseleaf firstn 0 type host", "chooseleaf indep 0 type host"]))
    cluster.replicated("rep", 64, 6, 3, "rule0")
    cluster.erasure("ec", 64, 4, 2, "rule1")
    cluster.each("out", [0, 1, 2, 4, 6, 8, 9, 12, 15, 18])
    cluster.each("reweight", [3, 5, 7], "0.2")
    cluster.each("down", [10, 20])


def removed(cluster: Cluster) -> None:
    """Devices that were removed and still stand in the tree; pools of more places than there are hosts."""
    cluster.tree(even_tree(6, 0, "list list list", ["chooseleaf firstn 0 type host", "chooseleaf indep 0 type host"]))
    pool, coded = cluster.replicated("rep", 64, 7, 4, "rule0"), cluster.erasure("ec", 64, 5, 3, "rule1")
    cluster.temp(pool, 5, [20, 21, 22, 23])
    cluster.temp(coded, 6, [23, 22, 21, 20, 19, 18, 17, 16])
    cluster.each("out", [20, 21])
    cluster.each("down", [20, 21, 16, 2])
    cluster.each("rm", [20, 21])


def straw2(cluster: Cluster) -> None:
    """The kind of bucket that Ceph makes by itself, with devices down, out and reweighted."""
    cluster.tree(even_tree(8, 0, "straw2 straw2 straw2", BY_HOST))
    cluster.replicated("rep", 64, 3, 2, "rule0")
    cluster.erasure("ec", 64, 4, 2, "rule1")
    cluster.each("down", [3, 8])
    cluster.each("out", [8, 19])
    cluster.each("reweight", [5, 14], "0.4")


def straw2_racks(cluster: Cluster) -> None:
    """Racks of straw2 hosts of uneven weight."""
    hosts = {f"h{host}": ("host", "straw2", {f"osd.{3 * host + at}": 0.5 + host + at for at in range(3)}) for host in range(8)}
    weights = {name: sum(items.values()) for name, (_, _, items) in hosts.items()}
    racks = {f"r{rack}": ("rack", "straw2", {name: weights[name] for name in (f"h{2 * rack}", f"h{2 * rack + 1}")}) for rack in range(4)}
    root = {"all": ("root", "straw2", {name: sum(items.values()) for name, (_, _, items) in racks.items()})}
    cluster.tree(tree_text({**hosts, **racks, **root}, BY_RACK))
    cluster.replicated("rep", 128, 3, 2, "rule0")
    cluster.erasure("ec", 64, 5, 3, "rule1")


def straw2_mixed(cluster: Cluster) -> None:
    """Uniform hosts in list racks, below a straw2 root."""
    cluster.tree(even_tree(12, 4, "uniform list straw2", BY_RACK))
    cluster.replicated("rep", 64, 3, 2, "rule0")
    cluster.erasure("ec", 64, 4, 2, "rule1")


def weight_sets(cluster: Cluster) -> None:
    """A set of weights beside those of a straw2 tree."""
    cluster.tree(even_tree(8, 0, "straw2 straw2 straw2", BY_HOST))
    cluster.replicated("rep", 64, 3, 2, "rule0")
    cluster.ceph("osd", "set-require-min-compat-client", "luminous", "--yes-i-really-mean-it")
    cluster.ceph("osd", "crush", "weight-set", "create-compat")
    for osd in (0, 4, 9):
        cluster.ceph("osd", "crush", "weight-set", "reweight-compat", f"osd.{osd}", "0.3")


def tries(cluster: Cluster) -> None:
    """The rule that Ceph makes for erasure pools by itself, with other numbers of tries."""
    pools_of_tries(cluster, 5, 100)


def own_tries(cluster: Cluster) -> None:
    """The same map, except for the numbers of tries, which are those of the profile."""
    pools_of_tries(cluster, 1, 51)


def pools_of_tries(cluster: Cluster, leaf: int, total: int) -> None:
    indep = f"set_chooseleaf_tries {leaf}; set_choose_tries {total}; chooseleaf indep 0 type host"
    cluster.tree(even_tree(8, 0, "straw2 straw2 straw2", ["chooseleaf firstn 0 type host", indep]))
    cluster.replicated("rep", 64, 3, 2, "rule0")
    cluster.erasure("ec", 64, 4, 2, "rule1")
    cluster.each("out", [0, 1, 4, 7, 10, 13])


def upmaps(cluster: Cluster) -> None:
    """Upmaps."""
    cluster.tree(even_tree(8, 0, "straw2 straw2 straw2", BY_HOST))
    pool, _ = cluster.replicated("rep", 64, 3, 2, "rule0"), cluster.erasure("ec", 64, 4, 2, "rule1")
    cluster.ceph("osd", "set-require-min-compat-client", "luminous", "--yes-i-really-mean-it")
    for group in range(4):
        cluster.ceph("osd", "pg-upmap", f"{pool}.{group:x}", "0", "3", "6")


def affinities(cluster: Cluster) -> None:
    """Primary affinities."""
    cluster.tree(even_tree(8, 0, "straw2 straw2 straw2", BY_HOST))
    cluster.replicated("rep", 64, 3, 2, "rule0")
    cluster.erasure("ec", 64, 4, 2, "rule1")
    cluster.each("primary-affinity", [1, 2, 12], "0.0")


def classes(cluster: Cluster) -> None:
    """A rule for one class of devices: the tree of its rule is the one that Ceph keeps for the class."""
    cluster.tree(even_tree(8, 0, "straw2 straw2 straw2", BY_HOST))
    cluster.ceph("osd", "crush", "set-device-class", "ssd", *(str(osd) for osd in range(DEVICES) if osd % 3))
    cluster.ceph("osd", "crush", "set-device-class", "hdd", *(str(osd) for osd in range(0, DEVICES, 3)))
    cluster.ceph("osd", "crush", "rule", "create-replicated", "fast", "all", "host", "ssd")
    cluster.replicated("rep", 64, 3, 2, "fast")


def roots(cluster: Cluster) -> None:
    """Two roots, each with the rule of a pool."""
    half = DEVICES // 2
    tree = {f"h{host}": ("host", "straw2", {f"osd.{3 * host + at}": 1.0 for at in range(3)}) for host in range(8)}
    tops = [{f"h{host}": 3.0 for host in hosts} for hosts in (range(4), range(4, 8))]
    text = tree_text({**tree, "left": ("root", "straw2", tops[0]), "right": ("root", "straw2", tops[1])}, BY_HOST)
    cluster.tree(text.replace("step take right\nstep chooseleaf", "step take left\nstep chooseleaf"))
    cluster.replicated("rep", 64, 3, 2, "rule0")
    cluster.erasure("ec", 64, 4, 2, "rule1")
    cluster.each("down", [1, half])


AGREE: Dict[str, Callable[[Cluster], None]] = {
    "whole": whole, "down": down, "out": out, "temps": temps, "racks": racks, "uneven": uneven, "rounds": rounds,
    "own-tries": own_tries, "straw2": straw2, "straw2-racks": straw2_racks, "straw2-mixed": straw2_mixed, "classes": classes,
}
LAST: Dict[str, Callable[[Cluster], None]] = {"removed": removed}  # since its devices don't come back
TOLD: Dict[str, Callable[[Cluster], None]] = {
    "tries": tries, "upmaps": upmaps, "affinities": affinities, "weight-sets": weight_sets, "roots": roots,
}
BUILT = {
    "built-uniform": ("host uniform 4 rack uniform 3 root uniform 0", [5]),
    "built-list": ("host list 2 rack list 4 root list 0", [11]),
}


def made(names: List[str]) -> Iterator[Tuple[str, Dumps]]:
    """The maps of these names, in the order in which they can be made."""
    with room() as folder:
        for name, (layers, out_of_it) in BUILT.items():
            if name in names:
                yield name, built(folder, name, layers, out_of_it)
        recipes = {name: recipe for name, recipe in {**AGREE, **TOLD, **LAST}.items() if name in names}
        if not recipes:
            return
        cluster = Cluster(folder)
        try:
            cluster.add(DEVICES)
            for name, recipe in recipes.items():
                cluster.clear()
                recipe(cluster)
                yield name, cluster.dumps()
        finally:
            cluster.stop()


def keep(folder: str, name: str, dumps: Dumps) -> None:
    os.makedirs(folder, exist_ok=True)
    for kind, text in (("osdmap.json", dumps.osdmap), ("crush.json", dumps.crush), ("groups.txt", dumps.groups)):
        pathlib.Path(folder, f"{name}.{kind}").write_text(text)


def main() -> int:
    known = [*BUILT, *AGREE, *LAST, *TOLD]
    parser = command_line(__doc__)
    parser.add_argument("names", metavar="NAME", nargs="*", help=f"one of {', '.join(known)}")
    parser.add_argument("--keep", metavar="FOLDER", help="write the dumps of each map into this folder")
    parser.add_argument("--outages", type=int, metavar="N", help="take N clusters through outages")
    parser.add_argument("--steps", type=int, default=10, metavar="N", help="steps of each (10)")
    parser.add_argument("--seed", type=int, default=1, metavar="N", help="the first cluster's seed, the next has one more (1)")
    parser.add_argument("--jobs", type=int, default=1, metavar="N", help="clusters side by side (1)")
    parser.add_argument("--straw2", action="store_true", help="of clusters with straw2 buckets, whose acting sets are Ceph's")
    parser.add_argument("--operator", type=int, nargs="?", const=64, metavar="GROUPS", help="take a cluster through an outage as fetch keeps it")
    parser.add_argument("--short", action="store_true", help="of --operator the outage alone, without what comes before and after it")
    parser.add_argument("--again", metavar="FOLDER", help="compare what was kept there")
    options = parser.parse_args()
    if not set(options.names) <= set(known):
        parser.error(f"no map is called {', '.join(sorted(set(options.names) - set(known)))}")
    if not os.access(options.program, os.X_OK):
        parser.error(f"no program {options.program}; README.md says how to build it")
    if options.again:
        again = ceph_operator.again if list(pathlib.Path(options.again).glob("*.states.json")) else ceph_check_outages.again
        return ended(lambda: again(options.program, options.again), "check_against_ceph")
    absent = [tool for tool in TOOLS if not shutil.which(tool)]
    if absent:
        parser.error(f"no {', '.join(absent)}; they are in Debian's ceph-base, ceph-common, ceph-mon and ceph-osd")
    return ended(lambda: checked(options, known), "check_against_ceph")


def checked(options: argparse.Namespace, known: List[str]) -> int:
    """The status of a comparison of maps, or of outages."""
    if options.operator is not None:
        return ceph_operator.operated(options.program, options.operator, options.short, options.keep)
    if options.outages is not None:
        seeds = range(options.seed, options.seed + max(options.outages, 1))
        lives = [ceph_check_outages.Life(seed, options.steps, options.straw2) for seed in seeds]
        return ceph_check_outages.outages(options.program, lives, max(options.jobs, 1), options.keep)
    rows = []
    for name, dumps in made(options.names or known):
        if options.keep:
            keep(options.keep, name, dumps)
        with room() as folder:
            rows.append(compared(options.program, name, dumps, folder))
        print(f"{name}: {rows[-1].same} groups agree, {len(rows[-1].other)} differ", file=sys.stderr)
    first = [row for row in rows if row.name not in TOLD]
    second = [row for row in rows if row.name in TOLD]
    print(run("osdmaptool", "--version").strip())
    for part in (first, second):
        if part:
            print(f"\n{table(part)}")
    for row in rows:
        shown = row.other[:MOST_SHOWN] if row.name in TOLD else row.other
        if row.told or shown:
            print(f"\n{row.name}:\n{row.told}" + "\n".join(shown))
    return 1 if any(row.other or row.left_out for row in first) else 0


if __name__ == "__main__":
    sys.exit(main())
