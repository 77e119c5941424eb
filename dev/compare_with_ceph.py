#!/usr/bin/env python3
"""Compares the definitions of hashing and placement, and the program's placements, with what Ceph's own tools answer.

    dev/compare_with_ceph.py [--inputs N] [--trees N] [--program PATH]

Needs `osdmaptool` and `crushtool` (Debian: ceph-base and ceph-osd). The definitions of pgp_hash/specs and pgp_crush/specs
are written out once more in Python, in fuzz/placement.py, and each of their values below is compared with the answer of a tool:

  names      the group of an object's name among many numbers of groups: the lower 30 bits of the name's hash, and
             the groups of a number that is no power of two
  two words  from which weight on a device is in: the lower 16 bits of the hash
  three      the first choice of uniform buckets of 247 to 256 items: all 32 bits of the hash
  four       from which weight on a list bucket chooses its last item: the lower 16 bits of the hash
  placements random trees of straw2 buckets, of straw2, list and uniform buckets, and of the last two, weights, inputs and numbers
             of places, both kinds of rule; each also as the up set that PATH, the built program, answers

crushtool runs with `choose_total_tries 50` and the tunables of Ceph's current profile, with which its rules of one take and
one choose are those of this project. Prints how many values agree, and ends with status 1 at the first that does not, and
with status 2 where a tool isn't there, fails, or what is printed can't be written.
"""

import json
import pathlib
import random
import re
import shutil
import subprocess
import sys
import tempfile

import ceph_package  # noqa: F401
from built import command_line
from pgpeer_ceph.nodes import Unusable
from pgpeer_ceph.output import ended
from pgpeer_ceph.steps import answers

sys.path.append(str(pathlib.Path(__file__).resolve().parent.parent / "fuzz"))

import placement  # noqa: E402
from placement import Bucket, hash2, hash3, hash4, name_hash, stable_mod  # noqa: E402

WORD = 2**32
NONE = 2147483647  # an empty place, as crushtool prints it
IN = placement.FULL


# A tree is a map from ids to buckets, and a bucket is (type, algorithm, items, weights).


def place(tree, root, weights, x, kind, n, is_indep):
    """The devices of n places."""
    buckets = {name: Bucket(name, *parts) for name, parts in tree.items()}
    rule = placement.indep if is_indep else placement.first_n
    found = rule(placement.Tree(buckets[root], buckets), kind, lambda osd: weights.get(osd, IN), x, n)
    return [NONE if osd is None else osd for osd in found]


# The tools


def run(*command):
    done = subprocess.run(command, capture_output=True, text=True)
    if done.returncode != 0:
        raise Unusable(f"{' '.join(command)} ended with {done.returncode}: {done.stderr.strip()[-300:]}")
    return done.stdout


def text_of(tree, root, rule):
    """The tree as crushtool reads it, with one rule."""
    lines = [
        "tunable choose_local_tries 0",
        "tunable choose_local_fallback_tries 0",
        "tunable choose_total_tries 50",
        "tunable chooseleaf_descend_once 1",
        "tunable chooseleaf_vary_r 1",
        "tunable chooseleaf_stable 1",
        "tunable straw_calc_version 1",
        "tunable allowed_bucket_algs 62",
    ]
    devices = {item for bucket in tree.values() for item in bucket[2] if item >= 0}
    lines += [f"device {device} osd.{device}" for device in sorted(devices)]
    lines += [f"type {kind} level{kind}" for kind in range(12)]
    for bucket, (kind, alg, items, weights) in tree.items():
        lines += [f"level{kind} bucket{-bucket} {{", f"id {bucket}", f"alg {alg}", "hash 0"]
        for item, weight in zip(items, weights):
            name = f"osd.{item}" if item >= 0 else f"bucket{-item}"
            lines.append(f"item {name} weight {weight / IN:.16f}")
        lines.append("}")
    kind, is_indep = rule
    step = f"step choose{'leaf' if kind else ''} {'indep' if is_indep else 'firstn'} 0 type level{kind}"
    pool = "erasure" if is_indep else "replicated"
    lines += ["rule one {", "id 0", f"type {pool}", "min_size 1", "max_size 16"]
    lines += [f"step take bucket{-root}", step, "step emit", "}"]
    return "\n".join(lines) + "\n"


def mappings(folder, tree, root, rule, n, first, last, weights=None, pool=None):
    """For each input from first to last, the devices of n places that crushtool prints."""
    with open(f"{folder}/tree.txt", "w") as file:
        file.write(text_of(tree, root, rule))
    run("crushtool", "-c", f"{folder}/tree.txt", "-o", f"{folder}/tree")
    command = ["crushtool", "-i", f"{folder}/tree", "--test", "--show-mappings", "--rule", "0"]
    command += ["--num-rep", str(n), "--min-x", str(first), "--max-x", str(last)]
    command += ["--pool-id", str(pool)] if pool is not None else []
    for device, weight in (weights or {}).items():
        command += ["--weight", str(device), f"{weight / IN:.16f}"]
    rows = re.findall(r"CRUSH rule 0 x (\d+) \[([\d,]*)\]", run(*command))
    return {int(x): [int(osd) for osd in osds.split(",") if osd] for x, osds in rows}


def same(what, ours, tools):
    if ours != tools:
        sys.exit(f"{what}: the definition gives {ours}, the tool {tools}")
    return 1


# What is compared


def names():
    yield from ("x" * length for length in range(1, 41))
    yield from ("rbd_data.1234567890abc.0000000000000007", "10000000000.00000000", "gr\u00fc\u00dfe", "\u540d\u524d")
    yield from ("".join(chr(33 + (7 * length + 5 * i) % 94) for i in range(length)) for length in range(2, 37, 3))
    yield from ("\u00ff" * length for length in range(1, 14))


def compare_names(folder):
    count = 0
    for devices, bits in ((1, 0), (2, 0), (3, 0), (12, 0), (100, 0), (1000, 0), (1, 10), (257, 3), (1, 30)):
        groups = devices << bits
        command = ["osdmaptool", f"{folder}/map", "--createsimple", str(devices), "--with-default-pool", "--clobber"]
        run(*command, "--pg-bits", str(bits), "--pgp-bits", str(bits))
        for name in names():
            answer = run("osdmaptool", f"{folder}/map", "--test-map-object", name, "--pool", "1")
            group = int(re.search(r"-> 1\.([0-9a-f]+) ->", answer)[1], 16)
            ours = stable_mod(name_hash(name.encode()), groups)
            count += same(f"the group of {name!r} among {groups}", ours, group)
    return count


def compare_two_words(folder, inputs):
    count = 0
    for x, osd in inputs:
        tree = {-1: (1, "uniform", [osd], [IN])}
        least = (hash2(x, osd) & 0xFFFF) + 1
        for weight in (least - 1, least):
            if 0 < weight < IN:
                found = mappings(folder, tree, -1, (0, False), 1, x, x, {osd: weight})[x]
                ours = [osd] if weight == least else []
                count += same(f"{x} on device {osd} of weight {weight}", ours, found)
    return count


def compare_three_words(folder, inputs):
    count = 0
    for x, number in inputs:
        bucket = -1 - number
        for size in (247, 251, 253, 255, 256):
            tree = {bucket: (1, "uniform", list(range(size)), [IN] * size)}
            found = mappings(folder, tree, bucket, (0, False), 1, x, x)[x]
            count += same(f"{x} in a bucket {bucket} of {size}", [hash3(x, bucket % WORD, 0) % size], found)
    return count


def compare_four_words(folder, inputs):
    count = 0
    for x, number in inputs:
        bucket, other, last = -1 - number, number % 7, 7 + number % 5
        least = (hash4(x, last, 0, bucket % WORD) & 0xFFFF) + 1
        for weight in (least - 1, least):
            if weight < IN:
                tree = {bucket: (1, "list", [other, last], [IN - weight, weight])}
                found = mappings(folder, tree, bucket, (0, False), 1, x, x)[x]
                ours = [last if weight == least else other]
                count += same(f"{x} in a list {bucket} with weight {weight}", ours, found)
    return count


ALGS = ("straw2",), ("straw2", "list", "uniform"), ("list", "uniform")  # of the buckets of a tree, in turn
GROUPS, INPUTS = 1024, 64  # of a pool, and those of them that are compared


def random_tree(rng, algs):
    """A tree of up to four levels, whose devices may stand at different ones, and its root."""
    tree, devices, ids = {}, iter(range(4096)), iter(range(-1, -1000, -1))

    def make(kind):
        bucket, items = next(ids), []
        for _ in range(rng.randint(0 if rng.random() < 0.1 else 1, 6)):
            deeper = kind > 1 and rng.random() < 0.93
            items.append(make(rng.randint(max(1, kind - 2), kind - 1)) if deeper else next(devices))
        alg = rng.choice(algs)
        weights = [IN if alg == "uniform" else rng.choice((0, 1, 99, IN // 2, IN, 5 * IN)) for _ in items]
        tree[bucket] = (kind, alg, items, weights)
        return bucket

    root = make(rng.randint(1, 4))
    return tree, root


def places_by_program(program, tree, weights, pool, rule, n, seeds):
    """The devices of the n places of each group of a pool, by the program. No other device is taken down or out."""
    devices = [item for bucket in tree.values() for item in bucket[2] if item >= 0]
    buckets = [{"id": bucket, "type": kind, "alg": alg, "items": items, **({} if alg == "uniform" else {"weights": its})}
               for bucket, (kind, alg, items, its) in tree.items()]
    kind, is_indep = rule
    code = {"kind": "erasure", "k": 1} if is_indep else {"kind": "replicated"}
    made = {"id": pool, "pg_num": GROUPS, **code, "size": n, "min_size": 1, "leaf": kind}
    first = {"op": "inc", "v": 3, "epoch": 1, "up": devices, "weight": list(weights.items()), "crush": buckets, "pools": [made]}
    asked = [{"op": "ask", "pg": [pool, seed]} for seed in seeds]
    taken, *views = answers(program, [json.dumps(line) for line in (first, *asked)])
    if taken.get("ok") != "inc":
        raise Unusable(f"{program} answers {taken} to {first}")
    return {seed: [NONE if osd is None else osd for osd in view["up"]] for seed, view in zip(seeds, views)}


def compare_placements(folder, trees, program):
    """How many placements of trees with straw2 buckets agree, and how many of others."""
    rng, counts = random.Random(7), [0, 0]
    for number in range(trees):
        tree, root = random_tree(rng, ALGS[number % len(ALGS)])
        devices = [item for bucket in tree.values() for item in bucket[2] if item >= 0]
        if not devices:
            continue
        weights = {osd: rng.choice((0, 1000, 30000, IN - 1, IN)) for osd in devices if rng.random() < 0.4}
        n = rng.randint(1, 8)
        rule = (rng.choice((0, 0, 1, 1, 2)), rng.random() < 0.5)
        seeds = range(first := INPUTS * rng.randrange(GROUPS // INPUTS), first + INPUTS)
        pool = rng.choice((1, 7, 255))
        if not any(weights.get(osd, IN) for osd in devices):
            continue  # then crushtool prints nothing
        tools = mappings(folder, tree, root, rule, n, seeds[0], seeds[-1], weights, pool)
        same(f"what is placed in the tree {tree}", list(seeds), sorted(tools))
        ours = places_by_program(program, tree, weights, pool, rule, n, seeds)
        for seed, osds in tools.items():
            about = f"{seed} of pool {pool}, rule {rule}, {n} places, weights {weights}, tree {tree}"
            same(about, place(tree, root, weights, hash2(seed, pool), rule[0], n, rule[1]), osds)
            if ours[seed] != osds:
                sys.exit(f"{about}: the program gives {ours[seed]}, the tool {osds}")
        counts["straw2" not in {alg for _, alg, _, _ in tree.values()}] += len(tools)
    return counts


def main():
    parser = command_line(__doc__)
    parser.add_argument("--inputs", type=int, default=100, help="inputs of each hash of words")
    parser.add_argument("--trees", type=int, default=500, help="random trees, of 64 placements each")
    options = parser.parse_args()
    absent = [tool for tool in ("osdmaptool", "crushtool") if not shutil.which(tool)]
    if absent:
        parser.error(f"no {', '.join(absent)}; they are in Debian's ceph-base and ceph-osd")
    return ended(lambda: compare(options), "compare_with_ceph")


def compare(options):
    rng = random.Random(1)
    inputs = [(0, 0), (1, 1), (2**31 - 2, 40)]
    inputs += [(rng.randrange(2**31), rng.randrange(400)) for _ in range(options.inputs)]
    print(run("osdmaptool", "--version").strip())
    with tempfile.TemporaryDirectory() as folder:
        print(f"{compare_names(folder)} groups of names agree")
        print(f"{compare_two_words(folder, inputs)} devices in or out agree")
        print(f"{compare_three_words(folder, inputs)} choices of uniform buckets agree")
        print(f"{compare_four_words(folder, inputs)} choices of list buckets agree")
        straw2, others = compare_placements(folder, options.trees, options.program)
        print(f"{straw2 + others} placements agree, {straw2} of them of trees with straw2 buckets", flush=True)
    return 0


if __name__ == "__main__":
    sys.exit(main())
