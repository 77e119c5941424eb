"""Hashes, trees and placement, by docs/RULES.md ("Hashes", "Placement").

An empty place is None. Hashes are kept while they are asked for again, which changes no answer.
"""

import functools
import itertools
from typing import Any, Callable, Dict, List, NamedTuple, Optional, Tuple

WORD = 0xFFFFFFFF
SEED = 1315423911
X, Y = 231232, 1232  # the two further words of a hash
GOLDEN = 0x9E3779B9  # with which the hash of a name begins
TRIES = 51
FULL = 0x10000  # the weight of a device that is always in
MOST_DEVICES, MOST_BUCKETS, MOST_ITEMS, MOST_LEVELS = 4096, 1024, 256, 10

Place = Optional[int]


# Hashes


def mix(a: int, b: int, c: int) -> Tuple[int, int, int]:
    a = (a - b - c & WORD) ^ (c >> 13)
    b = (b - c - a ^ a << 8) & WORD
    c = (c - a - b & WORD) ^ (b >> 13)
    a = (a - b - c & WORD) ^ (c >> 12)
    b = (b - c - a ^ a << 16) & WORD
    c = (c - a - b & WORD) ^ (b >> 5)
    a = (a - b - c & WORD) ^ (c >> 3)
    b = (b - c - a ^ a << 10) & WORD
    c = (c - a - b & WORD) ^ (b >> 15)
    return a, b, c


@functools.lru_cache(maxsize=1 << 14)
def hash2(a: int, b: int) -> int:
    h = SEED ^ a ^ b
    a, b, h = mix(a, b, h)
    _, a, h = mix(X, a, h)
    _, _, h = mix(b, Y, h)
    return h


@functools.lru_cache(maxsize=1 << 15)
def hash3(a: int, b: int, c: int) -> int:
    h = SEED ^ a ^ b ^ c
    a, b, h = mix(a, b, h)
    c, x, h = mix(c, X, h)
    y, a, h = mix(Y, a, h)
    b, _, h = mix(b, x, h)
    _, _, h = mix(y, c, h)
    return h


@functools.lru_cache(maxsize=1 << 15)
def hash4(a: int, b: int, c: int, d: int) -> int:
    h = SEED ^ a ^ b ^ c ^ d
    a, b, h = mix(a, b, h)
    c, d, h = mix(c, d, h)
    a, x, h = mix(a, X, h)
    y, b, h = mix(Y, b, h)
    c, _, h = mix(c, x, h)
    _, _, h = mix(y, d, h)
    return h


def name_hash(name: bytes) -> int:
    """The hash of an object's name."""
    a, b, c = GOLDEN, GOLDEN, 0
    whole = len(name) // 12 * 12
    for at in range(0, whole, 12):
        words = [int.from_bytes(name[at + 4 * n : at + 4 * n + 4], "little") for n in range(3)]
        a, b, c = mix(a + words[0] & WORD, b + words[1] & WORD, c + words[2] & WORD)
    rest = name[whole:]
    low, middle, high = (int.from_bytes(rest[at : at + 4], "little") for at in (0, 4, 8))
    return mix(a + low & WORD, b + middle & WORD, c + 256 * high + len(name) & WORD)[2]


def stable_mod(x: int, groups: int) -> int:
    power = 1
    while power < groups:
        power *= 2
    return x % power if x % power < groups else x % (power // 2)


# Trees


class Bucket(NamedTuple):
    """A bucket of a tree. A uniform one has no weights."""

    id: int
    type: int
    alg: str
    items: List[int]
    weights: List[int]


def buckets_of(crush: List[Dict[str, Any]]) -> List[Bucket]:
    """The buckets of a line."""
    return [Bucket(it["id"], it["type"], it["alg"], it["items"], it.get("weights", [])) for it in crush]


class Tree(NamedTuple):
    """A tree that isn't refused."""

    root: Bucket
    buckets: Dict[int, Bucket]


def tree_of(buckets: List[Bucket]) -> Tree:
    held = {item for bucket in buckets for item in bucket.items}
    return Tree(next(it for it in buckets if it.id not in held), {it.id: it for it in buckets})


def levels(bucket: Bucket, by_id: Dict[int, Bucket]) -> int:
    """How many buckets the longest path from the bucket has."""
    return 1 + max((levels(by_id[item], by_id) for item in bucket.items if item < 0), default=0)


def tree_fault(buckets: List[Bucket]) -> Optional[int]:
    """The number of the first fault of a list of buckets."""
    items = [item for bucket in buckets for item in bucket.items]
    held, by_id = set(items), {it.id: it for it in buckets}
    if sum(bucket.id not in held for bucket in buckets) != 1:
        return 1
    if len(by_id) != len(buckets) or len(held) != len(items):
        return 2
    if any(it.type == 0 or any(item in by_id and by_id[item].type >= it.type for item in it.items) for it in buckets):
        return 3
    if any(item >= MOST_DEVICES or (item < 0 and item not in by_id) for item in items):
        return 4
    if levels(tree_of(buckets).root, by_id) > MOST_LEVELS:
        return 5
    if len(buckets) > MOST_BUCKETS or any(len(it.items) > MOST_ITEMS for it in buckets):
        return 6
    if any(sum(it.weights) > WORD for it in buckets):
        return 7
    return None


# Straw2


def log48(y: int) -> int:
    """The first 48 binary digits of the binary logarithm of y / 2^63, for a y of 64 bits, the highest of which is set."""
    found = 0
    for _ in range(48):
        y, found = y * y >> 63, 2 * found
        if y >= 1 << 64:
            y, found = y >> 1, found + 1
    return found


# The tables of Ceph's crush_ln_table.h, by the formulas that most of their entries have.
PLAIN = {0, 1, 203, 216, 222, 233, 237, 238, 239, 243, 244, 245, 246, *range(248, 256)}
ODD = {
    56: 0x0A2B07F3458, 127: 0x16DF6CA19BD, 134: 0x182B07F3458, 181: 0x209C06E6212, 184: 0x212B07F3458, 188: 0x21D6A73A78F,
    193: 0x22C23679B4E, 198: 0x23A2C3B0EA4, 199: 0x23D13EE805B, 200: 0x24035E9221F, 207: 0x25492644D65, 210: 0x25D13EE805B,
    212: 0x26296453882, 225: 0x287BDBF5255, 227: 0x28D13EE805B, 228: 0x29035E9221F, 229: 0x29296453882, 231: 0x29902A37AAB,
    235: 0x2A4C7605D61, 236: 0x2A7BDBF5255, 240: 0x2B296453882, 241: 0x2B5D022D80F, 247: 0x2C61A5E8F4C,
}  # fmt: skip
RECIPROCALS = [-(-(1 << 55) // (128 + k)) for k in range(129)]
COARSE = [*(log48(128 + k << 56) for k in range(128)), 0xFFFF00000000]
FINE = [ODD.get(i, log48((1 << 15) + i << 48) + (0 if i in PLAIN else 0x147700000)) for i in range(256)]


@functools.lru_cache(maxsize=None)
def logarithm(hashed: int) -> int:
    """2^44 times the binary logarithm of a hash of 16 bits and one, about."""
    scaled, power = hashed + 1, 15
    while scaled < 1 << 15:
        scaled, power = 2 * scaled, power - 1
    k = (scaled >> 8) - 128
    return (power << 44) + (COARSE[k] + FINE[(scaled * RECIPROCALS[k] >> 48) & 255] >> 4)


def draw(x: int, r: int, item: int, weight: int) -> int:
    """What an item draws: the least is chosen."""
    return ((1 << 48) - logarithm(hash3(x, item & WORD, r) & 0xFFFF)) // weight if weight else 1 << 63


# Placement

EARLY, EMPTY = "early", "empty"  # the two descents that find nothing


def choice(bucket: Bucket, x: int, r: int) -> int:
    """The item that a bucket chooses. It has one."""
    if bucket.alg == "straw2":
        draws = [draw(x, r, item, weight) for item, weight in zip(bucket.items, bucket.weights)]
        return bucket.items[draws.index(min(draws))]
    if bucket.alg == "list":
        sums = list(itertools.accumulate(bucket.weights))
        for at in reversed(range(len(bucket.items))):
            if (hash4(x, bucket.items[at] & WORD, r, bucket.id & WORD) & 0xFFFF) * sums[at] >> 16 < bucket.weights[at]:
                return bucket.items[at]
        return bucket.items[0]
    items, count = list(bucket.items), len(bucket.items)
    for place in range(min(r % count + 1, count - 1)):
        other = place + hash3(x, bucket.id & WORD, place) % (count - place)
        items[place], items[other] = items[other], items[place]
    return items[r % count]


def descent(tree: Tree, bucket: Bucket, x: int, r_in: Callable[[Bucket], int], kind: int) -> Any:
    """The first item of this type on the way down from a bucket, with the bucket that holds it; else EARLY or EMPTY."""
    while bucket.items:
        item = choice(bucket, x, r_in(bucket))
        if (tree.buckets[item].type if item < 0 else 0) == kind:
            return item, bucket
        if item >= 0:
            return EARLY
        bucket = tree.buckets[item]
    return EMPTY


def leaf_of(tree: Tree, item: int, x: int, r: int) -> Optional[int]:
    """The device that a descent from an item comes to, if any; a device is its own."""
    if item >= 0:
        return item
    found = descent(tree, tree.buckets[item], x, lambda _: r, 0)
    return None if found == EMPTY else found[0]


def is_in(weight: int, x: int, osd: int) -> bool:
    return weight >= FULL or (weight > 0 and hash2(x, osd) & 0xFFFF < weight)


def first_n(tree: Tree, kind: int, weight: Callable[[int], int], x: int, size: int) -> List[Place]:
    """The devices of a replicated group."""
    taken: List[Tuple[int, int]] = []  # items with their leaves
    for rep in range(size):
        for attempt in range(TRIES):
            r = rep + attempt
            found = descent(tree, tree.root, x, lambda _: r, kind)
            if found == EARLY:
                break
            if found == EMPTY or any(found[0] == item for item, _ in taken):
                continue
            leaf = leaf_of(tree, found[0], x, r)
            if leaf is not None and all(leaf != it for _, it in taken) and is_in(weight(leaf), x, leaf):
                taken.append((found[0], leaf))
                break
    return [leaf for _, leaf in taken]


def indep(tree: Tree, kind: int, weight: Callable[[int], int], x: int, size: int) -> List[Place]:
    """The devices of an erasure group, place by place."""
    found: Dict[int, Tuple[Optional[int], Optional[int]]] = {}  # by place an item and its leaf, or None and None for good
    for turn in range(TRIES):
        for rep in range(size):
            if rep in found:
                continue

            def r_in(bucket: Bucket) -> int:
                is_even = bucket.alg == "uniform" and len(bucket.items) % size == 0
                return rep + (size + 1 if is_even else size) * turn

            cell = descent(tree, tree.root, x, r_in, kind)
            if cell == EARLY:
                found[rep] = None, None
            elif cell != EMPTY and all(cell[0] != item for item, _ in found.values()):
                leaf = leaf_of(tree, cell[0], x, rep + r_in(cell[1]))
                if leaf is not None and is_in(weight(leaf), x, leaf):
                    found[rep] = cell[0], leaf
    return [found[rep][1] if rep in found else None for rep in range(size)]


def placed(tree: Optional[Tree], pool: Dict[str, Any], size: int, weight: Callable[[int], int], pg: int) -> List[Place]:
    """Where a group of the pool lies before it is looked at who is up."""
    if tree is None:
        return [] if pool["kind"] == "replicated" else [None] * size
    x = hash2(stable_mod(pg, pool["pg_num"]), pool["id"])
    rule = first_n if pool["kind"] == "replicated" else indep
    return rule(tree, pool["leaf"], weight, x, size)
