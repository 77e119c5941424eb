"""Reads the CRUSH tree and the rules of a Ceph cluster, and judges which pools and buckets a script can have."""

import collections
import itertools
from typing import Dict, Iterator, List, NamedTuple, Optional, Tuple

from .maps import MOST_DEVICES, MOST_GROUPS_IN_ALL, Pool
from .nodes import Node, Unusable, ranges
from .notes import Notes

MOST_BUCKETS = 1024
MOST_ITEMS = 256  # of one bucket
MOST_LEVELS = 10  # of buckets on a path
LEAST_BUCKET = -65536
MOST_TYPE = 255
WORD = 2**32

TRIES = 51  # of a choice; choose_total_tries counts the tries after the first
PROFILE = {
    "choose_local_tries": 0,
    "choose_local_fallback_tries": 0,
    "choose_total_tries": TRIES - 1,
    "chooseleaf_descend_once": 1,
    "chooseleaf_vary_r": 1,
    "chooseleaf_stable": 1,
}
STEPS = {
    "set_choose_tries": TRIES,
    "set_chooseleaf_tries": 1,
    "set_choose_local_tries": 0,
    "set_choose_local_fallback_tries": 0,
    "set_chooseleaf_vary_r": 1,
    "set_chooseleaf_stable": 1,
}
CHOOSES = ("choose_firstn", "chooseleaf_firstn", "choose_indep", "chooseleaf_indep")

Tree = Dict[int, "Bucket"]


class Bucket(NamedTuple):
    id: int
    name: str
    type: int
    alg: str
    items: List[int]
    weights: List[int]

    def label(self) -> str:
        return f"{self.id} '{self.name}'"


class Choice(NamedTuple):
    """A step of a rule that chooses."""

    op: str
    type: int
    num: int


class Rule(NamedTuple):
    """What a rule takes and chooses; of several steps the first take and the last choice are carried."""

    id: int
    name: str
    takes: List[int]
    choices: List[Choice]
    sets: Dict[str, int]  # its own tunables
    others: List[str]  # steps of other kinds
    sizes: Optional[Tuple[int, int]]  # the sizes that it serves

    def choice(self) -> Choice:
        return self.choices[-1]

    def label(self) -> str:
        return f"rule {self.id} '{self.name}'"


class Crush(NamedTuple):
    buckets: Tree
    rules: Dict[int, Rule]
    weight_sets: Tuple[str, ...] = ()  # the names of its choose_args

    def below(self, root: int) -> Iterator[Bucket]:
        """The bucket and all that are below it, each as often as it is held, down to the deepest level."""
        level, depth = [root], 0
        while level and depth <= MOST_LEVELS:
            buckets = [self.buckets[it] for it in level if it in self.buckets]
            yield from buckets
            held = (item for bucket in buckets for item in bucket.items if item < 0)
            level, depth = list(itertools.islice(held, MOST_BUCKETS + 1)), depth + 1

    def roots(self) -> List[int]:
        held = {item for bucket in self.buckets.values() for item in bucket.items}
        return [it for it in self.buckets if it not in held]


# Reading


def read_bucket(node: Node, notes: Notes) -> Bucket:
    name, number = node.key("name").text(), node.key("id").whole()
    items = node.key("items").items()
    if node.has("hash") and node.key("hash").value not in ("rjenkins1", 0):
        notes.tell("other hashes of buckets", f"{node.key('hash').value} of {number} '{name}'")
    return Bucket(number, name, node.key("type_id").whole(), node.key("alg").text(),
                  [item.key("id").whole() for item in items], [item.key("weight").count() for item in items])


def read_rule(node: Node, types: Dict[str, int]) -> Rule:
    takes, choices, sets, others = [], [], {}, []
    for step in node.key("steps").items():
        op = step.key("op").text()
        if op == "take":
            takes.append(step.key("item").whole())
        elif op in CHOOSES:
            kind = step.key("type").text()
            if kind not in types:
                raise Unusable(f"{step.where}.type is '{kind}', which is no type of the tree")
            choices.append(Choice(op, types[kind], step.key("num").whole()))
        elif op in STEPS:
            sets[op] = step.key("num").whole()
        elif op not in ("emit", "noop"):
            others.append(op)
    sizes = (node.key("min_size").whole(), node.key("max_size").whole()) if node.has("max_size") else None
    return Rule(node.key("rule_id").whole(), node.key("rule_name").text(), takes, choices, sets, others, sizes)


def tell_rule(rule: Rule, notes: Notes) -> None:
    """Tells what a rule does besides one take and one choice in the profile."""
    label = rule.label()
    for op, number in rule.sets.items():
        if number != STEPS[op]:
            notes.tell("other tunables, so places may differ", f"{op} {number} (for {STEPS[op]}) of {label}")
    for op in rule.others:
        notes.tell("steps of rules", f"{op} of {label}")
    if len(rule.takes) > 1 or len(rule.choices) > 1:
        notes.tell("rules of several steps, carried as the first take and the last choice",
                   f"{label} with {len(rule.takes)} takes and {len(rule.choices)} choices")
    if rule.choice().type > 0 and not rule.choice().op.startswith("chooseleaf"):
        notes.tell("choices of buckets without leaves, carried with leaves", label)


def read_crush(node: Node, notes: Notes) -> Crush:
    types = {kind.key("name").text(): kind.key("type_id").whole() for kind in node.key("types").items()}
    buckets = [read_bucket(bucket, notes) for bucket in node.key("buckets").items()]
    rules = [read_rule(rule, types) for rule in node.key("rules").items()]
    tunables = node.key("tunables")
    for name, value in PROFILE.items():
        if tunables.key(name).whole() != value:
            notes.tell("other tunables, so places may differ", f"{name} {tunables.key(name).whole()} (for {value})")
    choose_args = node.key("choose_args").value if node.has("choose_args") else None
    weight_sets = tuple(choose_args) if isinstance(choose_args, dict) else ()
    if weight_sets:
        notes.tell("choose_args", " ".join(f"set {name}" for name in weight_sets))
    return Crush({bucket.id: bucket for bucket in buckets}, {rule.id: rule for rule in rules}, weight_sets)


# Judging what is carried


def rule_of(crush: Crush, pool: Pool, notes: Notes) -> Optional[Rule]:
    """The pool's rule, or None where the pool has to be left out."""
    rule = crush.rules.get(pool.rule)
    if rule is None:
        raise Unusable(f"{pool.label()} has the rule {pool.rule}, which CRUSH doesn't have")
    if not rule.takes or not rule.choices:
        notes.tell("pools whose rule takes or chooses nothing, left out", f"{pool.label()} of {rule.label()}")
        return None
    if rule.choice().type > MOST_TYPE:
        notes.tell(f"pools whose failure domain has a type above {MOST_TYPE}, left out", f"{pool.label()} of {rule.label()}")
        return None
    return rule


def tell_fit(rule: Rule, pool: Pool, notes: Notes) -> None:
    """Tells where the rule isn't made for such a pool."""
    op, _, num = rule.choice()
    both = f"{rule.label()} in {pool.label()}"
    if op.endswith("indep") != (pool.k is not None):
        notes.tell("rules of the other mode, so places differ", f"{op} of {both}")
    if num not in (0, pool.size):
        notes.tell("rules of another number of places, carried with the pool's size", f"{num} of {both}")
    if rule.sizes and not rule.sizes[0] <= pool.size <= rule.sizes[1]:
        notes.tell("rules that don't serve the pool's size, where Ceph places nothing",
                   f"{both} of size {pool.size}, for {rule.sizes[0]} to {rule.sizes[1]}")


def pools_of_one_root(crush: Crush, pools: List[Pool], notes: Notes) -> Tuple[Optional[int], List[Pool]]:
    """The root of the first pool's rule, and the pools whose rule takes it."""
    root, kept = None, []
    for pool in pools:
        rule = rule_of(crush, pool, notes)
        if rule is None:
            continue
        root = rule.takes[0] if root is None else root
        if rule.takes[0] == root:
            kept.append(pool)
            tell_rule(rule, notes)
            tell_fit(rule, pool, notes)
        else:
            notes.tell(f"several roots: pools of others than {root} are left out",
                       f"{pool.label()} of {rule.label()}, which takes {rule.takes[0]}")
    if root is None and len(crush.roots()) == 1:
        root = crush.roots()[0]
    return root, kept


def tell_other_roots(crush: Crush, root: int, notes: Notes) -> None:
    """Tells of the buckets that no carried rule comes to."""
    carried = {bucket.id for bucket in crush.below(root)}
    for bucket in crush.buckets.values():
        if bucket.id not in carried and "~" not in bucket.name:
            notes.tell("buckets outside the tree of the pools' rule, left out", bucket.label())


def tree_fault(crush: Crush, buckets: List[Bucket]) -> Optional[str]:
    """What the buckets have that no tree may have, if anything."""
    if not buckets:
        return "there is no such bucket"
    if len(buckets) > MOST_BUCKETS:
        return f"it has {len(buckets)} buckets, more than {MOST_BUCKETS}"
    items = [item for bucket in buckets for item in bucket.items]
    twice = next((item for item, count in collections.Counter(items).items() if count > 1), None)
    if twice is not None:
        return f"item {twice} stands in two places"
    for bucket in buckets:
        held = [crush.buckets[item].type for item in bucket.items if item in crush.buckets]
        absent = [item for item in bucket.items if item < 0 and item not in crush.buckets]
        for fault, text in (
            (bucket.id < LEAST_BUCKET, f"is below {LEAST_BUCKET}"),
            (not 1 <= bucket.type <= MOST_TYPE, f"has the type {bucket.type}, and not 1 to {MOST_TYPE}"),
            (absent, f"holds {absent[:1]}, which is no bucket"),
            (any(kind >= bucket.type for kind in held), "holds a bucket of no lower type"),
            (len(bucket.items) > MOST_ITEMS, f"has {len(bucket.items)} items, more than {MOST_ITEMS}"),
            (bucket.alg != "uniform" and sum(bucket.weights) >= WORD, "has weights of 2^32 and more"),
        ):
            if fault:
                return f"bucket {bucket.label()} {text}"
    return None if depth_of(crush, buckets[0].id) <= MOST_LEVELS else f"it has more than {MOST_LEVELS} levels of buckets"


def depth_of(crush: Crush, bucket: int) -> int:
    """How many levels of buckets there are from this one on. No bucket holds itself, by the order of their types."""
    held = [item for item in crush.buckets[bucket].items if item < 0]
    return 1 + max((depth_of(crush, item) for item in held), default=0)


def carried_alg(crush: Crush, bucket: Bucket, has_straw2: bool, notes: Notes) -> str:
    """How the bucket chooses in the script. Weight sets play a part in straw2 buckets alone."""
    if bucket.alg == "straw2" and has_straw2:
        if crush.weight_sets:
            notes.tell("choose_args of straw2 buckets, so places differ", bucket.label())
        return bucket.alg
    if bucket.alg not in ("uniform", "list"):
        notes.tell(f"{bucket.alg} buckets, carried as list buckets of the same weights, so places differ", bucket.label())
        return "list"
    return bucket.alg


def carried_tree(crush: Crush, root: Optional[int], has_straw2: bool, notes: Notes) -> List[Bucket]:
    """The buckets of the root's tree, without items that no script can name; none where there is no lawful tree."""
    if root is None:
        if crush.buckets:
            notes.tell("several roots, and no pool to choose one by: no tree is carried", ranges(crush.roots()))
        return []
    buckets = []
    for bucket in crush.below(root):
        kept = [(item, w) for item, w in zip(bucket.items, bucket.weights) if item < MOST_DEVICES]
        for item in set(bucket.items) - {item for item, _ in kept}:
            notes.tell(f"devices above {MOST_DEVICES - 1}, left out", f"osd.{item}")
        alg = carried_alg(crush, bucket, has_straw2, notes)
        buckets.append(bucket._replace(alg=alg, items=[item for item, _ in kept], weights=[w for _, w in kept]))
    fault = tree_fault(crush, buckets)
    if fault:
        notes.tell("the tree, in whose place the script has none", f"of root {root}, since {fault}")
        return []
    tell_other_roots(crush, root, notes)
    return buckets


def within_all_groups(pools: List[Pool], notes: Notes) -> List[Pool]:
    """The pools, in order, that fit into the number of groups in all."""
    kept: List[Pool] = []
    for pool in pools:
        if sum(it.pg_num for it in kept) + pool.pg_num <= MOST_GROUPS_IN_ALL:
            kept.append(pool)
        else:
            notes.tell(f"pools beyond {MOST_GROUPS_IN_ALL} groups in all, left out", f"{pool.label()} of {pool.pg_num}")
    return kept


def tell_classes(node: Node, notes: Notes) -> None:
    classes: Dict[str, List[int]] = {}
    for device in node.key("devices").items():
        if device.has("class"):
            classes.setdefault(device.key("class").text(), []).append(device.key("id").whole())
    for name, devices in classes.items():
        notes.tell("device classes", f"{name} of osd {ranges(devices)}")


def choice_of(crush: Crush, pool: Pool) -> Choice:
    """The step of a pool's rule that is carried."""
    return crush.rules[pool.rule].choice()
