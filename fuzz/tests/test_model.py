"""Tests of model.py: the examples of the repository and of docs/FORMAT.md."""

import hashlib
import json
import pathlib
import random
import re
import sys
import unittest

HERE = pathlib.Path(__file__).resolve().parent
ROOT = HERE.parent.parent
sys.path.insert(0, str(HERE.parent))
sys.path.insert(0, str(ROOT / "dev"))

import codes as rule  # noqa: E402
import grammar  # noqa: E402
import model  # noqa: E402
import peering  # noqa: E402
import placement  # noqa: E402
import run_examples  # noqa: E402


def answers(script, last=2):
    """The model's answers to a script."""
    log = model.Model(last)
    found = [log.answer(line) for line in script.split(b"\n")]
    return [answer.text.encode() for answer in found if answer is not None]


def codes(*lines, last=2):
    """Of each line the code of its refusal, or 0."""
    return [json.loads(text).get("code", 0) for text in answers(b"\n".join(lines), last)]


def inc(epoch, **parts):
    return json.dumps({"op": "inc", "epoch": epoch, **parts}).encode()


class Examples(unittest.TestCase):
    def test_scripts(self):
        for script, wanted in run_examples.examples():
            self.assertEqual(answers(script.read_bytes()), wanted.read_bytes().splitlines(), script.name)
        for script, wanted in run_examples.examples_of_version_3():
            self.assertEqual(answers(script.read_bytes(), 3), wanted.read_bytes().splitlines(), script.name)

    def test_stored_scripts(self):
        stored = ROOT / "crates" / "pgp_scripts"
        found = []
        for script in re.split(rb"(?m)^(?=# )", (stored / "stdin").read_bytes())[1:]:
            name, _, lines = script.partition(b"\n")
            found += [name, *answers(lines)]
        self.assertEqual(found, (stored / "stdout").read_bytes().splitlines())

    def test_document(self):
        before = (ROOT / "examples" / "first.jsonl").read_bytes()
        for line, wanted in run_examples.documented():
            found = answers(before + line)[-1]
            if wanted is None:
                self.assertNotIn(json.loads(found).get("code"), run_examples.FAULTS_OF_A_LINE, line)
            else:
                self.assertEqual(found, wanted, line)


class Hashes(unittest.TestCase):
    def test_groups_of_twelve(self):
        self.assertEqual([placement.stable_mod(it, 12) for it in (11, 12, 15, 16)], [11, 4, 7, 0])
        self.assertEqual([placement.stable_mod(it, 1) for it in (0, 7)], [0, 0])

    def test_a_name_is_read_by_twelve_bytes(self):
        found = {placement.name_hash(b"x" * length) for length in range(40)}
        self.assertEqual(len(found), 40)


class Trees(unittest.TestCase):
    def fault(self, *buckets):
        made = []
        for name, kind, items, weights in buckets:
            alg = "list" if weights else "uniform"
            made.append(placement.Bucket(name, kind, alg, list(items), list(weights)))
        return placement.tree_fault(made)

    def test_each_fault(self):
        self.assertIsNone(self.fault((-1, 1, (), ())))
        self.assertEqual(self.fault(), 1)
        self.assertEqual(self.fault((-1, 1, (0,), ()), (-2, 1, (1,), ())), 1)
        self.assertEqual(self.fault((-1, 1, (0,), ()), (-1, 1, (1,), ())), 1)
        self.assertEqual(self.fault((-1, 2, (-2, 0), ()), (-2, 1, (0,), ())), 2)
        self.assertEqual(self.fault((-1, 1, (-2,), ()), (-2, 1, (0,), ())), 3)
        self.assertEqual(self.fault((-1, 2, (-7,), ())), 4)
        self.assertEqual(self.fault((-1, 1, (4096,), ())), 4)
        self.assertEqual(self.fault(*((-1 - at, 11 - at, (-2 - at,) if at < 10 else (0,), ()) for at in range(11))), 5)
        self.assertEqual(self.fault((-1, 1, range(257), ())), 6)
        self.assertEqual(self.fault((-1, 1, (0, 1), (2**32 - 1, 1))), 7)


class Placements(unittest.TestCase):
    ROOT = placement.Bucket(-1, 1, "uniform", [0, 1, 2, 3], [])

    def placed(self, rule, kind, weight, size):
        return rule(placement.tree_of([self.ROOT]), kind, weight, 5, size)

    def test_all_of_a_flat_tree(self):
        self.assertEqual(sorted(self.placed(placement.first_n, 0, lambda osd: placement.FULL, 4)), [0, 1, 2, 3])
        self.assertEqual(sorted(self.placed(placement.indep, 0, lambda osd: placement.FULL, 4)), [0, 1, 2, 3])

    def test_devices_that_are_out(self):
        self.assertEqual(self.placed(placement.first_n, 0, lambda osd: placement.FULL * (osd == 2), 3), [2])
        self.assertEqual(self.placed(placement.indep, 0, lambda osd: 0, 3), [None] * 3)

    def test_a_type_below_which_there_are_devices_alone(self):
        self.assertEqual(self.placed(placement.first_n, 7, lambda osd: placement.FULL, 3), [])
        self.assertEqual(self.placed(placement.indep, 7, lambda osd: placement.FULL, 3), [None] * 3)


class Straw2(unittest.TestCase):
    # What Ceph 16.2.15 answers: input, items, weights, and the choices for r = 0 to 3.
    CHOICES = [
        (0, [0, 1, 2], [65536] * 3, [0, 0, 0, 2]),
        (1, [0, 1, 2], [65536, 131072, 196608], [2, 0, 2, 2]),
        (12345, [7, 3, 9, 4], [57231, 119208, 238465, 57231], [7, 7, 9, 7]),
        (77, [-2, -3, -4, -5], [196608, 65536, 65536, 131072], [-2, -3, -3, -2]),
        (5, [4, 5, 6], [0, 0, 0], [4, 4, 4, 4]),
        (6, [4, 5, 6], [0, 1, 0], [5, 5, 5, 5]),
        (42, [-10, -11, -12], [1342177280, 1073741824, 1073676288], [-11, -11, -10, -12]),
    ]

    def test_choices(self):
        for x, items, weights, chosen in self.CHOICES:
            bucket = placement.Bucket(-1, 1, "straw2", items, weights)
            self.assertEqual([placement.choice(bucket, x, r) for r in range(4)], chosen, x)

    def test_logarithms(self):
        """Those of Ceph's library, by their digest."""
        found = b"".join(placement.logarithm(hashed).to_bytes(8, "little") for hashed in range(1 << 16))
        self.assertEqual(hashlib.sha256(found).hexdigest(), "7e86f34e8fedc36c3b6252e5a6e4fe3fa4e115ed44e16f58f7fed6543aa1bd20")


class Incrementals(unittest.TestCase):
    POOL = {"id": 1, "pg_num": 1, "kind": "replicated", "size": 3, "min_size": 2, "leaf": 0}
    FIRST = inc(1, up=[0, 1, 2], pools=[POOL])

    def test_the_first_reason_is_told(self):
        for number, parts in {
            11: {"up": [0], "down": [0]}, 12: {"down": [9]}, 13: {"up": [0], "up_thru": [[0, 9]]}, 15: {"gone": [0]},
            17: {"up_thru": [[0, 3]]}, 18: {"sizes": [[2, 3, 2]]}, 19: {"pools": [self.POOL]}, 20: {"temp": [[1, 1, []]]},
            21: {"crush": []}, 0: {"up_thru": [[0, 2]]},
        }.items():  # fmt: skip
            self.assertEqual(codes(self.FIRST, inc(2, **parts)), [0, number], parts)
        self.assertEqual(codes(self.FIRST, inc(3)), [0, 10])
        self.assertEqual(codes(self.FIRST, inc(2, up_thru=[[0, 2]]), inc(3, up_thru=[[0, 1]])), [0, 0, 16])
        self.assertEqual(codes(self.FIRST, inc(2, down=[1]), inc(3, down=[1])), [0, 0, 14])

    def test_a_closed_log(self):
        self.assertEqual(codes(b'{"op":"close"}', inc(7), b'{"op":"close"}', b'{"op":"ask","pg":[1,0]}'), [0, 64, 64, 40])


class Kept(unittest.TestCase):
    def test_what_is_kept_is_what_a_new_model_says(self):
        for seed in range(4):
            log = model.Model(2 + seed % 2)
            story = grammar.Story(random.Random(seed), log, 150)
            taken = []
            for _ in range(300):
                line = grammar.compact(story.line())
                if log.answer(line).code == 0:
                    taken.append(line)
            new = model.Model(log.last)
            for line in taken:
                entry = json.loads(line)
                if entry["op"] in ("inc", "info", "entries", "close"):
                    new.answer(line)
            for group in log.views:
                question = grammar.compact({"op": "ask", "pg": group})
                self.assertEqual(log.answer(question), new.answer(question), (seed, group))


class Cleans(unittest.TestCase):
    POOL = {"id": 1, "pg_num": 1, "kind": "replicated", "size": 2, "min_size": 2, "leaf": 0}
    ROOT = {"id": -1, "type": 1, "alg": "uniform", "items": [0, 1]}
    MAPS = (inc(1, up=[0, 1], crush=[ROOT]), inc(2, pools=[POOL]), inc(3), inc(4, down=[1]), inc(5, up=[1]))

    def info(self, clean, stamp=5, **more):
        versions = {"last_update": [0, 0], "log_tail": [0, 0]}
        parts = {"pg": [1, 0], "from": [0, 0], "stamp": stamp, "les": 0, "history_les": 0, **versions, "complete": True}
        return json.dumps({"op": "info", **parts, "last_epoch_clean": clean, **more}).encode()

    def flags(self, *infos):
        """The flags of the intervals 2 to 3, of two devices, and 4 to 4, of one, by these infos."""
        found = json.loads(answers(b"\n".join((*self.MAPS, *infos, b'{"op":"ask","pg":[1,0]}')))[-1])
        return [it["rw"] for it in found["intervals"]]

    def test_the_flag_of_its_interval_is_raised(self):
        for clean, first in ((0, False), (1, False), (2, True), (3, True), (4, False), (5, False)):
            self.assertEqual(self.flags(self.info(clean)), [first, False], clean)

    def test_infos_that_do_not_count_raise_it_too(self):
        self.assertEqual(self.flags(self.info(2, 2)), [True, False])
        self.assertEqual(self.flags(self.info(2, **{"from": [1, 0]})), [True, False])
        self.assertEqual(self.flags(self.info(2), self.info(0)), [True, False])

    def test_it_is_remembered_until_the_interval_closes(self):
        lines = (*self.MAPS[:3], self.info(3, 3), *self.MAPS[3:], b'{"op":"ask","pg":[1,0]}')
        self.assertEqual([it["rw"] for it in json.loads(answers(b"\n".join(lines))[-1])["intervals"]], [True, False])

    def test_one_above_the_stamp_is_refused(self):
        found = codes(*self.MAPS, self.info(5), self.info(6), self.info(3, 2), self.info(2, 2))
        self.assertEqual(found, [0] * 5 + [0, 63, 63, 0])
        self.assertEqual(self.flags(self.info(3, 2)), [False, False])

    def test_flags_that_only_an_info_raised_are_counted(self):
        up_thru = inc(3, up_thru=[[0, 2]]), inc(3, up_thru=[[1, 2]])  # one of them is the primary
        found = []
        for maps in ((*self.MAPS[:2], it, *self.MAPS[3:]) for it in (inc(3), *up_thru)):
            log = model.Model()
            for line in (*maps, self.info(2)):
                self.assertEqual(log.answer(line).code, 0)
            found.append(log.raised((1, 0)))
        self.assertEqual((found[0], sorted(found[1:])), ([2], [[], [2]]))


class PassedOver(unittest.TestCase):
    """Incrementals that pass over epochs."""

    POOL = {"id": 1, "pg_num": 1, "kind": "replicated", "size": 2, "min_size": 1, "leaf": 0}
    ROOT = {"id": -1, "type": 1, "alg": "uniform", "items": [0, 1]}
    # The group is made in epoch 10, and has both devices up to 39, one of them up to 99, and both from 100 on.
    MAPS = (
        inc(10, v=3, after=0, up=[0, 1], crush=[ROOT], pools=[POOL]), inc(20, v=3, after=10), inc(40, v=3, after=20, down=[1]),
        inc(100, v=3, after=40, up=[1]),
    )  # fmt: skip
    ASK = b'{"op":"ask","pg":[1,0]}'

    def view(self, *lines):
        return json.loads(answers(b"\n".join((*lines, self.ASK)), 3)[-1])

    def test_another_map_or_no_later_epoch_is_a_gap(self):
        first = self.MAPS[0]
        for parts in ({"after": 9}, {"after": 11}, {"after": 0}, {"after": 12}, {}):
            self.assertEqual(codes(first, inc(12, v=3, **parts), last=3), [0, 10], parts)
        for epoch in (0, 9, 10):
            self.assertEqual(codes(first, inc(epoch, v=3, after=10), last=3), [0, 10], epoch)
        for line in (inc(11), inc(11, v=3), inc(11, v=3, after=10), inc(2**32 - 1, v=3, after=10)):
            self.assertEqual(codes(first, line, last=3), [0, 0], line)
        self.assertEqual((codes(inc(0)), codes(inc(0, v=3, after=0), last=3)), ([10], [10]))

    def test_an_interval_lasts_until_the_next(self):
        view = self.view(*self.MAPS)
        self.assertEqual([(it["first"], it["last"]) for it in view["intervals"]], [(10, 39), (40, 99)])
        self.assertEqual((view["first"], view["epoch"]), (100, 100))
        self.assertEqual(self.view(*self.MAPS[:2])["first"], 10)

    def test_the_map_before_tells_of_the_epochs_that_were_passed_over(self):
        leader = self.view(*self.MAPS[:2])["acting_primary"]
        for known, flag in ((20, True), (10, True), (9, False)):
            maps = (self.MAPS[0], inc(20, v=3, after=10, up_thru=[[leader, known]]), *self.MAPS[2:])
            self.assertEqual(self.view(*maps)["intervals"][0]["rw"], flag, known)

    def test_clean_epochs_that_were_passed_over(self):
        info = Cleans.info
        for clean, first in ((9, False), (10, True), (15, True), (30, True), (39, True), (40, False)):
            self.assertEqual(self.view(*self.MAPS, info(self, clean, 100))["intervals"][0]["rw"], first, clean)

    def test_stamps_that_were_passed_over(self):
        found = codes(*self.MAPS, *(Cleans.info(self, 0, stamp) for stamp in (5, 50, 100, 101)), last=3)
        self.assertEqual(found, [0] * 7 + [62])

    def test_without_steps_in_between_it_is_the_same(self):
        """Incrementals that change nothing, in the place of epochs that were passed over."""
        maps = [json.loads(line) for line in self.MAPS]
        there = {it["epoch"]: {key: value for key, value in it.items() if key not in ("op", "v", "epoch", "after")} for it in maps}
        whole = [inc(epoch, **there.get(epoch, {})) for epoch in range(1, 101)]
        infos = [Cleans.info(self, clean, 100) for clean in (0, 15, 39, 60)]
        for count in range(5):
            passed, stepped = self.view(*self.MAPS, *infos[:count]), self.view(*whole, *infos[:count])
            self.assertEqual((passed.pop("count"), stepped.pop("count")), (4 + count, 100 + count))
            self.assertEqual(passed, stepped)


class Grouped(unittest.TestCase):
    CODE = ((frozenset({0, 1}), 1), (frozenset({2, 3, 4}), 2))

    def test_each_part_has_to_have_its_least_number(self):
        for slots in ((0, 2, 3), (1, 3, 4), (0, 1, 2, 3, 4), (0, 2, 4, 9)):
            self.assertTrue(rule.are_enough(self.CODE, slots), slots)
        for slots in ((), (0, 1), (2, 3, 4), (0, 2), (0, 2, 2, 9)):
            self.assertFalse(rule.are_enough(self.CODE, slots), slots)

    def test_more_slots_are_never_less(self):
        sets = [frozenset(slot for slot in range(6) if bits >> slot & 1) for bits in range(64)]
        for some in sets:
            for more in sets:
                if some <= more and rule.are_enough(self.CODE, some):
                    self.assertTrue(rule.are_enough(self.CODE, more))

    def pool(self, groups, size=3, v=2, **more):
        it = {"id": 1, "pg_num": 1, "kind": "grouped", "groups": groups, "size": size, "min_size": 1, "leaf": 0}
        return inc(1, v=v, pools=[{**it, **more}])

    def test_what_no_pool_can_have(self):
        for groups in ([], [[[], 1]], [[[0], 0]], [[[0], 2]], [[[0, 0], 1]], [[[0], 1], [[0], 1]], [[[3], 1]]):
            self.assertEqual(codes(self.pool(groups)), [18], groups)
        for groups in ([[[2], 1]], [[[2, 0], 2]], [[[0], 1], [[1], 1], [[2], 1]]):
            self.assertEqual(codes(self.pool(groups)), [0], groups)
        self.assertEqual(codes(self.pool([[[0], 1]], min_size=4)), [18])

    def test_a_grouped_pool_goes_by_place(self):
        made = self.pool([[[0], 1]])
        self.assertEqual(codes(made, inc(2, sizes=[[1, 2, 1]]), inc(2, sizes=[[1, 3, 3]])), [0, 18, 0])
        self.assertEqual(codes(made, inc(2, temp=[[1, 0, [0, 1]]]), inc(2, temp=[[1, 0, [0, None, 1]]])), [0, 20, 0])
        view = json.loads(answers(made + b'\n{"op":"ask","pg":[1,0]}')[-1])
        self.assertEqual((view["up"], view["acting"]), ([None] * 3, [None] * 3))


class Peering(unittest.TestCase):
    def info(self, last, tail=(0, 0), complete=True):
        return {"last_update": list(last), "log_tail": list(tail), "complete": complete, "les": 0, "history_les": 0}

    def test_pools_of_copies_take_the_newest_and_codes_the_oldest(self):
        heard = {(0, 0): self.info((1, 1)), (1, 1): self.info((1, 2))}
        self.assertEqual(peering.best_of(None, heard, None), (1, 1))
        self.assertEqual(peering.best_of(2, heard, None), (0, 0))
        self.assertEqual(peering.best_of(Grouped.CODE, heard, None), (0, 0))

    def test_among_equals_the_leader(self):
        heard = {(0, 0): self.info((1, 1)), (1, 0): self.info((1, 1))}
        self.assertEqual(peering.best_of(None, heard, (1, 0)), (1, 0))
        self.assertEqual(peering.best_of(None, heard, None), (0, 0))

    def test_a_log_is_whole(self):
        parts = [{"log": [[1, 2, "modify", "x"], [1, 1, "modify", "a"], [1, 2, "delete", "b"]]}]
        self.assertEqual(peering.log_of(self.info((1, 2)), parts), [((1, 1), "modify", "a"), ((1, 2), "delete", "b")])
        self.assertIsNone(peering.log_of(self.info((1, 3)), parts))
        self.assertIsNone(peering.log_of(self.info((2, 2)), parts))
        self.assertEqual(peering.log_of(self.info((1, 2), (1, 2)), []), [])
        self.assertIsNone(peering.log_of(self.info((1, 2**32 - 1)), parts))

    def test_what_a_peer_lacks(self):
        log = [((1, 1), "modify", "a"), ((1, 2), "modify", "b"), ((1, 3), "delete", "a")]
        best = self.info((1, 3))
        self.assertEqual(peering.peer_state((1, 0), self.info((0, 0)), best, log)["objects"], {"b": (1, 2)})
        self.assertEqual(peering.peer_state((1, 0), self.info((1, 2)), best, log)["objects"], {})
        self.assertEqual(peering.peer_state((1, 0), self.info((2, 2)), best, log)["state"], "diverged")
        self.assertEqual(peering.peer_state((1, 0), self.info((1, 2), complete=False), best, log)["state"], "backfill")


if __name__ == "__main__":
    unittest.main()
