"""Tests of reasons.py, wording.py and explain.py: cases made by hand, and runs of which the model says what they write."""

import concurrent.futures
import contextlib
import io
import json
import os
import pathlib
import sys
import tempfile
import unittest
from unittest import mock

HERE = pathlib.Path(__file__).resolve().parent
sys.path.insert(0, str(HERE.parent))

import ends  # noqa: E402
import explain  # noqa: E402
import grammar  # noqa: E402
import model  # noqa: E402
import reasons  # noqa: E402
import wording  # noqa: E402

GROUP = (1, 0)
LOCAL = [[[0, 1], 1], [[2, 3], 1]]  # a grouped code: one of each two slots


class Case:
    """The log of a group whose acting sets are told, one after the other; each may have gone read-write."""

    def __init__(self, kind="replicated", size=3, **more):
        self.log, self.kind, self.size, self.epoch = model.Model(), kind, size, 0
        pool = {"id": 1, "pg_num": 1, "kind": kind, "size": size, "min_size": 1, "leaf": 0, **more}
        self.inc(v=2, up=list(range(12)), pools=[pool])

    def line(self, **value):
        answer = json.loads(self.log.answer(grammar.compact(value)).text)
        assert "ok" in answer, (value, answer)

    def inc(self, **parts):
        self.epoch += 1
        self.line(op="inc", epoch=self.epoch, **parts)

    def wrote(self, *acting):
        """An interval in which these served: it may have gone read-write once the next begins."""
        self.inc(temp=[[1, 0, list(acting)]])
        leader = next(osd for osd in acting if osd is not None)
        self.inc(up_thru=[[leader, self.epoch]])
        return self

    def then(self, acting, down=(), **more):
        self.inc(temp=[[1, 0, list(acting)]], down=list(down), **more)
        return self

    def info(self, osd, slot=0, **parts):
        told = {"les": 0, "history_les": 0, "last_update": [0, 0], "log_tail": [0, 0], "complete": True, **parts}
        self.line(op="info", pg=[1, 0], **{"from": [osd, slot], "stamp": self.epoch, **told})
        return self

    def entries(self, osd, *versions):
        log = [[epoch, v, "modify", "a"] for epoch, v in versions]
        self.line(op="entries", pg=[1, 0], **{"from": [osd, 0], "stamp": self.epoch, "log": log})
        return self

    def reckoned(self):
        return reasons.Reckoned(self.log, GROUP)

    def sets(self):
        """The smallest sets to start; whichever of their devices are declared lost instead, they are enough."""
        it = self.reckoned()
        sets = it.sets()
        for osds in sets:
            for way in explain.ways_of(self.log.maps, osds):
                assert it.is_down_with(way) == (len(way.starts + way.losses) < len(osds)), way
        return sets

    def shown(self):
        return self.reckoned().shown()


class SmallestSets(unittest.TestCase):
    def test_of_any_test(self):
        found = reasons.smallest(lambda osds: {1, 2} <= set(osds) or 4 in osds or len(osds) > 2, (1, 2, 3, 4))
        self.assertEqual(found, [(4,), (1, 2)])
        self.assertEqual(reasons.smallest(lambda osds: len(osds) >= 2, (1, 2, 3)), [(1, 2), (1, 3), (2, 3)])
        self.assertEqual(reasons.smallest(lambda osds: True, (1, 2)), [()])
        self.assertEqual(reasons.smallest(lambda osds: False, (1, 2)), [])

    def test_any_of_a_replicated_interval(self):
        self.assertEqual(Case().wrote(0, 1, 2).then([5], down=[0, 1, 2]).sets(), [(0,), (1,), (2,)])

    def test_one_of_each_interval(self):
        case = Case().wrote(0, 1).wrote(0, 2).then([5], down=[0, 1, 2])
        self.assertEqual(case.sets(), [(0,), (1, 2)])
        self.assertEqual(Case().wrote(0).wrote(1).wrote(2).then([5], down=[0, 1, 2]).sets(), [(0, 1, 2)])

    def test_an_interval_with_a_member_that_is_up_does_not_block(self):
        case = Case().wrote(0, 1).wrote(2, 3).then([5], down=[0, 1, 2])
        self.assertEqual(case.log.view(GROUP)["blocked_by"], [0, 1])
        self.assertEqual(case.sets(), [(0,), (1,)])

    def test_none_where_the_group_is_not_down(self):
        case = Case().wrote(0, 1, 2).then([5], down=[0, 1])
        self.assertEqual((case.log.view(GROUP)["blocked_by"], case.sets()), ([], []))

    def test_as_many_shards_as_the_code_lacks(self):
        case = Case("erasure", 4, k=3).wrote(0, 1, 2, 3).then([None, None, None, 5], down=[1, 2, 3])
        self.assertEqual(case.sets(), [(1, 2), (1, 3), (2, 3)])
        self.assertEqual([it["lacks"] for it in case.shown()["blocking"]], [2])
        self.assertEqual(reasons.any_of(case.sets()), (2, (1, 2, 3)))

    def test_shards_of_several_intervals(self):
        case = Case("erasure", 3, k=2).wrote(0, 1, 2).wrote(0, 4, 3).then([6, 7, 5], down=[0, 1, 2, 3, 4])
        self.assertEqual(case.sets(), [(0, 1, 3), (0, 1, 4), (0, 2, 3), (0, 2, 4), (1, 2, 3, 4)])

    def test_a_slot_of_each_part(self):
        case = Case("grouped", 4, groups=LOCAL).wrote(0, 1, 2, 3).then([None, 6, None, 7], down=[0, 1, 2, 3])
        self.assertEqual(case.sets(), [(0, 2), (0, 3), (1, 2), (1, 3)])
        self.assertEqual([it["lacks"] for it in case.shown()["blocking"]], [2])

    def test_a_destroyed_device_is_not_waited_for(self):
        case = Case().wrote(0, 1).then([5], down=[0, 1])
        case.inc(gone=[0])
        self.assertEqual(case.sets(), [(1,)])

    def test_a_loss_before_an_interval_does_not_settle_it(self):
        case = Case().wrote(0).then([5], down=[0])
        case.inc(lost=[[0, 2]])
        self.assertEqual(case.sets(), [(0,)])
        case.inc(lost=[[0, 3]])
        self.assertEqual(case.sets(), [])

    def test_any_so_many(self):
        for sets, wanted in (
            ([(0, 1), (0, 3), (1, 3)], (2, (0, 1, 3))), ([(0,), (4,)], (1, (0, 4))), ([(0, 1)], None), ([(0, 1), (2, 3)], None), ([], None), ([(0,), (1, 2)], None),
        ):  # fmt: skip
            self.assertEqual(reasons.any_of(sets), wanted)

    def test_which_ways_are_told(self):
        self.assertEqual(reasons.told_sets([(0, 1), (0, 3), (1, 3)]), [(0, 1)])
        self.assertEqual(reasons.told_sets([(0,), (4,)]), [(0,), (4,)])
        self.assertEqual(reasons.told_sets([(0,), (1, 2)]), [(0,), (1, 2)])
        one = [reasons.Way((), (0,)), reasons.Way((2,), (1,)), reasons.Way((1,), (2,)), reasons.Way((), (1, 2))]
        self.assertEqual(reasons.resorts([(0,), (1, 2)]), one)
        self.assertEqual(len(reasons.resorts([(osd, osd + 1) for osd in range(16)])), 16)

    def test_ways_that_are_listed_otherwise(self):
        it = Case().wrote(0, 1).wrote(0, 2).then([5], down=[0, 1, 2]).reckoned()
        sets = it.sets()
        right = [explain.as_json(explain.way_shown(it, reasons.Way(osds, ()))) for osds in sets]
        resort = [explain.as_json(explain.way_shown(it, way)) for way in reasons.resorts(sets)]

        def wrong(**more):
            ways = {"any": None, "more": False, "sets": right, **more}
            return list(explain.wrong_ways({"ways": ways, "last_resort": resort}, it, sets))

        self.assertEqual((sets, wrong()), ([(0,), (1, 2)], []))
        for more in ({"more": True}, {"sets": right[:1]}, {"sets": right[::-1]}, {"any": {"least": 1, "osds": [0, 1]}}, {"sets": [right[0], {**right[1], "unreadable": True}]}):
            self.assertTrue(wrong(**more), more)


class Prices(unittest.TestCase):
    def price(self, case, starts=(), losses=()):
        way = reasons.Way(tuple(starts), tuple(losses))
        it = case.reckoned()
        return [(span["first"], span["last"], span["writes"]) for span in it.price(way)], it.is_unreadable(way)

    def test_what_one_loss_leaves_may_be_on_others(self):
        case = Case().wrote(0, 1).then([5], down=[0, 1])
        self.assertEqual(self.price(case, losses=[0]), ([(2, 3, "away")], False))
        self.assertEqual(self.price(case, losses=[0, 1]), ([(2, 3, "gone")], True))
        self.assertEqual(self.price(case, [0]), ([(2, 3, "readable")], False))
        self.assertEqual(self.price(case, [0], [1]), ([(2, 3, "readable")], False))

    def test_too_few_shards_are_left_of_all(self):
        case = Case("erasure", 4, k=3).wrote(3, 2, 0, 1).then([None, 2, None, None], down=[0, 1, 3])
        self.assertEqual(self.price(case, [1], [0]), ([(2, 3, "away")], False))
        self.assertEqual(self.price(case, losses=[0, 1]), ([(2, 3, "gone")], True))

    def test_a_start_may_end_the_wait_for_writes_that_too_few_have(self):
        case = Case("erasure", 3, k=2).wrote(0, 1, 2).then([5, 6, None], down=[0, 1, 2])
        case.inc(gone=[0, 1])
        self.assertEqual((case.sets(), self.price(case, [2])), ([(2,)], ([(2, 3, "gone")], True)))
        self.assertEqual(case.shown()["blocking"][0]["interval"]["gone"], [0, 1])

    def test_an_interval_that_did_not_block_may_be_given_up_too(self):
        case = Case().wrote(0, 1).wrote(0).then([5], down=[0, 1])
        case.inc(lost=[[1, 7]])
        self.assertEqual([span["interval"]["first"] for span in case.shown()["blocking"]], [4])
        self.assertEqual(self.price(case, losses=[0])[0], [(2, 3, "gone"), (4, 5, "gone")])

    def test_losses_that_were_declared(self):
        case = Case("erasure", 3, k=2).then([0, 1, 2], down=[0])
        case.inc(lost=[[0, 3]])
        case.inc(up=[0])
        case.wrote(0, 1, 2).then([None, None, 5], down=[0, 1, 2])
        case.inc(lost=[[1, 7]])
        found = case.shown()["blocking"][-1]["interval"]
        self.assertEqual((found["down"], found["lost"], found["lost_before"]), ([0, 2], [1], [0]))


class Lacking(unittest.TestCase):
    def test_how_many_more_slots_would_be_enough(self):
        for code, slots, wanted in ((None, [], 1), (None, [0], 0), (3, [], 3), (3, [2, 2], 2), (3, [0, 1, 2, 3], 0)):
            self.assertEqual(reasons.lacking(code, slots), wanted)
        parts = (frozenset({0, 1, 2}), 2), (frozenset({3}), 1)
        for slots, wanted in (([], 3), ([0, 1, 2], 1), ([3], 2), ([0, 3], 1), ([1, 2, 3], 0)):
            self.assertEqual(reasons.lacking(parts, slots), wanted)

    def test_a_boot_or_a_loss_is_all_that_changes(self):
        case = Case().wrote(0, 1).then([5], down=[0, 1])
        for ways, wanted in ((([0, 5], []), ["Up", "Down", "Up"]), (([], [0, 5]), ["Lost", "Down", "Up"]), (([1], [0]), ["Lost", "Up", "Up"])):
            supposed = reasons.Supposed(case.log.maps, *ways)
            self.assertEqual([supposed.status(osd, 1) for osd in (0, 1, 5)], wanted)


class Shown(unittest.TestCase):
    def test_intervals_that_block(self):
        case = Case("erasure", 2, k=1).wrote(None, 0).wrote(1, 0).then([5, None], down=[0, 1])
        first, second = case.shown()["blocking"]
        span = {"first": 2, "last": 3, "acting": (None, 0), "up": [], "down": [0], "lost": [], "gone": [], "lost_before": [], "writes": "away"}
        self.assertEqual(first, {"interval": span, "lacks": 1, "clean": None})
        self.assertEqual((second["interval"]["first"], second["interval"]["last"], second["interval"]["down"]), (4, 5, [0, 1]))

    def test_the_last_clean_epoch_of_an_interval(self):
        case = Case().wrote(0).then([5], down=[0])
        for clean in (1, 3, 2, 4):
            case.info(5, last_epoch_clean=clean)
        self.assertEqual([it["clean"] for it in case.shown()["blocking"]], [3])
        self.assertEqual(case.shown()["clean"]["down"], [0])

    def test_copies_that_may_be_followed(self):
        case = Case("erasure", 3, k=2).wrote(0, 1, 2)
        case.info(0, 0, les=2, history_les=2).info(1, 1, les=2, history_les=2, complete=False).info(2, 2)
        self.assertEqual(case.shown()["copies"], {"lacks": 1, "members": [(0, 0)]})

    def test_infos_in_the_order_in_which_the_last_came(self):
        case = Case().wrote(0, 1, 2).then([0, 1, 2])
        for osd, v in ((0, 1), (1, 1), (2, 1), (1, 2)):
            case.info(osd, last_update=[2, v])
        self.assertEqual([(it["from"], it["last_update"]) for it in case.shown()["heard"]], [([0, 0], [2, 1]), ([2, 0], [2, 1]), ([1, 0], [2, 2])])
        self.assertEqual(case.shown()["heard"][0]["last_epoch_clean"], 0)

    def test_members_that_were_not_heard(self):
        case = Case().wrote(0, 1, 2).then([0, 3]).info(0)
        self.assertEqual(case.shown()["unheard"], [(1, 0), (2, 0), (3, 0)])

    def test_writes_that_the_best_log_lacks(self):
        case = Case().wrote(0).info(0, last_update=[2, 9], log_tail=[1, 2])
        self.assertEqual(case.shown()["gaps"], [(3, 9)])
        case.entries(0, (2, 4), (2, 7), (2, 1))
        self.assertEqual(case.shown()["gaps"], [(3, 3), (5, 6), (8, 9)])
        case.entries(0, (2, 3), (2, 5), (2, 6), (2, 8), (2, 9))
        self.assertEqual(case.shown()["gaps"], [])

    def test_no_gap_without_a_best_copy(self):
        self.assertEqual(Case().wrote(0).info(0, last_update=[2, 9], complete=False).shown()["gaps"], [])

    def test_all_groups(self):
        log = model.Model()
        pool = {"id": 1, "pg_num": 3, "kind": "replicated", "size": 3, "min_size": 1, "leaf": 0}
        temps = [[1, 0, [0]], [1, 1, [0, 1]], [1, 2, [1]]]
        lines = (
            {"epoch": 1, "up": [0, 1, 2], "pools": [pool], "temp": temps}, {"epoch": 2, "up_thru": [[0, 1], [1, 1]]},
            {"epoch": 3, "down": [0], "temp": [[1, 0, [2]]]},
        )  # fmt: skip
        for line in lines:
            log.answer(grammar.compact({"op": "inc", **line}))
        devices = [{"osd": 0, "blocks": 1, "frees": 1, "awaited": 0}, {"osd": 1, "blocks": 0, "frees": 0, "awaited": 2}]
        self.assertEqual(reasons.summary(log), {"devices": devices, "epoch": 3, "groups": 3, "verdicts": {"Down": 1, "Waiting": 2}})


class Wording(unittest.TestCase):
    """Words, by objects made by hand."""

    SPAN = {"first": 3, "last": 4, "acting": [0, None], "up": [], "down": [0], "lost": [], "gone": [], "lost_before": [], "writes": "away"}
    THEN = {"says": "It has yet to hear from osd.0.", "verdict": "Waiting"}
    START = {"intervals": [{**SPAN, "writes": "readable"}], "lost": [], "start": [3, 5], "then": THEN, "unreadable": False}
    LOSS = {"intervals": [SPAN, {**SPAN, "writes": "gone"}], "lost": [0], "start": [3], "then": None, "unreadable": True}
    FOUND = {
        "acting": [1, None], "acting_primary": 1, "blocking": [{"interval": SPAN, "lacks": 1, "clean": None}], "clean": None, "copies": {"lacks": 0, "members": []}, "epoch": 24, "first": 22, "gaps": [], "heard": [], "les": 3,
        "last_resort": [LOSS], "pg": [1, 26], "unheard": [[2, 1]], "up": [], "up_primary": None, "verdict": "Down",
        "ways": {"any": None, "more": True, "sets": [{**START, "start": [0]}, START]},
    }  # fmt: skip

    MISSING = [
        {"member": [2, 3], "objects": {}, "state": "missing"}, {"member": [3, 0], "objects": {"a": [1, 1]}, "state": "missing"},
        {"member": [4, 1], "state": "backfill"}, {"member": [5, 2], "state": "diverged"},
    ]  # fmt: skip

    def words(self, code=None, best=None, lacks=0, fallen=(), missing=(), **more):
        beside = wording.Beside(3, 2, best, lacks, list(fallen), list(missing))
        return wording.Words({**self.FOUND, **more}, code, beside)

    def test_sentences(self):
        info = {"from": [1, 2], "history_les": 9, "complete": True}
        for words, says in (
            (self.words(verdict="NoPrimary"), "No device of its acting set is up, so nobody leads it."),
            (self.words(verdict="NoPrimary", fallen=[0, 4]), "No device of its acting set is up, so nobody leads it. Of those that served it last, osd.0 and osd.4 are down."),
            (self.words(), "It waits for osd.0, which is down: writes may have been taken in epochs 3 to 4, and too few of the devices that took them are up."),
            (self.words(verdict="Waiting"), "It has yet to hear from osd.2."),
            (self.words(2, verdict="Waiting", unheard=[[2, 1], [2, 3]]), "It has yet to hear from osd.2(1) and osd.2(3)."),
            (self.words(verdict="Incomplete"), "No complete copy was heard of."),
            (self.words(verdict="Incomplete", fallen=[0], clean=self.SPAN), "No complete copy was heard of. Of those that were complete in epochs 3 to 4, when it was last clean, osd.0 is down."),
            (self.words(verdict="Incomplete", fallen=[2], clean={**self.SPAN, "down": []}), "No complete copy was heard of. Of those that served it last, osd.2 is down."),
            (self.words(2, verdict="Incomplete", heard=[info]), "No copy that was heard of is complete and recent enough: osd.1(2) knows that the group served in epoch 9, and no complete copy has served since."),
            (self.words(verdict="Short"), "Its acting set has 1 member, and needs at least 2: it needs 1 more device."),
            (self.words(verdict="Short", acting=[], fallen=[0, 4]), "Its acting set has 0 members, and needs at least 2: it needs 2 more devices. Of those that served it last, osd.0 and osd.4 are down."),
            (self.words(3, verdict="Short", acting=[0, 1], lacks=1, fallen=[3]), "The members of its acting set hold too few shards to give objects back: it needs 1 more shard. Of those that served it last, osd.3 is down."),
            (self.words(best=(4, 0), verdict="NeedLog"), "The log of osd.4, which has the best copy, is not in order."),
            (self.words(best=(4, 0), verdict="NeedLog", gaps=[[5, 7], [9, 9]]), "The log of osd.4, which has the best copy, lacks the writes 5 to 7 and 9."),
            (self.words(verdict="NeedUpThru"), "The map has yet to record that osd.1, which leads it, is up in this interval: up_thru 22 or later."),
            (self.words(verdict="Serve"), "It serves, led by osd.1."),
            (self.words(2, verdict="Serve", copies={"lacks": 1, "members": []}), "It serves, led by osd.1. Too few complete copies were heard to read all that was written: it needs 1 more."),
            (self.words(2, verdict="Serve", missing=self.MISSING), "It serves, led by osd.1. osd.3(0) lacks 1 object, osd.4(1) needs a backfill and osd.5(2) has diverged."),
        ):  # fmt: skip
            self.assertEqual(words.says(), says)

    def test_a_group_that_has_to_hear_members_and_lacks_some(self):
        self.assertEqual(self.words(verdict="Waiting").says_then(), "It has yet to hear from osd.2. Its acting set has 1 member, and needs at least 2: it needs 1 more device.")
        self.assertEqual(self.words(verdict="Waiting", acting=[1, 2]).says_then(), "It has yet to hear from osd.2.")

    def test_intervals(self):
        told = {**self.SPAN, "acting": [0, 0, 3, 4], "down": [0], "lost_before": [0], "lost": [3], "gone": [4]}
        lines = list(self.words(2).interval({"interval": told, "lacks": 2, "clean": 3}))
        self.assertEqual(lines[1:], [
            "It waits for the interval of epochs 3 to 4 on [0, 0, 3, 4], which needs 2 more shards:", "  osd.0(0) and osd.0(1) are down",
            "  osd.0 was declared lost before it began, which doesn't count for it", "  osd.3 was declared lost, and no longer waited for",
            "  osd.4 was destroyed, and can't be waited for", "  it may have gone read-write: a report says that the group was clean in epoch 3",
        ])  # fmt: skip

    def test_ways(self):
        then = "    then Waiting: It has yet to hear from osd.0."
        wanted = ["", "What ends Down:", "  start osd.0", then, "  or start osd.3 and osd.5", then, "  (there may be others)"]
        self.assertEqual(list(self.words().ways()), wanted)
        self.assertEqual(list(self.words(verdict="NoPrimary").ways())[1], "It would be Down, too. What ends that:")
        self.assertEqual(list(self.words(ways={"any": None, "sets": [], "more": False}).ways()), [])
        shape = {"any": {"least": 2, "osds": [3, 5, 6]}, "more": False, "sets": [self.START]}
        self.assertEqual(list(self.words(ways=shape).ways())[2:4], ["  any 2 of osd.3, osd.5 and osd.6 will do, such as", "  start osd.3 and osd.5"])

    def test_the_last_resort(self):
        self.assertEqual(list(self.words().last_resort())[3:], [
            "  start osd.3 and declare osd.0 lost", "    what it is then isn't known: the log takes no more",
            "    it goes on without what was written in epochs 3 to 4, at least: osd.0, which is down, may have it",
            "    it goes on without what was written in epochs 3 to 4, at least: too few of the devices that took it are left",
            "    no object can be read then: too few devices are left of all that ever served",
        ])  # fmt: skip
        self.assertEqual(list(self.words(last_resort=[]).last_resort()), [])

    def test_runs(self):
        self.assertEqual(wording.runs("write", [[5, 5]]), "write 5")
        self.assertEqual(wording.runs("write", [[at, at] for at in range(6)]), "writes 0, 1, 2, 3, 4, and later ones")
        spans = [{"first": 3, "last": 4}, {"first": 5, "last": 5}, {"first": 7, "last": 7}]
        self.assertEqual(wording.epochs(spans), "epochs 3 to 5 and 7")

    def test_later_epochs(self):
        info = {"from": [1, 0], "stamp": 3, "les": 0, "last_update": [2, 9], "log_tail": [0, 0], "last_epoch_clean": 2}
        found = wording.shifted({**self.FOUND, "heard": [info], "gaps": [[5, 7]]}, 100)
        self.assertEqual([found[key] for key in ("epoch", "first", "les", "pg", "gaps")], [124, 122, 103, [1, 26], [[5, 7]]])
        self.assertEqual((found["blocking"][0]["interval"]["first"], found["blocking"][0]["clean"], found["blocking"][0]["interval"]["down"]), (103, None, [0]))
        later = {"stamp": 103, "last_update": [102, 9], "last_epoch_clean": 102}
        self.assertEqual(found["heard"], [{**info, **later}])

    def test_all_groups(self):
        devices = [{"osd": 0, "blocks": 3, "frees": 2, "awaited": 1}, {"osd": 4, "blocks": 0, "frees": 0, "awaited": 1}]
        found = {"groups": 16, "epoch": 24, "verdicts": {"Serve": 12, "Waiting": 1, "Down": 3}, "devices": devices}
        wanted = ["16 groups at epoch 24", "  Down 3", "  Waiting 1", "  Serve 12", ""]
        wanted += ["osd.0 blocks 3 groups, and alone frees 2, and has yet to be heard by 1 group", "osd.4 has yet to be heard by 1 group"]
        self.assertEqual(list(wording.summary_lines(found)), wanted)


def read_up_to(words):
    """Up to which version the program with these words reads lines."""
    return int(words[words.index("--format") + 1]) if "--format" in words else 2


def by_model(words, text, fault=lambda found, lines, words: None):
    """The lines that a program writes which is the model; the fault changes what it says."""
    log = model.Model(read_up_to(words))
    answers = [log.answer(line) for line in text.splitlines()]
    if words[1] == "run":
        return [answer.text.encode() for answer in answers if answer]
    offset = int(words[words.index("--epoch-offset") + 1]) if "--epoch-offset" in words else 0
    if "." in "".join(words[2:3]):
        pool, pg = words[2].split(".")
        it = reasons.Reckoned(log, (int(pool), int(pg, 16)))
        sets = it.sets()
        told, shape = reasons.told_sets(sets), reasons.any_of(sets)
        ways = {"any": shape and {"least": shape[0], "osds": shape[1]}, "more": False, "sets": [explain.way_shown(it, reasons.Way(osds, ())) for osds in told]}
        found = explain.as_json({**it.shown(), "ways": ways, "last_resort": [explain.way_shown(it, way) for way in reasons.resorts(told)]})
        found["says"] = explain.words_of(it, found).says()
        found = explain.shifted(found, it) if offset else found
        lines = list(explain.words_of(it, found).lines())
    else:
        found = wording.shifted(reasons.summary(log), offset)
        lines = list(wording.summary_lines(found))
    fault(found, lines, words)
    return [model.compact(found).encode()] if "--json" in words else [line.encode() for line in lines]


def run_by_model(words, text, fault):
    """The same, with the lines on standard error."""
    errors = [b"%s (10): why" % it.encode() for it in ends.ended("", text.splitlines(), last=read_up_to(words)).refused]
    return by_model(words, text, fault), errors[: 0 if fault is silent else None]


def silent(found, lines, words):
    """Tells no fault of a line."""


def of_a_group(change):
    return lambda found, lines, words: change(found, lines, words) if "pg" in found else None


def fails(found, lines, words):
    raise explain.Failed("it ended with status 7")


FAULTS = {
    "the ways are": of_a_group(lambda found, lines, words: found["ways"].update(more=True)),
    "a way is": of_a_group(lambda found, lines, words: found["last_resort"][0].update(intervals=[])),
    "leads to": of_a_group(lambda found, lines, words: found["ways"]["sets"][0]["then"].update(verdict="Serve")),
    "blocking is": of_a_group(lambda found, lines, words: found.update(blocking=[])),
    "gaps is": of_a_group(lambda found, lines, words: found.update(gaps=[(1, 1)])),
    "says is": of_a_group(lambda found, lines, words: found.update(says="It says.")),
    "with later epochs": of_a_group(lambda found, lines, words: found.update(epoch=3)),
    "it says 'It says.'": of_a_group(lambda found, lines, words: lines.insert(1, "It says.")),
    "it says None": of_a_group(lambda found, lines, words: lines.pop()),
    "all groups: {": lambda found, lines, words: found.update(groups=0) if "groups" in found else None,
    "all groups: it says": lambda found, lines, words: lines.pop() if "groups" in found else None,
    "it ended with status 7": fails,
    "it says None and not 'line 3: NoOp'": silent,
}

class Runs(unittest.TestCase):
    def end(self):
        case = [{"epoch": 1, "up": [0, 1, 2], "temp": [[1, 0, [0, 1]]]}, {"epoch": 2, "up_thru": [[0, 1]]}, {"epoch": 3, "down": [0, 1], "temp": [[1, 0, [2]]]}]
        case[0]["pools"] = [{"id": 1, "pg_num": 1, "kind": "replicated", "size": 3, "min_size": 1, "leaf": 0}]
        lines = [grammar.compact({"op": "inc", **it}) for it in case]
        lines.insert(2, b"{}")
        return ends.ended("hand", lines)

    def tried(self, fault=lambda found, lines, words: None, run_alone=False):
        options = explain.argparse.Namespace(program="program", most=8, run_alone=run_alone)
        figures = explain.Figures()
        with concurrent.futures.ThreadPoolExecutor(1) as pool:
            with mock.patch.object(explain, "run_of", lambda words, text: run_by_model(words, text, fault)):
                wrong = explain.tried_at(pool, options, self.end(), figures)
        return [f"{name}: {why}" for name, why in wrong], figures.text().splitlines()[-1]

    def test_each_subset_is_tried(self):
        end = self.end()
        self.assertEqual((end.refused, end.entries()), (["line 3: NoOp"], [*end.lines[:2], *end.lines[3:]]))
        ways = [reasons.Way(*it) for it in (((), ()), ((1,), ()), ((), (1,)), ((0,), ()), ((0, 1), ()), ((0,), (1,)), ((), (0,)), ((1,), (0,)), ((), (0, 1)))]
        self.assertEqual(list(explain.tries(end, 8)), ways)
        self.assertEqual(explain.tries(end, 1), {})

    def test_incrementals(self):
        self.assertEqual(reasons.Way((2,), (0, 1)).incremental(4), {"op": "inc", "epoch": 4, "up": [2], "lost": [[0, 4], [1, 4]]})
        self.assertEqual(reasons.Way((), ()).incremental(4), {"op": "inc", "epoch": 4})

    def test_a_sound_program(self):
        self.assertEqual(self.tried(), ([], "1 groups, 9 subsets, 0 wrong"))
        self.assertEqual(self.tried(fails, run_alone=True), ([], "1 groups, 9 subsets, 0 wrong"))

    def test_faulty_programs(self):
        for told, fault in FAULTS.items():
            wrong, last = self.tried(fault)
            self.assertEqual((bool(wrong), last.endswith(" 0 wrong")), (True, False), told)
            self.assertTrue(any(told in it for it in wrong), (told, wrong))

    def test_a_program_that_answers_another_set(self):
        with mock.patch.object(reasons.Reckoned, "sets", lambda self: [(0,)]):
            wrong, _ = self.tried(run_alone=True)
        self.assertEqual(wrong, ["1.0: the smallest sets are [(0,), (1,)] by run and [(0,)] by the model"])

    def test_the_command(self):
        with tempfile.TemporaryDirectory() as room:
            words = ["explain.py", "--logs", "1", "--most", "1", "--seed", "s2", "--keep", room]
            for fault, status, last in ((lambda *told: None, 0, r" 0 wrong$"), (fails, 1, r" [1-9]\d* wrong$")):
                out = io.StringIO()
                with mock.patch.object(explain, "run_of", lambda words, text: run_by_model(words, text, fault)):
                    with mock.patch.object(sys, "argv", words), contextlib.redirect_stdout(out):
                        self.assertEqual(explain.main(), status)
                self.assertRegex(out.getvalue().splitlines()[-1], r"^\d+ groups, \d+ subsets," + last)
            self.assertTrue(list(pathlib.Path(room).glob("explain-sixteen.why")))

    def test_runs_of_a_program(self):
        with tempfile.TemporaryDirectory() as room:
            path = pathlib.Path(room) / "program"
            path.write_text(f"#!{sys.executable}\nimport sys\nprint(sys.argv[1:], sys.stdin.read())\n")
            os.chmod(path, 0o755)
            self.assertEqual(explain.run_of([str(path), "run"], b"a\nb"), ([b"['run'] a", b"b"], []))
        with self.assertRaisesRegex(explain.Failed, "false run ended with status 1"):
            explain.run_of(["false", "run"], b"")


class Logs(unittest.TestCase):
    def test_a_seed_says_all(self):
        first, second = ([end.lines for end in ends.ends_of("a", 3, 8)] for _ in range(2))
        self.assertEqual(first, second)

    def test_corners_have_as_many_smallest_sets_as_are_listed_and_more(self):
        found = [len(reasons.Reckoned(end.log, GROUP).sets()) for end in ends.corners()]
        self.assertEqual(found, [explain.MOST_SETS, 20, 24])
        self.assertEqual([end.log.view(GROUP)["verdict"] for end in ends.corners()], ["Down", "Down", "Down"])

    def test_ends_have_groups_that_are_blocked_in_many_ways(self):
        found, passed_over = set(), 0
        for number in range(25):
            for end in ends.ends_of("d", number, 8):
                epochs = end.log.maps.epochs
                passed_over += epochs != list(range(1, len(epochs) + 1))
                for group in {group for groups in explain.tries(end, 8).values() for group in groups}:
                    found.add(tuple(len(it) for it in reasons.Reckoned(end.log, group).sets()))
        self.assertLessEqual({(1,), (2,), (3,), (1, 1), (1, 2)}, found)
        self.assertGreater(passed_over, 5)


if __name__ == "__main__":
    unittest.main()
