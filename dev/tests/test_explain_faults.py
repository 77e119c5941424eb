"""Tests of what `pgpeer explain` says of lines that are refused."""

import json
import subprocess
import unittest

from case import HAS_PROGRAM, PROGRAM

ABSENT = object()


def changed(line, keys):
    """The object with these keys set, or taken away where they are ABSENT."""
    found = {**line, **keys}
    return {key: value for key, value in found.items() if value is not ABSENT}


def inc(**keys):
    return changed({"op": "inc", "epoch": 1}, keys)


def info(**keys):
    line = {"op": "info", "pg": [1, 0], "from": [2, 0], "stamp": 1, "les": 0, "history_les": 0}
    return changed({**line, "last_update": [0, 0], "log_tail": [0, 0], "complete": True}, keys)


def entries(**keys):
    return changed({"op": "entries", "pg": [1, 0], "from": [0, 0], "stamp": 1, "log": [[1, 1, "modify", "a"]]}, keys)


def pool(**keys):
    return changed({"id": 1, "pg_num": 1, "kind": "replicated", "size": 3, "min_size": 2, "leaf": 0}, keys)


def grouped(groups, **keys):
    return pool(kind="grouped", groups=groups, **keys)


def bucket(**keys):
    return changed({"id": -1, "type": 1, "alg": "uniform", "items": [0]}, keys)


def trace(code=ABSENT, epochs=ABSENT, **keys):
    return changed({"op": "trace"}, {"code": code, "epochs": epochs, **keys})


def epoch(**keys):
    return changed({"up": [0], "acting": [0], "size": 3, "min_size": 2, "up_from": 1, "up_thru": 1}, keys)


REPLICATED = {"kind": "replicated"}
ERASURE = {"kind": "erasure", "k": 2}
POOL_KEYS = '"kind", "leaf", "min_size", "pg_num", "size"'
EPOCH_KEYS = '"acting", "min_size", "size", "up", "up_from", "up_thru"'


def parts(*groups):
    return trace({"kind": "grouped", "groups": list(groups)}, v=2)


# A line, as text or as an object, and what is told of it.
LINES = [
    # No command at all.
    ("{", "NotJson: the line is not JSON"),
    ("nonsense", "NotJson: the line is not JSON"),
    ("[" * 128 + "]" * 128, "NotJson: the line is not JSON"),
    ("1e999", "NotJson: the line is not JSON"),
    ("[]", "NoOp: the line names no operation"),
    ("{}", "NoOp: the line names no operation"),
    ({"op": "outage"}, "NoOp: the line names no operation"),
    ({"op": 1}, "NoOp: the line names no operation"),
    ('{"op":"close"' + " " * 1048576 + "}", "LineTooLong: the line is longer than 1048576 bytes"),
    # Keys that the operation doesn't have.
    (inc(colour=1), 'UnknownKey: unknown key "colour"'),
    (info(Epoch=1, zone=2), 'UnknownKey: unknown key "Epoch"'),
    ({"op": "close", "epoch": 1}, 'UnknownKey: unknown key "epoch"'),
    ({"op": "ask", "pool": 1}, 'UnknownKey: unknown key "pool"'),
    (entries(name="a"), 'UnknownKey: unknown key "name"'),
    ({"op": "locate", "pg": [1, 0]}, 'UnknownKey: unknown key "pg"'),
    (trace(k=1), 'UnknownKey: unknown key "k"'),
    (inc(**{"a b": 1}), 'UnknownKey: unknown key "a b"'),
    (inc(**{"a\nb": 1}), 'UnknownKey: unknown key "a\\nb"'),
    (inc(**{"": 1}), 'UnknownKey: unknown key ""'),
    (inc(**{"a" * 65: 1}), 'UnknownKey: unknown key "' + "a" * 65 + '"'),
    # The version, and versions of writes.
    ({"op": "close", "v": 3}, "BadField: v is not a version in which lines are read"),
    ({"op": "close", "v": "2"}, "BadField: v is not a version in which lines are read"),
    (inc(v=0), "BadField: v is not a version in which lines are read"),
    (info(last_update=[1]), "BadField: last_update is not a list of the right length"),
    (info(last_update=[1, 2, 3]), "BadField: last_update is not a list of the right length"),
    (info(last_update=7), "BadField: last_update is not a list"),
    (info(log_tail=[1, -1]), "BadField: log_tail[1] is not a whole number from 0 to 4294967295"),
    (info(log_tail=[4294967296, 1]), "BadField: log_tail[0] is not a whole number from 0 to 4294967295"),
    # Groups and members.
    ({"op": "ask"}, "BadField: pg is absent"),
    ({"op": "ask", "pg": [0, 0]}, "BadField: pg[0] is not a whole number from 1 to 255"),
    ({"op": "ask", "pg": [1, 1024]}, "BadField: pg[1] is not a whole number from 0 to 1023"),
    ({"op": "ask", "pg": "1.0"}, "BadField: pg is not a list"),
    ({"op": "ask", "pg": {"pool": 1}}, "BadField: pg is not a list"),
    (info(**{"from": [0, 16]}), "BadField: from[1] is not a whole number from 0 to 15"),
    (entries(**{"from": [4096, 0]}), "BadField: from[0] is not a whole number from 0 to 4095"),
    # The other keys of an info.
    (info(les=ABSENT), "BadField: les is absent"),
    (info(stamp=None), "BadField: stamp is not a whole number from 0 to 4294967295"),
    (info(history_les="a" * 65), "BadField: history_les is not a whole number from 0 to 4294967295"),
    (info(last_epoch_clean=[1]), "BadField: last_epoch_clean is not a whole number from 0 to 4294967295"),
    (info(complete=1), "BadField: complete is not true or false"),
    (info(complete=ABSENT, stamp=-1), "BadField: complete is absent"),
    # Log entries.
    (entries(log=[]), "BadField: log is not a list of the right length"),
    (entries(log=[[1, 1, "modify", "a"]] * 257), "BadField: log is not a list of the right length"),
    (entries(log={}), "BadField: log is not a list"),
    (entries(log=[[1, 1, "modify", "a"], 5]), "BadField: log[1] is not a list"),
    (entries(log=[[1, 1, "modify"]]), "BadField: log[0] is not a list of the right length"),
    (entries(log=[[1, 1.5, "modify", "a"]]), "BadField: log[0][1] is not a whole number from 0 to 4294967295"),
    (entries(log=[[1, 1, "create", "a"]]), "BadField: log[0][2] is not a text that it can be"),
    (entries(log=[[1, 1, True, "a"]]), "BadField: log[0][2] is not a text that it can be"),
    (entries(log=[[1, 1, "delete", ""]]), "BadField: log[0][3] is not a text that it can be"),
    (entries(log=[[1, 1, "delete", 5]]), "BadField: log[0][3] is not a text that it can be"),
    # Where an object lies.
    ({"op": "locate", "pool": 1}, "BadField: name is absent"),
    ({"op": "locate", "name": "a"}, "BadField: pool is absent"),
    ({"op": "locate", "name": "ä" * 128, "pool": 1}, "BadField: name is not a text that it can be"),
    ({"op": "locate", "name": "a", "pool": 256}, "BadField: pool is not a whole number from 1 to 255"),
    # Devices of an incremental.
    (inc(epoch=ABSENT), "BadField: epoch is absent"),
    (inc(epoch=-1), "BadField: epoch is not a whole number from 0 to 4294967295"),
    ('{"op":"inc","epoch":1.0}', "BadField: epoch is not a whole number from 0 to 4294967295"),
    (inc(up=[0, 1, 2, 4096]), "BadField: up[3] is not a whole number from 0 to 4095"),
    (inc(up=0), "BadField: up is not a list"),
    (inc(down=[None]), "BadField: down[0] is not a whole number from 0 to 4095"),
    (inc(gone=[[1]]), "BadField: gone[0] is not a whole number from 0 to 4095"),
    (inc(gone=[-1], up=[-1]), "BadField: gone[0] is not a whole number from 0 to 4095"),
    (inc(weight=[[0, 65536], [1, -1]]), "BadField: weight[1][1] is not a whole number from 0 to 4294967295"),
    (inc(weight=[[0]]), "BadField: weight[0] is not a list of the right length"),
    (inc(up_thru=[[0, "1"]]), "BadField: up_thru[0][1] is not a whole number from 0 to 4294967295"),
    (inc(lost=[[5000, 1]]), "BadField: lost[0][0] is not a whole number from 0 to 4095"),
    # Pools.
    (inc(pools=pool()), "BadField: pools is not a list"),
    (inc(pools=[1]), "BadField: pools[0].kind is absent"),
    (inc(pools=[pool(min_size=ABSENT)]), "BadField: pools[0].min_size is absent"),
    (inc(pools=[pool(), pool(kind=ABSENT)]), "BadField: pools[1].kind is absent"),
    (inc(pools=[pool(kind="mirrored")]), "BadField: pools[0].kind is not a text that it can be"),
    (inc(pools=[pool(kind=3)]), "BadField: pools[0].kind is not a text that it can be"),
    (inc(pools=[pool(k=2)]), f'BadField: pools[0] has a key other than ["id", {POOL_KEYS}]'),
    (inc(pools=[pool(minsize=2, min_size=ABSENT)]), f'BadField: pools[0] has a key other than ["id", {POOL_KEYS}]'),
    (inc(pools=[pool(kind="erasure")]), "BadField: pools[0].k is absent"),
    (inc(pools=[pool(kind="erasure", k=256)]), "BadField: pools[0].k is not a whole number from 0 to 255"),
    (inc(pools=[pool(kind="erasure", k=2, groups=[])]), f'BadField: pools[0] has a key other than ["id", "k", {POOL_KEYS}]'),
    (inc(pools=[pool(id=0)]), "BadField: pools[0].id is not a whole number from 1 to 255"),
    (inc(pools=[pool(pg_num=65536)]), "BadField: pools[0].pg_num is not a whole number from 0 to 65535"),
    (inc(pools=[pool(size=256)]), "BadField: pools[0].size is not a whole number from 0 to 255"),
    (inc(pools=[pool(leaf="host")]), "BadField: pools[0].leaf is not a whole number from 0 to 255"),
    (inc(sizes=[[1, 3]]), "BadField: sizes[0] is not a list of the right length"),
    (inc(sizes=[[1, 3, 256]]), "BadField: sizes[0][2] is not a whole number from 0 to 255"),
    # Grouped pools.
    (inc(pools=[grouped([[[0], 1]])]), "BadField: pools is not what a line of its version can have"),
    (inc(v=2, pools=[pool(kind="grouped")]), "BadField: pools[0].groups is absent"),
    (inc(v=2, pools=[grouped([[[0], 1]], k=1)]), f'BadField: pools[0] has a key other than ["groups", "id", {POOL_KEYS}]'),
    (inc(v=2, pools=[grouped(3)]), "BadField: pools[0].groups is not a list"),
    (inc(v=2, pools=[grouped([[[0], 1]] * 17)]), "BadField: pools[0].groups is not a list of the right length"),
    (inc(v=2, pools=[grouped([[[0], 1], [1]])]), "BadField: pools[0].groups[1] is not a list of the right length"),
    (inc(v=2, pools=[grouped([[[0, 16], 1]])]), "BadField: pools[0].groups[0][0][1] is not a whole number from 0 to 15"),
    (inc(v=2, pools=[grouped([[[0] * 17, 1]])]), "BadField: pools[0].groups[0][0] is not a list of the right length"),
    (inc(v=2, pools=[grouped([[[0], 256]])]), "BadField: pools[0].groups[0][1] is not a whole number from 0 to 255"),
    (inc(v=3, pools=[grouped([[[0], False]])]), "BadField: pools[0].groups[0][1] is not a whole number from 0 to 255"),
    # Lists of pg_temp.
    (inc(temp=[[1, 0]]), "BadField: temp[0] is not a list of the right length"),
    (inc(temp=[[1, 1024, []]]), "BadField: temp[0][1] is not a whole number from 0 to 1023"),
    (inc(temp=[[1, 0, 3]]), "BadField: temp[0][2] is not a list"),
    (inc(temp=[[1, 0, [0, None, 4096]]]), "BadField: temp[0][2][2] is not a whole number from 0 to 4095"),
    # Buckets.
    (inc(crush={}), "BadField: crush is not a list"),
    (inc(crush=[bucket(), "root"]), "BadField: crush[1].alg is absent"),
    (inc(crush=[bucket(alg=ABSENT)]), "BadField: crush[0].alg is absent"),
    (inc(crush=[bucket(alg="straw2")]), "BadField: crush[0].weights is absent"),
    (inc(v=3, crush=[bucket(alg="straw2", weights=[1])]), "BadField: crush is not what a line of its version can have"),
    (inc(crush=[bucket(weights=[1])]), 'BadField: crush[0] has a key other than ["alg", "id", "items", "type"]'),
    (inc(crush=[bucket(id=0)]), "BadField: crush[0].id is not a whole number from -65536 to -1"),
    (inc(crush=[bucket(type=256)]), "BadField: crush[0].type is not a whole number from 0 to 255"),
    (inc(crush=[bucket(items=[0, 65536])]), "BadField: crush[0].items[1] is not a whole number from -65536 to 65535"),
    (inc(crush=[bucket(alg="list")]), "BadField: crush[0].weights is absent"),
    (inc(crush=[bucket(alg="list", weights=[-1])]), "BadField: crush[0].weights[0] is not a whole number from 0 to 4294967295"),
    (
        inc(crush=[bucket(alg="list", items=[0, 1], weights=[1])]),
        "BadField: crush[0].weights is not a list of the right length",
    ),
    # The code of a trace.
    (trace(), "BadField: code is absent"),
    (trace("replicated"), "BadField: code.kind is absent"),
    (trace({}), "BadField: code.kind is absent"),
    (trace({"kind": "raid"}), "BadField: code.kind is not a text that it can be"),
    (trace({"kind": "replicated", "k": 1}), 'BadField: code has a key other than ["kind"]'),
    (trace({"kind": "erasure"}), "BadField: code.k is absent"),
    (trace({"kind": "erasure", "k": 0}), "BadField: code is not what a trace of its version can have"),
    (trace({"kind": "grouped", "groups": [[[0], 1]]}), "BadField: code is not what a trace of its version can have"),
    (parts(), "BadField: code is not what a trace of its version can have"),
    (parts([[0], 1], [[], 1]), "BadField: code is not what a trace of its version can have"),
    (parts([[0, 1, 0], 1]), "BadField: code is not what a trace of its version can have"),
    (parts([[0, 1], 1], [[2, 1], 1]), "BadField: code is not what a trace of its version can have"),
    (parts([[0, 1], 0]), "BadField: code is not what a trace of its version can have"),
    (parts([[0, 1], 3]), "BadField: code is not what a trace of its version can have"),
    # The epochs of a trace.
    (trace(REPLICATED), "BadField: epochs is absent"),
    (trace(REPLICATED, []), "BadField: epochs is not a list of the right length"),
    (trace(REPLICATED, [epoch()] * 4097), "BadField: epochs is not a list of the right length"),
    (trace(REPLICATED, [epoch(), 2]), "BadField: epochs[1].up_from is absent"),
    (trace(REPLICATED, [epoch(up_thru=ABSENT)]), "BadField: epochs[0].up_thru is absent"),
    (trace(REPLICATED, [epoch(epoch=1)]), f"BadField: epochs[0] has a key other than [{EPOCH_KEYS}]"),
    (trace(REPLICATED, [epoch(up=[0, None])]), "BadField: epochs[0].up[1] is not a whole number from 0 to 4095"),
    (trace(ERASURE, [epoch(up=[0, None], acting=["a"])]), "BadField: epochs[0].acting[0] is not a whole number from 0 to 4095"),
    (trace(REPLICATED, [epoch(acting=[0] * 17)]), "BadField: epochs[0].acting is not a list of the right length"),
    (trace(REPLICATED, [epoch(size=17)]), "BadField: epochs[0].size is not a whole number from 1 to 16"),
    (trace(REPLICATED, [epoch(min_size=0)]), "BadField: epochs[0].min_size is not a whole number from 1 to 3"),
    (trace(REPLICATED, [epoch(min_size=4)]), "BadField: epochs[0].min_size is not a whole number from 1 to 3"),
    (trace(REPLICATED, [epoch(up_from=True)]), "BadField: epochs[0].up_from is not a whole number from 0 to 4294967295"),
    # What the log refuses, and what has no answer.
    (inc(epoch=3), "EpochGap (10): the epoch does not follow that of the map"),
    (inc(up=[0, 0]), "Twice (11): a device, pool or group is named twice"),
    (inc(down=[5]), "UnknownDevice (12): unknown device"),
    (inc(pools=[pool(size=0)]), "BadPool (18): bad pool"),
    (inc(crush=[]), "TreeFault (21): the placement tree has a fault: it has no root, or more than one"),
    (
        inc(crush=[bucket(type=0)]),
        "TreeFault (21): the placement tree has a fault: a type is 0, or not above that of a bucket within",
    ),
    (info(), "UnknownGroup (60): unknown placement group"),
    ({"op": "ask", "pg": [1, 0]}, "UnknownGroup (40): unknown placement group"),
    ({"op": "locate", "pool": 1, "name": "a"}, "UnknownPool (42): unknown pool"),
]

# Lines with `--format 3`, and what is told of each.
LINES_OF_VERSION_3 = [
    ({"op": "close", "v": 4}, "BadField: v is not a version in which lines are read"),
    (inc(crush=[bucket(alg="straw2", weights=[1])]), "BadField: crush is not what a line of its version can have"),
    (inc(v=2, crush=[bucket(), bucket(alg="straw2")]), "BadField: crush[1].weights is absent"),
    (inc(v=3, crush=[bucket(alg="straw")]), "BadField: crush[0].alg is not a text that it can be"),
    (inc(v=3, crush=[bucket(alg="straw2")]), "BadField: crush[0].weights is absent"),
    (
        inc(v=3, crush=[bucket(alg="straw2", weights=[1], hash=0)]),
        'BadField: crush[0] has a key other than ["alg", "id", "items", "type", "weights"]',
    ),
    (
        inc(v=3, crush=[bucket(alg="straw2", items=[0, 1], weights=[1])]),
        "BadField: crush[0].weights is not a list of the right length",
    ),
    (inc(v=2, after=0), 'UnknownKey: unknown key "after"'),
    (inc(v=3, after=-1), "BadField: after is not a whole number from 0 to 4294967295"),
    (inc(pools=[grouped([[[0], 1]])]), "BadField: pools is not what a line of its version can have"),
]

# Lines that are judged by those before them, and what is told of all.
SCRIPT = [
    (inc(up=[0, 1, 2]), None),
    ("", None),
    (inc(epoch=2, up=[0]), "AlreadyUp (13): the device is already up"),
    (" \t", None),
    (inc(epoch=2, gone=[1]), "StillUp (15): the device is still up"),
    (inc(epoch=2, down=[1], weight=[[0, 65536]]), None),
    (inc(epoch=3, down=[1]), "AlreadyDown (14): the device is already down"),
    ("}", "NotJson: the line is not JSON"),
    ({"op": "close"}, None),
    ({"op": "close"}, "Closed (64): the log is closed"),
]


def text_of(line):
    return line if isinstance(line, str) else json.dumps(line)


def told_of(lines, *words):
    """The status of `pgpeer explain` on a script, and what it wrote to standard error."""
    script = "".join(f"{text_of(line)}\n" for line in lines).encode()
    done = subprocess.run([PROGRAM, "explain", *words], input=script, stdout=subprocess.DEVNULL, stderr=subprocess.PIPE, check=False)
    return done.returncode, done.stderr.decode()


@unittest.skipUnless(HAS_PROGRAM, "needs the built program")
class Told(unittest.TestCase):
    def test_each_line_says_what_is_wrong_and_where(self):
        for line, told in LINES:
            with self.subTest(told=told):
                self.assertEqual(told_of([line]), (0, f"line 1: {told}\n"))

    def test_each_line_of_version_3_says_so_too(self):
        for line, told in LINES_OF_VERSION_3:
            with self.subTest(told=told):
                self.assertEqual(told_of([line], "--format", "3"), (0, f"line 1: {told}\n"))
        self.assertEqual(told_of([inc(v=3, crush=[bucket(alg="straw2", weights=[1])])], "--format", "3"), (0, ""))

    def test_lines_are_numbered_as_they_stand(self):
        told = "".join(f"line {number}: {what}\n" for number, (_, what) in enumerate(SCRIPT, 1) if what)
        self.assertEqual(told_of(line for line, _ in SCRIPT), (0, told))

    def test_a_line_that_is_no_text_is_told(self):
        self.assertEqual(self.raw(b'{"op":"\xff"}\n'), (0, b"line 1: NotJson: the line is not JSON\n"))

    def test_a_good_line_is_not_told_of(self):
        self.assertEqual(told_of([inc(up=[0, 1, 2])]), (0, ""))

    def raw(self, script):
        done = subprocess.run([PROGRAM, "explain"], input=script, stdout=subprocess.DEVNULL, stderr=subprocess.PIPE, check=False)
        return done.returncode, done.stderr


if __name__ == "__main__":
    unittest.main()
