"""Tests of lines.py."""

import json
import pathlib
import sys
import unittest

sys.path.insert(0, str(pathlib.Path(__file__).resolve().parent.parent))

import lines  # noqa: E402


def fault(line, last=2):
    """The code of a line's fault and the key that it names; None where it is a command."""
    found = lines.read(line, last)
    return (found.code, found.key) if isinstance(found, lines.Fault) else None


class Json(unittest.TestCase):
    def test_what_is_no_json(self):
        for line in (b"{", b"nul", b"NaN", b"[Infinity]", b"01", b"1.", b"'a'", b"[1,]", b"1 2"):
            self.assertEqual(fault(line), (31, None), line)
        for line in (b"\xff", b'"\xed\xa0\x80"', b'"\x01"', b"\xef\xbb\xbf1"):
            self.assertEqual(fault(line), (31, None), line)

    def test_numbers_beyond_a_float_are_no_json(self):
        for line in (b"1e400", b"-1e400", b"9" * 330, b"1" + b"0" * 400 + b".5"):
            self.assertEqual(fault(line), (31, None), line)
        for line in (b"1e308", b"9" * 300, b"9" * 20, b"1e-999", b"0e999"):
            self.assertEqual(fault(line), (32, None), line)

    def test_halves_of_surrogate_pairs_are_no_json(self):
        for line in (rb'"\ud800"', rb'"\udc00"', rb'"\ud800\ud800"', rb'{"a":"\udfff","a":1}', rb'"\\\ud800"'):
            self.assertEqual(fault(line), (31, None), line)
        for line in (rb'"\ud83d\ude00"', rb'"\\ud800"', rb'"\u0000"'):
            self.assertEqual(fault(line), (32, None), line)

    def test_nesting(self):
        self.assertEqual(fault(b"[" * 127 + b"]" * 127), (32, None))
        self.assertEqual(fault(b"[" * 128 + b"]" * 128), (31, None))
        self.assertEqual(fault(b'["' + b"[" * 200 + b'"]'), (32, None))
        self.assertEqual(fault(b"[" * 100_000), (31, None))


class Order(unittest.TestCase):
    def test_length_comes_first(self):
        self.assertEqual(fault(b"x" * 1_048_577), (30, None))
        self.assertEqual(fault(b"x" * 1_048_576), (31, None))
        self.assertIsNone(fault(b'{"op":"close"}' + b" " * (1_048_576 - 14)))

    def test_no_operation(self):
        for line in (b"[]", b"{}", b'{"op":"peer","x":1}', b'{"op":["ask"]}', b'{"op":"ask","op":1}'):
            self.assertEqual(fault(line), (32, None), line)

    def test_an_unknown_key_comes_before_a_bad_value(self):
        self.assertEqual(fault(b'{"op":"ask","pg":0,"z":1,"x":1}'), (33, "x"))
        self.assertEqual(fault('{"op":"close","é":1,"zz":1}'.encode()), (33, "zz"))

    def test_the_least_bad_key_is_named(self):
        self.assertEqual(fault(b'{"op":"inc","up":[4096]}'), (34, "epoch"))
        self.assertEqual(fault(b'{"op":"inc","up":[4096],"epoch":1,"weight":0}'), (34, "up"))
        self.assertEqual(fault(b'{"op":"trace","epochs":[],"code":0}'), (34, "code"))

    def test_blank_lines(self):
        self.assertTrue(lines.is_blank(b" \t\r") and lines.is_blank(b""))
        self.assertFalse(lines.is_blank(b"\x0b") or lines.is_blank(b"\x00"))


class Versions(unittest.TestCase):
    POOL = '{"id":1,"pg_num":1,"size":3,"min_size":1,"leaf":0,"kind":"grouped","groups":%s}'
    INC = '{"op":"inc","epoch":1,%s"pools":[' + POOL + "]}"
    TRACE = '{"op":"trace",%s"code":{"kind":"grouped","groups":%s},"epochs":[%s]}'
    EPOCH = '{"up":[null],"acting":[0],"size":1,"min_size":1,"up_from":0,"up_thru":0}'

    def test_numbers(self):
        for op in (b'"close"', b'"ask","pg":[1,0]', b'"locate","pool":1,"name":"a"', b'"inc","epoch":1'):
            for number in (b"1", b"2"):
                self.assertIsNone(fault(b'{"op":' + op + b',"v":' + number + b"}"))
            for number in (b"0", b"3", b"-1", b'"1"', b"1.0", b"-0", b"2e0", b"true", b"null", b"[2]"):
                self.assertEqual(fault(b'{"op":' + op + b',"v":' + number + b"}"), (34, "v"), number)

    def test_grouped_pools_are_of_version_two(self):
        for version, wanted in (('"v":2,', None), ("", "pools"), ('"v":1,', "pools"), ('"v":3,', "v"), ('"v":2.0,', "v")):
            found = fault((self.INC % (version, "[[[0],1]]")).encode())
            self.assertEqual(found, wanted and (34, wanted), version)

    def test_the_least_bad_key_is_named_and_a_bad_version_is_read_as_two(self):
        self.assertEqual(fault((self.INC % ('"v":3,"weight":0,', "[[[0],1]]")).encode()), (34, "v"))
        self.assertEqual(fault((self.INC % ('"v":3,"temp":0,', "[[[0],1]]")).encode()), (34, "temp"))
        self.assertEqual(fault((self.INC % ('"v":3,', "0")).encode()), (34, "pools"))
        self.assertEqual(fault(b'{"op":"close","v":3,"x":1}'), (33, "x"))
        self.assertEqual(fault((self.TRACE % ('"v":3,', "[[[0],1]]", "")).encode()), (34, "epochs"))
        self.assertEqual(fault((self.TRACE % ('"v":3,', "[[[0],1]]", self.EPOCH)).encode()), (34, "v"))

    def test_shapes_of_parts(self):
        for groups in ("[]", "[[[],0]]", "[[[0,0],255]]", json.dumps([[[0] * 16, 1]] * 16)):
            self.assertIsNone(fault((self.INC % ('"v":2,', groups)).encode()), groups)
        for groups in ("0", "[0]", "[[[0]]]", "[[[0],1,1]]", "[[[16],1]]", "[[[null],1]]", "[[[0],256]]", "[[[0],1.0]]"):
            self.assertEqual(fault((self.INC % ('"v":2,', groups)).encode()), (34, "pools"), groups)
        for groups in ([[[0] * 17, 1]], [[[0], 1]] * 17):
            self.assertEqual(fault((self.INC % ('"v":2,', json.dumps(groups))).encode()), (34, "pools"), groups)

    def test_keys_of_pools_go_by_their_kind(self):
        line = self.INC % ('"v":2,', "[[[0],1]]")
        changes = ('"grouped"', '"replicated"'), ('"grouped"', '"erasure"'), ('"groups"', '"k"'), ('"leaf":0', '"leaf":0,"k":1')
        for old, new in changes:
            self.assertEqual(fault(line.replace(old, new).encode()), (34, "pools"), (old, new))

    def test_parts_of_a_trace(self):
        for groups in ([[[0], 1]], [[[15, 3], 2]], [[[slot], 1] for slot in range(16)], [[list(range(16)), 16]]):
            self.assertIsNone(fault((self.TRACE % ('"v":2,', json.dumps(groups), self.EPOCH)).encode()), groups)
            self.assertEqual(fault((self.TRACE % ("", json.dumps(groups), self.EPOCH)).encode()), (34, "code"), groups)
        for groups in ([], [[[], 0]], [[[], 1]], [[[0], 0]], [[[0], 2]], [[[0, 0], 1]], [[[0], 1], [[1, 0], 1]], [[[16], 1]]):
            self.assertEqual(fault((self.TRACE % ('"v":2,', json.dumps(groups), self.EPOCH)).encode()), (34, "code"), groups)

    def test_clean_epochs(self):
        info = (
            '{"op":"info","pg":[1,0],"from":[0,0],"stamp":1,"les":0,"history_les":0,"last_update":[0,0],"log_tail":[0,0],'
            '"complete":true,"last_epoch_clean":%s}'
        )
        for epoch in ("0", "4294967295"):
            self.assertIsNone(fault((info % epoch).encode()))
        for epoch in ("-1", "4294967296", "1.0", "null", '"1"'):
            self.assertEqual(fault((info % epoch).encode()), (34, "last_epoch_clean"), epoch)
        self.assertEqual(fault(b'{"op":"entries","last_epoch_clean":0}'), (33, "last_epoch_clean"))


class VersionThree(unittest.TestCase):
    TREE = '{"op":"inc",%s"epoch":1,"crush":[{"id":-1,"type":1,"alg":"straw2","items":[0,1],"weights":[0,1]}]}'

    def test_it_is_read_on_request_alone(self):
        close = b'{"op":"close","v":3}'
        self.assertEqual((fault(close), fault(close, 3)), ((34, "v"), None))
        self.assertEqual((fault(b'{"op":"close","v":4}', 3), fault(b'{"op":"close","v":2}', 3)), ((34, "v"), None))

    def test_it_alone_has_straw2_buckets(self):
        tree = (self.TREE % '"v":3,').encode()
        self.assertEqual((fault(tree), fault(tree, 3)), ((34, "crush"), None))
        for version in ("", '"v":1,', '"v":2,'):
            self.assertEqual(fault((self.TREE % version).encode(), 3), (34, "crush"), version)
        self.assertEqual(fault((self.TREE % '"v":4,').encode(), 3), (34, "v"))
        self.assertEqual(fault(tree.replace(b"[0,1]}", b"[0]}"), 3), (34, "crush"))

    def test_it_alone_has_after(self):
        line = b'{"op":"inc",%s"epoch":2,"after":%s}'
        self.assertEqual((fault(line % (b'"v":3,', b"1")), fault(line % (b'"v":3,', b"1"), 3)), ((33, "after"), None))
        for version in (b"", b'"v":1,', b'"v":2,'):
            self.assertEqual(fault(line % (version, b"1"), 3), (33, "after"), version)
        self.assertEqual(fault(line % (b'"v":4,', b"1"), 3), (34, "v"))
        for number in (b"-1", b"4294967296", b"1.0", b"null", b'"1"'):
            self.assertEqual(fault(line % (b'"v":3,', number), 3), (34, "after"), number)
        self.assertEqual(fault(b'{"op":"inc","v":3,"crush":0,"after":null}', 3), (34, "after"))
        for op in (b'"close"', b'"ask","pg":[1,0]'):
            self.assertEqual(fault(b'{"op":' + op + b',"v":3,"after":1}', 3), (33, "after"), op)


class Shapes(unittest.TestCase):
    def test_whole_numbers(self):
        for number in (b"-0", b"1.0", b"1e0", b"-1", b"4294967296", b"true", b"null", b'"1"'):
            self.assertEqual(fault(b'{"op":"inc","epoch":' + number + b"}"), (34, "epoch"), number)
        self.assertIsNone(fault(b'{"op":"inc","epoch":4294967295}'))

    def test_buckets(self):
        head = b'{"op":"inc","epoch":1,"crush":[{"id":-1,"type":1,"alg":'
        self.assertIsNone(fault(head + b'"uniform","items":[65535,-65536]}]}'))
        self.assertIsNone(fault(head + b'"list","items":[1],"weights":[0]}]}'))
        for tail in (b'"uniform","items":[1],"weights":[0]}]}', b'"list","items":[1],"weights":[]}]}', b'"list","items":[1]}]}'):
            self.assertEqual(fault(head + tail), (34, "crush"), tail)
        for tail in (b'"straw","items":[]}]}', b'"uniform","items":[65536]}]}'):
            self.assertEqual(fault(head + tail), (34, "crush"), tail)

    def test_empty_places_of_a_trace(self):
        epoch = b'{"up":[null],"acting":[],"size":1,"min_size":1,"up_from":0,"up_thru":0}'
        self.assertEqual(fault(b'{"op":"trace","code":{"kind":"replicated"},"epochs":[' + epoch + b"]}"), (34, "epochs"))
        self.assertIsNone(fault(b'{"op":"trace","code":{"kind":"erasure","k":1},"epochs":[' + epoch + b"]}"))

    def test_names_count_bytes(self):
        for name, is_well in (("é" * 127, True), ("é" * 128, False), ("", False), ("x" * 255, True), (r"\u0061", True)):
            self.assertEqual(fault(f'{{"op":"locate","pool":1,"name":"{name}"}}'.encode()), None if is_well else (34, "name"))


if __name__ == "__main__":
    unittest.main()
