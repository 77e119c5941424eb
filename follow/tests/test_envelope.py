"""Tests of the envelope: what is cut out of a line, and what is refused."""

import json
import random
import unittest

import support  # noqa: F401
from pgpeer_follow import envelope
from pgpeer_follow.faults import NotYet
from pgpeer_follow.keys import LONGEST_LINE


def refused(line):
    try:
        envelope.read(line)
    except envelope.Refused as fault:
        return (fault.code, fault.name, fault.key)
    return None


class Reads(unittest.TestCase):
    def test_a_line_without_envelope_stays_as_it_is(self):
        for line in (b' { "op" : "ask", "pg":[1,0] }\r', b'{"op":"inc","op":"ask"}', b'{"a":"\\u0061","op":"close"}', "{\"op\":\"é\"}".encode()):
            self.assertEqual(envelope.read(line).line, line)

    def test_the_envelope_is_cut_out_and_all_else_stays_byte_for_byte(self):
        for told, line, after in (
            (b'{"after":7,"op":"ask","pg":[1, 0]}', b'{"op":"ask","pg":[1, 0]}', 7),
            (b'{"op":"ask", "after" : 7 ,"pg":[ 1,0],"x":-0}', b'{"op":"ask","pg":[ 1,0],"x":-0}', 7),
            (b'{"op":"locate","name":"\\u00e9\\ud800 \\"after\\":1","after":0}', b'{"op":"locate","name":"\\u00e9\\ud800 \\"after\\":1"}', 0),
            (b'{"after":1,"op":"ask","after":2}', b'{"op":"ask"}', 2),
            (b'{"\\u0061fter":3,"op":"ask"}', b'{"op":"ask"}', 3),
            (b'{"op":"ask","in":{"after":5,"token":"x"}}', b'{"op":"ask","in":{"after":5,"token":"x"}}', 0),
            (b'{"after":1}', b"{}", 1),
        ):
            request = envelope.read(told)
            self.assertEqual((request.line, request.after), (line, after))

    def test_in_an_incremental_of_version_3_it_is_the_epoch_of_a_map(self):
        for line in (b'{"op":"inc","v":3,"after":20,"epoch":30}', b'{"after":"x" , "v" : 3,"op":"inc"}', b'{"v":1,"op":"inc","after":1,"v":3,"after":2}'):
            request = envelope.read(line)
            self.assertEqual((request.line, request.after, request.is_entry()), (line, 0, True))
        request = envelope.read(b'{"op":"inc","v":3,"after":20,"token":"a","epoch":30}')
        self.assertEqual((request.line, request.after, request.token), (b'{"op":"inc","v":3,"after":20,"epoch":30}', 0, "a"))
        for line in (b'{"op":"ask","v":3,"after":7}', b'{"op":"inc","v":2,"after":7}', b'{"op":"inc","after":7}', b'{"op":"inc","v":3.0,"after":7}',
                     b'{"op":"inc","v":"3","after":7}', b'{"op":"inc","v":3,"v":1,"after":7}', b'{"op":"close","v":3,"after":7}'):
            self.assertEqual((envelope.read(line).line, envelope.read(line).after), (line.replace(b',"after":7', b""), 7), line)

    def test_a_token_belongs_to_entries(self):
        request = envelope.read(b'{"op":"close","token":"a.B-1_:"}')
        self.assertEqual((request.line, request.token, request.is_entry()), (b'{"op":"close"}', "a.B-1_:", True))
        line = b'{"op":"ask","token":"a"}'
        self.assertEqual((envelope.read(line).line, envelope.read(line).is_entry()), (line, False))

    def test_what_an_entry_is_goes_by_the_last_op(self):
        self.assertTrue(envelope.read(b'{"op":"ask","op":"inc"}').is_entry())
        self.assertTrue(envelope.read(b'{"\\u006fp":"inc"}').is_entry())
        self.assertFalse(envelope.read(b'{"op":"inc","op":"ask"}').is_entry())
        self.assertFalse(envelope.read(b'{"op":["inc"]}').is_entry())


class Refusals(unittest.TestCase):
    def test_no_json(self):
        lines = (b"{", b"x", b"{}x", b"\xff", b"\xef\xbb\xbf{}", b'{"a":}', b"{'a':1}", b'{"a":1,}', b'{"a" 1}', b'{,}', b'{"op":"ask"', b"[" * 50_000)
        for line in (*lines, b'{"a":' * 50_000, b'{"a":' + b"1" * 5000 + b"}", b'{"a":007}', b'{"op":"ask\n"}'):
            self.assertEqual(refused(line), (31, "NotJson", ""), line[:40])

    def test_no_object(self):
        for line in (b"[]", b"1", b'"op"', b" null", b'[{"op":"inc"}]'):
            self.assertEqual(refused(line), (32, "NoOp", ""))

    def test_keys_of_the_envelope(self):
        for value in (b"-1", b"1.0", b"1e0", b'"1"', b"true", b"null", b"[1]", b"-0", b"1000000000000001", b'"a:1"'):
            self.assertEqual(refused(b'{"op":"ask","after":' + value + b"}"), (34, "BadField", "after"), value)
        for value in (b"1", b'""', b'"a b"', b'"\\n"', b'"' + b"x" * 65 + b'"', b"null", '"é"'.encode()):
            self.assertEqual(refused(b'{"op":"inc","token":' + value + b"}"), (34, "BadField", "token"), value)

    def test_unknown_keys_of_the_follower_s_own_lines(self):
        self.assertEqual(refused(b'{"op":"health","z":1,"b":2}'), (33, "UnknownKey", "b"))
        self.assertEqual(refused(b'{"op":"health","token":"a"}'), (33, "UnknownKey", "token"))
        self.assertEqual(refused(b'{"op":"place","v":1}'), (33, "UnknownKey", "v"))
        self.assertEqual(refused(b'{"op":"place"}'), (34, "BadField", "token"))

    def test_a_line_over_the_bound(self):
        fits = b'{"op":"close","x":"' + b"y" * (LONGEST_LINE - 21) + b'"}'
        self.assertEqual(len(envelope.read(fits).line), LONGEST_LINE)
        self.assertEqual(len(envelope.read(fits[:-1] + b',"after":1}').line), LONGEST_LINE)
        self.assertEqual(refused(fits[:-2] + b'z"}'), (30, "LineTooLong", ""))
        self.assertEqual(refused(b"x" * (LONGEST_LINE + envelope.MOST_ENVELOPE + 1)), (30, "LineTooLong", ""))


class Hostile(unittest.TestCase):
    LINE = b'{"op":"info","pg":[1,0],"after":12,"from":[2,0],"token":"a-1","name":"\\u00e9\\"","x":{"y":[1,2.5e3,null]}}'

    def judged(self, line):
        """A line is read or refused, and what is read is an object without the envelope."""
        try:
            request = envelope.read(line)
        except envelope.Refused as fault:
            self.assertIn(fault.code, (30, 31, 32, 33, 34))
            return
        whole, left = (json.loads(it, object_pairs_hook=list) for it in (line, request.line))
        names_its_map = request.op == "inc" and type(dict(whole).get("v")) is int and dict(whole)["v"] == 3
        is_own = lambda key: key == "after" and not names_its_map or key == "token" and (request.is_entry() or request.op == "place")
        self.assertEqual(json.dumps(left), json.dumps([it for it in whole if not is_own(it[0])]))

    def test_cut_after_each_byte(self):
        for at in range(len(self.LINE)):
            self.judged(self.LINE[:at])
            self.judged(self.LINE[at:])

    def test_random_changes(self):
        rng = random.Random(1)
        for _ in range(20_000):
            line = bytearray(rng.choice((self.LINE, b'{"op":"inc","v":3,"after":12,"token":"a-1","epoch":30,"up":[1, 2]}')))
            for _ in range(rng.choice((1, 1, 2, 5))):
                at = rng.randrange(len(line))
                what = rng.random()
                if what < 0.5:
                    line[at] = rng.choice(b'{}[]",:\\ 0-9aeu\x00\xff')
                elif what < 0.8:
                    del line[at]
                else:
                    begin = rng.randrange(len(line))
                    line[at:at] = line[begin : begin + rng.randrange(20)]
            self.judged(bytes(line).replace(b"\n", b" "))

    def test_random_bytes(self):
        rng = random.Random(2)
        for _ in range(5_000):
            self.judged(bytes(rng.choice(b'{}[]",:\\ \t01-.eopafterinc\x00\xc3\xa9') for _ in range(rng.randrange(40))))


class Answers(unittest.TestCase):
    def test_an_answer_is_the_program_s_behind_the_envelope(self):
        for age, said in ((None, b'{"at":7,"ok":"ask"}'), (4, b'{"age":4,"at":7,"ok":"ask"}')):
            reply = envelope.answer_of(7, age, b'{"ok":"ask"}')
            self.assertEqual(reply, said)
            self.assertEqual(envelope.split(reply), (7, age, b'{"ok":"ask"}'))

    def test_a_fault(self):
        self.assertEqual(json.loads(envelope.fault_of(3, 9, NotYet("late", token="a"))), {"at": 3, "age": 9, "code": 80, "refused": "NotYet", "says": "late", "token": "a"})

    def test_a_key_that_is_no_text_is_told_all_the_same(self):
        json.loads(envelope.compact({"key": "\ud800"}))


if __name__ == "__main__":
    unittest.main()
