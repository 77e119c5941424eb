"""Tests of appending: a line stands once, whatever becomes of transactions."""

import threading
import unittest

import support
from fake_etcd import FakeGateway, WithLog, lost
from pgpeer_follow.appender import Appender
from pgpeer_follow.faults import Busy, NotYet, TokenUsed, TwoLogs, Unanswered, Unavailable, Unsure, WrongCluster
from pgpeer_follow.keys import digest_of, value_of
from pgpeer_follow.log import Log
from pgpeer_follow.tokens import Tokens


class FakeReplica:
    """Reads the log when it is waited for, and answers each line by its place."""

    def __init__(self, log, heard):
        self.log, self.heard = log, heard
        self.place, self.tokens = 0, Tokens()
        self.is_slow = False

    def wait(self, place, until):
        if self.is_slow:
            raise NotYet()
        for entry in self.log.page(self.place).entries:
            self.tokens.note(entry.token, entry.place, digest_of(entry.line))
            self.place = entry.place
            known = self.tokens.get(entry.token)
            known.answer = b'{"place":%d}' % entry.place
            self.heard(known)


class WithAppender(WithLog):
    def setUp(self):
        super().setUp()
        self.appender = Appender(60.0)
        self.replica = FakeReplica(self.log_of_another(), self.appender.heard)
        self.broken = []

    def begin(self):
        threading.Thread(target=self.appender.run, args=(self.log, self.replica, self.broken.append), daemon=True).start()
        self.addCleanup(self.appender.stop)

    def stands(self):
        log, found = self.log_of_another(), []
        while len(found) < log.head():
            found += [(it.place, it.token, it.line) for it in log.page(len(found)).entries]
        return found

    def log_of_another(self):
        return Log(self.log.keys, self.log.identity, FakeGateway(self.store))

    def told(self, *pairs):
        """The places of lines that are told one after the other before any is waited for."""
        made = [self.appender.submit(token, line) for token, line in pairs]
        self.begin()
        for it in made:
            self.appender.wait(it)
        return [it.place for it in made]


class Appends(WithAppender):
    def test_lines_stand_in_their_order(self):
        self.assertEqual(self.told(*((f"t{at}", b"%d" % at) for at in range(250))), list(range(1, 251)))
        self.assertEqual([line for _, _, line in self.stands()], [b"%d" % at for at in range(250)])
        self.assertEqual((self.appender.waiting, self.appender.bytes), ({}, 0))

    def test_long_lines_go_alone(self):
        self.assertEqual(self.told(*((f"t{at}", b"x" * 900_000) for at in range(3))), [1, 2, 3])

    def test_another_follower_is_faster(self):
        self.store.before = lambda: self.log_of_another().append(0, [value_of("other", b"{}")])
        self.assertEqual(self.told(("a", b"{}")), [2])

    def test_another_follower_is_faster_with_the_same_line(self):
        self.store.before = lambda: self.log_of_another().append(0, [value_of("a", b"{}")])
        self.assertEqual(self.told(("a", b"{}")), [1])
        self.assertEqual(len(self.stands()), 1)

    def test_the_same_line_comes_by_another_follower_before_it_is_looked_for(self):
        """Between the look at the last place and that at the tokens the line is read: it must not stand once more."""
        line = self.appender.submit("a", b"{}")
        self.log_of_another().append(0, [value_of("a", b"{}")])
        real = self.replica.tokens.get
        self.replica.tokens.get = lambda token: (self.replica.wait(1, 0), real(token))[1]
        self.begin()
        self.appender.wait(line)
        self.assertEqual((line.place, len(self.stands())), (1, 1))

    def test_an_answer_that_is_lost(self):
        lost(self.store)
        self.assertEqual(self.told(("a", b"{}"), ("b", b"[]")), [1, 2])
        self.assertEqual(len(self.stands()), 2)

    def test_etcd_is_away_for_a_while(self):
        self.store.faults += [Unavailable(), Unsure(), Unavailable()]
        self.assertEqual(self.told(("a", b"{}")), [1])

    def test_a_line_that_is_told_twice_stands_once(self):
        self.assertEqual(self.told(("a", b"{}"), ("a", b"{}"), ("b", b"{}")), [1, 1, 2])
        self.assertEqual(self.told(("a", b"{}")), [1])
        self.assertEqual(len(self.stands()), 2)

    def test_a_token_with_another_line(self):
        self.told(("a", b"{}"))
        with self.assertRaises(TokenUsed) as caught:
            self.told(("a", b"[]"))
        self.assertEqual(caught.exception.more["place"], 1)


class Refusals(WithAppender):
    def setUp(self):
        super().setUp()
        self.appender.seconds = 1.5

    def test_nothing_was_written(self):
        self.store.faults += [Unavailable("gone")] * 100
        with self.assertRaises(Unavailable):
            self.told(("a", b"{}"))
        self.store.faults.clear()
        self.assertEqual(self.told(("b", b"{}")), [1])
        self.assertEqual([token for _, token, _ in self.stands()], ["b"])

    def test_another_cluster_answers(self):
        self.store.faults += [WrongCluster("other")] * 100
        with self.assertRaises(WrongCluster):
            self.told(("a", b"{}"))

    def test_it_isn_t_known_whether_it_stands(self):
        self.store.faults += [Unavailable(), Unsure(), *([Unavailable()] * 100)]
        with self.assertRaises(Unsure) as caught:
            self.told(("a", b"{}"))
        self.assertEqual(caught.exception.more, {"token": "a"})

    def test_it_stands_and_its_answer_is_late(self):
        self.replica.is_slow = True
        with self.assertRaises(Unanswered) as caught:
            self.told(("a", b"{}"))
        self.assertEqual(caught.exception.more["place"], 1)
        self.replica.is_slow = False
        self.assertEqual(self.told(("a", b"{}")), [1])

    def test_a_fault_of_the_log_is_told_to_all(self):
        self.store.faults.append(TwoLogs("two"))
        with self.assertRaises(TwoLogs):
            self.told(("a", b"{}"))
        self.assertEqual([type(it) for it in self.broken], [TwoLogs])

    def test_too_many_lines(self):
        for at in range(100):
            self.appender.submit(f"t{at}", b"x" * 600_000)
        with self.assertRaises(Busy):
            for at in range(100):
                self.appender.submit(f"u{at}", b"x" * 600_000)


class TokensTest(unittest.TestCase):
    def test_the_last_places_are_known(self):
        tokens = Tokens(window=3)
        for place in (1, 2, 4, 5):
            tokens.note(f"t{place}", place, "")
        self.assertEqual([it.token for it in tokens.all(5)], ["t4", "t5"])
        self.assertEqual([tokens.get(f"t{place}") is not None for place in (1, 2, 4, 5)], [False, False, True, True])
        self.assertEqual([it.token for it in tokens.all(7)], ["t5"])

    def test_a_token_has_its_first_place(self):
        tokens = Tokens()
        tokens.note("a", 1, "x")
        tokens.note("a", 2, "y")
        self.assertEqual((tokens.get("a").place, tokens.get("a").digest), (1, "x"))


if __name__ == "__main__":
    unittest.main()
