"""Tests of the log in etcd: which one it is, and how places are claimed."""

import unittest

import support
from fake_etcd import FakeGateway, Store, lost
from pgpeer_follow import gateway
from pgpeer_follow.faults import NoLog, TwoLogs, Unavailable, Unsure
from pgpeer_follow.keys import MARK, Keys, entry_of, value_of
from pgpeer_follow.log import Log, join


class WithLog(unittest.TestCase):
    def setUp(self):
        self.store = Store()
        self.etcd = FakeGateway(self.store)
        self.keys = Keys("/pgpeer/")

    def made(self):
        return Log(self.keys, join(self.keys, self.etcd, may_make=True), self.etcd)


class Joins(WithLog):
    def test_no_log_is_made_unless_it_is_wanted(self):
        with self.assertRaises(NoLog):
            join(self.keys, self.etcd)
        made = join(self.keys, self.etcd, may_make=True)
        self.assertEqual(join(self.keys, self.etcd), made)
        self.assertEqual(join(self.keys, self.etcd, wanted=made.log), made)

    def test_another_log_than_the_one_that_is_meant(self):
        self.made()
        with self.assertRaises(TwoLogs):
            join(self.keys, self.etcd, wanted="0" * 32)

    def test_keys_of_another_under_the_prefix(self):
        self.etcd.transaction([], [gateway.put(b"/pgpeer/other", b"")])
        with self.assertRaises(TwoLogs):
            join(self.keys, self.etcd, may_make=True)

    def test_a_log_within_a_log_isn_t_made_either_way(self):
        self.made()
        for prefix in ("/pgpeer/inner/", "/"):
            with self.assertRaises(TwoLogs):
                join(Keys(prefix), self.etcd, may_make=True)

    def test_an_identity_of_another_version(self):
        self.etcd.transaction([], [gateway.put(self.keys.identity, b'{"format":2,"log":"a"}')])
        with self.assertRaises(TwoLogs):
            join(self.keys, self.etcd)

    def test_a_making_whose_answer_is_lost(self):
        lost(self.store)
        join(self.keys, self.etcd, may_make=True)

    def test_prefixes(self):
        self.assertEqual(Keys("/a/b").top, b"/a/b/")
        self.assertEqual(Keys("/a/b/").outer_identities(), [b"/id", b"/a/id"])
        for prefix in ("", "a", "/a b", "/" + "x" * 300):
            with self.assertRaises(ValueError):
                Keys(prefix)


class Appends(WithLog):
    def test_places_follow_one_another(self):
        log = self.made()
        self.assertIsNone(log.append(0, [value_of("a", b"{}"), value_of("b", b"[]")]))
        self.assertIsNone(log.append(2, [MARK]))
        page = log.page(0)
        self.assertEqual([(it.place, it.token, it.line, it.is_mark) for it in page.entries], [(1, "a", b"{}", False), (2, "b", b"[]", False), (3, "", b"", True)])
        self.assertEqual((page.head, log.head(), log.page(2).entries[0].place), (3, 3, 3))

    def test_a_place_is_claimed_once(self):
        log = self.made()
        self.assertIsNone(log.append(0, [value_of("a", b"{}")]))
        self.assertEqual(log.append(0, [value_of("b", b"{}")]), 1)
        self.assertEqual(len(log.page(0).entries), 1)

    def test_a_place_that_was_deleted_isn_t_claimed_again(self):
        log = self.made()
        for at in range(5):
            log.append(at, [value_of(f"t{at}", b"{}")])
        self.etcd.transaction([], [gateway.delete(self.keys.place(0), self.keys.place(4))])
        self.assertEqual(log.append(1, [value_of("late", b"{}")]), 5)
        self.assertEqual(log.page(0).entries[0].place, 4)

    def test_an_append_whose_answer_is_lost_stands(self):
        log = self.made()
        lost(self.store)
        with self.assertRaises(Unsure):
            log.append(0, [value_of("a", b"{}")])
        self.assertEqual(log.append(0, [value_of("a", b"{}")]), 1)

    def test_a_log_that_was_made_anew_isn_t_appended_to(self):
        log = self.made()
        self.etcd.transaction([], [gateway.delete(self.keys.top, self.keys.top_end)])
        join(self.keys, self.etcd, may_make=True)
        for act in (lambda: log.append(0, [MARK]), log.head, lambda: log.page(0)):
            with self.assertRaises(TwoLogs):
                act()

    def test_a_place_behind_the_head(self):
        log = self.made()
        self.etcd.transaction([], [gateway.put(self.keys.place(1), value_of("x", b"{}"))])
        with self.assertRaises(TwoLogs):
            log.append(0, [MARK])

    def test_a_place_that_was_written_twice(self):
        log = self.made()
        log.append(0, [MARK])
        self.etcd.transaction([], [gateway.put(self.keys.place(1), value_of("x", b"{}"))])
        with self.assertRaises(TwoLogs):
            log.page(0)

    def test_a_fence_that_doesn_t_hold(self):
        log = self.made()
        self.assertEqual(log.append(0, [MARK], gateway.was_created(self.keys.leader, 7)), 0)
        self.assertEqual(log.head(), 0)

    def test_pages_grow_smaller_where_lines_are_long_or_etcd_is_slow(self):
        log = self.made()
        for at in range(5):
            log.append(at, [value_of(f"t{at}", b"x" * 1_000_000)])
        log.page(0)
        self.assertEqual(log.limit, 32)
        self.store.faults.append(Unavailable())
        with self.assertRaises(Unavailable):
            log.page(0)
        self.assertEqual(log.limit, 8)


class Entries(unittest.TestCase):
    def test_what_can_t_be_read_is_a_place_without_a_line(self):
        for value in (b"", b"line a", b"line a\n", b"line a\n \t\r", b"line a\nb\nc", b"line \n{}", b"line a b\n{}", b"other a\n{}", b"compact", b"line a\n" + b"x" * 1_048_577):
            entry = entry_of(4, value)
            self.assertEqual((entry.place, entry.line, entry.token, entry.is_mark), (4, b"", "", False), value[:20])

    def test_any_other_bytes_are_a_line(self):
        for line in (b"{}", b"\xff\x00", b" x", b"x" * 1_048_576):
            self.assertEqual(entry_of(1, value_of("a", line)).line, line)

    def test_keys_of_places(self):
        keys = Keys("/a/")
        self.assertEqual(keys.place_of(keys.place(12)), 12)
        for key in (b"/a/log/12", b"/a/log/x", b"/a/id", b"/b/log/0000000000000012"):
            self.assertIsNone(keys.place_of(key))


if __name__ == "__main__":
    unittest.main()
