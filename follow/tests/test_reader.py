"""Tests of reading: what is missed, deleted or written twice."""

import threading
import unittest

from support import wait_until
from fake_etcd import WithLog
from pgpeer_follow import gateway, snapshot
from pgpeer_follow.election import Election
from pgpeer_follow.faults import NotYet, TwoLogs, Unavailable
from pgpeer_follow.gateway import Item
from pgpeer_follow.keeper import Keeper
from pgpeer_follow.keys import value_of
from pgpeer_follow.reader import Behind, Reader
from pgpeer_follow.snapshot import Snapshot


class FakeReplica:
    def __init__(self):
        self.place, self.base, self.applied = 0, Snapshot(0, (), ()), []

    def apply(self, entries):
        for it in entries:
            self.applied.append(it.place)
            self.place = it.place
            if it.is_mark:
                self.base = Snapshot(it.place, (b"{}",), ())

    def start_over(self, made):
        self.base, self.place = made, made.place

    def wait(self, place, until):
        if self.place < place:
            raise NotYet()


class WithReader(WithLog):
    def setUp(self):
        super().setUp()
        self.replica = FakeReplica()
        self.reader = Reader(self.keys, self.replica)

    def append(self, count):
        head = self.log.head()
        self.assertIsNone(self.log.append(head, [value_of(f"t{head + at}", b"{}") for at in range(count)]))

    def item(self, place, version=1):
        return Item(self.keys.place(place), value_of("a", b"{}"), 1, 1, version)


class Reads(WithReader):
    def test_the_log_is_read_to_its_end(self):
        self.append(100)
        self.append(50)
        self.reader.catch_up(self.log)
        self.assertEqual(self.replica.applied, list(range(1, 151)))

    def test_places_that_were_deleted(self):
        self.append(10)
        for first, last in ((1, 5), (1, 11)):
            self.etcd.transaction([], [gateway.delete(self.keys.place(first), self.keys.place(last))])
            with self.assertRaises(Behind):
                self.reader.catch_up(self.log)
        self.assertEqual(self.replica.applied, [])

    def test_a_log_that_went_back(self):
        self.append(3)
        self.replica.place = 5
        with self.assertRaises(TwoLogs):
            self.reader.catch_up(self.log)

    def test_what_a_watch_brings(self):
        self.replica.place = 4
        self.assertEqual([it.place for it in self.reader.next_of([self.item(3), self.item(5), self.item(5), self.item(6)])], [5, 6])
        self.assertIsNone(self.reader.next_of([self.item(5), self.item(7)]))
        for item in (self.item(5, version=2), Item(b"/pgpeer/log/x", b"", 1, 1, 1)):
            with self.assertRaises(TwoLogs):
                self.reader.next_of([item])

    def test_who_is_behind_starts_over_from_the_latest_snapshot(self):
        self.reader.start_over(self.snapshots, self.fail)
        self.assertEqual(self.replica.place, 0)
        election = Election(self.keys, self.identity, self.etcd, "a", 9)
        election.leads()
        for place in (3, 7):
            self.snapshots.store(Snapshot(place, (b"{}",), ()), election.fence())
        self.reader.start_over(self.snapshots, self.fail)
        self.assertEqual((self.replica.place, self.reader.starts_over), (7, 1))

    def test_a_log_that_lacks_a_place_for_long_is_none(self):
        self.reader.behind_since = -100.0
        found = []
        self.reader.start_over(self.snapshots, found.append)
        self.assertEqual([type(it) for it in found], [TwoLogs])


class Keeps(WithReader):
    def setUp(self):
        super().setUp()
        self.keeper = Keeper(self.replica, 10)
        self.election = Election(self.keys, self.identity, self.etcd, "a", 9)
        self.election.leads()

    def look(self, is_clean=True):
        self.reader.catch_up(self.log)
        is_clean = self.keeper.look(self.election, self.log, self.snapshots, is_clean)
        self.reader.catch_up(self.log)
        return is_clean

    def test_marks_snapshots_and_what_is_deleted(self):
        for count, wanted in ((9, []), (1, []), (0, [11]), (10, [11]), (0, [11, 22]), (10, [11, 22]), (0, [22, 33])):
            self.append(count) if count else None
            self.look()
            self.assertEqual([it.place for it in self.snapshots.manifests()], wanted)
        self.assertEqual(self.log.page(22).entries[0].place, 23)
        self.assertEqual(self.log.page(0).entries[0].place, 23)

    def test_a_snapshot_that_a_leader_before_didn_t_make_is_made(self):
        self.append(10)
        self.look()
        self.assertEqual(self.snapshots.manifests(), [])
        self.look(is_clean=False)
        self.assertEqual([it.place for it in self.snapshots.manifests()], [11])
        self.look(is_clean=False)
        self.assertEqual(self.keeper.made, 1)

    def test_a_mark_is_put_though_others_are_faster(self):
        self.append(10)
        self.reader.catch_up(self.log)
        real = self.replica.wait
        self.replica.wait = lambda place, until: (self.reader.catch_up(self.log), real(place, until))
        self.store.before = lambda: self.append(3)
        self.keeper.mark(10, self.election, self.log)
        self.assertEqual(self.replica.base.place, 14)

    def test_a_mark_that_takes_its_time_is_put_once(self):
        self.append(10)
        self.reader.catch_up(self.log)
        self.keeper.mark(10, self.election, self.log)
        self.assertEqual((self.log.head(), self.replica.place), (11, 10))
        real = self.replica.wait
        self.replica.wait = lambda place, until: (self.reader.catch_up(self.log), real(place, until))
        self.keeper.mark(10, self.election, self.log)
        self.assertEqual((self.log.head(), self.replica.base.place), (11, 11))

    def test_who_is_deposed_puts_no_mark(self):
        self.append(10)
        self.etcd.revoke(self.election.lease)
        with self.assertRaises(snapshot.Deposed):
            self.look()
        self.assertEqual(self.log.head(), 10)

    def test_the_thread_goes_on_after_faults_and_resigns(self):
        self.append(10)
        self.reader.catch_up(self.log)
        self.store.faults += [Unavailable(), Unavailable()]
        act = threading.Thread(target=self.keeper.run, args=(self.election, self.log, self.snapshots, self.fail), daemon=True)
        act.start()
        wait_until(lambda: not self.store.faults)
        wait_until(lambda: self.log.head() == 11)
        self.keeper.stopping.set()
        act.join(10)
        self.assertEqual((act.is_alive(), self.store.leases), (False, {}))


if __name__ == "__main__":
    unittest.main()
