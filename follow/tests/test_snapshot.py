"""Tests of snapshots: pieces, manifests, what is deleted, and who may do it."""

import random
import unittest
import zlib

import support
from fake_etcd import FakeGateway, WithLog, lost
from pgpeer_follow import gateway, snapshot
from pgpeer_follow.election import Election
from pgpeer_follow.faults import Unavailable, Unsure
from pgpeer_follow.keys import value_of
from pgpeer_follow.snapshot import Broken, Deposed, Snapshot
from pgpeer_follow.tokens import Known


def random_lines(count, size):
    rng = random.Random(1)
    return tuple(rng.randbytes(size).replace(b"\n", b".") for _ in range(count))


class WithStore(WithLog):
    def setUp(self):
        super().setUp()
        self.election = self.candidate("a")
        self.assertTrue(self.election.leads())
        self.fence = self.election.fence()

    def candidate(self, name):
        return Election(self.keys, self.identity, FakeGateway(self.store), name, 9)

    def of(self, place, lines=(b"{}",)):
        return Snapshot(place, tuple(lines), (Known("t", place, "d", b'{"ok":"\xc3\xa9"}'),))

    def keys_under(self, top):
        return sorted(it for it in self.store.items if it.startswith(top))


class Snapshots(WithStore):
    def test_packed_and_unpacked(self):
        for lines in ((), (b"{}",), (b"\xff", b' {"a":1}\r', b"x" * 1_000_000)):
            self.assertEqual(snapshot.unpacked(snapshot.packed(self.of(3, lines))), self.of(3, lines))
        for text in (b"", b"x", snapshot.packed(self.of(3))[:-2], zlib.compress(b"{}\n"), zlib.compress(b'{"tokens":0,"lines":1,"place":1}\n')):
            with self.assertRaises(Broken):
                snapshot.unpacked(text)

    def test_a_large_one_lies_in_pieces_under_the_bound_of_a_request(self):
        large = self.of(5, random_lines(30, 60_000))
        made = self.snapshots.store(large, self.fence)
        self.assertGreater(made.pieces, 2)
        self.assertLessEqual(max(len(it.value) for it in self.store.items.values()), 512 * 1024)
        self.assertEqual(self.snapshots.latest(0), large)

    def test_the_lease_is_kept_meanwhile(self):
        kept = []
        made = self.snapshots.store(self.of(5, random_lines(30, 60_000)), self.fence, lambda: kept.append(1))
        self.assertEqual(len(kept), made.pieces)

    def test_the_latest_is_read_where_it_is_later(self):
        for place in (5, 9):
            self.snapshots.store(self.of(place), self.fence)
        self.assertEqual(self.snapshots.latest(8).place, 9)
        with self.assertRaises(Broken):
            self.snapshots.latest(9)

    def test_one_without_its_manifest_is_none_and_goes(self):
        for fails_at in range(4):
            self.store.faults = []
            real, calls = self.etcd.transaction, []

            def failing(*words):
                calls.append(words)
                if len(calls) > fails_at:
                    raise Unavailable("gone")
                return real(*words)

            self.etcd.transaction = failing
            with self.assertRaises(Unavailable):
                self.snapshots.store(self.of(7, random_lines(30, 60_000)), self.fence)
            self.etcd.transaction = real
            self.assertEqual(self.snapshots.manifests(), [])
        self.assertNotEqual(self.keys_under(self.keys.pieces), [])
        self.snapshots.clean(self.fence)
        self.assertEqual(self.keys_under(self.keys.pieces), [])

    def test_a_manifest_whose_answer_is_lost_stands_and_isn_t_written_twice(self):
        self.store.late = []
        real, calls = self.etcd.transaction, []

        def losing(*words):
            calls.append(words)
            done = real(*words)
            if len(calls) == 2:
                raise Unsure("lost")
            return done

        self.etcd.transaction = losing
        with self.assertRaises(Unsure):
            self.snapshots.store(self.of(7), self.fence)
        self.etcd.transaction = real
        self.assertEqual([it.place for it in self.snapshots.manifests()], [7])
        with self.assertRaises(Deposed):
            self.snapshots.store(self.of(7), self.fence)
        self.assertEqual(self.snapshots.latest(0).place, 7)

    def test_pieces_that_are_damaged_or_gone(self):
        made = self.snapshots.store(self.of(7), self.fence)
        key = self.keys.pieces_of(7, made.maker) + b"000000"
        whole = self.store.items[key]
        self.store.items[key] = whole._replace(value=whole.value[:-1] + b"?")
        with self.assertRaises(Broken):
            self.snapshots.latest(0)
        del self.store.items[key]
        with self.assertRaises(Broken):
            self.snapshots.latest(0)


class Cleans(WithStore):
    def test_all_but_the_last_two_and_the_log_before_them(self):
        self.log.append(0, [value_of(f"t{at}", b"{}") for at in range(60)])
        for place in (10, 20, 30, 40):
            self.snapshots.store(self.of(place), self.fence)
        self.assertEqual(self.snapshots.clean(self.fence), 30)
        self.assertEqual([it.place for it in self.snapshots.manifests()], [30, 40])
        self.assertEqual(len(self.keys_under(self.keys.pieces)), 2)
        self.assertEqual(self.log.page(0).entries[0].place, 31)
        self.assertEqual(self.snapshots.clean(self.fence), 30)

    def test_with_one_snapshot_the_log_stays(self):
        self.log.append(0, [value_of("a", b"{}")] * 3)
        self.snapshots.store(self.of(2), self.fence)
        self.assertEqual(self.snapshots.clean(self.fence), 0)
        self.assertEqual(self.log.page(0).entries[0].place, 1)


class Elections(WithStore):
    def test_one_leads_until_its_lease_is_gone(self):
        other = self.candidate("b")
        self.assertFalse(other.leads())
        self.etcd.revoke(self.election.lease)
        self.assertTrue(other.leads())
        for act in (lambda: self.snapshots.store(self.of(3), self.fence), lambda: self.snapshots.fenced(self.fence, [])):
            with self.assertRaises(Deposed):
                act()
        self.assertEqual(self.snapshots.manifests(), [])
        self.election.kept = -100.0
        self.assertFalse(self.election.leads())

    def test_a_leader_that_is_deposed_in_the_midst_of_a_snapshot(self):
        real, calls = self.etcd.transaction, []

        def deposing(*words):
            calls.append(words)
            if len(calls) == 2:
                self.etcd.revoke(self.election.lease)
                self.assertTrue(self.candidate("b").leads())
            return real(*words)

        self.etcd.transaction = deposing
        with self.assertRaises(Deposed):
            self.snapshots.store(self.of(7, random_lines(30, 60_000)), self.fence)
        self.etcd.transaction = real
        self.assertEqual(self.snapshots.manifests(), [])

    def test_a_victory_whose_answer_is_lost(self):
        self.election.resign()
        other = self.candidate("b")
        lost(self.store)
        self.assertFalse(other.leads())
        self.assertTrue(other.leads())
        self.assertIsNotNone(self.snapshots.store(self.of(3), other.fence()))

    def test_who_resigns_leaves_the_place_free(self):
        self.election.resign()
        self.assertTrue(self.candidate("b").leads())

    def test_the_leader_of_another_log_leads_nothing_here(self):
        self.etcd.transaction([], [gateway.put(self.keys.identity, b"{}")])
        with self.assertRaises(Deposed):
            self.snapshots.store(self.of(3), self.fence)


if __name__ == "__main__":
    unittest.main()
