"""Tests of a replica: the program as a child, marks, and what becomes of it where the program ends."""

import os
import pathlib
import signal
import stat
import subprocess
import tempfile
import threading
import time
import unittest
import unittest.mock

import support
from support import ASK, INFO, MAP, STANDIN, wait_until
import truth
from pgpeer_follow import core as cores
from pgpeer_follow import replica as replicas
from pgpeer_follow.core import Core, Program, compacted
from pgpeer_follow.faults import CoreFault, NotYet
from pgpeer_follow.keys import Entry
from pgpeer_follow.replica import Replica
from pgpeer_follow.snapshot import packed, unpacked


def entries_of(lines, first=1):
    return [Entry(place, f"t{place}", line) for place, line in enumerate(lines, first)]


def by_program(command, lines, *options):
    text = b"".join(it + b"\n" for it in lines)
    return subprocess.run([STANDIN, command, *options], input=text, capture_output=True, check=True).stdout.split(b"\n")[:-1]


def flaps(first, last):
    """The maps of these epochs: device 2 falls in an even one, and comes back in an odd one."""
    return [b'{"op":"inc","epoch":%d,"%s":[2]}' % (epoch, b"up" if epoch % 2 else b"down") for epoch in range(first, last + 1)]


SERVED = b'{"op":"info","pg":[1,0],"from":[0,0],"stamp":%d,"les":%d,"history_les":%d,"last_update":[0,0],"log_tail":[0,0],"complete":true}'
LINES = [MAP, *(INFO % device for device in (0, 1, 2, 0, 1, 9)), b'{"op":"noop"}', INFO % 2]


class WithReplica(unittest.TestCase):
    def made(self, program=Program(STANDIN)):
        self.heard = {}
        made = Replica(program, lambda known: self.heard.__setitem__(known.place, known.answer))
        self.addCleanup(made.end)
        return made

    def asked(self, replica, line=ASK, after=0, seconds=60.0):
        """The place and the answer of a question."""
        asked = replica.ask(line, after, time.monotonic() + seconds)
        self.assertTrue(asked.is_over.wait(seconds))
        return asked.at, asked.answer

    def program(self, text):
        """A program of a few lines of shell."""
        room = tempfile.TemporaryDirectory()
        self.addCleanup(room.cleanup)
        file = pathlib.Path(room.name) / "program"
        file.write_text(f"#!/bin/sh\n{text}\n")
        file.chmod(file.stat().st_mode | stat.S_IXUSR)
        return Program(str(file))


class Answers(WithReplica):
    def test_answers_are_the_program_s_on_the_lines_up_to_their_place(self):
        replica = self.made()
        for count, entry in enumerate(entries_of(LINES), 1):
            replica.apply([entry])
            self.assertEqual(self.asked(replica), (count, by_program("run", [*LINES[:count], ASK])[-1]))
        self.assertEqual([self.heard[it] for it in sorted(self.heard)], by_program("run", LINES))

    def test_a_place_that_isn_t_there_is_waited_for(self):
        replica = self.made()
        with self.assertRaises(NotYet):
            replica.ask(ASK, 1, time.monotonic() + 0.1)
        threading.Timer(0.3, lambda: replica.apply(entries_of(LINES))).start()
        self.assertEqual(self.asked(replica, after=9)[0], 9)

    def test_entries_without_a_line_are_places(self):
        replica = self.made()
        replica.apply([Entry(1), *entries_of(LINES[:2], 2), Entry(4)])
        self.assertEqual(self.asked(replica), (4, by_program("run", [*LINES[:2], ASK])[-1]))


class Marks(WithReplica):
    def test_at_a_mark_the_script_is_compacted(self):
        replica = self.made()
        replica.apply([*entries_of(LINES), Entry(10, is_mark=True), *entries_of([INFO % 0], 11)])
        kept = by_program("compact", LINES)
        self.assertLess(len(kept), len(LINES))
        self.assertEqual(self.asked(replica), (11, by_program("run", [*kept, INFO % 0, ASK])[-1]))
        self.assertEqual((replica.base.place, list(replica.base.script)), (10, kept))
        self.assertEqual([(it.token, it.place) for it in replica.base.tokens], [(f"t{at}", at) for at in range(1, 10)])
        self.assertEqual([it.answer for it in replica.base.tokens], by_program("run", LINES))

    def test_lines_of_version_3_where_they_are_asked_for(self):
        straw2 = MAP.replace(b"{", b'{"v":3,', 1).replace(b'"uniform","items":[0,1,2]', b'"straw2","items":[0,1,2],"weights":[1,2,3]')
        lines = [straw2, INFO % 1, b'{"op":"inc","v":3,"after":1,"epoch":9}']
        for version, count in (("2", 0), ("3", 3)):
            replica = self.made(Program(STANDIN, version))
            replica.apply([*entries_of(lines), Entry(4, is_mark=True)])
            kept = list(replica.base.script)
            self.assertEqual((len(kept), self.asked(replica)), (count, (4, by_program("run", [*kept, ASK], "--format", version)[-1])))

    def test_with_version_3_a_mark_joins_incrementals(self):
        lines = [MAP, *flaps(2, 10), SERVED % ((10,) * 3)]
        for version, joins in (("2", []), ("3", ["--join", "--format", "3"])):
            replica = self.made(Program(STANDIN, version))
            replica.apply([*entries_of(lines), Entry(12, is_mark=True)])
            self.assertEqual(list(replica.base.script), by_program("compact", lines, *joins))
            self.assertEqual(sum(b'"op":"inc"' in it for it in replica.base.script), 2 if joins else 10)
            self.assertEqual([it.answer for it in replica.base.tokens], by_program("run", lines))
            (at, answer), whole = self.asked(replica), by_program("run", [*lines, ASK])[-1]
            self.assertEqual((at, answer == whole), (12, not joins))
            self.assertEqual(truth.left_of(answer, version), truth.left_of(whole, version))

    def test_with_version_3_maps_go_on_though_a_log_takes_fewer(self):
        few = self.program(f'MOST_TAKEN=20 exec {STANDIN} "$@"').path
        for version, is_full in (("2", True), ("3", False)):
            replica = self.made(Program(few, version))
            replica.apply(entries_of([MAP]))
            for number in range(6):
                lines = [*flaps(6 * number + 2, 6 * number + 7), SERVED % ((6 * number + 7,) * 3)]
                replica.apply([*entries_of(lines, 8 * number + 2), Entry(8 * number + 9, is_mark=True)])
            refused = [answer for answer in self.heard.values() if b"refused" in answer]
            self.assertEqual((len(self.heard), any(truth.FULL in it for it in refused)), (43, is_full))
            self.assertEqual(bool(refused), is_full)

    def test_whoever_begins_from_the_snapshot_answers_alike(self):
        for version in ("2", "3"):
            first, second = self.made(Program(STANDIN, version)), self.made(Program(STANDIN, version))
            first.apply([*entries_of([*LINES, *flaps(2, 6)]), Entry(15, is_mark=True)])
            second.start_over(unpacked(packed(first.base)))
            self.assertEqual(self.heard[3], by_program("run", LINES)[2])
            for replica in (first, second):
                replica.apply([*entries_of([INFO % 0, *flaps(7, 9)], 16), Entry(20, is_mark=True), *entries_of([INFO % 2], 21)])
            self.assertEqual(self.asked(first), self.asked(second))
            self.assertEqual(first.base, second.base)

    def test_questions_are_answered_while_a_mark_takes_its_time(self):
        slow = self.program(f'[ "$1" = compact ] && sleep 2; exec {STANDIN} "$1"')
        replica = self.made(slow)
        replica.apply(entries_of(LINES))
        self.asked(replica)
        marking = threading.Thread(target=replica.apply, args=([Entry(10, is_mark=True)],))
        marking.start()
        time.sleep(0.5)
        self.assertEqual(self.asked(replica)[0], 9)
        marking.join(120)
        self.assertEqual(self.asked(replica)[0], 10)


class Restarts(WithReplica):
    def test_the_program_is_killed_and_told_all_anew(self):
        replica = self.made()
        replica.apply([*entries_of(LINES), Entry(10, is_mark=True), *entries_of([INFO % 0], 11)])
        before = self.asked(replica)
        for _ in range(3):
            os.kill(replica.core.child.pid, signal.SIGKILL)
            wait_until(lambda: self.asked(replica)[1] is not None)
            self.assertEqual(self.asked(replica), before)
        self.assertEqual(replica.restarts, 3)

    def test_entries_go_on_while_there_is_no_program(self):
        replica = self.made()
        replica.apply(entries_of(LINES[:3]))
        self.asked(replica)
        os.kill(replica.core.child.pid, signal.SIGKILL)
        replica.apply(entries_of(LINES[3:], 4))
        wait_until(lambda: self.asked(replica)[1] is not None)
        self.assertEqual(self.asked(replica), (9, by_program("run", [*LINES, ASK])[-1]))
        wait_until(lambda: len(self.heard) == 9)

    def test_a_program_that_is_out_of_memory_at_a_line_is_told_anew(self):
        flag = self.program("").path
        failing = self.program(f'if [ "$1" = run ] && [ -e {flag} ]; then rm {flag}; read line; echo \'{{"code":51,"refused":"Memory"}}\'; sleep 9; fi; exec {STANDIN} "$1"')
        replica = self.made(failing)
        replica.apply(entries_of(LINES))
        wait_until(lambda: len(self.heard) == 9)
        self.assertEqual(self.asked(replica), (9, by_program("run", [*LINES, ASK])[-1]))
        self.assertEqual([self.heard[it] for it in sorted(self.heard)], by_program("run", LINES))

    def test_what_a_program_says_behind_a_line_that_it_had_no_memory_for_is_not_believed(self):
        flag = self.program("").path
        told = 'echo \'{"code":51,"refused":"Memory"}\'; echo \'{"code":40,"refused":"UnknownGroup"}\''
        failing = self.program(f'if [ "$1" = run ] && [ -e {flag} ]; then rm {flag}; read a; read b; {told}; exec sleep 9; fi; exec {STANDIN} "$1"')
        replica = self.made(failing)
        replica.apply(entries_of([MAP]))
        answers = [self.asked(replica), self.asked(replica)]
        self.assertEqual([it for it in answers if it[1] is not None][-1:], [(1, by_program("run", [MAP, ASK])[-1])])
        self.assertNotIn(b"UnknownGroup", answers[0][1] or b"")

    def test_a_program_that_takes_a_question_for_an_entry_isn_t_believed(self):
        replica = self.made()
        replica.apply(entries_of([MAP]))
        self.assertEqual(self.asked(replica, INFO % 0), (1, None))
        wait_until(lambda: self.asked(replica)[1] is not None)
        self.assertEqual(self.asked(replica), (1, by_program("run", [MAP, ASK])[-1]))

    def test_a_program_that_can_t_be_run(self):
        replica = self.made(Program("/nowhere/pgpeer"))
        replica.apply(entries_of(LINES))
        with self.assertRaises(CoreFault):
            replica.ask(ASK, 0, time.monotonic() + 0.3)
        self.assertEqual(replica.at(), (9, False))

    def test_a_program_that_hangs_is_ended(self):
        flag = self.program("").path
        replica = self.made(self.program(f'if [ -e {flag} ]; then rm {flag}; exec sleep 60; fi; exec {STANDIN} "$1"'))
        replica.apply(entries_of(LINES))
        with unittest.mock.patch.object(cores, "HANGS", 0.2):
            time.sleep(0.5)
            replica.end_hung()
        wait_until(lambda: len(self.heard) == 9)

    def test_a_program_that_has_had_its_lines_is_replaced_before_it_ends(self):
        with unittest.mock.patch.object(cores, "MOST_LINES", 50):
            replica = self.made()
            replica.apply(entries_of(LINES))
            answers = {self.asked(replica) for _ in range(200)}
            wait_until(lambda: replica.restarts >= 1)
            self.assertEqual({*answers, self.asked(replica)}, answers)
            self.assertEqual(len(answers), 1)

    def test_a_compaction_that_fails_is_tried_again(self):
        flag = self.program("").path
        replica = self.made(self.program(f'if [ "$1" = compact ] && [ -e {flag} ]; then rm {flag}; exit 3; fi; exec {STANDIN} "$1"'))
        replica.apply([*entries_of(LINES), Entry(10, is_mark=True)])
        self.assertEqual(replica.base.place, 10)

    def test_a_snapshot_whose_lines_aren_t_taken_is_never_answered_from(self):
        replica = self.made()
        replica.start_over(replicas.Snapshot(5, (MAP, MAP), ()))
        with self.assertRaises((CoreFault, AssertionError)):
            for _ in range(50):
                at, answer = self.asked(replica, seconds=0.5)
                self.assertIsNone(answer)


class Cores(WithReplica):
    def test_more_than_the_pipes_hold(self):
        ended, found = threading.Event(), []
        core = Core(self.program("exec cat"), lambda _: ended.set())
        core.tell([b"x" * 1000] * 5000, [found.append] * 5000)
        core.end()
        self.assertTrue(ended.wait(120))
        self.assertEqual(found, [b"x" * 1000] * 5000)

    def test_lines_without_an_answer_are_given_back(self):
        ended, found = threading.Event(), []
        core = Core(self.program('read a; echo "$a"; read b; printf half; exit 0'), lambda _: ended.set())
        core.tell([b"a", b"b", b"c"], [found.append] * 3)
        self.assertTrue(ended.wait(120))
        self.assertEqual(found, [b"a", None, None])
        with self.assertRaises(CoreFault):
            core.tell([b"d"], [found.append])

    def test_compacting_fails_by_name(self):
        for text in ("exit 3", "kill -9 $$"):
            with self.assertRaises(CoreFault):
                compacted(self.program(text), [b"{}"])


if __name__ == "__main__":
    unittest.main()
