"""Tests of the sockets and of the answers on them, with a follower that has a log in memory."""

import contextlib
import io
import json
import os
import pathlib
import random
import socket
import subprocess
import tempfile
import threading
import unittest
import urllib.error
import urllib.request
from unittest import mock

import support
from fake_etcd import FakeGateway, Store
from support import ASK, INFO, MAP, STANDIN, wait_until
from pgpeer_follow import envelope, main, server
from pgpeer_follow import tell as teller
from pgpeer_follow.core import Program
from pgpeer_follow.faults import Fault, TwoLogs, Unavailable, WrongCluster
from pgpeer_follow.follower import Follower, Settings
from pgpeer_follow.gateway import Access
from pgpeer_follow.keys import LONGEST_LINE, Keys
from pgpeer_follow.metrics import Counts, Pages
from pgpeer_follow.reader import Reader
from pgpeer_follow.server import Lines, Server


class PolledReader(Reader):
    """Reads by pages alone: the log in memory has no watch."""

    def follow(self, to_etcd, revision):
        pass


class FakeFollower(Follower):
    """A follower of a log in memory."""

    def __init__(self, store, wait=60.0):
        super().__init__(Keys("/pgpeer/"), Access(["http://127.0.0.1:1"]), Settings(Program(STANDIN), wait, 50, may_make=True))
        self.store = store
        self.reader = PolledReader(self.keys, self.replica)

    def gateway(self):
        return FakeGateway(self.store)


class WithServer(unittest.TestCase):
    def setUp(self):
        self.store = Store()
        self.follower = FakeFollower(self.store)
        self.counts = Counts()
        self.server = Server(self.follower, self.counts, 20)
        self.port = self.server.listen_tcp(0)
        self.follower.start()
        self.addCleanup(self.follower.stop)
        self.addCleanup(self.server.close)

    def raw(self, text, cut=0):
        """All that comes back for these bytes, which are sent in parts."""
        with socket.create_connection(("127.0.0.1", self.port), timeout=120) as link:
            parts = [text[at : at + cut] for at in range(0, len(text), cut)] if cut else [text]

            def send():
                for it in parts:
                    link.sendall(it)
                link.shutdown(socket.SHUT_WR)

            sending = threading.Thread(target=send)
            sending.start()
            found = b"".join(iter(lambda: link.recv(1 << 16), b""))
            sending.join()
        return [json.loads(it) for it in found.splitlines()]

    def at_and_name(self, replies):
        return [(it["at"], it.get("ok", it.get("refused"))) for it in replies]


class Answers(WithServer):
    def test_lines_that_come_together_are_answered_in_their_order(self):
        script = [MAP, ASK, INFO % 0, INFO % 1, ASK, b"", b" \t\r", INFO % 9, b"x", ASK, b'{"op":"health"}']
        wanted = [(1, "inc"), (1, "ask"), (2, "info"), (3, "info"), (3, "ask"), (4, "UnknownMember"), (3, "NotJson"), (4, "ask"), (4, "health")]
        found = self.at_and_name(self.raw(b"\n".join(script)))
        self.assertEqual([it for it in found if it[1] != "NotJson"], [it for it in wanted if it[1] != "NotJson"])
        self.assertEqual([it[1] for it in found], [it[1] for it in wanted])

    def test_lines_that_come_byte_for_byte(self):
        self.assertEqual(self.at_and_name(self.raw(MAP + b"\n" + ASK, cut=1)), [(1, "inc"), (1, "ask")])

    def test_the_answer_is_the_program_s_behind_the_envelope(self):
        self.raw(MAP)
        with socket.create_connection(("127.0.0.1", self.port), timeout=120) as link:
            link.sendall(ASK + b"\n")
            reply = link.makefile("rb").readline()[:-1]
        text = subprocess.run([STANDIN, "run"], input=MAP + b"\n" + ASK, capture_output=True, check=True).stdout.split(b"\n")[1]
        self.assertEqual(envelope.split(reply), (1, None, text))

    def test_a_token_is_found_and_told_twice_stands_once(self):
        line = json.loads(MAP)
        told = json.dumps({**line, "token": "a"}).encode()
        first, again, other, place, none = self.raw(b"\n".join([told, told, b'{"op":"close","token":"a"}', b'{"op":"place","token":"a"}', b'{"op":"place","token":"b"}']))
        self.assertEqual((first, again), ({"at": 1, "count": 1, "epoch": 1, "ok": "inc"},) * 2)
        self.assertEqual((other["refused"], other["place"], place["place"], none["place"]), ("TokenUsed", 1, 1, None))

    def test_a_place_that_is_ahead(self):
        self.raw(MAP)
        self.follower.settings.wait = 0.5
        self.assertEqual(self.raw(b'{"op":"ask","pg":[1,0],"after":5}')[0]["refused"], "NotYet")
        self.assertEqual(self.raw(b'{"op":"close","after":5}')[0]["refused"], "NotYet")
        self.assertEqual(self.at_and_name(self.raw(b'{"op":"inc","v":3,"after":5,"epoch":6}')), [(2, "UnknownKey")])  # of a map

    def test_two_logs_are_told_to_everybody(self):
        self.raw(MAP)
        self.follower.broken(TwoLogs("two"))
        self.assertEqual([it["refused"] for it in self.raw(ASK + b"\n" + INFO % 0)], ["TwoLogs"] * 2)
        self.assertEqual(self.raw(b'{"op":"health"}')[0]["state"], "TwoLogs")

    def test_a_follower_that_can_t_begin_says_why(self):
        other = FakeFollower(self.store, wait=0.1)
        self.addCleanup(other.stop)
        for lost, name in ((Unavailable("gone"), "Unavailable"), (WrongCluster("other"), "WrongCluster")):
            other.lost = lost
            with self.assertRaises(Fault) as caught:
                other.check()
            self.assertEqual((caught.exception.name, other.health()["state"]), (name, name))

    def test_a_question_whose_program_is_killed_is_told_to_the_next_one(self):
        self.raw(MAP)
        core = self.follower.replica.core
        killing = threading.Timer(0.1, core.kill)
        killing.start()
        found = self.raw(b"\n".join([ASK] * 300))
        killing.join()
        self.assertEqual(({it.get("verdict") for it in found}, len(found)), ({"Waiting"}, 300))
        wait_until(lambda: self.follower.replica.core not in (None, core))


class Hostile(WithServer):
    def test_long_lines_are_passed_over(self):
        long = b"x" * (5 * LONGEST_LINE)
        padded = b'{"op":"ask","pg":[1,0],"pad":"' + b"y" * LONGEST_LINE + b'"}'
        found = [it["refused"] for it in self.raw(b"\n".join([long, ASK, padded, long]))]
        self.assertEqual(found, ["LineTooLong", "UnknownGroup", "LineTooLong", "LineTooLong"])

    def test_cut_and_random_bytes_are_answered_line_by_line(self):
        rng = random.Random(3)
        lines = [ASK[:at] for at in range(1, len(ASK))]
        lines += [bytes(rng.choice(b'{}[]",:opasknc\\\x00\xff 019') for _ in range(rng.randrange(1, 60))) for _ in range(1000)]
        lines = [it for it in lines if not envelope.is_blank(it) and b"\n" not in it]
        replies = self.raw(b"\n".join(lines))
        self.assertEqual(len(replies), len(lines))
        self.assertTrue(all(it["refused"] in ("NotJson", "NoOp", "UnknownKey", "BadField") for it in replies))
        self.assertEqual(self.at_and_name(self.raw(MAP)), [(1, "inc")])

    def test_a_client_that_goes_away_or_takes_no_answer(self):
        for text in (b'{"op":"as', ASK + b"\n" + ASK, b"\n" * 1000):
            with socket.create_connection(("127.0.0.1", self.port)) as link:
                link.sendall(text)
        self.assertEqual(self.raw(ASK)[0]["refused"], "UnknownGroup")
        wait_until(lambda: self.counts.connections == 0)

    def test_too_many_connections(self):
        held = [socket.create_connection(("127.0.0.1", self.port)) for _ in range(20)]
        wait_until(lambda: self.counts.connections == 20)
        self.assertEqual([it["refused"] for it in self.raw(b"")], ["Busy"])
        for it in held:
            it.close()
        wait_until(lambda: self.counts.connections == 0)
        self.assertEqual(self.raw(ASK)[0]["refused"], "UnknownGroup")

    def test_lines_are_cut_where_they_end(self):
        lines = Lines()
        self.assertEqual((lines.add(b"a\nb"), lines.add(b"c\n\nd"), lines.last()), ([b"a"], [b"bc", b""], [b"d"]))
        lines = Lines()
        for _ in range(100):
            lines.add(b"x" * (1 << 16))
        self.assertEqual(len(lines.left), server.MOST_BYTES + 1)


class Sockets(WithServer):
    def test_a_unix_socket(self):
        with tempfile.TemporaryDirectory() as room:
            path = str(pathlib.Path(room, "s"))
            stale = socket.socket(socket.AF_UNIX)
            stale.bind(path)
            stale.close()
            self.server.listen_unix(path)
            with self.assertRaises(FileExistsError):
                Server(self.follower, self.counts, 1).listen_unix(path)
            with tempfile.TemporaryFile() as lines, tempfile.TemporaryFile() as out:
                lines.write(MAP + b"\n" + ASK)
                lines.seek(0)
                self.assertEqual(teller.tell(path, lines, out), 0)
                out.seek(0)
                self.assertEqual(self.at_and_name(map(json.loads, out)), [(1, "inc"), (1, "ask")])
            self.server.close()
            self.assertFalse(os.path.exists(path))
            pathlib.Path(path).write_text("mine")
            with self.assertRaises(FileExistsError):
                self.server.listen_unix(path)

    def test_metrics_and_health(self):
        pages = Pages(0, self.follower, self.counts)
        self.addCleanup(pages.server_close)
        self.addCleanup(pages.shutdown)
        self.raw(MAP + b"\n" + ASK + b"\nx\n" + INFO % 9)
        top = f"http://127.0.0.1:{pages.server_address[1]}"
        with urllib.request.urlopen(f"{top}/metrics") as page:
            text = page.read().decode()
        for row in ("length 2", "place 2", "lag 0", "asks_total 4", "appends_total 2", "reconnects_total", 'refusals_total{name="NotJson"} 1', 'refusals_total{name="UnknownMember"} 1'):
            self.assertIn(f"\npgpeer_follow_{row}", text)
        with urllib.request.urlopen(f"{top}/health") as page:
            self.assertEqual(json.load(page)["state"], "following")
        self.follower.broken(TwoLogs("two"))
        for path, status in (("health", 503), ("", 404)):
            with self.assertRaises(urllib.error.HTTPError) as caught:
                urllib.request.urlopen(f"{top}/{path}")
            self.assertEqual(caught.exception.code, status)


class Marks(WithServer):
    def test_a_log_is_compacted_as_it_grows_and_another_follower_begins_from_there(self):
        self.raw(b"\n".join([MAP, *[INFO % 0] * 120]))
        wait_until(lambda: self.follower.keeper.stored == self.follower.replica.base.place > 50, 60)
        other = FakeFollower(self.store)
        other.start()
        self.addCleanup(other.stop)
        wait_until(lambda: other.replica.place == self.follower.replica.place, 60)
        self.assertGreater(other.reader.starts_over, 0)
        self.assertEqual(other.replica.base, self.follower.replica.base)
        self.assertLess(self.raw(ASK)[0]["count"], 100)


class Commands(unittest.TestCase):
    def status(self, *words):
        """The status of a command line that can't be, and what is said of it."""
        said = io.StringIO()
        with contextlib.redirect_stderr(said), mock.patch.object(main.signal, "signal"):
            try:
                status = main.main(list(words))
            except SystemExit as ended:
                status = ended.code
        return status, said.getvalue()

    def test_command_lines_that_can_t_be(self):
        good = ("--program", STANDIN, "--listen", "0")
        for words in (
            (),
            ("--program", "/nowhere", "--listen", "0"),
            ("--program", STANDIN),
            (*good, "--endpoints", "http://10.0.0.1:1"),
            (*good, "--endpoints", ","),
            (*good, "--prefix", "a"),
            (*good, "--snapshot-every", "0"),
            (*good, "--wait", "0"),
            (*good, "--cluster-id", "x"),
            (*good, "--format", "1"),
            (*good, "--nothing"),
        ):
            status, said = self.status(*words)
            self.assertEqual((status, "pgpeer-follow: " in said), (2, True), (words, said))

    def test_the_version_is_that_of_what_the_program_runs(self):
        for words, version, joins in (((), "2", False), (("--format", "3"), "3", True)):
            follower = main.follower_of(main.parser().parse_args(["--program", STANDIN, "--listen", "0", *words]))
            self.addCleanup(follower.stop)
            program = follower.settings.program
            self.assertEqual(program.run(), [STANDIN, "run", "--format", version])
            self.assertEqual("--join" in program.compact(), joins)

    def test_a_socket_that_can_t_be_had(self):
        self.assertEqual(self.status("--program", STANDIN, "--socket", "/nowhere/s")[0], 3)
        with mock.patch.object(teller, "CONNECTING", 0.1):
            self.assertEqual(self.status("--tell", "/nowhere/s")[0], 1)

    def test_a_file_of_tls_that_can_t_be_read(self):
        self.assertEqual(self.status("--program", STANDIN, "--listen", "0", "--endpoints", "https://127.0.0.1:1", "--cacert", "/nowhere")[0], 3)


if __name__ == "__main__":
    unittest.main()
