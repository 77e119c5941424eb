"""Tests of the gateway, on a server that says what it is told to."""

import contextlib
import http.server
import json
import socket
import threading
import unittest

import support
from pgpeer_follow import gateway
from pgpeer_follow.faults import Unavailable, Unsure, WrongCluster
from pgpeer_follow.gateway import Access, Gateway, is_loopback

HEADER = {"cluster_id": "77", "revision": "5"}


class Node:
    """Takes each request with the next of its replies: a status and a body, or None, which closes the connection."""

    def __init__(self, test, replies=()):
        self.replies, self.asked, node = list(replies), [], self

        class Handler(http.server.BaseHTTPRequestHandler):
            protocol_version = "HTTP/1.1"

            def do_POST(self):
                body = self.rfile.read(int(self.headers["Content-Length"]))
                node.asked.append((self.path, json.loads(body), self.headers.get("Authorization")))
                reply = node.replies.pop(0) if node.replies else (200, {"header": HEADER})
                if reply is None:
                    self.close_connection = True
                    return
                text = reply[1] if isinstance(reply[1], bytes) else json.dumps(reply[1]).encode()
                self.send_response(reply[0])
                self.send_header("Content-Length", str(len(text)))
                self.end_headers()
                self.wfile.write(text)

            def log_message(self, *_):
                pass

        self.server = http.server.ThreadingHTTPServer(("127.0.0.1", 0), Handler)
        self.server.daemon_threads = True
        self.url = f"http://127.0.0.1:{self.server.server_address[1]}"
        threading.Thread(target=self.server.serve_forever, daemon=True).start()
        test.addCleanup(self.server.server_close)
        test.addCleanup(self.server.shutdown)


def nobody():
    """An endpoint at which nobody listens."""
    with socket.create_server(("127.0.0.1", 0)) as held:
        return f"http://127.0.0.1:{held.getsockname()[1]}"


PUT = [gateway.put(b"k", b"v")]


class Endpoints(unittest.TestCase):
    def test_which_are_taken(self):
        for name in ("localhost", "127.0.0.1", "127.9.9.9", "::1"):
            self.assertTrue(is_loopback(name))
        for name in ("example.org", "10.0.0.1", "localhost.evil.org", "0.0.0.0"):
            self.assertFalse(is_loopback(name))
        for endpoint in ("http://10.0.0.1:2379", "10.0.0.1:2379", "ftp://127.0.0.1", "http://127.0.0.1/x", "http://", ""):
            with self.assertRaises(ValueError):
                Access([endpoint])
        self.assertEqual(Access(["127.0.0.1:1", "http://[::1]"]).endpoints, [(False, "127.0.0.1", 1), (False, "::1", 2379)])
        self.assertEqual(Access(["https://10.0.0.1"]).endpoints, [(True, "10.0.0.1", 2379)])
        self.assertEqual(Access(["http://10.0.0.1"], may_leave_loopback=True).endpoints, [(False, "10.0.0.1", 2379)])

    def test_a_file_of_tls_that_isn_t_there(self):
        with self.assertRaises(OSError):
            Access(["https://127.0.0.1"], cacert="/nowhere")


class Calls(unittest.TestCase):
    def gateway(self, *endpoints, **more):
        made = Gateway(Access(endpoints, seconds=0.5, **more))
        self.addCleanup(made.close)
        return made

    def test_a_node_that_isn_t_there_is_passed_by(self):
        node = Node(self)
        self.assertFalse(self.gateway(nobody(), node.url).transaction([], PUT).succeeded)
        with self.assertRaises(Unavailable):
            self.gateway(nobody(), nobody()).transaction([], PUT)

    def test_a_write_whose_answer_is_lost_is_unsure_and_isn_t_sent_again(self):
        for reply in (None, (200, b"{"), (200, b"[]"), (500, b"oops"), (503, {"error": "etcdserver: request timed out", "code": 14})):
            first, second = Node(self, [reply]), Node(self)
            etcd = self.gateway(first.url, second.url)
            with self.assertRaises(Unsure):
                etcd.transaction([], PUT)
            self.assertEqual((len(first.asked), len(second.asked)), (1, 0))
            etcd.transaction([], PUT)
            self.assertEqual(len(second.asked), 1)

    def test_a_write_that_was_refused(self):
        for code in (3, 8, 9):
            node = Node(self, [(400, {"error": "no", "message": "no", "code": code})])
            with self.assertRaises(Unavailable):
                self.gateway(node.url).transaction([], PUT)

    def test_a_read_is_tried_at_each_node(self):
        first, second = Node(self, [None]), Node(self, [(200, {"header": HEADER, "kvs": [{"key": "YQ==", "value": "Yg==", "version": "1"}]})])
        self.assertEqual([it.value for it in self.gateway(first.url, second.url).range(b"a")], [b"b"])
        first, second = Node(self, [(503, b"")]), Node(self, [None])
        with self.assertRaises(Unavailable):
            self.gateway(first.url, second.url).range(b"a")

    def test_another_cluster_than_at_first_and_than_is_meant(self):
        other = (200, {"header": {"cluster_id": "78", "revision": "5"}})
        first, second = Node(self), Node(self, [other, other])
        etcd = self.gateway(first.url, second.url)
        etcd.range(b"a")
        etcd.turn()
        with self.assertRaises(WrongCluster):
            etcd.transaction([], PUT)
        with self.assertRaises(WrongCluster):
            self.gateway(first.url, cluster=79).range(b"a")
        self.gateway(first.url, cluster=77).range(b"a")

    def test_a_user_is_told_and_told_again_when_the_token_is_gone(self):
        token = (200, {"header": HEADER, "token": "T"})
        node = Node(self, [token, (200, {"header": HEADER}), (401, {"error": "etcdserver: invalid auth token", "code": 16}), token])
        etcd = self.gateway(node.url, user="u", password="p")
        etcd.range(b"a")
        with self.assertRaises(Unavailable):
            etcd.range(b"a")
        etcd.range(b"a")
        self.assertEqual([it[0] for it in node.asked if "auth" in it[0]], ["/v3/auth/authenticate"] * 2)
        self.assertEqual(node.asked[0][1], {"name": "u", "password": "p"})
        self.assertEqual([it[2] for it in node.asked], [None, "T", "T", None, "T"])

    def test_a_wrong_password_is_unavailable(self):
        node = Node(self, [(400, {"error": "etcdserver: authentication failed", "code": 3})])
        with self.assertRaises(Unavailable):
            self.gateway(node.url, user="u", password="p").transaction([], PUT)
        self.assertEqual(len(node.asked), 1)

    def test_a_node_that_is_silent(self):
        with contextlib.closing(socket.create_server(("127.0.0.1", 0))) as silent:
            with self.assertRaises(Unsure):
                self.gateway(f"http://127.0.0.1:{silent.getsockname()[1]}").transaction([], PUT)


class Watches(unittest.TestCase):
    def batches(self, text):
        node = Node(self, [(200, text)])
        watch = Gateway(Access([node.url], seconds=0.5)).watch(b"a", b"b", 3)
        self.addCleanup(watch.close)
        found = []
        with self.assertRaises(Unavailable):
            for batch in watch.batches():
                found.append([it.key for it in batch])
        return found

    def test_what_is_put_comes_and_the_end_is_unavailable(self):
        event = {"kv": {"key": "YQ==", "value": "Yg==", "version": "1"}}
        gone = {"type": "DELETE", "kv": {"key": "YQ=="}}
        lines = [{"result": {"header": HEADER, "created": True}}, {"result": {"header": HEADER, "events": [event, gone, event]}}]
        text = b"".join(json.dumps(it).encode() + b"\n" for it in lines)
        self.assertEqual(self.batches(text), [[], [b"a", b"a"]])
        for last in (b'{"result":{"canceled":true,"compact_revision":"9"}}\n', b'{"error":{"message":"no leader"}}\n', b"{\n", b"[]\n", b'{"result":{"header":{"cluster_id":"1"}}}\n', b'{"resul'):
            self.assertEqual(self.batches(text + last), [[], [b"a", b"a"]])


if __name__ == "__main__":
    unittest.main()
