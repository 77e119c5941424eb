"""Speaks to etcd by its JSON gateway (etcd 3.4 or later), with the standard library alone."""

import base64
import http.client
import ipaddress
import json
import socket
import ssl
import threading
import urllib.parse
from typing import Any, Dict, Iterator, List, NamedTuple, Optional, Sequence, Tuple

from .faults import Unavailable, Unsure, WrongCluster

NOT_DONE = (3, 7, 8, 9, 11, 12, 16)  # gRPC codes of a request that was refused before it was done
UNAUTHENTICATED = 16

Body = Dict[str, Any]


def told(text: bytes) -> str:
    """Bytes as the gateway takes them."""
    return base64.b64encode(text).decode()


def is_loopback(host: str) -> bool:
    """Tells whether a host is the loopback by its name or its number; no name server is asked."""
    if host == "localhost":
        return True
    try:
        return ipaddress.ip_address(host).is_loopback
    except ValueError:
        return False


class Item(NamedTuple):
    """A key with its value, as etcd keeps it."""

    key: bytes
    value: bytes
    created: int  # revisions
    modified: int
    version: int

    @staticmethod
    def of(kv: Body) -> "Item":
        key, value = (base64.b64decode(kv.get(name, "")) for name in ("key", "value"))
        return Item(key, value, *(int(kv.get(name, 0)) for name in ("create_revision", "mod_revision", "version")))


class Done(NamedTuple):
    """What a transaction came to: the branch that was taken, the revision, and what each range in it found."""

    succeeded: bool
    revision: int
    found: List[List[Item]]


class Access:
    """How etcd is reached: what all gateways of one follower share. The first cluster that answers is the one that is meant."""

    def __init__(
        self,
        endpoints: Sequence[str],
        cacert: Optional[str] = None,
        cert: Optional[str] = None,
        key: Optional[str] = None,
        user: str = "",
        password: str = "",
        cluster: Optional[int] = None,
        seconds: float = 3.0,
        may_leave_loopback: bool = False,
    ):
        self.endpoints = [self.parts_of(it, may_leave_loopback) for it in endpoints]
        self.user, self.password = user, password
        self.cluster, self.seconds = cluster, seconds
        self.context: Optional[ssl.SSLContext] = None
        if any(is_tls for is_tls, _, _ in self.endpoints):
            self.context = ssl.create_default_context(cafile=cacert)
            if cert:
                self.context.load_cert_chain(cert, key)
        self.lock = threading.Lock()

    @staticmethod
    def parts_of(endpoint: str, may_leave_loopback: bool) -> Tuple[bool, str, int]:
        """Whether an endpoint is by TLS, its host and its port."""
        url = urllib.parse.urlsplit(endpoint if "://" in endpoint else f"http://{endpoint}")
        if url.scheme not in ("http", "https") or not url.hostname or url.path not in ("", "/"):
            raise ValueError(f"{endpoint} is no endpoint of etcd")
        if url.scheme == "http" and not may_leave_loopback and not is_loopback(url.hostname):
            raise ValueError(f"{endpoint} is neither TLS nor the loopback")
        return url.scheme == "https", url.hostname, url.port or 2379

    def check(self, header: Body) -> None:
        """Raises WrongCluster where an answer comes from another cluster."""
        cluster = int(header.get("cluster_id", 0))
        with self.lock:
            if self.cluster is None and cluster:
                self.cluster = cluster
        if cluster and cluster != self.cluster:
            raise WrongCluster(f"cluster {cluster:x} answered, and {self.cluster or 0:x} is meant")


class Gateway:
    """One caller's way to etcd, with a connection of its own, for one thread. It stays with an endpoint until that one fails."""

    def __init__(self, access: Access, first: int = 0):
        self.access, self.at = access, first % len(access.endpoints)
        self.link: Optional[http.client.HTTPConnection] = None
        self.token = ""

    def opened(self) -> http.client.HTTPConnection:
        """A connection to the endpoint, which is open."""
        is_tls, host, port = self.access.endpoints[self.at]
        seconds = self.access.seconds
        if is_tls:
            link: http.client.HTTPConnection = http.client.HTTPSConnection(host, port, timeout=seconds, context=self.access.context)
        else:
            link = http.client.HTTPConnection(host, port, timeout=seconds)
        link.connect()
        link.sock.setsockopt(socket.IPPROTO_TCP, socket.TCP_NODELAY, 1)
        return link

    def close(self) -> None:
        if self.link:
            self.link.close()
        self.link = None

    def turn(self) -> None:
        """Goes on with the next endpoint."""
        self.close()
        self.at = (self.at + 1) % len(self.access.endpoints)

    def connect(self) -> http.client.HTTPConnection:
        """The open connection, to the first endpoint that takes one."""
        why = ""
        for _ in self.access.endpoints:
            if self.link:
                return self.link
            try:
                self.link = self.opened()
                if self.access.user and not self.token:
                    self.authenticate()
                return self.link
            except (OSError, http.client.HTTPException, Unavailable, Unsure) as fault:
                why = str(fault)
                self.turn()
        raise Unavailable(f"no endpoint takes a connection: {why}")

    def authenticate(self) -> None:
        reply = self.once("/v3/auth/authenticate", {"name": self.access.user, "password": self.access.password})
        self.token = str(reply.get("token", ""))

    def head(self) -> Dict[str, str]:
        return {"Authorization": self.token} if self.token else {}

    def once(self, path: str, body: Body) -> Body:
        """Sends a request on the open connection. Unsure: it was sent, and may have been done."""
        assert self.link
        try:
            self.link.request("POST", path, json.dumps(body), self.head())
            reply = self.link.getresponse()
            text, status = reply.read(), reply.status
        except (OSError, http.client.HTTPException) as fault:
            raise Unsure(f"no answer: {fault}") from None
        try:
            found = json.loads(text.split(b"\n", 1)[0])
            found = found.get("result", found)
            if status == 200 and "error" not in found:
                self.access.check(found.get("header", {}))
                return found
        except (ValueError, AttributeError):
            raise Unsure(f"status {status}: {text[:100]!r}") from None
        self.raise_refusal(found)
        raise AssertionError

    def raise_refusal(self, found: Body) -> None:
        says = str(found.get("message") or found.get("error"))
        code = found.get("code", 0)
        if code == UNAUTHENTICATED or "invalid auth token" in says:
            self.token = ""
        if code in NOT_DONE:
            raise Unavailable(says)
        raise Unsure(says)

    def call(self, path: str, body: Body) -> Body:
        """A request, sent once; where it fails the next one goes to the next endpoint."""
        self.connect()
        try:
            return self.once(path, body)
        except (Unavailable, Unsure):
            self.turn()
            raise

    def read(self, path: str, body: Body) -> Body:
        """A request that changes nothing, so it is tried at each endpoint once."""
        last: Exception = Unavailable()
        for _ in self.access.endpoints:
            try:
                return self.call(path, body)
            except WrongCluster as fault:
                last = fault
            except (Unavailable, Unsure) as fault:
                last = Unavailable(str(fault))
        raise last

    def transaction(self, compares: List[Body], success: List[Body], failure: Sequence[Body] = ()) -> Done:
        body = {"compare": compares, "success": success, "failure": list(failure)}
        writes = any("request_range" not in it for it in success)
        found = (self.call if writes else self.read)("/v3/kv/txn", body)
        replies = [it["response_range"] for it in found.get("responses", []) if "response_range" in it]
        items = [[Item.of(kv) for kv in it.get("kvs", [])] for it in replies]
        return Done(found.get("succeeded", False), int(found.get("header", {}).get("revision", 0)), items)

    def range(self, key: bytes, end: bytes = b"", limit: int = 0, keys_only: bool = False) -> List[Item]:
        return [Item.of(kv) for kv in self.read("/v3/kv/range", range_of(key, end, limit, keys_only)).get("kvs", [])]

    def grant(self, seconds: int) -> int:
        return int(self.call("/v3/lease/grant", {"TTL": seconds}).get("ID", 0))

    def keep(self, lease: int) -> bool:
        """Keeps a lease alive; tells whether it is."""
        return int(self.call("/v3/lease/keepalive", {"ID": lease}).get("TTL", 0)) > 0

    def revoke(self, lease: int) -> None:
        self.call("/v3/lease/revoke", {"ID": lease})

    def watch(self, key: bytes, end: bytes, revision: int) -> "Watch":
        """What is put in this range from a revision on. The connection is the watch's own."""
        self.connect()
        link, self.link = self.link, None
        assert link
        asked = {"key": told(key), "range_end": told(end), "start_revision": revision, "fragment": True, "filters": ["NODELETE"]}
        try:
            link.request("POST", "/v3/watch", json.dumps({"create_request": asked}), {**self.head(), "Grpc-Metadata-hasleader": "true"})
            wire = link.sock
            reply = link.getresponse()
            wire.settimeout(None)
        except (OSError, http.client.HTTPException) as fault:
            link.close()
            self.turn()
            raise Unavailable(f"no watch: {fault}") from None
        return Watch(self.access, link, wire, reply)


class Watch:
    """Items as they are put. `stop` may be called by another thread."""

    def __init__(self, access: Access, link: http.client.HTTPConnection, wire: socket.socket, reply: http.client.HTTPResponse):
        self.access, self.link, self.wire, self.reply = access, link, wire, reply

    def stop(self) -> None:
        try:
            socket.socket.shutdown(self.wire, socket.SHUT_RDWR)
        except OSError:
            pass

    def close(self) -> None:
        self.stop()
        self.reply.close()
        self.link.close()

    def texts(self) -> Iterator[bytes]:
        left = b""
        while True:
            try:
                block = self.reply.read1(1 << 16)
            except (OSError, ValueError, AttributeError, http.client.HTTPException) as fault:
                raise Unavailable(f"the watch ended: {fault}") from None
            if not block:
                raise Unavailable("the watch ended")
            *whole, left = (left + block).split(b"\n")
            yield from whole

    def batches(self) -> Iterator[List[Item]]:
        """Ends by Unavailable alone: the watch was stopped or lost, or etcd no longer keeps the revision."""
        for text in self.texts():
            try:
                found = json.loads(text)
                result = found.get("result", {})
                self.access.check(result.get("header", {}))
            except (ValueError, AttributeError):
                raise Unavailable(f"the watch says {text[:100]!r}") from None
            if "error" in found or result.get("canceled"):
                raise Unavailable(f"the watch was cancelled: {text[:200]!r}")
            yield [Item.of(it["kv"]) for it in result.get("events", []) if it.get("type", "PUT") == "PUT"]


# Parts of a transaction


def range_of(key: bytes, end: bytes = b"", limit: int = 0, keys_only: bool = False) -> Body:
    asked: Body = {"key": told(key), "limit": limit, "keys_only": keys_only}
    return {**asked, "range_end": told(end)} if end else asked


def get(key: bytes, end: bytes = b"", limit: int = 0, keys_only: bool = False) -> Body:
    return {"request_range": range_of(key, end, limit, keys_only)}


def put(key: bytes, value: bytes, lease: int = 0) -> Body:
    return {"request_put": {"key": told(key), "value": told(value), "lease": lease}}


def delete(key: bytes, end: bytes = b"") -> Body:
    return {"request_delete_range": {"key": told(key), **({"range_end": told(end)} if end else {})}}


def has_value(key: bytes, value: bytes) -> Body:
    return {"key": told(key), "target": "VALUE", "result": "EQUAL", "value": told(value)}


def was_created(key: bytes, revision: int) -> Body:
    """The key's present life began at this revision; at 0: the key isn't there."""
    return {"key": told(key), "target": "CREATE", "result": "EQUAL", "create_revision": revision}
