"""The sockets: lines in, lines out, a thread for each connection."""

import contextlib
import logging
import os
import socket
import stat
import struct
import threading
from typing import List, Optional

from . import envelope
from .answerer import Answerer
from .faults import Busy
from .follower import Follower
from .keys import LONGEST_LINE
from .metrics import Counts

BLOCK = 1 << 16  # bytes that are read at once
MOST_BYTES = LONGEST_LINE + envelope.MOST_ENVELOPE  # of a line
SENDING = 60.0  # seconds within which a client has to take an answer

log = logging.getLogger(__name__)


class Lines:
    """Cuts what comes into lines. Of one that is too long only so much is kept that it is known to be."""

    def __init__(self) -> None:
        self.left = bytearray()

    def add(self, block: bytes) -> List[bytes]:
        """The lines that end in this block."""
        *whole, rest = block.split(b"\n")
        found = []
        for part in whole:
            self.keep(part)
            found.append(bytes(self.left))
            self.left.clear()
        self.keep(rest)
        return found

    def keep(self, part: bytes) -> None:
        self.left += part[: MOST_BYTES + 1 - len(self.left)]

    def last(self) -> List[bytes]:
        return [bytes(self.left)] if self.left else []


class Server:
    """Listens at a Unix socket, a TCP port of the loopback, or both."""

    def __init__(self, follower: Follower, counts: Counts, most: int):
        self.follower, self.counts, self.most = follower, counts, most
        self.lock = threading.Lock()
        self.listening: List[socket.socket] = []
        self.path: Optional[str] = None
        self.is_closing = False

    def listen_tcp(self, port: int) -> int:
        """Gives the port, which the system chooses where it is 0."""
        listening = socket.create_server(("127.0.0.1", port), backlog=128)
        self.begin(listening)
        return listening.getsockname()[1]

    def listen_unix(self, path: str) -> None:
        """OSError: somebody listens there already, or another file is there."""
        with contextlib.suppress(FileNotFoundError):
            if not stat.S_ISSOCK(os.stat(path).st_mode):
                raise FileExistsError(f"{path} is there, and is no socket")
            with socket.socket(socket.AF_UNIX) as other:
                if other.connect_ex(path) == 0:
                    raise FileExistsError(f"somebody listens at {path}")
            os.unlink(path)
        listening = socket.socket(socket.AF_UNIX)
        listening.bind(path)
        listening.listen(128)
        self.path = path
        self.begin(listening)

    def begin(self, listening: socket.socket) -> None:
        self.listening.append(listening)
        threading.Thread(target=self.accept, args=(listening,), name="accept", daemon=True).start()

    def accept(self, listening: socket.socket) -> None:
        while True:
            try:
                link, _ = listening.accept()
            except OSError as fault:
                if self.is_closing:
                    return
                log.warning("no connection: %s", fault)
                threading.Event().wait(0.1)
                continue
            try:
                threading.Thread(target=self.serve, args=(link,), name="connection", daemon=True).start()
            except RuntimeError as fault:
                log.warning("no connection: %s", fault)
                link.close()

    def serve(self, link: socket.socket) -> None:
        """One connection, to its end."""
        with self.lock:
            self.counts.connections += 1
            is_one_too_many = self.counts.connections > self.most
        try:
            with link, contextlib.suppress(OSError):
                if link.family == socket.AF_INET:
                    link.setsockopt(socket.IPPROTO_TCP, socket.TCP_NODELAY, 1)
                link.setsockopt(socket.SOL_SOCKET, socket.SO_SNDTIMEO, timeval(SENDING))
                if is_one_too_many:
                    place = self.follower.replica.place
                    link.sendall(envelope.fault_of(place, None, Busy("too many connections")) + b"\n")
                else:
                    self.answer(link)
        finally:
            with self.lock:
                self.counts.connections -= 1

    def answer(self, link: socket.socket) -> None:
        lines, answerer = Lines(), Answerer(self.follower, self.counts)
        while True:
            block = link.recv(BLOCK)
            found = lines.add(block) if block else lines.last()
            if found:
                link.sendall(answerer.answers(found))
            if not block:
                return

    def close(self) -> None:
        self.is_closing = True
        for listening in self.listening:
            with contextlib.suppress(OSError):
                listening.shutdown(socket.SHUT_RDWR)
            listening.close()
        if self.path:
            with contextlib.suppress(OSError):
                os.unlink(self.path)


def timeval(seconds: float) -> bytes:
    """The system's form of a time."""
    return struct.pack("ll", int(seconds), 0)
