"""Tells a follower the lines of standard input, and prints its answers."""

import contextlib
import socket
import sys
import threading
import time
from typing import BinaryIO

CONNECTING = 10.0  # seconds within which a follower that starts has to listen


def connected(address: str) -> socket.socket:
    """A connection to a port of the loopback, or to a Unix socket. OSError."""
    end = time.monotonic() + CONNECTING
    while True:
        try:
            if address.isdigit():
                return socket.create_connection(("127.0.0.1", int(address)))
            link = socket.socket(socket.AF_UNIX)
            link.connect(address)
            return link
        except OSError:
            if time.monotonic() > end:
                raise
            time.sleep(0.1)


def send(link: socket.socket, lines: BinaryIO) -> None:
    with contextlib.suppress(OSError):
        for line in lines:
            link.sendall(line)
        link.shutdown(socket.SHUT_WR)


def tell(address: str, lines: BinaryIO, out: BinaryIO) -> int:
    """The status: 1 where the follower can't be reached."""
    try:
        with connected(address) as link:
            threading.Thread(target=send, args=(link, lines), daemon=True).start()
            for answer in link.makefile("rb"):
                out.write(answer)
                out.flush()
    except OSError as fault:
        print(f"pgpeer-follow: {address}: {fault}", file=sys.stderr)
        return 1
    return 0
