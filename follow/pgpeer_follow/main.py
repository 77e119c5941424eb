"""The command `pgpeer-follow`."""

import argparse
import logging
import os
import shutil
import signal
import sys
import threading
from typing import List, Optional

from . import __version__
from .core import Program
from .follower import Follower, Settings
from .gateway import Access
from .keys import Keys
from .metrics import Counts, Pages
from .server import Server
from .tell import tell

USAGE = 2  # the status where the command line is wrong
NO_SOCKET = 3  # where a socket can't be had, or a file of TLS can't be read


def parser() -> argparse.ArgumentParser:
    made = argparse.ArgumentParser(prog="pgpeer-follow", description="Follows a log that is kept in etcd, and answers by the program pgpeer.")
    made.add_argument("--version", action="version", version=f"pgpeer-follow {__version__}")
    made.add_argument("--prefix", default="/pgpeer/", help="under which the log stands in etcd")
    made.add_argument("--create", action="store_true", help="makes the log where there is none")
    made.add_argument("--log-id", default="", metavar="ID", help="takes no other log")
    made.add_argument("--socket", metavar="PATH", help="answers at a Unix socket")
    made.add_argument("--listen", type=int, metavar="PORT", help="answers at a TCP port of the loopback")
    made.add_argument("--tell", metavar="PORT or PATH", help="tells a follower the lines of standard input, and ends")
    made.add_argument("--metrics", type=int, metavar="PORT", help="has /metrics and /health at a port of the loopback")
    made.add_argument("--program", default="pgpeer", metavar="PATH", help="the built program")
    made.add_argument("--format", default="2", choices=("2", "3"), help="up to which version it reads lines; with 3 incrementals are joined too")
    made.add_argument("--snapshot-every", type=int, default=10_000, metavar="N", help="compacts after as many places, 1 to 50000")
    made.add_argument("--wait", type=float, default=10.0, metavar="SECONDS", help="for a place or for etcd at most, up to 300")
    made.add_argument("--connections", type=int, default=1000, metavar="N", help="at once at most")
    made.add_argument("--log-level", default="info", choices=("debug", "info", "warning", "error"))
    etcd = made.add_argument_group("etcd, as with etcdctl (from 3.4 on)")
    etcd.add_argument("--endpoints", default=os.environ.get("ETCDCTL_ENDPOINTS", "http://127.0.0.1:2379"), metavar="URL,..")
    etcd.add_argument("--cacert", default=os.environ.get("ETCDCTL_CACERT"), metavar="FILE")
    etcd.add_argument("--cert", default=os.environ.get("ETCDCTL_CERT"), metavar="FILE")
    etcd.add_argument("--key", default=os.environ.get("ETCDCTL_KEY"), metavar="FILE")
    etcd.add_argument("--user", default=os.environ.get("ETCDCTL_USER", ""), metavar="NAME[:PASSWORD]")
    etcd.add_argument("--password", default=os.environ.get("ETCDCTL_PASSWORD", ""))
    etcd.add_argument("--cluster-id", type=lambda text: int(text, 16), metavar="HEX", help="takes no other cluster")
    etcd.add_argument("--allow-plain", action="store_true", help="without TLS to other hosts than this one too")
    return made


def access_of(options: argparse.Namespace) -> Access:
    name, colon, password = options.user.partition(":")
    return Access(
        [it for it in options.endpoints.split(",") if it],
        cacert=options.cacert,
        cert=options.cert,
        key=options.key,
        user=name,
        password=password if colon else options.password,
        cluster=options.cluster_id,
        may_leave_loopback=options.allow_plain,
    )


def follower_of(options: argparse.Namespace) -> Follower:
    """ValueError: an option can't be. OSError: a file of TLS can't be read."""
    program = shutil.which(options.program)
    if not program:
        raise ValueError(f"there is no program {options.program}")
    if options.socket is None and options.listen is None:
        raise ValueError("neither --socket nor --listen is told")
    if not 1 <= options.snapshot_every <= 50_000 or not 0 < options.wait <= 300 or options.connections < 1:
        raise ValueError("--snapshot-every, --wait or --connections is out of range")
    if not options.endpoints.strip(","):
        raise ValueError("no endpoint is told")
    settings = Settings(Program(program, options.format), options.wait, options.snapshot_every, options.log_id, options.create)
    return Follower(Keys(options.prefix), access_of(options), settings)


def main(words: Optional[List[str]] = None) -> int:
    """Runs until SIGTERM or SIGINT."""
    options = parser().parse_args(words)
    if options.tell:
        return tell(options.tell, sys.stdin.buffer, sys.stdout.buffer)
    logging.basicConfig(level=options.log_level.upper(), format="%(levelname)s %(name)s: %(message)s", stream=sys.stderr)
    stopped = threading.Event()
    for number in (signal.SIGTERM, signal.SIGINT):
        signal.signal(number, lambda *_: stopped.set())
    try:
        follower = follower_of(options)
    except ValueError as fault:
        print(f"pgpeer-follow: {fault}", file=sys.stderr)
        return USAGE
    except OSError as fault:
        print(f"pgpeer-follow: {fault}", file=sys.stderr)
        return NO_SOCKET
    counts = Counts()
    server = Server(follower, counts, options.connections)
    try:
        if options.socket:
            server.listen_unix(options.socket)
        if options.listen is not None:
            print(f"pgpeer-follow: listens at 127.0.0.1:{server.listen_tcp(options.listen)}", file=sys.stderr)
        if options.metrics is not None:
            Pages(options.metrics, follower, counts)
    except OSError as fault:
        print(f"pgpeer-follow: {fault}", file=sys.stderr)
        follower.stop()
        server.close()
        return NO_SOCKET
    follower.start()
    stopped.wait()
    server.close()
    follower.stop()
    return 0
