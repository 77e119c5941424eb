"""What a follower counts, and its page for Prometheus."""

import collections
import http.server
import json
import logging
import re
import socketserver
import threading
from typing import Counter, List, Tuple

from .follower import FRESH, Follower

NAME = re.compile(rb'"refused":"(\w+)"')

log = logging.getLogger(__name__)


class Counts:
    """What the connections count. Several threads may count at once; a number may then be lower by a few."""

    def __init__(self) -> None:
        self.lines: Counter[str] = collections.Counter()
        self.refusals: Counter[str] = collections.Counter()
        self.connections = 0

    def refused(self, answer: bytes) -> None:
        """An answer of the program that is a refusal."""
        found = NAME.search(answer)
        if found:
            self.refusals[found[1].decode()] += 1


def page(follower: Follower, counts: Counts) -> str:
    """All numbers in Prometheus' text."""
    place, has_core = follower.replica.at()
    head = max(follower.head, place)
    rows: List[Tuple[str, str, str, float]] = [
        ("length", "gauge", "last place of the log", head),
        ("place", "gauge", "last place that was read", place),
        ("lag", "gauge", "places that are still to be read", head - place),
        ("age_seconds", "gauge", "all that stood so long ago was read", round(follower.age(), 3) if follower.fresh else -1),
        ("snapshot_place", "gauge", "place at which the script was last compacted", follower.replica.base.place),
        ("connected", "gauge", "1 where etcd answers", int(follower.lost is None)),
        ("program_runs", "gauge", "1 where the program runs", int(has_core)),
        ("leader", "gauge", "1 where this follower makes snapshots", int(follower.keeper.is_leader)),
        ("connections", "gauge", "open connections", counts.connections),
        ("asks_total", "counter", "lines that were told", counts.lines["asks"]),
        ("appends_total", "counter", "entries that stand by this follower", counts.lines["appends"]),
        ("reconnects_total", "counter", "watches after the first", max(0, follower.reader.reconnects)),
        ("starts_over_total", "counter", "snapshots that were read", follower.reader.starts_over),
        ("program_restarts_total", "counter", "programs after the first", max(0, follower.replica.restarts)),
        ("snapshots_total", "counter", "snapshots that this follower made", follower.keeper.made),
    ]
    lines = []
    for name, kind, says, number in rows:
        lines += [f"# HELP pgpeer_follow_{name} {says}", f"# TYPE pgpeer_follow_{name} {kind}", f"pgpeer_follow_{name} {number}"]
    lines += ["# HELP pgpeer_follow_refusals_total refusals by their names", "# TYPE pgpeer_follow_refusals_total counter"]
    lines += [f'pgpeer_follow_refusals_total{{name="{name}"}} {number}' for name, number in sorted(dict(counts.refusals).items())]
    return "\n".join(lines) + "\n"


class Pages(socketserver.ThreadingMixIn, http.server.HTTPServer):
    """`/metrics` and `/health` on the loopback. `/health` has status 503 where answers are old or there are none."""

    daemon_threads = True
    allow_reuse_address = True

    def __init__(self, port: int, follower: Follower, counts: Counts):
        self.follower, self.counts = follower, counts
        super().__init__(("127.0.0.1", port), Page)
        threading.Thread(target=self.serve_forever, name="metrics", daemon=True).start()


class Page(http.server.BaseHTTPRequestHandler):
    server: Pages
    timeout = 10

    def do_GET(self) -> None:  # noqa: N802
        follower = self.server.follower
        if self.path == "/metrics":
            self.tell(200, "text/plain; version=0.0.4", page(follower, self.server.counts))
        elif self.path == "/health":
            is_well = follower.health()["state"] == "following" and follower.fresh and follower.age() <= FRESH
            self.tell(200 if is_well else 503, "application/json", json.dumps(follower.health(), sort_keys=True) + "\n")
        else:
            self.tell(404, "text/plain", "only /metrics and /health are here\n")

    def tell(self, status: int, kind: str, text: str) -> None:
        body = text.encode()
        self.send_response(status)
        self.send_header("Content-Type", kind)
        self.send_header("Content-Length", str(len(body)))
        self.end_headers()
        self.wfile.write(body)

    def log_message(self, format: str, *args: object) -> None:
        log.debug(format, *args)
