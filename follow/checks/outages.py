"""What followers say of bad lines, and where etcd is gone."""

import http.client
import json
import signal
import time
from typing import Iterable, List, Tuple

import cluster
from load import Load
from truth import Answer
from workload import GROUPS, told

from pgpeer_follow import envelope
from pgpeer_follow.gateway import Gateway
from pgpeer_follow.keys import LONGEST_LINE, Entry, Keys
from pgpeer_follow.log import join
from pgpeer_follow.snapshot import Store

Found = List[Tuple[bool, str]]  # whether it was as wanted, and what it was

INFO = {"op": "info", "pg": [1, 0], "from": [0, 0], "stamp": 1, "les": 0, "history_les": 0, "last_update": [0, 0], "log_tail": [0, 0], "complete": True}
REFUSED = (  # lines, and the names by which they are refused
    (b"{", "NotJson"),
    (b"\xff\xfe{}", "NotJson"),
    (b'{"op":"ask","pg":[1,0]} {}', "NotJson"),
    (b"[" * 100_000, "NotJson"),
    (b'{"op":"ask","pg":[1,0],"x":' + b"[" * 200 + b"]" * 200 + b"}", "NotJson"),
    (b'{"op":"ask","pg":[1,0],"x":NaN}', "NotJson"),
    (b'"inc"', "NoOp"),
    (b"{}", "NoOp"),
    (b'{"op":"noop"}', "NoOp"),
    (b'{"op":"ask","pg":[1,0],"aftre":1}', "UnknownKey"),
    (b'{"op":"ask","pg":[1,0],"token":"a"}', "UnknownKey"),
    (b'{"op":"health","pg":[1,0]}', "UnknownKey"),
    (b'{"op":"place"}', "BadField"),
    (b'{"op":"place","token":"a b"}', "BadField"),
    (b'{"op":"close","token":7}', "BadField"),
    (b'{"op":"ask","pg":[1,0],"after":-1}', "BadField"),
    (b'{"op":"ask","pg":[1,0],"after":1.0}', "BadField"),
    (b'{"op":"ask","pg":[1,0],"after":"1"}', "BadField"),
    (b'{"op":"ask","pg":[1,0],"after":99999999999999999999}', "BadField"),
    (b'{"op":"ask","pg":[200,0]}', "UnknownGroup"),
    (b'{"op":"inc","pad":"' + b"x" * LONGEST_LINE + b'"}', "LineTooLong"),
    (b"x" * (3 * LONGEST_LINE), "LineTooLong"),
)


def leading_node(made: cluster.Cluster) -> cluster.Process:
    """The node of etcd that leads now; the first where none says."""
    for process, port in zip(made.nodes, made.client_ports):
        try:
            link = http.client.HTTPConnection("127.0.0.1", port, timeout=2)
            link.request("POST", "/v3/maintenance/status", "{}")
            said = json.loads(link.getresponse().read())
            link.close()
            if said["leader"] == said["header"]["member_id"]:
                return process
        except (OSError, ValueError, KeyError, http.client.HTTPException):
            continue
    return made.nodes[0]


def incrementals(lines: Iterable[bytes]) -> int:
    return sum(b'"op":"inc"' in it for it in lines)


def kept_short(made: cluster.Cluster, log: List[Entry], version: str) -> Found:
    """The last two snapshots are there, the log begins behind the first of them, and a follower that was run again began there. In
    version 3 incrementals were joined."""
    keys, to_etcd = Keys("/pgpeer/"), made.to_etcd()
    store, end = Store(keys, join(keys, to_etcd), to_etcd), time.monotonic() + 60
    wanted = [it.place for it in log if it.is_mark][-2:]
    places: List[int] = []
    first = 0
    while time.monotonic() < end:
        places = [it.place for it in store.manifests()]
        first = keys.place_of(to_etcd.range(keys.place(0), keys.log_end, limit=1, keys_only=True)[0].key) or 0
        if places == wanted and (len(places) < 2 or first == places[0] + 1):
            break
        time.sleep(0.5)
    is_short = places == wanted and (len(places) < 2 or first == places[0] + 1)
    script = store.latest(0).script if places else ()
    left, told = incrementals(script), incrementals(it.line for it in log if places and it.place < places[-1])
    begun = made.followers[0].log.read_text().rpartition("listens at")[2]
    return [
        (is_short, f"after marks {wanted} there are snapshots of {places}, and the log begins at {first}"),
        (not wanted or "goes on from the snapshot" in begun, f"a follower that was run again says {begun}"),
        (version == "2" or not places or left < told, f"the last snapshot has {left} incrementals of {told}"),
    ]


def asked_alike(made: cluster.Cluster, load: Load) -> List[Answer]:
    """Each group, asked of each follower, once it has read all."""
    last = max((place for place, _ in load.told.values()), default=0)
    answers = []
    for port in made.ports:
        with cluster.Client(port) as client:
            for group in range(GROUPS):
                line = {"op": "ask", "pg": [1, group]}
                at, _, answer = envelope.split(client.raw(told({**line, "after": last})))
                answers.append(Answer(at, told(line), answer))
    return answers


def named_refusals(made: cluster.Cluster) -> Found:
    """Bad lines get their named refusals, and leave the log as it is."""
    found: Found = []
    with cluster.Client(made.ports[0]) as client:
        head = client.tell({"op": "health"})["head"]
        for line, name in REFUSED:
            reply = json.loads(client.raw(line))
            found.append((reply.get("refused") == name, f"{line[:60]!r} is answered {reply}"))
        longest = b'{"op":"close","pad":"' + b"x" * (LONGEST_LINE - 23) + b'"}'
        place = head + 1
        reply = client.tell({**INFO, "stamp": 0, "token": "twice"})
        found.append((reply["at"] == place and "ok" in reply, f"an entry is answered {reply}"))
        again = client.tell({**INFO, "stamp": 0, "token": "twice"})
        found.append((again == reply, f"told twice it is answered {again}"))
        other = client.tell({**INFO, "stamp": 1, "token": "twice"})
        found.append((other.get("refused") == "TokenUsed" and other.get("place") == place, f"with another line it is answered {other}"))
        reply = json.loads(client.raw(longest))
        found.append((reply.get("refused") == "UnknownKey" and reply["at"] == place + 1, f"a line of {len(longest)} bytes is answered {reply}"))
    with cluster.Client(made.ports[1]) as client:
        reply = client.tell({"op": "place", "token": "twice"})
        found.append((reply.get("place") == place, f"its place is told as {reply}"))
        late = client.tell({"op": "ask", "pg": [1, 0], "after": place + 1000})
        found.append((late.get("refused") == "NotYet", f"a place ahead of the log is answered {late}"))
    return found


def without_etcd(made: cluster.Cluster) -> Found:
    """With two of three nodes stopped, answers go on and say how old they are, and appends are refused within the bound."""
    found: Found = []
    with cluster.Client(made.ports[2]) as client:
        head = client.tell({"op": "health"})["head"]
        for node in made.nodes[:2]:
            node.send(signal.SIGSTOP)
        try:
            time.sleep(5.0)
            reply = client.tell({"op": "ask", "pg": [1, 0], "after": head})
            found.append((reply.get("age", 0) >= 3 and reply["at"] >= head, f"without a majority a question is answered {reply}"))
            begun = time.monotonic()
            reply = client.tell({**INFO, "token": "minority"})
            took = time.monotonic() - begun
            found.append((reply.get("refused") in ("Unavailable", "Unsure") and took < 15, f"an entry is answered {reply} after {took:.0f} s"))
            reply = client.tell({"op": "health"})
            found.append((reply["state"] == "Unavailable", f"health is {reply}"))
        finally:
            for node in made.nodes[:2]:
                node.send(signal.SIGCONT)
        made.wait_for(made.ports[2])
        reply = client.tell({**INFO, "token": "minority"})
        found.append((reply["at"] > head, f"once the nodes are back it is answered {reply}"))
    tokens = 0
    to_etcd: Gateway = made.to_etcd()
    for item in to_etcd.range(b"/pgpeer/log/%016d" % head, b"/pgpeer/log0"):
        tokens += item.value.startswith(b"line minority\n")
    found.append((tokens == 1, f"the line stands {tokens} times"))
    return found
