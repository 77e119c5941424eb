"""Makes lines by a grammar of all operations, by what a model says of the lines before.

Most lines of a `Story` are accepted: epochs go on, devices exist, trees are sound, and what a group still wants (an info that
wasn't heard, log entries, an up_thru) is told next.
"""

import json
import random
from typing import Any, Dict, List, Optional, Tuple

import grouped
import model
from maps import Group
from placement import FULL, WORD

NAMES = ("a", "b", "c", "rbd_data.1", "é", "\u0001", '"\\', "x" * 255, "猫", "\U0001f431", "\uffff", "\x7f")
DEVICE_WEIGHTS = (0, FULL, FULL // 2, FULL - 1, FULL + 1, 1, WORD)
ITEM_WEIGHTS = (0, 1, FULL, FULL // 2, 3 * FULL, 10 * FULL)


ENCODER = json.JSONEncoder(separators=(",", ":"), ensure_ascii=False)


def compact(value: Any) -> bytes:
    return ENCODER.encode(value).encode()


def some(rng: random.Random, items: Any, most: int) -> List[Any]:
    """A few of the items, in any order."""
    pool = list(items)
    return rng.sample(pool, min(len(pool), rng.randint(1, most)))


# Trees


def tree(rng: random.Random, devices: List[int], straw2: float = 0) -> List[Dict[str, Any]]:
    """The buckets of a sound tree over devices, in any order; as many of them as `straw2` says are such."""
    ids = rng.sample(range(-65536, 0), 64) if rng.random() < 0.2 else list(range(-64, 0))
    rng.shuffle(ids)
    items, buckets = [*devices], []
    rng.shuffle(items)
    kind = 0
    for _ in range(rng.choice((0, 1, 1, 1, 2, 2, 3))):
        kind += rng.choice((1, 1, 1, 2))
        groups = rng.randint(2, max(2, min(10, len(items) // 2)))
        left = items[: rng.choice((0, 0, 0, 1))]  # items that stand beside buckets of a higher level
        for group in range(groups):
            buckets.append(bucket(rng, ids.pop(), kind, items[len(left) + group :: groups], straw2))
        items = left + [it["id"] for it in buckets[-groups:]]
    buckets.append(bucket(rng, ids.pop(), kind + rng.choice((1, 1, 3)), items, straw2))
    rng.shuffle(buckets)
    return buckets


def bucket(rng: random.Random, name: int, kind: int, items: List[int], straw2: float = 0) -> Dict[str, Any]:
    if rng.random() < 0.03:
        items = [it for it in items if it < 0]
    made = {"id": name, "type": kind, "alg": "uniform", "items": items}
    is_straw2 = straw2 > 0 and rng.random() < straw2
    if is_straw2 or rng.random() < 0.4:
        weights = [FULL] * len(items) if rng.random() < 0.3 else [rng.choice(ITEM_WEIGHTS) for _ in items]
        made.update(alg="straw2" if is_straw2 else "list", weights=weights)
    return made


def deep_tree(rng: random.Random, levels: int) -> List[Dict[str, Any]]:
    """A chain of this many buckets."""
    return [bucket(rng, -1 - at, levels - at, [-2 - at] if at + 1 < levels else [0, 1, 2]) for at in range(levels)]


# Traces


def trace(rng: random.Random, most: int, has_versions: bool = True, last: int = 2) -> Dict[str, Any]:
    """A trace; of a grouped code at times, where lines may have versions up to the last."""
    code = trace_code(rng, has_versions)
    epochs, now, count = [], None, rng.randint(1, most)
    for epoch in range(1, count + 1):
        if now is None or rng.random() < 0.4:
            now = trace_epoch(rng, now, code["kind"] != "replicated", epoch)
        epochs.append(now)
    line = {"op": "trace", "code": code, "epochs": epochs}
    return versioned(rng, line, last) if has_versions else line


def trace_code(rng: random.Random, has_versions: bool) -> Dict[str, Any]:
    if has_versions and rng.random() < 0.35:
        return {"kind": "grouped", "groups": grouped.sound(rng, rng.choice((2, 3, 4, 4, 6, 16)))}
    k = rng.choice((None, None, 1, 2, 4, 16))
    return {"kind": "replicated"} if k is None else {"kind": "erasure", "k": k}


def versioned(rng: random.Random, line: Dict[str, Any], last: int = 2) -> Dict[str, Any]:
    """The line with a version up to the last, or what it needs; a line that needs none has one at times."""
    needs_two = any(it.get("kind") == "grouped" for it in (line.get("code", {}), *line.get("pools", ())))
    if "after" in line or any(it["alg"] == "straw2" for it in line.get("crush", ())):
        version = 3 if rng.random() < 0.95 else rng.choice((None, 1, 2, 4))
    else:
        version = (2 if last == 2 else rng.choice((2, 3))) if needs_two else rng.choice((None, None, None, None, None, 1, 2, last))
    return line if version is None else {"op": line["op"], "v": version, **line}


def trace_epoch(rng: random.Random, before: Optional[Dict[str, Any]], has_empty: bool, epoch: int) -> Dict[str, Any]:
    """An epoch that differs from the one before in a part or two."""

    def places() -> List[Optional[int]]:
        count = rng.choice((0, 1, 2, 3, 4, 16))
        return [None if has_empty and rng.random() < 0.2 else rng.randrange(rng.choice((4, 4096))) for _ in range(count)]

    if before is None:
        size = rng.randint(1, 16)
        acting = places()
        up = places() if rng.random() < 0.3 else acting
        sizes = {"size": size, "min_size": rng.randint(1, min(size, 4))}
        return {"up": up, "acting": acting, **sizes, "up_from": rng.randint(0, 2), "up_thru": rng.randint(0, 3)}
    now = dict(before)
    for key in rng.sample(("up", "acting", "size", "min_size", "up_from", "up_thru", "up_thru", "up_thru"), rng.choice((1, 1, 2))):
        if key in ("up", "acting"):
            now[key] = places()
        elif key == "size":
            now[key] = rng.randint(now["min_size"], 16)
        elif key == "min_size":
            now[key] = rng.randint(1, min(now["size"], 4))
        else:
            now[key] = rng.choice((0, epoch, epoch, max(0, epoch - 1), epoch + 1, WORD, rng.randint(0, epoch)))
    return now


# Scripts


class Story:
    """The lines of one script. The caller has the model answer each before it asks for the next."""

    def __init__(self, rng: random.Random, log: "model.Model", most_entries: int = 400):
        self.rng, self.log, self.maps = rng, log, log.maps
        self.most_entries = most_entries
        first = rng.choice((0, 0, 0, 0, 4096 - 48, rng.randrange(4000)))
        self.devices = range(first, first + rng.choice((3, 6, 12, 24, 48)))
        self.most_pools = rng.choice((1, 2, 3, 6))
        self.writes: Dict[Group, List[Tuple[int, int, str, str]]] = {}
        self.most_writes = rng.choice((10, 40, 40, 300))
        self.first_write = rng.choice((1, 1, 1, WORD - 20))  # its number
        self.plan: List[Dict[str, Any]] = []
        self.asks = rng.choice((0.1, 0.3, 0.6))
        self.is_first_form = rng.random() < 0.35  # no versions, no grouped pools and no clean epochs
        has_third = log.last == 3 and not self.is_first_form
        self.straw2 = 0.4 if has_third else 0  # of the buckets
        self.jumps = rng.choice((0.05, 0.3, 0.9)) if has_third else 0  # of the incrementals, which pass over epochs
        self.is_done = False

    def line(self) -> Dict[str, Any]:
        """The next line, as it was meant to be."""
        line = self.plan.pop(0) if self.plan else self.unplanned()
        return line if self.is_first_form else versioned(self.rng, line, self.log.last)

    def unplanned(self) -> Dict[str, Any]:
        rng = self.rng
        if not self.maps.made or rng.random() < 0.02:
            return self.inc(has_pools=True)
        if self.log.count > self.most_entries and not self.is_done:
            self.is_done = True
            return {"op": "close"}
        roll = rng.random()
        if roll < self.asks:
            return self.ask()
        if roll < self.asks + 0.1:
            return self.locate()
        if roll < self.asks + 0.12:
            return trace(rng, 12, not self.is_first_form, self.log.last)
        if roll < self.asks + 0.22:
            return self.inc()
        return self.report()

    def group(self) -> Group:
        pool = self.rng.choice(list(self.maps.made))
        groups = self.maps.made[pool]["pg_num"]
        return pool, self.rng.randrange(min(groups, 3)) if self.rng.random() < 0.97 else self.rng.randrange(groups)

    def locate(self) -> Dict[str, Any]:
        name = self.rng.choice(NAMES) if self.rng.random() < 0.5 else "o" * self.rng.randint(0, 13) + str(self.rng.randrange(30))
        return {"op": "locate", "pool": self.group()[0], "name": name}

    # Incrementals

    def inc(self, has_pools: bool = False, **more: Any) -> Dict[str, Any]:
        rng, now, step = self.rng, self.maps.epoch, self.step()
        epoch = step["epoch"]
        up = [osd for osd in self.devices if self.maps.is_up(osd, now)]
        down = [osd for osd in self.devices if not self.maps.is_up(osd, now)]
        chance = lambda part: rng.random() < part  # noqa: E731
        inc: Dict[str, Any] = {"op": "inc", **step}
        if len(up) < len(self.devices) // 2 or chance(0.4):
            inc["up"] = some(rng, down, 24 if now == 0 else 4)
        boots = inc.get("up", [])
        if up and chance(0.5):
            inc["down"] = some(rng, up, 3 if chance(0.9) else 16)
        falls = inc.get("down", [])
        idle = [osd for osd in down if osd not in boots]
        known = [osd for osd in idle if self.maps.exists(osd, now)]
        if known and chance(0.1):
            inc["gone"] = some(rng, known, 2)
        if chance(0.06):
            inc["weight"] = [[osd, rng.choice(DEVICE_WEIGHTS)] for osd in some(rng, up + boots + known, 4)]
        if chance(0.5):
            inc["up_thru"] = [[osd, self.new_up_thru(osd, epoch)] for osd in some(rng, self.leaders() or up + known, 4)]
        if (known or falls) and chance(0.1):
            inc["lost"] = [[osd, rng.choice((epoch, epoch, now, 0, rng.randint(0, epoch)))] for osd in some(rng, known + falls, 2)]
        if has_pools and len(self.maps.made) < self.most_pools or chance(0.01):
            inc["pools"] = self.pools()
        if self.maps.made and chance(0.06):
            inc["sizes"] = [self.new_size(pool) for pool in some(rng, self.maps.made, 2)]
        if "tree" not in more and (chance(0.03) or self.maps.trees.last(None, now, None) is None and chance(0.9)):
            inc["crush"] = deep_tree(rng, rng.randint(1, 10)) if chance(0.02) else tree(rng, list(self.devices), self.straw2)
        if chance(0.25):
            inc["temp"] = self.temps(inc.get("pools", []))
        inc.update(more)
        return {key: value for key, value in inc.items() if value != [] or key == "crush"}

    def step(self) -> Dict[str, int]:
        """The keys of the next incremental that say which map it changes, and to which it leads; at times it passes over epochs."""
        rng, now = self.rng, self.maps.epoch
        if self.jumps == 0 or rng.random() >= self.jumps:
            return {"epoch": now + 1}
        most = rng.choice((0, 1, 1, 2, 5, 40, 100_000)) if rng.random() < 0.99 else (WORD - now) // 2
        return {"after": now, "epoch": min(now + 1 + rng.randint(0, most), max(WORD, now + 1))}

    def leaders(self) -> List[int]:
        """The acting primaries of a few groups."""
        if not self.maps.made:
            return []
        now = self.maps.epoch
        found = {self.maps.membership(self.group(), now).acting_primary for _ in range(2)}
        return [osd for osd in found if osd is not None]

    def new_up_thru(self, osd: int, epoch: int) -> int:
        old = self.maps.up_thru(osd, epoch - 1)
        return self.rng.choice((epoch, epoch, max(old, epoch - 1), self.rng.randint(old, epoch)))

    def pools(self) -> List[Dict[str, Any]]:
        rng, made = self.rng, []
        free = [it for it in (1, 2, 3, 7, 200, 255, 254, 100) if it not in self.maps.made]
        for name in some(rng, free, 2):
            size = rng.choice((1, 2, 3, 3, 3, 4, 6)) if rng.random() < 0.97 else rng.choice((11, 16))
            pool = {"id": name, "pg_num": rng.choice((1, 1, 2, 3, 8, 12, 64, 1024)), "kind": "replicated", "size": size}
            pool["min_size"] = rng.randint(1, size) if rng.random() < 0.4 else min(size, 2)
            pool["leaf"] = rng.choice((0, 0, 0, 1, 1, 2)) if rng.random() < 0.9 else rng.choice((2, 3, 5, 255))
            if not self.is_first_form and rng.random() < 0.4:
                pool.update(kind="grouped", groups=grouped.sound(rng, size))
            elif rng.random() < 0.5:
                pool.update(kind="erasure", k=rng.randint(1, size) if rng.random() < 0.4 else max(1, size - 1))
            made.append(pool)
        return made

    def new_size(self, pool: int) -> List[int]:
        old = self.maps.made[pool]
        size = old["size"] if old["kind"] != "replicated" else self.rng.choice((1, 2, 3, 4, 16))
        return [pool, size, self.rng.randint(1, size)]

    def temps(self, pools: List[Dict[str, Any]]) -> List[List[Any]]:
        rng, found = self.rng, {}
        made = {**self.maps.made, **{it["id"]: it for it in pools}}
        for pool in some(rng, made, 2):
            pg = rng.randrange(min(made[pool]["pg_num"], 3))
            found[pool, pg] = [] if rng.random() < 0.2 else self.temp(made[pool])
        return [[pool, pg, places] for (pool, pg), places in found.items()]

    def temp(self, pool: Dict[str, Any]) -> List[Optional[int]]:
        rng, size = self.rng, pool["size"]
        if pool["kind"] == "replicated":
            count = rng.choice((size, size, size, min(16, size + 1), 1, 16))
            return rng.sample(self.devices, min(count, len(self.devices)))
        places: List[Optional[int]] = rng.sample(self.devices, min(size, len(self.devices)))
        places += [None] * (size - len(places))
        return [None if rng.random() < 0.1 else osd for osd in places]

    # Questions, and what a group still wants

    def ask(self) -> Dict[str, Any]:
        group = self.group()
        if self.rng.random() < 0.7 and not self.log.is_closed:
            self.plan = self.wanted(group)
        return {"op": "ask", "pg": list(group)}

    def wanted(self, group: Group) -> List[Dict[str, Any]]:
        """Lines that bring the group on, and perhaps another question."""
        rng, view = self.rng, self.log.view(group)
        again = [{"op": "ask", "pg": list(group)}]
        verdict = view["verdict"]
        if not self.is_first_form and rng.random() < 0.1:
            return [self.clean_info(group, view)] + again
        if verdict == "Waiting" or verdict == "Incomplete" or (verdict == "Short" and rng.random() < 0.5):
            rng.shuffle(again)
            heard = view["probe"] if rng.random() < 0.9 else view["probe"][1:]
            return [self.info(group, member) for member in heard] + again
        if verdict == "NeedLog":
            return [self.entries(group, view["best"], whole=True)] + again
        if verdict == "NeedUpThru":
            return [self.inc_only(up_thru=[[view["acting_primary"], self.maps.epoch + 1]])] + again
        if verdict == "Down":
            down = [osd for osd in view["blocked_by"] if self.maps.exists(osd, self.maps.epoch)]
            if rng.random() < 0.5:
                return [self.inc_only(up=down)] + again
            return [self.inc_only(lost=[[osd, self.maps.epoch + 1] for osd in down])] + again
        if verdict == "Serve" and rng.random() < 0.6:
            return [self.write(group, view) for _ in range(rng.randint(0, 3))] + again
        if verdict == "Serve":
            return [self.inc_only(down=some(rng, [osd for osd in view["acting"] if osd is not None], 4))] + again
        return []

    def inc_only(self, **parts: Any) -> Dict[str, Any]:
        return {"op": "inc", **self.step(), **parts}

    # Reports

    def report(self) -> Dict[str, Any]:
        group = self.group()
        member = self.member(group)
        return self.info(group, member) if self.rng.random() < 0.6 else self.entries(group, member)

    def member(self, group: Group) -> Any:
        now = self.maps.membership(group, self.maps.epoch)
        code = self.maps.code(group[0])
        places = [it for it in enumerate(self.rng.choice((now.acting, now.up))) if it[1] is not None]
        if places and self.rng.random() < 0.9:
            slot, osd = self.rng.choice(places)
        else:
            slot, osd = self.rng.randrange(now.size), self.rng.choice(self.devices)
        return osd, 0 if code is None else slot

    def log_to(self, group: Group) -> List[Tuple[int, int, str, str]]:
        """The writes to a group so far, of which at times one more is made."""
        rng, log = self.rng, self.writes.setdefault(group, [])
        for _ in range(rng.choice((0, 0, 1, 3, self.most_writes // 20)) if self.maps.epoch else 0):
            number = self.first_write + len(log)
            if len(log) < self.most_writes and number <= WORD:
                log.append((self.maps.epoch, number, rng.choice(("modify", "modify", "delete")), rng.choice(NAMES)))
        return log

    def stamp(self) -> int:
        now = self.maps.epoch
        return now if self.rng.random() < 0.93 else self.rng.randint(0, now)

    def clean_info(self, group: Group, view: Dict[str, Any]) -> Dict[str, Any]:
        """An info that tells of a clean epoch in an interval without flag, or in the current one, or beside it."""
        rng, now = self.rng, self.maps.epoch
        spans = [(it["first"], it["last"]) for it in view["intervals"] if not it["rw"]] + [(view["first"], now)]
        first, last = rng.choice(spans)
        epoch = min(now, rng.choice((first - 1, first, last, last + 1, rng.randint(first, last))))
        stamp = rng.choice((epoch, now, now, rng.randint(epoch, now)))
        return {**self.info(group, self.member(group), stamp), "last_epoch_clean": epoch}

    def info(self, group: Group, member: Any, stamp: Optional[int] = None) -> Dict[str, Any]:
        rng, log, stamp = self.rng, self.log_to(group), self.stamp() if stamp is None else stamp
        versions = [(0, 0)] + [(epoch, v) for epoch, v, _, _ in log if epoch <= stamp]
        last = len(versions) - 1 if rng.random() < 0.6 else rng.randrange(len(versions))
        tail = rng.choice((0, 0, 0, max(0, last - 2), last, rng.randint(0, last)))
        if self.first_write > 1 and rng.random() < 0.8:
            tail = max(tail, min(last, 1))
        update = versions[last]
        if last and rng.random() < 0.05:
            update = (rng.randint(1, stamp), update[1])  # a write that the others may not know
        if versions[tail][1] == update[1]:
            update = versions[tail]
        les = rng.choice((0, 0, 0, stamp, rng.randint(0, stamp)))
        has_clean = not self.is_first_form and rng.random() < 0.25
        clean = {"last_epoch_clean": rng.choice((0, 0, stamp, rng.randint(0, stamp)))} if has_clean else {}
        return {
            "op": "info", "pg": list(group), "from": list(member), "stamp": stamp, "les": les,
            "history_les": rng.choice((0, 0, 0, les, rng.randint(0, stamp))), "last_update": list(update),
            "log_tail": list(versions[tail]), "complete": rng.random() < 0.9, **clean,
        }  # fmt: skip

    def entries(self, group: Group, member: Any, whole: bool = False) -> Dict[str, Any]:
        rng, stamp = self.rng, self.stamp()
        log = [entry for entry in self.log_to(group) if entry[0] <= stamp]
        if not log:
            return self.info(group, member)
        if not whole:
            begin = rng.randrange(len(log))
            log = log[begin : begin + rng.randint(1, 8)]
        if rng.random() < 0.1:
            rng.shuffle(log)
        if rng.random() < 0.05:
            log = log + [(rng.randint(1, stamp) if stamp else 1, rng.randint(1, 50), "modify", rng.choice(NAMES))]
        return {"op": "entries", "pg": list(group), "from": list(member), "stamp": stamp, "log": [list(it) for it in log[:256]]}

    def write(self, group: Group, view: Dict[str, Any]) -> Dict[str, Any]:
        """A report of a member after the group began to serve."""
        member = self.rng.choice(view["probe"])
        if self.rng.random() < 0.4:
            return self.entries(group, member)
        serves = {"stamp": self.maps.epoch, "les": view["first"], "history_les": view["first"], "complete": True}
        return {**self.info(group, member), **serves}
