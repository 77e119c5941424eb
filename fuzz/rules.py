"""Changes lines so that one rule of the log is broken, or two, by what the maps say of devices, pools and groups."""

import copy
import random
from typing import Any, Callable, Dict, List

import grammar
import grouped
from maps import Maps
from placement import FULL, WORD

Line = Dict[str, Any]
UNIFORM = {"type": 1, "alg": "uniform"}


def broken(rng: random.Random, line: Line, maps: Maps, devices: List[int]) -> Line:
    """The line with a rule or two broken."""
    line = copy.deepcopy(line)
    changes = {"inc": list(OF_INCREMENTALS.values()), "info": OF_INFOS, "entries": OF_ENTRIES}.get(line["op"])
    if changes is None:
        return question(rng, line)
    if line["op"] == "inc" and "v" in line:
        changes = [*changes, *[bad_parts] * 8]  # only scripts that may have grouped pools have such lines
    for change in rng.sample(changes, rng.choice((1, 1, 2))):
        change(rng, line, maps, devices)
    return line


def question(rng: random.Random, line: Line) -> Line:
    if "pg" in line:
        line["pg"] = rng.choice(([line["pg"][0], 1023], [rng.randint(1, 255), 0], [line["pg"][0], line["pg"][1] + 1]))
    if "pool" in line:
        line["pool"] = rng.randint(1, 255)
    if line.get("code", {}).get("kind") == "grouped":
        line["code"]["groups"] = grouped.faulty(rng, line["code"]["groups"], grouped.MOST)
    return line


# Incrementals


def epoch_gap(rng: random.Random, inc: Line, maps: Maps, devices: List[int]) -> None:
    if inc.get("v") == 3 and rng.random() < 0.7:
        inc["after"] = rng.choice((maps.epoch, maps.epoch, maps.epoch + 1, max(0, maps.epoch - 1), inc["epoch"], WORD))
    if "after" not in inc:
        inc["epoch"] = rng.choice((maps.epoch, maps.epoch + 2, 0, WORD))
    elif inc["after"] == maps.epoch:
        inc["epoch"] = rng.choice((maps.epoch, max(0, maps.epoch - 1), 0))


def twice(rng: random.Random, inc: Line, maps: Maps, devices: List[int]) -> None:
    osd, now = rng.choice(devices), inc["epoch"]
    part = rng.choice(("up", "down", "gone", "weight", "up_thru", "lost", "temp", "pools", "sizes", "both", "both", "made"))
    if part in ("up", "down", "gone"):
        inc[part] = inc.get(part, []) + (rng.choice((inc.get(part), None)) or [osd, osd])
    elif part in ("weight", "up_thru", "lost"):
        inc[part] = inc.get(part, []) + (rng.choice((inc.get(part), None)) or [[osd, now], [osd, 0]])
    elif part == "temp":
        pool = rng.choice(list(maps.made) or [1])
        inc[part] = inc.get(part, []) + (inc.get(part) or [[pool, 0, []], [pool, 0, []]])
    elif part == "pools":
        inc[part] = 2 * (inc.get(part) or [a_pool(rng)])
    elif part == "sizes":
        inc[part] = [[pool, 3, 2] for pool in list(maps.made)[:1] * 2]
    elif part == "made":
        made = inc.get("pools") or [a_pool(rng)]
        inc.update(pools=made, sizes=[[made[0]["id"], made[0]["size"], 1]])
    else:
        first, second = rng.sample(("up", "down", "gone"), 2)
        inc.setdefault(first, []).append(osd)
        inc.setdefault(second, []).append(osd)


def a_pool(rng: random.Random) -> Line:
    return {"id": rng.randint(1, 255), "pg_num": 1, "kind": "replicated", "size": 3, "min_size": 2, "leaf": 0}


def named(rng: random.Random, inc: Line, parts: Any, osd: int) -> None:
    """Names the device in one of the parts."""
    part = rng.choice(parts)
    inc.setdefault(part, []).append(osd if part in ("up", "down", "gone") else [osd, rng.choice((0, inc["epoch"]))])


def of(devices: List[int], is_one: Callable[[int], bool]) -> List[int]:
    return [osd for osd in devices if is_one(osd)]


def unknown_device(rng: random.Random, inc: Line, maps: Maps, devices: List[int]) -> None:
    absent = of(devices, lambda osd: not maps.exists(osd, maps.epoch)) + [rng.randrange(4096)]
    named(rng, inc, ("down", "gone", "weight", "up_thru", "lost"), rng.choice(absent))


def already_up(rng: random.Random, inc: Line, maps: Maps, devices: List[int]) -> None:
    named(rng, inc, ("up",), rng.choice(of(devices, lambda osd: maps.is_up(osd, maps.epoch)) or devices))


def already_down(rng: random.Random, inc: Line, maps: Maps, devices: List[int]) -> None:
    down = of(devices, lambda osd: maps.exists(osd, maps.epoch) and not maps.is_up(osd, maps.epoch))
    named(rng, inc, ("down",), rng.choice(down or devices))


def still_up(rng: random.Random, inc: Line, maps: Maps, devices: List[int]) -> None:
    up = of(devices, lambda osd: maps.is_up(osd, maps.epoch)) + inc.get("up", [])
    named(rng, inc, ("gone", "lost"), rng.choice(up or devices))


def up_thru_back(rng: random.Random, inc: Line, maps: Maps, devices: List[int]) -> None:
    told = of(devices, lambda osd: maps.exists(osd, maps.epoch) and maps.up_thru(osd, maps.epoch) > 0)
    for osd in told[:1] and [rng.choice(told)]:
        inc["up_thru"] = [[osd, rng.randrange(maps.up_thru(osd, maps.epoch))]]


def ahead(rng: random.Random, inc: Line, maps: Maps, devices: List[int]) -> None:
    part = rng.choice(("up_thru", "lost"))
    known = of(devices, lambda osd: maps.exists(osd, maps.epoch) and (part == "up_thru" or not maps.is_up(osd, maps.epoch)))
    inc[part] = [[rng.choice(known or devices), rng.choice((inc["epoch"] + 1, WORD))]]


def bad_pool(rng: random.Random, inc: Line, maps: Maps, devices: List[int]) -> None:
    pool = a_pool(rng)
    roll = rng.randrange(8)
    if roll == 0:
        pool["pg_num"] = rng.choice((0, 1025, 65535))
    elif roll == 1:
        pool["size"] = rng.choice((0, 17, 255))
    elif roll == 2:
        pool["min_size"] = rng.choice((0, 4, 255))
    elif roll == 3:
        pool.update(kind="erasure", k=rng.choice((0, 4, 255)))
    if roll < 4:
        inc["pools"] = inc.get("pools", []) + [pool]
    elif roll == 4:
        large = [{**pool, "id": at, "pg_num": 1024} for at in range(240, 240 + rng.choice((15, 16)))]
        inc["pools"] = [*large, {**pool, "id": 239, "pg_num": rng.choice((1023, 1024))}]
    else:
        name = rng.choice([*maps.made, rng.randint(1, 255)])
        size = rng.choice((0, 1, 3, 16, 17))
        inc["sizes"] = [[name, size, rng.choice((0, 1, size, size + 1))]]


def bad_parts(rng: random.Random, inc: Line, maps: Maps, devices: List[int]) -> None:
    """A grouped pool with faulty parts, or another size for one, mostly in a line of version 2."""
    inc["v"] = rng.choice((2, 2, 2, 2, 2, 1))
    made = [name for name, pool in maps.made.items() if pool["kind"] == "grouped"]
    if made and rng.random() < 0.3:
        name = rng.choice(made)
        size = max(1, maps.made[name]["size"] + rng.choice((-1, 0, 1, 1)))
        inc["sizes"] = [[name, size, 1]]
    else:
        size = rng.choice((1, 2, 3, 6, 16))
        pool = {**a_pool(rng), "kind": "grouped", "size": size, "min_size": 1, "groups": grouped.sound(rng, size)}
        inc["pools"] = [*inc.get("pools", []), {**pool, "groups": grouped.faulty(rng, pool["groups"], size)}]


def pool_known(rng: random.Random, inc: Line, maps: Maps, devices: List[int]) -> None:
    for name in list(maps.made)[:1]:
        inc["pools"] = [{**a_pool(rng), "id": name}]


def bad_temp(rng: random.Random, inc: Line, maps: Maps, devices: List[int]) -> None:
    pool = rng.choice(list(maps.made) or [1])
    size = maps.made[pool]["size"] if pool in maps.made else 3
    places: List[Any] = [*rng.sample(devices, min(size, len(devices))), *[None] * max(0, size - len(devices))]
    roll = rng.randrange(6)
    if roll == 0:
        pool = rng.randint(1, 255)
    elif roll == 1:
        places = list(range(rng.choice((16, 17, 40))))
    elif roll == 2:
        places[rng.randrange(size)] = places[0]
    elif roll == 3:
        places[rng.randrange(size)] = None
    elif roll == 4:
        places = places[:-1] or [0, 1]
    inc["temp"] = [[pool, 1023 if roll == 5 else 0, places]]


def tree_fault(rng: random.Random, inc: Line, maps: Maps, devices: List[int]) -> None:
    """Gives a tree that has a fault: a sound one with a part changed, or one of the large ones."""
    roll = rng.randrange(12)
    if roll == 0:
        inc["crush"] = grammar.deep_tree(rng, rng.choice((10, 11, 12, 40)))
    elif roll == 1:
        inc["crush"] = [{"id": -1, **UNIFORM, "items": list(range(rng.choice((256, 257, 300))))}]
    elif roll == 2:
        count = rng.choice((1023, 1024, 1025))
        held = [{"id": -2 - at, **UNIFORM, "items": []} for at in range(count - 5)]
        ids = [it["id"] for it in held]
        parts = [ids[begin : begin + 256] for begin in range(0, 1024, 256)]
        tops = [{"id": -2000 - at, "type": 2, "alg": "uniform", "items": part} for at, part in enumerate(parts)]
        inc["crush"] = [*held, *tops, {"id": -1, "type": 3, "alg": "uniform", "items": [-2000, -2001, -2002, -2003]}]
    elif roll == 3:
        weights = rng.choice(([WORD, 1], [WORD, 0], [2**31, 2**31], [2**31, 2**31 - 1], [WORD, WORD]))
        alg = "straw2" if inc.get("v") == 3 else "list"
        inc["crush"] = [{"id": -1, "type": 1, "alg": alg, "items": devices[:2], "weights": weights}]
    else:
        inc["crush"] = grammar.tree(rng, devices, 0.3 if inc.get("v") == 3 else 0) if rng.random() < 0.97 else []
        for _ in range(rng.choice((1, 1, 2)) if inc["crush"] else 0):
            one_fault(rng, inc["crush"])


def one_fault(rng: random.Random, crush: List[Line]) -> None:
    it, roll = rng.choice(crush), rng.randrange(7)
    held = [bucket["id"] for bucket in crush]
    if roll == 0:
        crush.append({**it, "items": [], "weights": []} if "weights" in it else {**it, "items": []})
    elif roll == 1:
        it["type"] = rng.choice((0, 1, 255))
    elif roll == 2:
        add(it, rng.choice((*it["items"], 0)))
    elif roll == 3:
        add(it, rng.choice((4095, 4096, 65535, -65536, -65535)))
    elif roll == 4:
        add(it, rng.choice(held))
    elif roll == 5:
        crush.append({"id": -65000, **UNIFORM, "items": []})
    elif len(crush) > 1:
        crush.remove(it)


def add(bucket: Line, item: int) -> None:
    bucket["items"] = [*bucket["items"], item]
    if "weights" in bucket:
        bucket["weights"] = [*bucket["weights"], FULL]


OF_INCREMENTALS = {
    10: epoch_gap, 11: twice, 12: unknown_device, 13: already_up, 14: already_down, 15: still_up, 16: up_thru_back, 17: ahead,
    18: bad_pool, 19: pool_known, 20: bad_temp, 21: tree_fault,
}  # fmt: skip


# Reports


def unknown_group(rng: random.Random, report: Line, maps: Maps, devices: List[int]) -> None:
    question(rng, report)


def unknown_member(rng: random.Random, report: Line, maps: Maps, devices: List[int]) -> None:
    osd, slot = report["from"]
    absent = of(devices, lambda it: not maps.exists(it, maps.epoch)) + [rng.randrange(4096)]
    report["from"] = rng.choice(([rng.choice(absent), slot], [osd, rng.randrange(16)], [osd, min(slot + 1, 15)]))


def future_stamp(rng: random.Random, report: Line, maps: Maps, devices: List[int]) -> None:
    report["stamp"] = rng.choice((maps.epoch + 1, WORD))


def bad_version(rng: random.Random, info: Line, maps: Maps, devices: List[int]) -> None:
    key = rng.choice(("last_update", "log_tail", "les", "history_les", *("last_epoch_clean",) * ("last_epoch_clean" in info)))
    epoch, v = info["last_update"]
    if key in ("les", "history_les", "last_epoch_clean"):
        info[key] = rng.choice((info["stamp"] + 1, info["stamp"], WORD))
    else:
        near = [epoch, v + 1], [epoch + 1, v], [epoch, max(0, v - 1)], [max(0, epoch - 1), v]
        info[key] = rng.choice(([0, 1], [1, 0], [info["stamp"] + 1, 1], [WORD, WORD], *near))


def bad_entry(rng: random.Random, entries: Line, maps: Maps, devices: List[int]) -> None:
    stamp = entries["stamp"]
    version = rng.choice(([0, 0], [0, 1], [1, 0], [stamp + 1, 1], [stamp, WORD]))
    entries["log"] = [*entries["log"], [*version, "modify", "a"]]


OF_INFOS = [unknown_group, unknown_member, future_stamp, bad_version, bad_version]
OF_ENTRIES = [unknown_group, unknown_member, future_stamp, bad_entry]
