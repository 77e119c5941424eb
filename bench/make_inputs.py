#!/usr/bin/env python3
"""Makes the large scripts that measure.py runs.

    bench/make_inputs.py [FOLDER [NAME...]]

Writes into FOLDER (by default bench/out) these files, or those named alone, which are the same at every call:

  locate.jsonl    one incremental, and then 200,000 look-ups of objects in its map: 256 devices in 32 hosts in 8 racks,
                  a replicated and an erasure pool of 512 groups each, some devices out, some groups with a pg_temp list
  incs.jsonl      2,000 incrementals: the first makes 64 devices, their tree and a pool, each later one takes devices
                  down, boots others and tells of up_thru
  map.jsonl       256 incrementals that make the largest map: 4,096 devices in 256 hosts in 8 racks, and 255 pools of
                  16,384 groups in all, each with a pg_temp list
  map_asked.jsonl     the same, and then a question about each group
  down_asked.jsonl    16,384 groups of three copies on 48 devices, each with four intervals that may have gone read-write; then
                      these devices go down, each group moves to another one, and a question about each group
  steps.jsonl     the map of map.jsonl, and then 2,000 incrementals as the later ones of incs.jsonl
  traces.jsonl    500 traces, each as long as a line of at most 1,048,576 bytes may be, with lists of 16 places
  full.jsonl      65,535 incrementals as those of incs.jsonl, which fill the log
  full_infos.jsonl    a full log of a map of 16,384 groups of three copies, of whose first 7,168 each member sends three
                  infos, one in each of three rounds: more groups three rounds don't take
  full_entries.jsonl  a full log of 256 groups of three copies, whose members send their logs of 128 entries in each of
                  five rounds, eight entries a report
  peering.jsonl   an outage of 8 devices of 64: the infos and log entries of all 256 groups of a pool, and then a
                  question about each group
  peering_wide.jsonl  the same with all 4,096 groups of four pools
  churn.jsonl     2,000 incrementals as those of incs.jsonl, with a question about a group after each
  churn_twice.jsonl   the same with 4,000 incrementals
  churn_wide.jsonl    2,000 incrementals over 1,024 groups of one pool on 64 devices, each with one device down or up and
                  six up_thru values, and a question about a group after each
  full_asked.jsonl    65,535 incrementals over 64 groups and 16 devices: 59 in a hundred are empty, 38 have one up_thru
                  value, 2 take a device down or boot it, and 1 has a weight; then a question about each group
  reweights.jsonl     the map of map.jsonl and a question, and then 200 incrementals each of which takes up to a sixteenth of
                      the full weight from a device, and a question
  reweights_out.jsonl     the same with incrementals each of which takes all of a device's weight
  asks.jsonl      an outage of one group in seven entries, and then 20,000 questions about it with nothing between
  untouched.jsonl     the same outage, and then by turns 2,000 incrementals that touch another group alone and 2,000
                  questions about the first
  untouched_twice.jsonl   the same with 4,000 of each
  long_past.jsonl     4,000 incrementals by turns take a device of one group down and boot it, each of which ends an
                  interval, and then 100 more with a question after each
  long_log.jsonl  254 reports of 256 log entries each, of one member of a group, with a question after each
  ask_heavy.jsonl     an outage in a pool of eight groups, and then 8,000 questions about them by turns, with an info
                      after each hundred
  submit_heavy.jsonl  the same pool, and then 30,000 infos, with a question after each thousand
  empty.jsonl     nothing, for what a start takes

and beside each NAME.jsonl a NAME.tenth.jsonl with the first tenth of its lines.
"""

import argparse
import json
import os
import random

from full_logs import full_entries, full_infos
from maps import DEVICE, HOST, IN, RACK, compact, copies, told, tree

LONGEST_LINE = 1048576  # bytes, without the line feed
MOST_EPOCHS = 4096  # of one trace


def locate(rng, count):
    """Gives a map of 256 devices and 1,024 groups, and then look-ups in it."""
    devices = range(256)
    shuffled = rng.sample(devices, 24)
    replicated = {"id": 1, "pg_num": 512, "kind": "replicated", "size": 3, "min_size": 2, "leaf": RACK}
    erasure = {"id": 2, "pg_num": 512, "kind": "erasure", "k": 4, "size": 6, "min_size": 5, "leaf": HOST}
    temps = [[1, pg, rng.sample(devices, 3)] for pg in rng.sample(range(512), 16)]
    temps += [[2, pg, rng.sample(devices, 6)] for pg in rng.sample(range(512), 16)]
    yield compact({
        "op": "inc",
        "epoch": 1,
        "up": list(devices),
        "weight": [[osd, 0] for osd in shuffled[:8]] + [[osd, IN // 2] for osd in shuffled[8:]],
        "pools": [replicated, erasure],
        "temp": temps,
        "crush": tree(8, 4, 8),
    })
    images = [f"{rng.getrandbits(48):012x}" for _ in range(100)]
    for _ in range(count):
        name = f"rbd_data.{rng.choice(images)}.{rng.randrange(1 << 20):016x}"
        yield compact({"op": "locate", "pool": rng.choice([1, 2]), "name": name})


def incs(rng, count):
    """Gives incrementals: the first makes 64 devices, the others take some down and boot others."""
    up = list(range(64))
    yield compact({"op": "inc", "epoch": 1, "up": up, "pools": [copies(1, 256)], "crush": tree(4, 4, 4)})
    yield from falls_and_boots(rng, up, range(2, count + 1))


def falls_and_boots(rng, up, epochs):
    """Gives the incrementals to these epochs, each of which takes some of the devices down and boots others."""
    down = []
    for epoch in epochs:
        falls = rng.sample(up, rng.randint(1, 3))
        boots = rng.sample(down, len(down) - 8) if len(down) > 8 else []
        up = [osd for osd in up if osd not in falls] + boots
        down = [osd for osd in down if osd not in boots] + falls
        told = [[osd, epoch] for osd in rng.sample(up, 4)]
        yield compact({"op": "inc", "epoch": epoch, "up": boots, "down": falls, "up_thru": told})


def largest_map(rng, _count):
    """Gives the incrementals that make the largest map: one for all but the pg_temp lists, and one for those of a pool."""
    devices = range(4096)
    pools = [copies(pool, 64) for pool in range(1, 255)] + [copies(255, 128)]
    yield compact({"op": "inc", "epoch": 1, "up": list(devices), "pools": pools, "crush": tree(8, 32, 16)})
    for pool in pools:
        temps = [[pool["id"], pg, rng.sample(devices, 3)] for pg in range(pool["pg_num"])]
        yield compact({"op": "inc", "epoch": pool["id"] + 1, "temp": temps})


def map_asked(rng, count):
    """Gives the largest map, and a question about each of its groups."""
    yield from largest_map(rng, count)
    for pool in range(1, 256):
        yield from asked(pool, 128 if pool == 255 else 64)


def asked(pool, groups):
    """Gives a question about each group of a pool."""
    for pg in range(groups):
        yield compact({"op": "ask", "pg": [pool, pg]})


def down_asked(rng, _count):
    """Gives groups that are down behind four intervals each, and a question about each group.

    A group has a copy in each of three quarters of the devices. These go down in turn, so that two copies take writes at a
    time. Then all three are down, and each group has a list with a device of the fourth quarter.
    """
    first, second, third, last = (list(range(16 * at, 16 * at + 16)) for at in range(4))
    pools = range(1, 17)
    yield compact({"op": "inc", "epoch": 1, "up": list(range(64)), "pools": [copies(it, 1024) for it in pools], "crush": tree(4, 4, 4)})
    for pool in pools:
        temps = [[pool, pg, [rng.choice(it) for it in (first, second, third)]] for pg in range(1024)]
        yield compact({"op": "inc", "epoch": pool + 1, "temp": temps})
    up, down = first + second + third, []
    for epoch, falls in zip(range(18, 26, 2), ([], third, second, first)):
        yield compact({"op": "inc", "epoch": epoch, "up": down, "down": falls})
        yield compact({"op": "inc", "epoch": epoch + 1, "up_thru": [[osd, epoch] for osd in up if osd not in falls]})
        down = falls
    yield compact({"op": "inc", "epoch": 26, "down": second + third})
    for pool in pools:
        yield compact({"op": "inc", "epoch": pool + 26, "temp": [[pool, pg, [rng.choice(last)]] for pg in range(1024)]})
    for pool in pools:
        yield from asked(pool, 1024)


def steps(rng, count):
    """Gives the largest map, and then small incrementals."""
    yield from largest_map(rng, count)
    yield from falls_and_boots(rng, list(range(4096)), range(257, count + 1))


def peering(rng, _count):
    """Gives an outage, what the members of each group of a pool report, and a question about each group."""
    yield from outage(rng, [[1, pg] for pg in range(256)], [copies(1, 256)])


def peering_wide(rng, _count):
    """The same with four pools of as many groups as a pool may have."""
    pools = [copies(pool, 1024) for pool in range(1, 5)]
    yield from outage(rng, [[pool["id"], pg] for pool in pools for pg in range(1024)], pools)


def outage(rng, groups, pools):
    """Gives an outage, what the members of each of these groups report, and a question about each."""
    devices = list(range(64))
    acting = [rng.sample(devices, 3) for _ in groups]
    temps = [[*group, members] for group, members in zip(groups, acting)]
    told = [[osd, 1] for osd in devices]
    first = {"op": "inc", "epoch": 1, "up": devices, "up_thru": told, "pools": pools}
    yield compact({**first, "temp": temps, "crush": tree(4, 4, 4)})
    down = rng.sample(devices, 8)
    yield compact({"op": "inc", "epoch": 2, "down": down})
    for group, members in zip(groups, acting):
        yield from reports(rng, group, [osd for osd in members if osd not in down])
    yield compact({"op": "inc", "epoch": 3, "up_thru": [[osd, 2] for osd in devices if osd not in down]})
    for group in groups:
        yield compact({"op": "ask", "pg": group})


def reports(rng, group, members):
    """Gives an info of each of these members, the first of which is ahead, and the log entries of that one."""
    writes = 16
    for place, osd in enumerate(members):
        last = writes if place == 0 else rng.randint(1, writes)
        yield compact(info(group, osd, [1, last]))
    if members:
        log = [[1, 1 + n, rng.choice(["modify", "delete"]), f"object-{rng.randrange(8)}"] for n in range(writes)]
        yield compact({"op": "entries", "pg": group, "from": [members[0], 0], "stamp": 2, "log": log})


def info(group, osd, last):
    """Gives the info of a member of a group, whose last write has this version."""
    progress = {"les": 0, "history_les": 0, "last_update": last, "log_tail": [0, 0], "complete": True}
    return {"op": "info", "pg": group, "from": [osd, 0], "stamp": 2, **progress}


def churn(rng, count):
    """Gives incrementals as incs does, with a question about a group after each."""
    for line in incs(rng, count // 2):
        yield line
        yield compact({"op": "ask", "pg": [1, rng.randrange(256)]})


def churn_wide(rng, count):
    """Gives small incrementals over many groups, with a question about one of them after each."""
    up, down = list(range(64)), []
    yield compact({"op": "inc", "epoch": 1, "up": up, "pools": [copies(1, 1024)], "crush": tree(4, 4, 4)})
    for epoch in range(2, count // 2 + 2):
        yield compact({"op": "inc", "epoch": epoch, **fall_or_boot(rng, up, down), "up_thru": told(rng, up, 6, epoch)})
        yield compact({"op": "ask", "pg": [1, rng.randrange(1024)]})


def full_asked(rng, count):
    """Gives a full log of incrementals most of which change nothing or next to nothing, and a question about each group."""
    up, down = list(range(16)), []
    yield compact({"op": "inc", "epoch": 1, "up": up, "pools": [copies(1, 64)], "crush": tree(2, 4, 2)})
    for epoch in range(2, count - 64 + 1):
        kind, step = rng.randrange(100), {}
        if kind < 38:
            step = {"up_thru": told(rng, up, 1, epoch)}
        elif kind < 40:
            step = fall_or_boot(rng, up, down)
        elif kind < 41:
            step = {"weight": [[rng.randrange(16), rng.choice([0, IN // 2, IN])]]}
        yield compact({"op": "inc", "epoch": epoch, **step})
    for pg in range(64):
        yield compact({"op": "ask", "pg": [1, pg]})


def reweights(rng, count, most=IN // 16):
    """Gives the largest map, a question, then incrementals each of which takes up to so much of a device's weight, and a question."""
    yield from largest_map(rng, count)
    yield compact({"op": "ask", "pg": [1, 0]})
    for epoch, osd in enumerate(rng.sample(range(4096), count), 257):
        yield compact({"op": "inc", "epoch": epoch, "weight": [[osd, IN - (rng.randrange(most) if most < IN else IN)]]})
    yield compact({"op": "ask", "pg": [1, 0]})


def reweights_out(rng, count):
    """Gives the same with incrementals each of which takes all of a device's weight."""
    yield from reweights(rng, count, IN)


def fall_or_boot(rng, up, down):
    """Takes a device down, or boots one that is down, where an eighth of them are or by chance."""
    boots = bool(down) and (len(down) * 7 >= len(up) or rng.randrange(2) == 0)
    source, target = (down, up) if boots else (up, down)
    osd = source.pop(rng.randrange(len(source)))
    target.append(osd)
    return {"up" if boots else "down": [osd]}


def asks(_rng, count):
    """Gives an outage of one group, and then questions about it."""
    yield from outage_of_one([0, 1, 2])
    for _ in range(count):
        yield compact({"op": "ask", "pg": [1, 0]})


def untouched(_rng, count):
    """Gives the same outage, and then by turns an incremental that names a device of another group, and a question."""
    yield from outage_of_one([0, 1, 2, 3])
    yield compact({"op": "inc", "epoch": 5, "pools": [{**copies(2, 1), "leaf": DEVICE}], "temp": [[2, 0, [3]]]})
    for number in range((count - 8) // 2):
        yield compact({"op": "inc", "epoch": number + 6, "up" if number % 2 else "down": [3]})
        yield compact({"op": "ask", "pg": [1, 0]})


def outage_of_one(devices):
    """Gives an outage of one group of the first three of these devices, in seven entries. All but the first are out."""
    outs = {"weight": [[osd, 0] for osd in devices[1:]], "up_thru": [[0, 1]], "temp": [[1, 0, devices[:3]]]}
    root = {"id": -1, "type": HOST, "alg": "uniform", "items": devices}
    pool = {**copies(1, 1), "leaf": DEVICE}
    yield compact({"op": "inc", "epoch": 1, "up": devices, **outs, "pools": [pool], "crush": [root]})
    yield compact({"op": "inc", "epoch": 2, "down": [0]})
    yield compact(info([1, 0], 1, [1, 2]))
    yield compact(info([1, 0], 2, [1, 1]))
    log = [[1, 1, "modify", "a"], [1, 2, "modify", "b"]]
    yield compact({"op": "entries", "pg": [1, 0], "from": [1, 0], "stamp": 2, "log": log})
    yield compact({"op": "inc", "epoch": 3, "up_thru": [[1, 2]]})
    yield compact({"op": "inc", "epoch": 4, "weight": [[1, IN]]})


def one_group():
    """Gives a map of three devices and a pool of one group, which lies on them."""
    devices = [0, 1, 2]
    root = {"id": -1, "type": HOST, "alg": "uniform", "items": devices}
    return compact({"op": "inc", "epoch": 1, "up": devices, "pools": [{**copies(1, 1), "leaf": DEVICE}], "crush": [root]})


def long_past(_rng, count):
    """Gives incrementals each of which ends an interval of one group, and after each of the last 100 a question."""
    yield one_group()
    incs = count - 1 - 100
    for number in range(incs):
        yield compact({"op": "inc", "epoch": number + 2, "up" if number % 2 else "down": [0]})
        if number >= incs - 100:
            yield compact({"op": "ask", "pg": [1, 0]})


def long_log(rng, count):
    """Gives the log entries of one member of a group, 256 at a time, with a question after each part."""
    yield one_group()
    yield compact({"op": "inc", "epoch": 2})
    parts = (count - 4) // 2
    yield compact(info([1, 0], 0, [1, 256 * parts]))
    yield compact(info([1, 0], 1, [1, 1]))
    for part in range(parts):
        log = [[1, 256 * part + 1 + n, "modify", f"object-{rng.randrange(8)}"] for n in range(256)]
        yield compact({"op": "entries", "pg": [1, 0], "from": [0, 0], "stamp": 2, "log": log})
        yield compact({"op": "ask", "pg": [1, 0]})


def eight_groups():
    """Gives a map of six devices and a pool of eight groups, whose lists are all by pg_temp."""
    devices = list(range(6))
    temps = [[1, pg, [(pg + place) % 6 for place in range(3)]] for pg in range(8)]
    root = {"id": -1, "type": HOST, "alg": "uniform", "items": devices}
    first = {"op": "inc", "epoch": 1, "up": devices, "weight": [[osd, 0] for osd in devices], "temp": temps}
    return compact({**first, "pools": [{**copies(1, 8), "leaf": DEVICE}], "crush": [root]})


def ask_heavy(rng, count):
    """Gives an outage in a pool of eight groups, what their members report, and then questions with few entries between."""
    yield eight_groups()
    yield compact({"op": "inc", "epoch": 2, "down": [0], "up_thru": [[osd, 2] for osd in range(1, 6)]})
    for pg in range(8):
        yield from reports(rng, [1, pg], [(pg + place) % 6 for place in range(3) if (pg + place) % 6 != 0])
    for number in range(count):
        yield compact({"op": "ask", "pg": [1, number % 8]})
        if number % 100 == 99:
            yield compact(info([1, number % 8], 1 + number % 5, [1, 1 + rng.randrange(16)]))


def submit_heavy(rng, count):
    """Gives a map of eight groups, and then infos with few questions between."""
    yield eight_groups()
    yield compact({"op": "inc", "epoch": 2})
    for number in range(count):
        yield compact(info([1, number % 8], number // 8 % 6, [1, 1 + rng.randrange(16)]))
        if number % 1000 == 999:
            yield compact({"op": "ask", "pg": [1, number % 8]})


def traces(rng, count):
    """Gives traces, by turns of a replicated and of an erasure pool."""
    for number in range(count):
        code = {"kind": "erasure", "k": 11} if number % 2 else {"kind": "replicated"}
        head, tail = f'{{"op": "trace", "code": {json.dumps(code)}, "epochs": [', "]}"
        left = LONGEST_LINE - len(head) - len(tail)
        epochs = []
        for epoch in history(rng, code["kind"]):
            text = json.dumps(epoch)
            left -= len(text) + len(", ")
            if left < 0 or len(epochs) == MOST_EPOCHS:
                break
            epochs.append(text)
        yield head + ", ".join(epochs) + tail


def history(rng, kind):
    """Gives the epochs of a group of 16 places. About every eighth begins an interval."""
    up = rng.sample(range(1000, 4096), 16)
    acting, up_from, up_thru, epoch = up, 1, 0, 0
    while True:
        epoch += 1
        if rng.randrange(8) == 0:
            before, up = up, replaced(rng, up, kind)
            acting = before if rng.randrange(4) == 0 else up
            up_from = rng.randint(1, epoch)
        elif rng.randrange(2) == 0:
            up_thru = epoch
        yield {"up": up, "acting": acting, "size": 16, "min_size": 12, "up_from": up_from, "up_thru": up_thru}


def replaced(rng, devices, kind):
    """Gives the list with another device at one place, or in an erasure pool sometimes with none."""
    place, osd = rng.randrange(16), rng.randrange(1000, 4096)
    if kind == "erasure" and rng.randrange(4) == 0:
        osd = None
    return devices[:place] + [osd] + devices[place + 1 :]


def empty(_rng, _count):
    """Gives no line."""
    return ()


INPUTS = {
    "locate": (locate, 200_000),
    "incs": (incs, 2_000),
    "map": (largest_map, 256),
    "map_asked": (map_asked, 256 + 16_384),
    "down_asked": (down_asked, 42 + 16_384),
    "steps": (steps, 2_256),
    "full": (incs, 65_535),
    "full_infos": (full_infos, 65_535),
    "full_entries": (full_entries, 65_535),
    "peering": (peering, 1_185),
    "peering_wide": (peering_wide, 18_953),
    "churn": (churn, 4_000),
    "churn_twice": (churn, 8_000),
    "churn_wide": (churn_wide, 4_000),
    "reweights": (reweights, 200),
    "reweights_out": (reweights_out, 200),
    "full_asked": (full_asked, 65_535 + 64),
    "asks": (asks, 20_000),
    "untouched": (untouched, 4_008),
    "untouched_twice": (untouched, 8_008),
    "long_past": (long_past, 4_201),
    "long_log": (long_log, 512),
    "traces": (traces, 500),
    "ask_heavy": (ask_heavy, 8_000),
    "submit_heavy": (submit_heavy, 30_000),
    "empty": (empty, 0),
}


def main(folder, names):
    os.makedirs(folder, exist_ok=True)
    for name in names:
        make, count = INPUTS[name]
        with open(f"{folder}/{name}.jsonl", "w") as whole, open(f"{folder}/{name}.tenth.jsonl", "w") as tenth:
            for number, line in enumerate(make(random.Random(name), count)):
                whole.write(line + "\n")
                if number < count // 10:
                    tenth.write(line + "\n")


if __name__ == "__main__":
    parser = argparse.ArgumentParser(description=__doc__, formatter_class=argparse.RawDescriptionHelpFormatter)
    parser.add_argument("folder", metavar="FOLDER", nargs="?", default=os.path.join(os.path.dirname(os.path.abspath(__file__)), "out"))
    parser.add_argument("names", metavar="NAME", nargs="*")
    options = parser.parse_args()
    if not INPUTS.keys() >= set(options.names):
        parser.error(f"a NAME is one of {', '.join(INPUTS)}")
    main(options.folder, options.names or INPUTS)
