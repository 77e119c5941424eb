"""Makes the data of a report's page for a cluster of any size, from a seed, in the place of dumps."""

import random

DOWN, SHORT, SERVE, UNKNOWN = 0, 3, 7, 8
HOSTILE = '"><img src=x onerror=alert(1)></script><b>\x1b[31m'


def data_of(groups, devices, epochs, seed=1, name="pool"):
    """A cluster of three copies, in which one device after the other goes down and comes back."""
    rng, first = random.Random(seed), 1000
    last = first + epochs - 1
    hosts = [f"host{at}" for at in range((devices + 9) // 10)]
    downs = outages(rng, devices, first, last)
    runs = [sorted([(first, 6)] + [it for begin, end in downs.get(osd, ()) for it in ((begin, 4), (end, 6)) if it[0] <= last])
            for osd in range(devices)]
    sets, made = {}, {key: [] for key in ("pool", "seed", "state", "spans", "begins", "acting", "up", "flags", "runs", "turns", "verdicts")}
    blocked, why = {}, {}
    for group in range(groups):
        members = rng.sample(range(devices), 3)
        take_group(group, members, downs, (first, last), sets, made)
        if made["verdicts"][-1] == DOWN:
            blocked[group] = [osd for osd in members if is_down(downs, osd, last)]
            why[group] = {"says": f"It waits for osd.{blocked[group][0]}, which is down.", "helps": [f"What ends Down: start osd.{blocked[group][0]}."],
                          "losses": ["Giving up what was written: declare it lost."], "unheard": []}
    blocks = {osd: sum(osd in it for it in blocked.values()) for osd in range(devices)}
    steps = [{"what": f"Start osd.{osd}", "where": hosts[osd // 10], "count": blocks[osd], "more": "",
              "groups": [f"1.{group:x}" for group, it in blocked.items() if osd in it]} for osd in sorted(blocks, key=lambda it: -blocks[it]) if blocks[osd]]
    return {
        "first": first, "last": last, "clock": [1764000000] + [rng.randrange(5, 60) for _ in range(epochs - 1)],
        "hosts": hosts, "devices": [{"id": osd, "host": osd // 10, "runs": runs[osd]} for osd in range(devices)],
        "pools": [{"id": 1, "name": name, "text": "replicated pool, size 3, min_size 2", "size": 3, "min_size": 2, "by_place": False}],
        "sets": [list(it) for it in sets], "groups": made, "states": ["active+clean", "down"], "serving": made["verdicts"].count(SERVE),
        "rules": {}, "blocked": blocked, "why": why,
        "blockers": [{"osd": osd, "blocks": count, "since": max(it[0] for it in downs[osd])} for osd, count in blocks.items() if count],
        "helps": {"steps": steps[:10], "stays": [], "losses": [{"groups": [f"1.{it:x}" for it in list(why)[:3]], "what": "declare osd.1 lost"}] if why else []},
        "whatIf": {"head": ["Host", "Stop serving"], "rows": [[host, 3] for host in hosts[:5]], "words": "At the last epoch."},
        "notes": ["names that are hostile: " + HOSTILE],
    }


def outages(rng, devices, first, last):
    """The epochs in which devices are down, by device."""
    found, epoch = {}, first + 3
    while epoch < last:
        found.setdefault(rng.randrange(devices), []).append((epoch, epoch + rng.randrange(2, 40)))
        epoch += rng.randrange(1, 3)
    return {osd: [it for at, it in enumerate(own) if at == 0 or it[0] > own[at - 1][1]] for osd, own in found.items()}


def is_down(downs, osd, epoch):
    return any(begin <= epoch < end for begin, end in downs.get(osd, ()))


def take_group(group, members, downs, ends, sets, made):
    """Adds a group's spans and verdicts."""
    first, last = ends
    turns = sorted({first, *(epoch for osd in members for outage in downs.get(osd, ()) for epoch in outage if first < epoch <= last)})
    verdicts, before = [], first
    for key, value in (("pool", 0), ("seed", group), ("spans", len(turns))):
        made[key].append(value)
    for epoch in turns:
        acting = tuple(osd for osd in members if not is_down(downs, osd, epoch))
        made["begins"].append(epoch - before)
        made["acting"].append(sets.setdefault(acting, len(sets)))
        made["up"].append(-1)
        made["flags"].append(1 if len(acting) > 1 else 0)
        verdicts.append((epoch, (DOWN, SHORT, SERVE, SERVE)[len(acting)]))
        before = epoch
    kept = [it for at, it in enumerate(verdicts) if at == 0 or it[1] != verdicts[at - 1][1]]
    made["runs"].append(len(kept))
    made["turns"] += [epoch - (kept[at - 1][0] if at else first) for at, (epoch, _) in enumerate(kept)]
    made["verdicts"] += [verdict for _, verdict in kept]
    made["state"].append(1 if kept[-1][1] == DOWN else 0)
