"""Full logs of which most no longer matters to any answer: for measure_compaction.py."""

from maps import compact, copies, told, tree

DEVICES = 64
REPORTED_POOLS, INFO_ROUNDS = 7, 3
LOGGED_GROUPS, LOG_ROUNDS = 256, 5
REPORTS, ENTRIES = 16, 8  # of a member in a round, and log entries of each


def full_infos(rng, count):
    """Gives a map of 16,384 groups, and then rounds in which each member of the groups of its first pools sends an info."""
    pools = [copies(pool, 1024) for pool in range(1, 17)]
    acting = lists(rng, [[pool["id"], pg] for pool in pools for pg in range(1024)])
    reported = [(group, members) for group, members in acting if group[0] <= REPORTED_POOLS]

    def reports(stamp, served, number):
        for group, members in reported:
            for osd in members:
                yield info(group, osd, stamp, served, [1, number], [1, number])

    yield from rounds(rng, count, pools, acting, INFO_ROUNDS, 3 * len(reported), reports)


def full_entries(rng, count):
    """Gives a map of 256 groups, and then rounds in which each member sends an info and its log, part by part."""
    pools = [copies(1, LOGGED_GROUPS)]
    acting = lists(rng, [[1, pg] for pg in range(LOGGED_GROUPS)])
    logs = [[[1, 1 + n, rng.choice(["modify", "delete"]), f"object-{rng.randrange(8)}"] for n in range(REPORTS * ENTRIES)] for _ in acting]

    def reports(stamp, served, _number):
        for (group, members), log in zip(acting, logs):
            for osd in members:
                yield info(group, osd, stamp, served, log[-1][:2], [0, 0])
                for part in range(REPORTS):
                    part_of_log = log[ENTRIES * part : ENTRIES * (part + 1)]
                    yield {"op": "entries", "pg": group, "from": [osd, 0], "stamp": stamp, "log": part_of_log}

    yield from rounds(rng, count, pools, acting, LOG_ROUNDS, 3 * LOGGED_GROUPS * (1 + REPORTS), reports)


def lists(rng, groups):
    """Gives each group with the devices on which it lies."""
    return [(group, rng.sample(range(DEVICES), 3)) for group in groups]


def info(group, osd, stamp, served, last, tail):
    """Gives the info of a member of a group that last began to serve in this epoch."""
    progress = {"les": served, "history_les": served, "last_update": last, "log_tail": tail, "complete": True}
    return {"op": "info", "pg": group, "from": [osd, 0], "stamp": stamp, **progress}


def rounds(rng, count, pools, acting, number, size, reports):
    """Gives this many entries in all: the first map, and this many rounds of reports of this size, before each of which a
    device fell and came back, and small incrementals came."""
    devices = list(range(DEVICES))
    temps = [[*group, members] for group, members in acting]
    first = {"op": "inc", "epoch": 1, "up": devices, "up_thru": [[osd, 1] for osd in devices], "pools": pools}
    yield compact({**first, "temp": temps, "crush": tree(4, 4, 4)})
    epoch, served, spare = 1, 1, count - 1 - number * size
    for turn in range(number):
        steps = spare * (turn + 1) // number - spare * turn // number
        osd = rng.choice(devices)
        begin = epoch + 2  # of the interval of the groups on that device
        for step in ({"down": [osd]}, {"up": [osd]}, *({} for _ in range(steps - 2))):
            epoch += 1
            yield compact({"op": "inc", "epoch": epoch, **(step or {"up_thru": told(rng, devices, 4, epoch)})})
        for report in reports(epoch, served, turn + 1):
            yield compact(report)
        served = begin
