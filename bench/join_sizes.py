#!/usr/bin/env python3
"""Shows how many incrementals `pgpeer compact --join` leaves of the logs of simulated clusters.

    bench/join_sizes.py [--program PATH]
    bench/join_sizes.py --year [--days N] [--program PATH]

Prints a table in Markdown, a line for each log. After each change the map records that the primaries of the groups that it
touched are up, and those that serve report that, and whether they are clean:

  healthy             1,000 times one of 16 devices falls and comes back, under 32 groups of three copies
  outage elsewhere    the same, but one group is down all the time, and devices of groups that serve fall
  outage inside       the same, but a device of the group that is down falls and comes back
  churn               5,000 changes on 32 devices and 64 groups: devices fall and come back, a few at a time, and pg_temp lists come
                      and go

The columns are the entries of the log, what `compact` leaves of them with the incrementals there, and what `compact --join` does.

With --year: 16,384 groups of three copies on 4,096 devices, and for a year (or so many days) an incremental each minute. A random
device falls, that is recorded, it comes back, that is recorded, and so on. Each time the log is full it is joined, and the cluster
goes on behind what is left. Of each join a line tells the day on which it came, the entries before and after it, the incrementals
after it, its seconds beside those of a plain `compact` of the same script, and the milliseconds from a question about a group to
its answer, once all that is left was taken. Exits with 1 where a run failed or a line was refused.
"""

import json
import random
import re
import subprocess
import sys
import tempfile
import time

from maps import compact, copies, tree
from measure import command_line, table
from measure_compaction import first_answer

SAID = re.compile(r"left out (\d+) of (\d+) entries(; \d+ lines? w)?")
FORMAT = ["--format", "3"]
MOST_ENTRIES = 65_535
MINUTES = 24 * 60  # of a day, each with an incremental
FLAPS, CHANGES = 1_000, 5_000
MOST_DOWN, MOST_TEMPS = 4, 8  # at once, in the churn


# Clusters


class Cluster:
    """A cluster whose devices fall and come back, with the lines that tell of it."""

    def __init__(self, program, racks, hosts, devices, pools):
        self.epoch = 1
        self.devices = list(range(racks * hosts * devices))
        first = {"up": self.devices, "up_thru": [[osd, 1] for osd in self.devices], "pools": pools, "crush": tree(racks, hosts, devices)}
        self.lines = [compact({"op": "inc", "epoch": 1, **first})]
        self.groups = [(pool["id"], pg) for pool in pools for pg in range(pool["pg_num"])]
        self.placed = dict(zip(self.groups, placements(program, self.lines[0], self.groups)))
        self.of = {osd: [] for osd in self.devices}  # the groups that are placed on a device
        for group, osds in self.placed.items():
            for osd in osds:
                self.of[osd].append(group)
        self.up, self.temps = set(self.devices), {}
        self.acting = dict(self.placed)
        self.first, self.clean = dict.fromkeys(self.groups, 1), dict.fromkeys(self.groups, 1)
        self.served = dict(self.placed)  # who acted when the group last served
        self.report(self.groups)

    def change(self, groups, **parts):
        """The next incremental, which changes the sets of these groups."""
        self.epoch += 1
        self.lines.append(compact({"op": "inc", "epoch": self.epoch, **parts}))
        for group in groups:
            up = [osd for osd in self.placed[group] if osd in self.up]
            acting = [osd for osd in self.temps.get(group, ()) if osd in self.up] or up
            self.acting[group], self.first[group] = acting, self.epoch

    def fall(self, osd):
        self.up.discard(osd)
        self.change(self.touched(osd), down=[osd])

    def boot(self, osd):
        self.up.add(osd)
        self.change(self.touched(osd), up=[osd])

    def touched(self, osd):
        return self.of[osd] + [group for group, osds in self.temps.items() if osd in osds and osd not in self.placed[group]]

    def place(self, group, osds):
        """Gives a group a pg_temp list, or takes it away."""
        self.temps[group] = osds
        if not osds:
            del self.temps[group]
        self.change([group], temp=[[*group, osds]])

    def go_on(self, groups):
        """The primaries of these groups are recorded as up, and they report that they serve."""
        primaries = sorted({self.acting[group][0] for group in groups if self.acting[group]})
        self.change([], up_thru=[[osd, self.epoch + 1] for osd in primaries])
        self.report(groups)

    def report(self, groups):
        for group in groups:
            acting = self.acting[group]
            if len(acting) < 2 or not self.up.intersection(self.served[group]):
                continue
            self.served[group] = acting
            self.clean[group] = self.epoch if acting == self.placed[group] else self.clean[group]
            self.lines.append(compact(info(group, acting[0], self.epoch, self.first[group], self.clean[group])))

    def flap(self, osd):
        """A device falls, and comes back, with what is recorded and reported."""
        for change in (self.fall, self.boot):
            change(osd)
            self.go_on(self.touched(osd))


def info(group, osd, stamp, served, clean):
    """Gives the info of a primary whose group serves since an epoch, and was clean last in another."""
    progress = {"les": served, "history_les": served, "last_epoch_clean": clean, "last_update": [1, 1], "log_tail": [1, 1]}
    return {"op": "info", "pg": group, "from": [osd, 0], "stamp": stamp, **progress, "complete": True}


def placements(program, line, groups):
    """Gives the devices on which each group lies by the first incremental, while all are up."""
    asks = [compact({"op": "ask", "pg": group}) for group in groups]
    answers = run([program, "run"], text_of([line, *asks])).stdout.splitlines()[1:]
    return [json.loads(answer)["up"] for answer in answers]


def small(program, devices, groups):
    return Cluster(program, 1, devices, 1, [copies(1, groups)])


def large(program):
    return Cluster(program, 8, 32, 16, [copies(pool, 1024) for pool in range(1, 17)])


def healthy(rng, program):
    it = small(program, 16, 32)
    for _ in range(FLAPS):
        it.flap(rng.choice(it.devices))
    return it


def outage(program):
    """A cluster one of whose groups is down: its first device comes back without the writes of the two others, which stay away."""
    it = small(program, 16, 32)
    first, *others = it.placed[it.groups[0]]
    for change, osd in ((it.fall, first), *((it.fall, osd) for osd in others), (it.boot, first)):
        change(osd)
        it.go_on(it.touched(osd))
    return it, first


def elsewhere(rng, program):
    it, _ = outage(program)
    unserved = [group for group in it.groups if it.served[group] != it.acting[group]]
    free = sorted(it.up.difference(osd for group in unserved for osd in it.placed[group]))
    for _ in range(FLAPS):
        it.flap(rng.choice(free))
    return it


def inside(_rng, program):
    it, first = outage(program)
    for _ in range(FLAPS):
        it.flap(first)
    return it


def churn(rng, program):
    it = small(program, 32, 64)
    for _ in range(CHANGES):
        change_one(rng, it)
    for osd in sorted(set(it.devices) - it.up):
        it.boot(osd)
        it.go_on(it.touched(osd))
    for group in list(it.temps):
        it.place(group, [])
        it.go_on([group])
    return it


def change_one(rng, it):
    """A device falls or comes back, or a group's list comes or goes."""
    down = sorted(set(it.devices) - it.up)
    if rng.random() < 0.2:
        gone = len(it.temps) == MOST_TEMPS
        group = rng.choice(list(it.temps)) if gone else rng.choice([group for group in it.groups if group not in it.temps])
        it.place(group, [] if gone else rng.sample(sorted(it.up), 3))
        it.go_on([group])
        return
    back = len(down) == MOST_DOWN or down and rng.random() < 0.5
    osd = rng.choice(down if back else sorted(it.up))
    (it.boot if back else it.fall)(osd)
    it.go_on(it.touched(osd))


LOGS = {"healthy": healthy, "outage elsewhere": elsewhere, "outage inside": inside, "churn": churn}


# Runs


def text_of(lines):
    return "".join(line + "\n" for line in lines)


def run(command, text):
    found = subprocess.run(command, input=text, capture_output=True, text=True)
    if found.returncode:
        sys.exit(f"{' '.join(command[1:])} ended with status {found.returncode}: {found.stderr[-300:]}")
    return found


def shortened(command, lines):
    """Gives the lines that the program writes of a script, and the seconds that it took."""
    text = text_of(lines)
    before = time.perf_counter()
    found = run(command, text)
    elapsed = time.perf_counter() - before
    said = SAID.search(found.stderr)
    if said is None or said[3] or int(said[2]) != len(lines):
        sys.exit(f"{' '.join(command[1:])} says {found.stderr[-300:]}")
    return found.stdout.splitlines(), elapsed


def incrementals(lines):
    return sum('"op":"inc"' in line for line in lines)


def numbers(*values):
    return [f"{it:,}" for it in values]


def print_sizes(program):
    rows = []
    for name, make in LOGS.items():
        lines = make(random.Random(name), program).lines
        kept, _ = shortened([program, "compact", *FORMAT], lines)
        joined, _ = shortened([program, "compact", "--join", *FORMAT], lines)
        rows.append([name, *numbers(len(lines), len(kept), incrementals(kept), len(joined), incrementals(joined))])
    print(table(["log", "entries", "compacted", "incrementals", "joined", "incrementals"], rows))


# A year


def first_question(program, lines):
    """Gives the milliseconds from a question to its answer, once these lines were taken."""
    with tempfile.NamedTemporaryFile("w") as script:
        script.write(text_of(lines))
        script.flush()
        return 1000 * first_answer(program, script.name, *FORMAT)[1]


def print_year(program, days, rng):
    """Prints a line for each join, as it comes."""
    it = large(program)
    head = ["day", "entries", "left", "incrementals left", "join, s", "compact, s", "question, ms"]
    print(table(head, []), flush=True)
    while it.epoch < days * MINUTES:
        osd = rng.choice(it.devices)
        while it.epoch < days * MINUTES and len(it.lines) + lines_of(it, osd) <= MOST_ENTRIES:
            it.flap(osd)
            osd = rng.choice(it.devices)
        _, by_compact = shortened([program, "compact", *FORMAT], it.lines)
        left, by_join = shortened([program, "compact", "--join", *FORMAT], it.lines)
        before = numbers(it.epoch // MINUTES, len(it.lines), len(left), incrementals(left))
        waited = first_question(program, left)
        print(row([*before, f"{by_join:.2f}", f"{by_compact:.2f}", f"{waited:.1f}"]), flush=True)
        if len(left) + lines_of(it, osd) > MOST_ENTRIES:
            sys.exit("the joined log is full")
        it.lines = left


def lines_of(it, osd):
    """Gives how many lines a flap of the device takes at most."""
    return 4 + 2 * len(it.touched(osd))


def row(cells):
    return "| " + " | ".join(cells) + " |"


def main():
    parser = command_line(__doc__)
    parser.add_argument("--year", action="store_true")
    parser.add_argument("--days", type=int, default=365, metavar="N", help="of the year (by default 365)")
    options = parser.parse_args()
    if options.year:
        print_year(options.program, options.days, random.Random("year"))
    else:
        print_sizes(options.program)


if __name__ == "__main__":
    main()
