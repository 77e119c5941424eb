#!/usr/bin/env python3
"""Shows how many entries `pgpeer compact` leaves of logs whose groups report clean epochs.

    bench/compaction_sizes.py [--program PATH]

Prints a table in Markdown, a line for each log:

  toggled         40 epochs, in each of which the size of a pool changes and its primary is recorded as up; in each a group of
                  it reports that it serves since then and is clean
  toggled, unserved   the same, but that the group serves isn't reported: should it go down, all its intervals block it, and
                  `explain` tells of the last clean epoch of each
  flaps           200 groups of three copies, of which one device falls or comes back 2,000 times; after each, 31 of the groups
                  report that they are clean, by turns
  rounds 1 to 5   16,384 groups, whose intervals all change five times; after each change each of them reports that it is clean,
                  and before the next one the log is compacted

The columns are the entries of the log, the incrementals among them, the infos that are kept, and all that is kept. Where the
log was full, the lines that it didn't take are told of too. Exits with 1 where a run failed.
"""

import re
import subprocess
import sys

from maps import DEVICE, compact, tree
from measure import command_line, table

SAID = re.compile(r"left out (\d+) of (\d+) entries(?:; (\d+) lines? w)?")


def pool(number, groups, size):
    return {"id": number, "pg_num": groups, "kind": "replicated", "size": size, "min_size": 1, "leaf": DEVICE}


def clean(group, epoch, served):
    """Gives the info of a group that is clean in this epoch, and serves since another."""
    progress = {"les": served, "history_les": served, "last_epoch_clean": epoch, "last_update": [1, epoch], "log_tail": [1, epoch]}
    return {"op": "info", "pg": group, "from": [0, 0], "stamp": epoch, **progress, "complete": True}


def begin(pools):
    """Gives the incremental that makes three devices and these pools."""
    made = {"up": [0, 1, 2], "up_thru": recorded(1, [0, 1, 2]), "pools": pools, "crush": tree(1, 1, 3)}
    return {"op": "inc", "epoch": 1, **made}


def recorded(epoch, osds):
    return [[osd, epoch] for osd in osds]


def resized(epoch, pools):
    """Gives an incremental that changes the size of these pools, with their primaries recorded as up."""
    sizes = [[number, 2 + epoch % 2, 1] for number in pools]
    return {"op": "inc", "epoch": epoch, "sizes": sizes, "up_thru": recorded(epoch, [0, 1, 2])}


def toggled(serves):
    yield begin([pool(1, 1, 3)])
    yield clean([1, 0], 1, int(serves))
    for epoch in range(2, 41):
        yield resized(epoch, [1])
        yield clean([1, 0], epoch, epoch * serves)


def flaps():
    yield begin([pool(1, 200, 3)])
    turn = 0
    for epoch in range(2, 2002):
        up = [0, 1] if epoch % 2 == 0 else [0, 1, 2]
        yield {"op": "inc", "epoch": epoch, "down" if epoch % 2 == 0 else "up": [2], "up_thru": recorded(epoch, up)}
        for _ in range(31):
            yield clean([1, turn % 200], epoch, epoch)
            turn += 1


def change(number):
    """Gives the incremental that changes the intervals of 16,384 groups, the first of which makes them, and an info of each."""
    pools = range(1, 17)
    yield resized(number, pools) if number > 1 else begin([pool(it, 1024, 3) for it in pools])
    for group in ([it, pg] for it in pools for pg in range(1024)):
        yield clean(group, number, number)


def compacted(program, text):
    """Gives what the program writes of a script, and how many entries that has, of how many, and how many lines were refused."""
    run = subprocess.run([program, "compact"], input=text.encode(), capture_output=True)
    said = SAID.search(run.stderr.decode())
    if run.returncode or said is None:
        sys.exit(f"compact ended with status {run.returncode}: {run.stderr.decode()[-300:]}")
    left_out, entries, refused = (int(it or 0) for it in said.groups())
    return run.stdout.decode(), entries - left_out, entries, refused


def row(name, found):
    kept, left, entries, refused = found
    infos = kept.count('"op":"info"')
    incs = kept.count('"op":"inc"')
    return [name + (f" ({refused:,} lines refused)" if refused else ""), *(f"{it:,}" for it in (entries, incs, infos, left))]


def text_of(lines):
    return "".join(compact(it) + "\n" for it in lines)


def main(program):
    logs = {"toggled": toggled(True), "toggled, unserved": toggled(False), "flaps": flaps()}
    rows = []
    for name, lines in logs.items():
        text = text_of(lines)
        rows.append(row(name, compacted(program, text)))
    kept = ""
    for number in range(1, 6):
        text = kept + text_of(change(number))
        found = compacted(program, text)
        rows.append(row(f"round {number}", found))
        kept = found[0]
    print(table(["log", "entries", "incrementals", "infos kept", "kept"], rows))


if __name__ == "__main__":
    parser = command_line(__doc__)
    main(parser.parse_args().program)
