#!/usr/bin/env python3
"""Runs the gate and says what each crate took: its proof, its tests and its must-fail edits.

    dev/measure_gate.py run LOG [COMMAND...]     runs `rt ci` (or COMMAND, as `taskset -c 0,1 rt ci`) at the top of the
                                                   repository and writes what it says and what it took to LOG
    dev/measure_gate.py report LOG...            prints a Markdown table for each LOG

While the gate runs, the table of processes is read four times a second. A process of the prover that the gate started
belongs to the crate that its words name: to the edits where it works on a copy of the crate, to the tests where it is
asked for them, else to the proof. The last figures seen of a process are taken, so each is short of the truth by at most
a quarter of a second. Linux alone has these tables.
"""

import collections
import json
import os
import pathlib
import re
import subprocess
import sys
import threading
import time

from built import ROOT

TICKS = os.sysconf("SC_CLK_TCK")
KINDS = ("proof", "tests", "edits")


def numbers_of(pid):
    """What the table of processes says of a process, from its state on."""
    return pathlib.Path(f"/proc/{pid}/stat").read_text().rpartition(")")[2].split()


def is_ours(pid):
    """Whether this script started the process, or one from which it comes."""
    while pid > 1:
        if pid == os.getpid():
            return True
        pid = int(numbers_of(pid)[1])
    return False


def process(pid):
    """The crate, the kind and the processor seconds of a process of the gate's prover, or None for any other."""
    try:
        words = pathlib.Path(f"/proc/{pid}/cmdline").read_bytes().decode(errors="replace").split("\0")
        if os.path.basename(words[0]) != "rattle" or "--crate-name" not in words:
            return None
        name = words[words.index("--crate-name") + 1]
        if not is_ours(int(pid)):
            return None
        at = os.readlink(f"/proc/{pid}/cwd")
        numbers = numbers_of(pid)
    except (OSError, IndexError, ValueError):
        return None
    kind = "edits" if "rt-edit-" in at else "tests" if "--test" in words else "proof"
    return name, kind, (int(numbers[11]) + int(numbers[12])) / TICKS


class Watch:
    """What the provers took so far: seconds by process, and when each task was first and last seen."""

    def __init__(self):
        self.start = time.time()
        self.seconds = {}
        self.spans = {}

    def look(self):
        now = time.time() - self.start
        for pid in filter(str.isdigit, os.listdir("/proc")):
            found = process(pid)
            if found:
                name, kind, seconds = found
                self.seconds[pid, name, kind] = seconds
                first, _ = self.spans.get((name, kind), (now, now))
                self.spans[name, kind] = first, now

    def result(self):
        parts = collections.defaultdict(list)
        for (_, name, kind), seconds in self.seconds.items():
            parts[name, kind].append(seconds)
        keys = sorted(parts, key=lambda it: self.spans[it][0])
        return [[*key, sum(parts[key]), *self.spans[key], parts[key]] for key in keys]


def run(log, command):
    watch, lines, done = Watch(), [], threading.Event()

    def watching():
        while not done.wait(0.25):
            watch.look()

    watcher = threading.Thread(target=watching)
    watcher.start()
    with subprocess.Popen(command, cwd=ROOT, stdout=subprocess.PIPE, stderr=subprocess.STDOUT, text=True) as gate:
        for line in gate.stdout:
            print(line, end="", flush=True)
            lines.append(line.rstrip("\n"))
    done.set()
    watcher.join()
    told = {"command": command, "elapsed": time.time() - watch.start, "status": gate.returncode}
    told |= {"tasks": watch.result(), "lines": lines}
    pathlib.Path(log).write_text(json.dumps(told, indent=1))
    return gate.returncode


def functions_of(lines):
    """How many functions of each crate were proved, by the lines of the gate, tests aside."""
    counts, name = {}, None
    for line in lines:
        head = re.match(r"== (\w+)(: its tests)?$", line)
        if head:
            name = None if head[2] else head[1]
        found = re.match(r"logic=proved functions=(\d+)", line)
        if name and found:
            counts[name] = int(found[1])
    return counts


def by_turns(parts):
    """What the check from nothing took with which a crate's edits begin, and what the edits did, the cheapest and the dearest.

    After the edits the crate is checked without any, which is no edit's.
    """
    others = [f"{it:.0f}" for it in sorted(parts[1:-1])]
    return f"{parts[0]:.0f}" if parts else "", f"{others[0]} to {others[-1]}" if others else ""


def report(log):
    told = json.loads(pathlib.Path(log).read_text())
    by_crate = collections.defaultdict(dict)
    for name, kind, seconds, first, last, parts in told["tasks"]:
        by_crate[name][kind] = seconds, first, last, parts
    edits = collections.Counter(
        found[1] for found in (re.search(r"must-fail (\w+)/\S+\.edit: refused", line) for line in told["lines"]) if found
    )
    functions = functions_of(told["lines"])
    print(f"`{' '.join(told['command'])}`: {told['elapsed'] / 60:.1f} minutes, last line `{told['lines'][-1]}`\n")
    print("| Crate | Functions | Proof, s | Tests, s | Edits | Edits, s | First, s | Others, s | Done, min |")
    print("|---|---|---|---|---|---|---|---|---|")
    sums = collections.Counter()
    for name, kinds in by_crate.items():
        took = {kind: kinds.get(kind, (0, 0, 0, []))[0] for kind in KINDS}
        sums.update(took)
        cells = [name, functions.get(name, 0), *(f"{took[kind]:.0f}" for kind in ("proof", "tests")), edits[name]]
        cells += [f"{took['edits']:.0f}", *by_turns(kinds["edits"][3] if "edits" in kinds else [])]
        cells += [f"{max(last for _, _, last, _ in kinds.values()) / 60:.1f}"]
        print("|", " | ".join(str(it) for it in cells), "|")
    whole = [f"{sums[kind]:.0f}" for kind in KINDS]
    print(f"| all | {sum(functions.values())} | {whole[0]} | {whole[1]} | {sum(edits.values())} | {whole[2]} | | | {told['elapsed'] / 60:.1f} |\n")


def main():
    if len(sys.argv) >= 3 and sys.argv[1] == "run":
        return run(sys.argv[2], sys.argv[3:] or ["rt", "ci"])
    if len(sys.argv) >= 3 and sys.argv[1] == "report":
        for log in sys.argv[2:]:
            report(log)
        return 0
    print(__doc__, file=sys.stderr)
    return 2


if __name__ == "__main__":
    sys.exit(main())
