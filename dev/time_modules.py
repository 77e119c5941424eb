#!/usr/bin/env python3
"""Says what the seconds of a check from nothing went to, by the kinds of modules that the prover makes of a crate.

    dev/time_modules.py NAME [COUNT]     of crates/NAME, after `rt check --jobs 1` there with no folder out/ before it

A check writes each module into crates/NAME/out/incremental once it is checked, so what lies between two files is taken for the
second. Prints the seconds and megabytes of each kind, and the COUNT (20) dearest modules. Of a function, Lts are its steps, Layout
the sizes of its types, Answers what its proof files say, and Proof the search for the goals that these leave out.
"""

import collections
import re
import sys

from built import ROOT

MODULE = re.compile(r"Rattle-\w+-(proofs|specs)\.(.+?)(\.decls)?\.oantt")


def modules(folder):
    """Gives the seconds, the bytes and the name of each module of the folder, in the order in which they were checked."""
    files = sorted((file.stat().st_mtime, file) for file in folder.rglob("*.oantt"))
    before = files[0][0] if files else 0
    for at, file in files:
        found = MODULE.fullmatch(file.name)
        if found:
            yield at - before, file.stat().st_size, f"{found[1]}.{found[2]}"
        before = at


def kind(name):
    """The kind of a module: the last part of the name of one that belongs to a proof."""
    return name.rpartition(".")[2] if name.startswith("proofs.") else "specs"


def main():
    if len(sys.argv) not in (2, 3) or sys.argv[1].startswith("-"):
        print(__doc__, file=sys.stderr)
        return 2
    found = list(modules(ROOT / "crates" / sys.argv[1] / "out" / "incremental"))
    kinds, sizes = collections.Counter(), collections.Counter()
    for seconds, size, name in found:
        kinds[kind(name)] += seconds
        sizes[kind(name)] += size
    for name, seconds in kinds.most_common(12):
        print(f"{seconds:7.1f} s  {sizes[name] / 1e6:6.1f} MB  {name}")
    for seconds, _, name in sorted(found, reverse=True)[: int(sys.argv[2]) if len(sys.argv) == 3 else 20]:
        print(f"{seconds:7.1f} s  {name}")
    return 0


if __name__ == "__main__":
    sys.exit(main())
