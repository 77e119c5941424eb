#!/usr/bin/env python3
"""Says how many seconds the prover takes for each function of a crate.

    dev/time_functions.py NAME [FLAG...]     proves crates/NAME on one job (`rt check --jobs 1 --progress FLAG...`) and prints
                                               its functions, the dearest first

What an earlier check kept in crates/NAME/out is not proved again and has no line: remove that folder for a whole account.
The first function's seconds are also those of what stands before all functions: reading the libraries, contracts, lemmas.
"""

import re
import subprocess
import sys
import time

from built import ROOT


def main():
    if len(sys.argv) < 2 or sys.argv[1].startswith("-"):
        print(__doc__, file=sys.stderr)
        return 2
    command = ["rt", "check", "--jobs", "1", "--progress", *sys.argv[2:]]
    told, verdict, last = [], "", time.monotonic()
    where = {"cwd": ROOT / "crates" / sys.argv[1], "stdout": subprocess.PIPE, "stderr": subprocess.STDOUT, "text": True}
    with subprocess.Popen(command, bufsize=1, **where) as check:
        for line in check.stdout:
            now = time.monotonic()
            found = re.match(r"checked (\S.*), \d+ of \d+$", line.rstrip())
            if found:
                told.append((now - last, found[1]))
            if found or line.startswith("rt: "):
                last = now
            verdict = line.rstrip() if line.startswith("logic=") else verdict
    for seconds, name in sorted(told, reverse=True):
        print(f"{seconds:7.1f}  {name}")
    print(verdict)
    return check.returncode


if __name__ == "__main__":
    sys.exit(main())
