#!/usr/bin/env python3
"""Refuses each allocation of a test in turn, and says how often the test passed all the same.

    dev/refuse_in_tests.py CRATE TEST...

`rt test CRATE` builds the tests before. For each N, a run in which the Nth allocation is refused has to pass, until a run
meets none: such a test makes a call once more where it found no memory, and looks at what the call left. It is for tests that
run on one thread. Exits with 1 where a run failed. Needs a C compiler, `cc`.
"""

import subprocess
import sys

from built import ROOT
from refusing import runs


def main(crate, tests):
    program = ROOT / "crates" / crate / "out" / f"{crate}_tests"
    if not program.is_file():
        sys.exit(f"{program} isn't there: run `rt test {crate}` first")
    failed = 0
    for test in tests:
        if subprocess.run([program, test], capture_output=True, timeout=60).returncode:
            sys.exit(f"{test} fails where nothing is refused")
        statuses = [run.returncode for run in runs([str(program), test])]
        wrong = [number for number, status in enumerate(statuses, 1) if status]
        failed += len(wrong)
        print(f"{test}: {len(statuses)} allocations refused, {len(wrong)} runs failed {wrong or ''}".rstrip(), flush=True)
    return 1 if failed else 0


if __name__ == "__main__":
    if len(sys.argv) < 3:
        sys.exit(__doc__)
    sys.exit(main(sys.argv[1], sys.argv[2:]))
