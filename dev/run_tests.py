#!/usr/bin/env python3
"""Runs all tests: those in Python, the gate, and those on the program that the gate built.

    tools/test.sh [--quick | --after-gate [--program PATH]] [--seed S]

In this order, each part with its count and its seconds:

  links of documents                what documents name is there: links, sections and files (check_links.py)
  tests of dev/, ceph/, fuzz/ and
  follow/                           unit tests in Python, except those that need the built program
  gate                              `rt ci`, with as many checks at once as there are processors, where there are 5 GB of
                                    memory for each of them
  the same, with the program        all unit tests of dev/ and ceph/
  examples                          each example and each line of docs/FORMAT.md has its answer (run_examples.py)
  statuses                          the program ends in each of its statuses (check_statuses.py)
  workers                           examples and stored scripts have the same bytes with workers (compare_workers.py)
  fuzz                              generated scripts have the answers of the model, for a minute at most (fuzz/fuzz.py)
  explanations                      what brings a group back is what each subset of devices does, for half a minute at most
                                    (fuzz/explain.py)
  compactions                       a script that `compact` wrote has the answers of the whole one, for half a minute at most
                                    (fuzz/compact.py)
  joins                             the same of a script whose incrementals were joined, for twenty seconds (fuzz/join.py)
  followers of one log              three followers over three nodes of etcd answer as the program does on the lines of the log, while
                                    one of each is killed (follow/checks/many.py)
  followers that join               the same, with --format 3
  a follower that is cut off        what it answers without the others, by network namespaces (follow/checks/partition.py)
  a follower by TLS                 who is let in, with certificates and users of etcd (follow/checks/secured.py)
  a Ceph cluster                    nine devices go through an outage, as fetch and record keep it, and come back as plan says
                                    (check_against_ceph.py --operator --short)
  allocations refused               each allocation refused in turn: of a short run, with and without workers, of an explanation, of
                                    a compaction and of a join (refuse_allocations.py), of a test of the engine, of the feed and of
                                    a shard (refuse_in_tests.py)
  library for C, built              the static library, over what the gate proved (build_c_library.sh)
  library for C                     its scripts, calls, examples and names, and programs in five languages that are killed and
                                    started again (check_c_library.py)
  library for C, its memory         the same by valgrind and address sanitizer (check_c_library.py --memory)
  a daemon that is killed           at each of its writes, and started again (check_daemon.py)

--quick runs what stands before the gate alone, and --after-gate what stands after it, on the program that an earlier gate or
`rt run` left, or on PATH. --seed is that of the generated scripts, 1 if not said.

Needs bash, Python and `rt`, a C compiler for two of the statuses and for the last parts, for the followers etcd, etcdctl, `ip`,
root and openssl, and for the cluster Debian's ceph-base, ceph-mon, ceph-osd and ceph-mgr: what lacks one is left out, and a line
says so. All parts except the gate take some twenty minutes on a quiet machine. Each
part has a bound of its own, some four times that, so that a busy machine fails none; one that takes longer has failed. The gate
says its lines as they come, another part where it failed. Nothing is installed, and no file is left in the tree but in folders
`out`. The last line is `N passed, M failed`, of all parts together, and the status is 1 where something failed.
"""

import argparse
import contextlib
import os
import pathlib
import re
import shutil
import signal
import subprocess
import sys
import time
from typing import Callable, Dict, Iterator, List, NamedTuple, Optional, Tuple

from built import BUILT, ROOT

C_LIBRARY = ROOT / "crates/pgp_c/out/c/libpgpeer.so"
NO_PROGRAM = ROOT / "no program yet"
FUZZED_LINES = 300_000  # fewer where a minute passes before
EXPLAINED_LOGS = 300  # fewer where half a minute passes before
COMPACTED_LINES = 100_000  # fewer where half a minute passes before
COMPACTED_KINDS = ("story", "crowd", "noise", "long", "wide")  # without full logs, one of which takes a minute
JOINED_KINDS = ("healing", "brief", "outage", "story")
REFUSED_RUNS = (  # in which each allocation is refused: a script, and what is done with it
    ("a run", ("examples/first.jsonl", "run")),
    ("a run with workers", ("examples/outage.jsonl", "run", "--shards", "2", "--workers", "2")),
    ("an explanation", ("examples/explain_down.jsonl", "explain", "1.0")),
    ("a compaction", ("examples/compact.jsonl", "compact")),
    ("a join", ("examples/flaps.jsonl", "compact", "--join")),
)
REFUSED_TESTS = (  # in which each allocation is refused: a crate of tests, and its tests that make a call once more then
    ("pgp_thread_tests", ("engine::growths::each_call_can_be_made_again", "feed::each_call_of_a_feed_can_be_made_again")),
    ("pgp_tests", ("shard_growths::each_call_of_a_shard_can_be_made_again",)),
)
MOST_SECONDS = 5400  # for all parts except the gate
DEBIAN_PYTHON = shutil.which("python3", path="/usr/bin") or sys.executable  # which has python3-rados, where Ceph is
CHECK_BYTES = 5_000_000_000  # more than any check of the gate takes
SKIPPED = 3  # the status of a part that says in its own words that it was skipped
MOST_SHOWN = 4000  # characters of what a failed part said

Counts = Tuple[int, int]  # passed, failed


class Part(NamedTuple):
    """A command, and how its counts are read from what it said."""

    name: str
    words: List[str]
    seconds: float  # its bound
    counts: Callable[[str], Optional[Counts]]
    needs: Tuple[str, ...] = ()  # other programs, without which it is skipped
    file: Optional[pathlib.Path] = None  # a file, without which it is skipped
    program: pathlib.Path = NO_PROGRAM  # the built program


# How many passed and failed, by what a part said; None where it said no count.


def unit_tests(said: str) -> Optional[Counts]:
    found = re.search(r"^Ran (\d+) tests? in", said, re.M)
    if not found:
        return None
    told = {key: int(number) for key, number in re.findall(r"(failures|errors|skipped|unexpected successes)=(\d+)", said)}
    failed = sum(told.get(key, 0) for key in ("failures", "errors", "unexpected successes"))
    return max(int(found[1]) - failed - told.get("skipped", 0), 0), failed


def gate(said: str) -> Optional[Counts]:
    found = re.search(r"^(\d+) passed, (\d+) failed\s*\Z", said, re.M)
    return (int(found[1]), int(found[2])) if found else None


def tried_and_wrong(said: str) -> Optional[Counts]:
    """The last line of check_links.py, run_examples.py, check_statuses.py, check_c_library.py and check_daemon.py."""
    found = re.search(r"^(\d+) (?:names|examples|runs|checks), (\d+) wrong\s*\Z", said, re.M)
    return (int(found[1]) - int(found[2]), int(found[2])) if found else None


def compared_runs(said: str) -> Optional[Counts]:
    found = re.search(r"^(\d+) scripts, (\d+) runs of each with workers, (\d+) wrong\s*\Z", said, re.M)
    return (int(found[1]) * int(found[2]) - int(found[3]), int(found[3])) if found else None


def scripts(said: str) -> Optional[Counts]:
    found = re.search(r"^([\d,]+) scripts, .* (\d+) wrong answers, (\d+) other statuses, (\d+) hangs\.$", said, re.M)
    if not found:
        return None
    failed = sum(int(it) for it in found.groups()[1:])
    return int(found[1].replace(",", "")) - failed, failed


def explanations(said: str) -> Optional[Counts]:
    found = re.search(r"^([\d,]+) groups, [\d,]+ subsets, ([\d,]+) wrong\s*\Z", said, re.M)
    if not found:
        return None
    groups, failed = (int(it.replace(",", "")) for it in found.groups())
    return max(groups - failed, 0), failed


def states_of_groups(said: str) -> Optional[Counts]:
    """What check_against_ceph.py says of a cluster's outage."""
    found = re.search(r"^([\d,]+) states of groups, (\d+) differences without a rule", said, re.M)
    if not found:
        return None
    count, failed = int(found[1].replace(",", "")), int(found[2])
    return count - failed, failed


def compactions(said: str) -> Optional[Counts]:
    found = re.search(r"^([\d,]+) scripts, .* ([\d,]+) (?:compactions|joins) .*, ([\d,]+) wrong\s*\Z", said, re.M)
    if not found:
        return None
    made, failed = (int(it.replace(",", "")) for it in found.groups()[1:])
    return max(made - failed, 0), failed


def built(said: str) -> Optional[Counts]:
    """The last line of build_c_library.sh: the folder that it filled."""
    return (1, 0) if said.rstrip("\n").rpartition("\n")[2] == str(C_LIBRARY.parent) else None


def allocations(said: str) -> Optional[Counts]:
    found = re.search(r"^(\d+) allocations$", said, re.M)
    wrong = re.findall(r"\d+", "".join(re.findall(r"^wrong where these were refused: \[(.*)\]$", said, re.M)))
    return (int(found[1]) - len(wrong), len(wrong)) if found else None


def allocations_in_tests(said: str) -> Optional[Counts]:
    found = re.findall(r"^\S+: (\d+) allocations refused, (\d+) runs failed", said, re.M)
    failed = sum(int(wrong) for _, wrong in found)
    return (sum(int(refused) for refused, _ in found) - failed, failed) if found else None


# The parts


def python(*words: object) -> List[str]:
    return [sys.executable, *map(str, words)]


def tests_in(folder: str) -> List[str]:
    return python("-m", "unittest", "discover", "-s", f"{folder}/tests")


def before_gate() -> List[Part]:
    return [
        Part("links of documents", python("dev/check_links.py"), 60, tried_and_wrong),
        Part("tests of dev/", tests_in("dev"), 900, unit_tests),
        Part("tests of ceph/", tests_in("ceph"), 1800, unit_tests),
        Part("tests of fuzz/", tests_in("fuzz"), 900, unit_tests),
        Part("tests of follow/", tests_in("follow"), 900, unit_tests),
    ]


def on_c_library() -> List[Part]:
    """What is tested of the library for C, which is built first."""
    build = ["tools/build_c_library.sh", "--after-gate", str(C_LIBRARY.parent)]
    checks = (
        ("library for C", "dev/check_c_library.py", []),
        ("library for C, its memory", "dev/check_c_library.py", ["--memory"]),
        ("a daemon that is killed", "dev/check_daemon.py", []),
    )
    return [Part("library for C, built", build, 1500, built, ("cc", "ar"))] + [
        Part(name, python(script, *words, C_LIBRARY.parent), 900, tried_and_wrong, ("cc",), C_LIBRARY) for name, script, words in checks
    ]


def after_gate(seed: str) -> List[Part]:
    fuzz = python("fuzz/fuzz.py", "--lines", FUZZED_LINES, "--minutes", 1, "--seconds", 60, "--seed", seed)
    explain = python("fuzz/explain.py", "--logs", EXPLAINED_LOGS, "--minutes", 0.5, "--seed", seed)
    compact = python("fuzz/compact.py", "--lines", COMPACTED_LINES, "--minutes", 0.5, "--kinds", *COMPACTED_KINDS, "--seed", seed)
    join = python("fuzz/join.py", "--minutes", 0.33, "--kinds", *JOINED_KINDS, "--seed", seed)
    follow = python("follow/checks/many.py", "--seed", seed)
    cut_off = python("follow/checks/partition.py")
    secured = python("follow/checks/secured.py")
    cluster = [DEBIAN_PYTHON, "dev/check_against_ceph.py", "--operator", "8", "--short"]
    return [
        Part("tests of dev/, with the program", tests_in("dev"), 900, unit_tests),
        Part("tests of ceph/, with the program", tests_in("ceph"), 1800, unit_tests),
        Part("examples", python("dev/run_examples.py"), 300, tried_and_wrong),
        Part("statuses", python("dev/check_statuses.py"), 300, tried_and_wrong),
        Part("workers", python("dev/compare_workers.py", "--stored", "--seconds", 30), 400, compared_runs),
        Part(f"fuzz, seed {seed}", fuzz, 400, scripts),
        Part(f"explanations, seed {seed}", explain, 300, explanations),
        Part(f"compactions, seed {seed}", compact, 400, compactions),
        Part(f"joins, seed {seed}", join, 400, compactions),
        Part("followers of one log", follow, 900, tried_and_wrong, ("etcd",)),
        Part("followers that join", [*follow, "--format", "3"], 900, tried_and_wrong, ("etcd",)),
        Part("a follower that is cut off", cut_off, 300, tried_and_wrong, ("etcd", "ip")),
        Part("a follower by TLS", secured, 200, tried_and_wrong, ("etcd", "etcdctl", "openssl")),
        Part("a Ceph cluster", cluster, 1200, states_of_groups, ("ceph", "ceph-mon", "ceph-osd", "ceph-mgr", "crushtool", "osdmaptool")),
    ] + [
        Part(f"allocations refused, {what}", python("dev/refuse_allocations.py", *words), 400, allocations, ("cc",))
        for what, words in REFUSED_RUNS
    ] + [
        Part(
            f"allocations refused in {crate}",
            python("dev/refuse_in_tests.py", crate, *tests),
            400,
            allocations_in_tests,
            ("cc",),
            ROOT / f"crates/{crate}/out/{crate}_tests",
        )
        for crate, tests in REFUSED_TESTS
    ] + on_c_library()


# Runs


class Ended(NamedTuple):
    """What a command said, and its status: None where it took longer than its bound."""

    said: str
    status: Optional[int]


def end_group(pid: int) -> None:
    """Ends what is left of a process that was started in a group of its own."""
    with contextlib.suppress(ProcessLookupError):
        os.killpg(pid, signal.SIGKILL)


def ended(part: Part, seconds: float) -> Ended:
    """Runs a part at the top of the tree, for this many seconds at most, with no file of Python's left behind."""
    env = {**os.environ, "PYTHONDONTWRITEBYTECODE": "1", "PGPEER": str(part.program)}
    with subprocess.Popen(
        part.words,
        cwd=ROOT,
        env=env,
        stdin=subprocess.DEVNULL,
        stdout=subprocess.PIPE,
        stderr=subprocess.STDOUT,
        start_new_session=True,
    ) as run:
        try:
            said, _ = run.communicate(timeout=seconds)
            status: Optional[int] = run.returncode
        except subprocess.TimeoutExpired:
            end_group(run.pid)
            said, _ = run.communicate()
            status = None
        finally:
            end_group(run.pid)
    return Ended(said.decode(errors="replace"), status)


def judged(part: Part, end: Ended) -> Counts:
    """The counts of a part that ended so. One that fails, or counts nothing, without a failure of its own counts as one."""
    passed, failed = part.counts(end.said) or (0, 0)
    is_well = end.status == 0 and failed == 0 and passed > 0
    return passed, failed if is_well else max(failed, 1)


def lacking(part: Part) -> Iterator[object]:
    """What a part needs and isn't there."""
    yield from (it for it in part.needs if not shutil.which(it))
    if part.file and not part.file.exists():
        yield part.file.relative_to(ROOT)


def run_part(part: Part, seconds: float) -> Counts:
    """Runs a part for this many seconds at most, prints its line, and gives its counts."""
    for lack in lacking(part):
        print(f"{part.name}: skipped, since {lack} isn't there", flush=True)
        return 0, 0
    start = time.monotonic()
    end = ended(part, seconds)
    if end.status == SKIPPED and end.said.startswith("skipped, "):
        print(f"{part.name}: {end.said.rstrip()}", flush=True)
        return 0, 0
    passed, failed = judged(part, end)
    if failed:
        print(end.said[-MOST_SHOWN:].rstrip("\n"))
    late = "" if end.status is not None else f", not ended after {seconds:.0f} seconds"
    skipped = re.search(r"^(?:OK|FAILED) \(.*\bskipped=(\d+)", end.said, re.M)
    left_out = f", {skipped[1]} skipped without the program" if skipped and part.program == NO_PROGRAM else ""
    print(f"{part.name}: {passed} passed, {failed} failed{left_out}{late} ({time.monotonic() - start:.0f} s)", flush=True)
    return passed, failed


def run_parts(parts: List[Part], end: float) -> List[Counts]:
    """Runs the parts one after the other, until this time of the clock at the latest."""
    return [run_part(part, max(1.0, min(part.seconds, end - time.monotonic()))) for part in parts]


def processors() -> int:
    """How many processors this process may use: those that it may run on, or fewer by the quota of its control group."""
    count = len(os.sched_getaffinity(0))
    with contextlib.suppress(OSError, ValueError):
        quota, period = pathlib.Path("/sys/fs/cgroup/cpu.max").read_text().split()
        count = min(count, max(1, int(quota) // int(period)))
    return count


def free_bytes() -> int:
    """How much memory is free, also under the limit of the control group."""
    found = re.search(r"^MemAvailable:\s+(\d+) kB$", pathlib.Path("/proc/meminfo").read_text(), re.M)
    free = 1024 * int(found[1]) if found else 0
    with contextlib.suppress(OSError, ValueError):
        group = pathlib.Path("/sys/fs/cgroup")
        free = min(free, int((group / "memory.max").read_text()) - int((group / "memory.current").read_text()))
    return free


def gate_environment() -> Dict[str, str]:
    """The environment of the gate. `rt ci` reckons more memory for a check than it takes, and so leaves processors idle; RT_JOBS
    tells it how many checks to run at once. It is set where memory lasts for a check on each processor."""
    if "RT_JOBS" in os.environ or free_bytes() < processors() * CHECK_BYTES:
        return dict(os.environ)
    return {**os.environ, "RT_JOBS": str(processors())}


def run_gate() -> Counts:
    """Runs the gate, and prints what it says as it comes."""
    start, said, status = time.monotonic(), [], None
    try:
        how = {"stdin": subprocess.DEVNULL, "stdout": subprocess.PIPE, "stderr": subprocess.STDOUT, "env": gate_environment()}
        with subprocess.Popen(["rt", "ci"], cwd=ROOT, **how) as run:
            for line in run.stdout or ():
                said.append(line.decode(errors="replace"))
                print(said[-1], end="", flush=True)
        status = run.returncode
    except OSError as why:
        print(f"rt ci: {why.strerror}")
    passed, failed = judged(Part("gate", [], 0, gate), Ended("".join(said), status))
    print(f"gate: {passed} passed, {failed} failed ({time.monotonic() - start:.0f} s)", flush=True)
    return passed, failed


def run_on_program(program: pathlib.Path, seed: str, end: float) -> List[Counts]:
    if not os.access(program, os.X_OK):
        print(f"tests on the program: 0 passed, 1 failed, since there is no {program}")
        return [(0, 1)]
    return run_parts([it._replace(program=program) for it in after_gate(seed)], end)


def main(words: Optional[List[str]] = None) -> int:
    parser = argparse.ArgumentParser(description=__doc__, formatter_class=argparse.RawDescriptionHelpFormatter)
    some = parser.add_mutually_exclusive_group()
    some.add_argument("--quick", action="store_true", help="what stands before the gate alone")
    some.add_argument("--after-gate", action="store_true", help="what stands after the gate alone")
    parser.add_argument("--program", type=pathlib.Path, metavar="PATH", help="another than the gate builds")
    parser.add_argument("--seed", default="1", help="of the generated scripts")
    options = parser.parse_args(words)
    if options.program and not options.after_gate:
        parser.error("--program is for --after-gate")
    counts: List[Counts] = []
    end = time.monotonic() + MOST_SECONDS
    if not options.after_gate:
        counts += run_parts(before_gate(), end)
    if not options.after_gate and not options.quick:
        start = time.monotonic()
        counts.append(run_gate())
        end += time.monotonic() - start
    if not options.quick:
        program = options.program.resolve() if options.program else BUILT
        counts += run_on_program(program, options.seed, end)
    passed, failed = sum(it[0] for it in counts), sum(it[1] for it in counts)
    print(f"{passed} passed, {failed} failed")
    return 1 if failed else 0


if __name__ == "__main__":
    sys.exit(main())
