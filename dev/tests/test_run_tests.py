"""Tests of run_tests.py, on a tree of stubs with an `rt` that is a script."""

import os
import pathlib
import time
import unittest
from unittest import mock

from case import Room, written

import run_tests

# Each stub says what the tool says whose name it has; `told` in the place of it is said instead, and ends with status 1.
SAYS = {
    "dev/check_links.py": "412 names, 0 wrong",
    "dev/run_examples.py": "47 examples, 0 wrong",
    "dev/check_statuses.py": "14 runs, 0 wrong",
    "dev/compare_workers.py": "8 scripts, 3 runs of each with workers, 0 wrong",
    "dev/refuse_allocations.py": "261 allocations\n   170 out of memory",
    "dev/refuse_in_tests.py": "a::b: 40 allocations refused, 0 runs failed\nc: 60 allocations refused, 0 runs failed",
    "dev/check_c_library.py": "names right\nRust skipped, since cargo isn't there\n9 checks, 0 wrong",
    "dev/check_daemon.py": "700 checks, 0 wrong",
    "fuzz/fuzz.py": "1,060 scripts, 55,530 lines, 9 bytes, 0 wrong answers, 0 other statuses, 0 hangs.",
    "fuzz/explain.py": "60 logs, 125 ends\n1,352 groups, 800 subsets, 0 wrong",
    "follow/checks/many.py": "5,000 lines in 40 s\n7600 checks, 0 wrong",
    "follow/checks/partition.py": "right: it has caught up\n14 checks, 0 wrong",
    "follow/checks/secured.py": "5 checks, 0 wrong",
    "dev/check_against_ceph.py": "1,175 states of groups, 0 differences without a rule, 60 s\n\n| Step |",
    "fuzz/compact.py": "Scripts: 9 story.\n9 scripts, 9,041 lines, 1,022 compactions which left out 5 of 9 entries, 8 answers after them, 0 wrong",
    "fuzz/join.py": "Scripts: 9 story.\n9 scripts, 9,041 lines, 31 joins which left 5 of 9 incrementals, 8 answers after them, 4 explanations, 0 wrong",
}
STUB = "import sys, time\n{before}\nprint({said!r})\nsys.exit({status})\n"
UNIT_TEST = """import os, unittest
class Sums(unittest.TestCase):
    def test_adds(self):
        self.assertEqual(1 + 1, {sum})
    @unittest.skipUnless(os.access(os.environ["PGPEER"], os.X_OK), "no program")
    def test_on_the_program(self):
        pass
"""
RT = """#!/bin/sh
test "$*" = ci || exit 9
echo "rt: proved"
{build}
echo "{last}"
exit {status}
"""
BUILD = """mkdir -p crates/pgpeer/out && cp /bin/true crates/pgpeer/out/pgpeer
mkdir -p crates/pgp_thread_tests/out && touch crates/pgp_thread_tests/out/pgp_thread_tests_tests"""
BUILD_C = """#!/bin/sh
test "$1" = --after-gate || exit 9
{build}
echo "{last}"
exit {status}
"""
BUILT_C = 'mkdir -p "$2" && touch "$2/libpgpeer.so"'
ON_C = 1 + 2 * 9 + 700  # the build of the library for C, and its checks
FOLLOWED, IN_CEPH = 2 * 7600 + 14 + 5, 1175
ALL = 412 + ON_C + 4 + 110 + 4 + 47 + 14 + 24 + 1060 + 1352 + 1022 + 31 + FOLLOWED + IN_CEPH + 5 * 261 + 100


class WithTree(Room):
    def setUp(self):
        super().setUp()
        self.root, self.bin = self.room / "root", self.room / "bin"
        for folder in ("dev/tests", "ceph/tests", "fuzz/tests", "follow/tests"):
            self.unit_test(folder, 2)
        for name, said in SAYS.items():
            self.stub(name, said)
        self.rt(BUILD, "110 passed, 0 failed", 0)
        self.build_c(BUILT_C, "$2", 0)
        path = {"PATH": f"{self.bin}:{os.environ['PATH']}"}
        program = self.root / "crates/pgpeer/out/pgpeer"
        self.patch(
            mock.patch.dict(os.environ, path),
            mock.patch.object(run_tests, "ROOT", self.root),
            mock.patch.object(run_tests, "BUILT", program),
            mock.patch.object(run_tests, "C_LIBRARY", self.root / "crates/pgp_c/out/c/libpgpeer.so"),
            mock.patch.object(run_tests.shutil, "which", lambda name: f"/bin/{name}"),
        )

    def stub(self, name, said, status=0, before=""):
        self.write(f"root/{name}", STUB.format(said=said, status=status, before=before))

    def unit_test(self, folder, total):
        self.write(f"root/{folder}/test_sums.py", UNIT_TEST.format(sum=total))

    def rt(self, build, last, status):
        self.write("bin/rt", RT.format(build=build, last=last, status=status), 0o755)

    def build_c(self, build, last, status):
        self.write("root/tools/build_c_library.sh", BUILD_C.format(build=build, last=last, status=status), 0o755)

    def run_all(self, *words):
        """The status, and the lines that were written."""
        status, text = written(run_tests.main, list(words))
        return status, text.splitlines()


class Runs(WithTree):
    def test_all_parts_are_run_and_counted(self):
        status, lines = self.run_all("--seed", "7")
        self.assertEqual((status, lines[-1]), (0, f"{ALL} passed, 0 failed"))
        self.assertRegex(lines[0], r"^links of documents: 412 passed, 0 failed \(\d+ s\)$")
        self.assertRegex(lines[1], r"^tests of dev/: 1 passed, 0 failed, 1 skipped without the program \(\d+ s\)$")
        self.assertIn("rt: proved", lines)
        self.assertRegex("\n".join(lines), r"\nfuzz, seed 7: 1060 passed, 0 failed \(\d+ s\)\n")
        self.assertRegex("\n".join(lines), r"\nexplanations, seed 7: 1352 passed, 0 failed \(\d+ s\)\n")
        self.assertRegex("\n".join(lines), r"\ncompactions, seed 7: 1022 passed, 0 failed \(\d+ s\)\n")
        self.assertRegex("\n".join(lines), r"\njoins, seed 7: 31 passed, 0 failed \(\d+ s\)\n")
        self.assertRegex("\n".join(lines), r"\nallocations refused, a compaction: 261 passed, 0 failed \(\d+ s\)\n")
        self.assertRegex("\n".join(lines), r"\ntests of dev/, with the program: 2 passed, 0 failed \(\d+ s\)\n")

    def test_no_file_is_left_but_in_out(self):
        before = {it for it in self.root.rglob("*")}
        self.run_all()
        left = {str(it.relative_to(self.root)) for it in set(self.root.rglob("*")) - before}
        made = ("crates/pgpeer/out/pgpeer", "crates/pgp_c/out/c/libpgpeer.so")
        made += ("crates/pgp_thread_tests/out/pgp_thread_tests_tests",)
        within = {str(it) for file in made for it in pathlib.PurePath(file).parents if it.name}
        self.assertEqual(left, {*made, *within})

    def test_a_failing_example_fails(self):
        self.stub("dev/run_examples.py", "map.jsonl: answer 3 is {} and not []\n47 examples, 1 wrong", 1)
        status, lines = self.run_all()
        self.assertEqual((status, lines[-1]), (1, f"{ALL - 1} passed, 1 failed"))
        self.assertIn("map.jsonl: answer 3 is {} and not []", lines)

    def test_a_name_that_is_not_there_fails(self):
        self.stub("dev/check_links.py", "README.md:3: no file docs/GONE.md\n412 names, 1 wrong", 1)
        status, lines = self.run_all("--quick")
        self.assertEqual((status, lines[-1]), (1, "415 passed, 1 failed"))
        self.assertIn("README.md:3: no file docs/GONE.md", lines)

    def test_a_failing_unit_test_fails_and_all_else_is_run(self):
        self.unit_test("fuzz/tests", 3)
        status, lines = self.run_all()
        self.assertEqual((status, lines[-1]), (1, f"{ALL - 1} passed, 1 failed"))
        self.assertIn("AssertionError: 2 != 3", lines)

    def test_a_gate_that_fails_and_builds_no_program_fails(self):
        self.rt("echo 'rt: FAILED: pgp_map'", "108 passed, 2 failed", 1)
        status, lines = self.run_all()
        self.assertEqual((status, lines[-1]), (1, "524 passed, 3 failed"))
        self.assertIn(f"tests on the program: 0 passed, 1 failed, since there is no {self.root}/crates/pgpeer/out/pgpeer", lines)

    def test_a_gate_that_ends_early_fails(self):
        for last, status in (("rt: stopped", 2), ("110 passed, 0 failed", 1), ("0 passed, 0 failed", 0)):
            self.rt(BUILD, last, status)
            self.assertEqual(self.run_all()[0], 1)

    def test_a_missing_gate_fails(self):
        (self.bin / "rt").unlink()
        with mock.patch.dict(os.environ, {"PATH": str(self.bin)}):
            status, lines = self.run_all()
        self.assertEqual(status, 1)
        self.assertIn("rt ci: No such file or directory", lines)

    def test_a_part_that_says_no_count_fails(self):
        for name in SAYS:
            self.stub(name, "Traceback", 1)
        status, lines = self.run_all()
        self.assertEqual((status, lines[-1]), (1, "119 passed, 22 failed"))

    def test_a_part_without_end_is_stopped(self):
        self.stub("dev/check_statuses.py", "", before="time.sleep(600)")
        start = time.monotonic()
        with mock.patch.object(run_tests, "MOST_SECONDS", 8):
            status, lines = self.run_all("--after-gate")
        self.assertEqual(status, 1)
        self.assertLess(time.monotonic() - start, 300)

    def test_without_a_compiler_etcd_and_ceph_what_needs_them_is_skipped(self):
        with mock.patch.object(run_tests.shutil, "which", lambda name: None):
            status, lines = self.run_all()
        self.assertEqual((status, lines[-1]), (0, f"{ALL - ON_C - FOLLOWED - IN_CEPH - 5 * 261 - 100} passed, 0 failed"))
        self.assertIn("followers of one log: skipped, since etcd isn't there", lines)
        self.assertIn("a follower that is cut off: skipped, since etcd isn't there", lines)
        self.assertIn("a Ceph cluster: skipped, since ceph isn't there", lines)
        self.assertIn("allocations refused, a run: skipped, since cc isn't there", lines)
        self.assertIn("library for C, built: skipped, since cc isn't there", lines)
        self.assertIn("library for C: skipped, since cc isn't there", lines)

    def test_a_library_that_is_not_built_fails_and_is_not_checked(self):
        self.build_c("", "error: pgp_c: not proved", 1)
        status, lines = self.run_all()
        self.assertEqual((status, lines[-1]), (1, f"{ALL - ON_C} passed, 1 failed"))
        self.assertIn("error: pgp_c: not proved", lines)
        self.assertIn("library for C: skipped, since crates/pgp_c/out/c/libpgpeer.so isn't there", lines)

    def test_a_library_over_those_of_earlier_checks_is_skipped(self):
        self.build_c("", "skipped, since checks before the gate left libraries here", 3)
        status, lines = self.run_all()
        self.assertEqual((status, lines[-1]), (0, f"{ALL - ON_C} passed, 0 failed"))
        self.assertIn("library for C, built: skipped, since checks before the gate left libraries here", lines)

    def test_the_parts_that_are_asked_for(self):
        status, lines = self.run_all("--quick")
        self.assertEqual((status, len(lines), lines[-1]), (0, 6, "416 passed, 0 failed"))
        status, lines = self.run_all("--after-gate")
        self.assertEqual((status, lines[-1]), (1, "0 passed, 1 failed"))
        self.assertEqual(self.run_all("--after-gate", "--program", "/bin/true")[0], 0)
        self.run_all()
        status, lines = self.run_all("--after-gate")
        self.assertEqual((status, lines[-1]), (0, f"{ALL - 114 - 412} passed, 0 failed"))


class Environment(unittest.TestCase):
    def jobs(self, processors, gigabytes, given=None):
        """What RT_JOBS is for the gate, on a machine of that many processors and that much free memory."""
        before = {} if given is None else {"RT_JOBS": given}
        with mock.patch.dict(os.environ, before), mock.patch.object(run_tests, "processors", lambda: processors):
            if given is None:
                os.environ.pop("RT_JOBS", None)
            with mock.patch.object(run_tests, "free_bytes", lambda: gigabytes * 10**9):
                return run_tests.gate_environment().get("RT_JOBS")

    def test_there_is_a_check_for_each_processor_where_memory_lasts(self):
        for processors, gigabytes, wanted in [(4, 20, "4"), (4, 19, None), (2, 10, "2"), (64, 300, None), (1, 5, "1")]:
            self.assertEqual(self.jobs(processors, gigabytes), wanted)

    def test_a_number_that_is_given_stays(self):
        self.assertEqual(self.jobs(4, 100, "3"), "3")

    def test_this_machine_has_a_processor_and_memory(self):
        self.assertGreaterEqual(run_tests.processors(), 1)
        self.assertGreater(run_tests.free_bytes(), 0)


class Counts(unittest.TestCase):
    def test_what_tools_say(self):
        for read, said, wanted in [
            (run_tests.unit_tests, "Ran 78 tests in 1s\n\nFAILED (failures=1, errors=2, skipped=8)\n", (67, 3)),
            (run_tests.unit_tests, "Ran 1 test in 1s\n\nOK\n", (1, 0)),
            (run_tests.gate, "3 passed, 0 failed\nrt: ok\n110 passed, 2 failed\n", (110, 2)),
            (run_tests.tried_and_wrong, "a: wrong\n14 runs, 3 wrong\n", (11, 3)),
            (run_tests.tried_and_wrong, "412 names, 0 wrong\n", (412, 0)),
            (run_tests.compared_runs, "8 scripts, 3 runs of each with workers, 5 wrong\n", (19, 5)),
            (run_tests.scripts, "1,060 scripts, 5 lines, 2 wrong answers, 1 other statuses, 3 hangs.\nScripts: 1 full.\n", (1054, 6)),
            (run_tests.explanations, "1,352 groups, 8,001 subsets, 3 wrong\n", (1349, 3)),
            (run_tests.compactions, "12 scripts, 9,000 lines, 1,022 compactions which left out 5 of 9 entries, 8 answers after them, 2 wrong\n", (1020, 2)),
            (run_tests.compactions, "12 scripts, 9,000 lines, 31 joins which left 5 of 9 incrementals, 8 answers after them, 2 wrong\n", (29, 2)),
            (run_tests.built, f"{run_tests.C_LIBRARY.parent}\n", (1, 0)),
            (run_tests.allocations, "153 allocations\n   151 all answers\nwrong where these were refused: [3, 17]\n", (151, 2)),
        ]:
            self.assertEqual(read(said), wanted)
            self.assertIsNone(read("Traceback\n"))


if __name__ == "__main__":
    unittest.main()
