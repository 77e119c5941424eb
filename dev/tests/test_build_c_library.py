"""Tests of build_c_library.sh, on a tree of stubs with a kit and an `rt` that are scripts."""

import os
import shutil
import subprocess
import unittest

from case import ROOT, Room

RT = """#!/bin/sh
case $1 in
doc) echo "{kit}/START-HERE.md" ;;
lib) echo "$PWD" >>"{log}"; cp "{archive}" out/libpgp_c.a ;;
esac
"""
RATTLE = """#!/bin/sh
echo "$*" >>"{log}"
for last; do :; done
{before}
cp "{archive}" "$last"
"""
CRATES = "pgp_low:\npgp_other: pgp_low\npgp_c staticlib: core pgp_low\n"


@unittest.skipUnless(shutil.which("cc") and shutil.which("ar"), "no C compiler")
class Builds(Room):
    def setUp(self):
        super().setUp()
        self.root, self.kit, self.log = self.room / "root", self.room / "kit", self.room / "log"
        self.write("root/tools/build_c_library.sh", (ROOT / "tools/build_c_library.sh").read_text(), 0o755)
        self.write("root/crates.txt", CRATES)
        self.write("root/include/pgpeer.h", "/* pgpeer.h */\n")
        self.write("root/share/cmake/pgpeer-config.cmake", "# pgpeer\n")
        self.write("root/crates/pgp_c/src/lib.rt", "/// Version 1.2.3.\nconst VERSION: u32 = 10203;\n")
        for name in ("pgp_c", "pgp_low", "pgp_other"):
            (self.root / "crates" / name / "out").mkdir(parents=True)
        archive = self.archive("library", "int pgp_version(void) { return 10203; }\n")
        (self.kit / "c").mkdir(parents=True)
        self.archive("heap", "int rattle_alloc;\n").rename(self.kit / "c/liblibc_c.a")
        given = {"kit": self.kit, "log": self.log, "archive": archive}
        self.write("bin/rt", RT.format(**given), 0o755)
        self.rattle = lambda before: self.write("kit/bin/rattle", RATTLE.format(before=before, **given), 0o755)
        self.rattle("")

    def archive(self, name, text):
        made = self.room / f"{name}.a"
        self.write(f"{name}.c", text)
        subprocess.run(["cc", "-fPIC", "-c", f"{name}.c"], cwd=self.room, check=True)
        subprocess.run(["ar", "rcs", made, f"{name}.o"], cwd=self.room, check=True)
        return made

    def has(self, name, *parts):
        """The crate has these beside one another in its out/rlib."""
        for part in parts:
            self.write(f"root/crates/{name}/out/rlib/{part}", "")

    def build(self, *words):
        path = {"PATH": f"{self.room}/bin:{os.environ['PATH']}"}
        command = [self.root / "tools/build_c_library.sh", *words]
        ran = subprocess.run(command, cwd=self.room, env={**os.environ, **path}, capture_output=True, text=True)
        return ran.returncode, ran.stdout, ran.stderr

    def calls(self):
        return self.log.read_text() if self.log.exists() else ""

    def test_all_files_are_made(self):
        status, out, _ = self.build(self.room / "made here")
        self.assertEqual((status, out), (0, f"{self.room}/made here\n"))
        self.assertEqual(self.calls(), f"{self.root}/crates/pgp_c\n")
        made = self.room / "made here"
        libraries, packages = {"libpgpeer.a", "libpgpeer.so", "libpgpeer.so.0"}, {"pgpeer-config.cmake", "pgpeer-config-version.cmake"}
        self.assertEqual({it.name for it in made.iterdir()}, {*libraries, *packages, "pgpeer.h", "pgpeer.pc"})
        package = (made / "pgpeer.pc").read_text()
        self.assertIn("\nVersion: 1.2.3\n", package)
        self.assertIn("libdir=${pcfiledir}\n", package)
        self.assertIn("set(PACKAGE_VERSION 1.2.3)\n", (made / "pgpeer-config-version.cmake").read_text())
        for library, how in (("libpgpeer.a", "-g"), ("libpgpeer.so", "-D")):
            listed = subprocess.run(["nm", how, "--defined-only", made / library], capture_output=True, text=True, check=True).stdout
            self.assertIn(" T pgp_version", listed)
            self.assertNotIn("rattle_alloc", listed)

    def test_after_the_gate_its_libraries_are_taken(self):
        self.has("pgp_low", "pgp_low.rlib")
        status, out, _ = self.build("--after-gate")
        self.assertEqual((status, out), (0, f"{self.root}/crates/pgp_c/out/c\n"))
        called = self.calls()
        self.assertTrue(called.startswith("build --crate-name pgp_c src/lib.rt "))
        for name, at in (("pgp_low", f"{self.root}/crates/pgp_low/out"), ("core", self.kit), ("std", self.kit)):
            self.assertIn(f" --extern {name}={at}/{'rlibs' if at == self.kit else 'rlib'}/{name}.rlib ", called)

    def test_where_checks_left_all_libraries_they_are_taken(self):
        self.has("pgp_low", "pgp_low.rlib", "stamp")
        self.assertEqual(self.build("--after-gate")[0], 0)
        self.assertEqual(self.calls(), f"{self.root}/crates/pgp_c\n")

    def test_where_checks_left_some_libraries_nothing_is_made(self):
        self.has("pgp_low", "pgp_low.rlib")
        self.has("pgp_other", "pgp_other.rlib", "stamp")
        status, out, _ = self.build("--after-gate")
        self.assertEqual((status, out[:15], self.calls()), (3, "skipped, since ", ""))
        self.assertFalse((self.root / "crates/pgp_c/out/c").exists())

    def test_without_a_gate_before_nothing_is_made(self):
        self.assertEqual((self.build("--after-gate")[0], self.calls()), (3, ""))

    def test_a_crate_that_is_not_proved_fails(self):
        self.has("pgp_low", "pgp_low.rlib")
        self.rattle("echo 'fn pgp_open: not proved'; exit 1")
        status, out, errors = self.build("--after-gate")
        self.assertEqual((status, out, errors), (1, "", "fn pgp_open: not proved\n"))

    def test_other_words_are_refused(self):
        for words in (["--before-gate"], ["a", "b"], ["--after-gate", "a", "b"]):
            status, _, errors = self.build(*words)
            self.assertEqual((status, errors), (2, "build_c_library.sh: usage: tools/build_c_library.sh [--after-gate] [FOLDER]\n"))


if __name__ == "__main__":
    unittest.main()
