"""Tests of install.sh and build_deb.sh, of the completions, and of the man pages against what the help of each names."""

import os
import pathlib
import re
import shutil
import stat
import subprocess
import sys
import unittest
import zipfile

from case import HAS_PROGRAM, PROGRAM, ROOT, Room

sys.path.append(str(ROOT / "ceph"))

from pgpeer_ceph.cli import command  # noqa: E402

INSTALL = ROOT / "tools" / "install.sh"
BUILD_DEB = ROOT / "tools" / "build_deb.sh"
PAGE = ROOT / "share" / "man" / "pgpeer.1"
PAGE_OF_CEPH = ROOT / "share" / "man" / "pgpeer-ceph.1"
PAGE_OF_LIBRARY = ROOT / "share" / "man" / "pgpeer.3"
COMPLETIONS = ROOT / "share" / "completions"

FAKE = '#!/bin/sh\necho "pgpeer 9.8.7"\n'
COMMAND = ROOT / "ceph" / "pgpeer-ceph"
FILES = {
    "bin/pgpeer": 0o755,
    "bin/pgpeer-ceph": 0o755,
    "share/man/man1/pgpeer.1": 0o644,
    "share/bash-completion/completions/pgpeer": 0o644,
    "share/zsh/site-functions/_pgpeer": 0o644,
    "share/fish/vendor_completions.d/pgpeer.fish": 0o644,
    "share/man/man1/pgpeer-ceph.1": 0o644,
    "share/bash-completion/completions/pgpeer-ceph": 0o644,
    "share/zsh/site-functions/_pgpeer-ceph": 0o644,
    "share/fish/vendor_completions.d/pgpeer-ceph.fish": 0o644,
    "share/doc/pgpeer/FORMAT.md": 0o644,
    "share/doc/pgpeer/examples/outage.jsonl": 0o644,
}
MADE = ("libpgpeer.so.0", "libpgpeer.a", "pgpeer.h", "pgpeer.pc", "pgpeer-config.cmake", "pgpeer-config-version.cmake")
LIBRARY = {
    "lib/libpgpeer.so": 0o644,
    "lib/libpgpeer.so.0": 0o644,
    "lib/libpgpeer.a": 0o644,
    "include/pgpeer.h": 0o644,
    "lib/pkgconfig/pgpeer.pc": 0o644,
    "lib/cmake/pgpeer/pgpeer-config.cmake": 0o644,
    "lib/cmake/pgpeer/pgpeer-config-version.cmake": 0o644,
    "share/man/man3/pgpeer.3": 0o644,
}
OPTIONS = {"run": {"--shards", "--workers", "--format"}, "explain": {"--json", "--losses", "--epoch-offset", "--format"}, "compact": {"--join", "--format"}}
SUBCOMMANDS = {*OPTIONS, "help"}
OPTION = re.compile(r"(?<![\w-])--[a-z][a-z0-9-]*")
VERBS = ("fetch", "record", "script", "explain", "plan", "what-if", "draw", "report", "map")


def files_in(folder):
    """The files under a folder, by their names from there, each with its mode."""
    return {str(it.relative_to(folder)): stat.S_IMODE(it.stat().st_mode) for it in folder.rglob("*") if it.is_file()}


def page(path=PAGE):
    """The text of a man page, without the marks that hyphens have there."""
    return path.read_text().replace("\\-", "-")


def options_of(verb):
    """The options of a verb of pgpeer-ceph."""
    verbs = next(it for it in command()._actions if isinstance(it.choices, dict))
    return {option for it in verbs.choices[verb]._actions for option in it.option_strings if option.startswith("--")}


class WithFake(Room):
    def setUp(self):
        super().setUp()
        self.fake = self.write("a program", FAKE, 0o755)

    def library(self):
        """A folder of a library that was made, as far as file names go."""
        folder = self.room / "a library"
        folder.mkdir()
        for name in MADE:
            (folder / name).write_text("libdir=${pcfiledir}\nincludedir=${pcfiledir}\n")
        return folder

    def install(self, *words, **env):
        ran = subprocess.run([INSTALL, *map(str, words)], cwd=self.room, env={**os.environ, **env}, capture_output=True, text=True)
        return ran.returncode, ran.stdout, ran.stderr


class Install(WithFake):
    def test_puts_each_file_in_its_place(self):
        prefix = self.room / "prefix"
        status, said, errors = self.install("--program", self.fake, prefix)
        self.assertEqual((status, errors), (0, ""))
        self.assertEqual(files_in(prefix), FILES)
        self.assertEqual(said.splitlines(), [f"{prefix}/{it}" for it in FILES])
        self.assertEqual((prefix / "bin/pgpeer").read_text(), FAKE)
        self.assertEqual((prefix / "share/man/man1/pgpeer.1").read_bytes(), PAGE.read_bytes())

    def test_the_command_is_one_file_that_runs(self):
        prefix = self.room / "prefix"
        self.install("--program", self.fake, prefix)
        for words in (["--version"], ["script", "--ask", ROOT / "ceph/tests/maps/outage"]):
            ours, theirs = (subprocess.run([it, *words], capture_output=True) for it in (prefix / "bin/pgpeer-ceph", COMMAND))
            self.assertEqual((ours.returncode, ours.stdout, ours.stderr), (0, theirs.stdout, theirs.stderr))
        page = {f"pgpeer_ceph/page/page.{kind}" for kind in ("html", "css", "js")}
        self.assertLessEqual(page, set(zipfile.ZipFile(prefix / "bin/pgpeer-ceph").namelist()))
        words, env = [prefix / "bin/pgpeer-ceph", "explain", ROOT / "examples/first.jsonl"], {**os.environ, "PGPEER": ""}
        told = subprocess.run(words, env=env, capture_output=True, text=True)
        self.assertIn("pgpeer gave an answer that is not JSON", told.stderr)  # the program beside it is asked

    def test_puts_the_library_there_and_takes_it_away(self):
        prefix = self.room / "prefix"
        status, said, errors = self.install("--program", self.fake, "--library", self.library(), prefix)
        self.assertEqual((status, errors), (0, ""))
        self.assertEqual(files_in(prefix), {**FILES, **LIBRARY})
        self.assertEqual(os.readlink(prefix / "lib/libpgpeer.so"), "libpgpeer.so.0")
        told = (prefix / "lib/pkgconfig/pgpeer.pc").read_text()
        self.assertEqual(told, "libdir=${pcfiledir}/..\nincludedir=${pcfiledir}/../../include\n")
        self.install("--uninstall", prefix)
        self.assertEqual([it for it in prefix.rglob("*") if not it.is_dir() or it.is_symlink()], [])

    def test_refuses_what_is_no_library(self):
        status, said, errors = self.install("--program", self.fake, "--library", self.room, self.room / "prefix")
        self.assertEqual((status, said), (1, ""))
        self.assertIn("has no library", errors)
        self.assertFalse((self.room / "prefix").exists())

    def test_does_the_same_again(self):
        prefix = self.room / "prefix"
        self.install("--program", self.fake, prefix)
        (prefix / "bin/pgpeer").write_text("an older one")
        (prefix / "bin/pgpeer").chmod(0o700)
        status, _, errors = self.install("--program", self.fake, f"{prefix}/")
        self.assertEqual((status, errors, files_in(prefix)), (0, "", FILES))
        self.assertEqual((prefix / "bin/pgpeer").read_text(), FAKE)

    def test_takes_away_just_what_it_put_there(self):
        prefix = self.room / "prefix"
        self.install("--program", self.fake, prefix)
        (prefix / "bin/another").write_text("")
        status, said, errors = self.install("--uninstall", prefix)
        self.assertEqual((status, errors, list(files_in(prefix))), (0, "", ["bin/another"]))
        self.assertEqual(said.splitlines(), [f"removed {prefix}/{it}" for it in FILES])
        self.assertEqual(self.install("--uninstall", prefix), (0, "", ""))

    def test_stands_under_destdir(self):
        status, said, errors = self.install("--program", self.fake, "/usr", DESTDIR=str(self.room / "stage"))
        self.assertEqual((status, errors, files_in(self.room / "stage/usr")), (0, "", FILES))
        self.assertIn(f"{self.room}/stage/usr/bin/pgpeer\n", said)
        self.install("--uninstall", "/usr", DESTDIR=str(self.room / "stage"))
        self.assertEqual(files_in(self.room / "stage"), {})

    def test_takes_a_folder_from_where_it_is_called(self):
        self.assertEqual(self.install("--program", self.fake, "here")[0], 0)
        self.assertEqual(files_in(self.room / "here"), FILES)

    def test_refuses_other_words(self):
        for words in ((), ("",), ("a", "b"), ("--force", "a"), ("--program",)):
            status, said, errors = self.install(*words)
            self.assertEqual((status, said), (2, ""), words)
            self.assertIn("usage: tools/install.sh", errors)
        self.assertEqual(self.install("--program", self.fake, "here", DESTDIR="/stage")[0], 2)

    def test_refuses_what_is_no_program(self):
        status, said, errors = self.install("--program", self.room / "absent", self.room / "prefix")
        self.assertEqual((status, said), (1, ""))
        self.assertIn("is no program", errors)
        self.assertFalse((self.room / "prefix").exists())


# What the package has otherwise than the folder that install.sh fills
IN_PACKAGE = {
    "share/man/man1/pgpeer.1": "share/man/man1/pgpeer.1.gz",
    "share/man/man1/pgpeer-ceph.1": "share/man/man1/pgpeer-ceph.1.gz",
    "share/zsh/site-functions/_pgpeer": "share/zsh/vendor-completions/_pgpeer",
    "share/zsh/site-functions/_pgpeer-ceph": "share/zsh/vendor-completions/_pgpeer-ceph",
}
ONLY_IN_PACKAGE = {"share/doc/pgpeer/changelog.gz": 0o644, "share/doc/pgpeer/copyright": 0o644}
MAINTAINER = {"DEBFULLNAME": "A Name", "DEBEMAIL": "ops@example.org"}
SOURCE = '#include <stdio.h>\nint main(void) { puts("pgpeer 9.8.7"); return 0; }\n'
BUILD = ["cc", "-O2", "-g", "-fPIE", "-pie", "-Wl,-z,relro,-z,now"]


@unittest.skipUnless(shutil.which("dpkg-deb"), "dpkg-deb isn't there")
class Package(WithFake):
    def build(self, program, *words, **env):
        ran = subprocess.run([BUILD_DEB, "--program", program, *words, self.room], env={**os.environ, **env}, capture_output=True, text=True)
        return ran.returncode, ran.stdout, ran.stderr

    def package(self, program, *words):
        """A package of the program."""
        status, said, errors = self.build(program, *words, **MAINTAINER)
        self.assertEqual((status, errors), (0, ""))
        return pathlib.Path(said.splitlines()[-1])

    def compiled(self):
        """A program that a compiler made, with what a debugger wants of it."""
        program = self.room / "compiled"
        subprocess.run([*BUILD, "-x", "c", "-o", program, "-"], input=SOURCE, text=True, check=True)
        return program

    def test_holds_the_same_files(self):
        package = self.package(self.fake)
        self.assertTrue(package.name.startswith("pgpeer_9.8.7_"))
        subprocess.run(["dpkg-deb", "--raw-extract", package, self.room / "out"], check=True)
        wanted = {IN_PACKAGE.get(name, name): mode for name, mode in FILES.items()}
        self.assertEqual(files_in(self.room / "out/usr"), {**wanted, **ONLY_IN_PACKAGE})
        self.assertEqual((self.room / "out/usr/bin/pgpeer").read_text(), FAKE)
        self.assertTrue((self.room / "out/usr/bin/pgpeer-ceph").read_bytes().startswith(b"#!/usr/bin/python3\n"))
        control = (self.room / "out/DEBIAN/control").read_text()
        self.assertIn("\nVersion: 9.8.7\n", control)
        self.assertIn("\nMaintainer: A Name <ops@example.org>\n", control)
        sums = [line.split("  ")[1] for line in (self.room / "out/DEBIAN/md5sums").read_text().splitlines()]
        self.assertEqual(sums, sorted(f"usr/{name}" for name in {**wanted, **ONLY_IN_PACKAGE}))
        subprocess.run(["md5sum", "--check", "--quiet", "DEBIAN/md5sums"], cwd=self.room / "out", check=True)

    def test_holds_the_library_where_it_is_told(self):
        subprocess.run(["dpkg-deb", "--raw-extract", self.package(self.fake, "--library", self.library()), self.room / "out"], check=True)
        page = {"share/man/man3/pgpeer.3": "share/man/man3/pgpeer.3.gz"}
        self.assertLessEqual({page.get(name, name) for name in LIBRARY}, set(files_in(self.room / "out/usr")))
        self.assertEqual((self.room / "out/DEBIAN/triggers").read_text(), "activate-noawait ldconfig\n")

    def test_says_that_no_licence_was_chosen(self):
        subprocess.run(["dpkg-deb", "--extract", self.package(self.fake), self.room / "out"], check=True)
        told = " ".join((self.room / "out/usr/share/doc/pgpeer/copyright").read_text().split())
        self.assertIn("No license has been chosen for this program yet. All rights are with its authors.", told)

    def test_wants_to_know_the_maintainer(self):
        for env in ({"DEBEMAIL": "", "DEBFULLNAME": "A Name"}, {"DEBEMAIL": "nobody", "DEBFULLNAME": "A Name"}, {**MAINTAINER, "DEBFULLNAME": ""}):
            status, said, errors = self.build(self.fake, **env)
            self.assertEqual((status, said), (2, ""), env)
            self.assertRegex(errors, "^build_deb.sh: set DEB(EMAIL|FULLNAME)")
        self.assertEqual(list(self.room.glob("*.deb")), [])

    @unittest.skipUnless(shutil.which("cc") and shutil.which("strip"), "cc or strip isn't there")
    def test_strips_the_copy_and_not_the_program(self):
        program = self.compiled()
        before = program.read_bytes()
        subprocess.run(["dpkg-deb", "--extract", self.package(program), self.room / "out"], check=True)
        self.assertLess((self.room / "out/usr/bin/pgpeer").stat().st_size, len(before))
        self.assertEqual(program.read_bytes(), before)

    @unittest.skipUnless(shutil.which("cc") and shutil.which("strip") and shutil.which("lintian"), "cc, strip or lintian isn't there")
    def test_passes_lintian(self):
        words = ["lintian", "--no-cfg", "--allow-root", "--display-info", "--pedantic", self.package(self.compiled())]
        ran = subprocess.run(words, capture_output=True, text=True)
        self.assertEqual((ran.returncode, ran.stdout), (0, ""))


@unittest.skipUnless(shutil.which("bash"), "bash isn't there")
class BashCompletion(unittest.TestCase):
    def completed(self, *words, name="pgpeer"):
        """What is offered for the last word of a command line."""
        call = f"_{name.replace('-', '_')}"
        script = f'. "$1"; shift; COMP_WORDS=("$@"); COMP_CWORD=$(($# - 1)); {call}; printf "%s\\n" "${{COMPREPLY[@]}}"'
        ran = subprocess.run(
            ["bash", "-euc", script, "bash", COMPLETIONS / f"{name}.bash", name, *words],
            capture_output=True,
            text=True,
            check=True,
        )
        return set(ran.stdout.split())

    def test_offers_subcommands(self):
        self.assertEqual(self.completed(""), SUBCOMMANDS | {"--help", "--version"})
        self.assertEqual(self.completed("ex"), {"explain"})
        self.assertEqual(self.completed("run"), {"run"})
        self.assertEqual(self.completed("com"), {"compact"})
        self.assertEqual(self.completed("help", ""), {"run", "explain", "compact"})
        self.assertEqual(self.completed("help", "run", ""), set())

    def test_offers_the_options_of_the_subcommand(self):
        for name, options in OPTIONS.items():
            self.assertEqual(self.completed(name, ""), options | {"--help"})
        self.assertEqual(self.completed("explain", "1.a", "--ep"), {"--epoch-offset"})

    def test_offers_the_verbs_of_the_other_command_and_their_options(self):
        self.assertEqual(self.completed("", name="pgpeer-ceph"), {*VERBS, "--help", "--version"})
        for verb in VERBS:
            self.assertEqual(self.completed(verb, "--", name="pgpeer-ceph"), options_of(verb), verb)
        self.assertEqual(self.completed("fetch", "--from", "", name="pgpeer-ceph"), set())

    def test_offers_nothing_for_a_number(self):
        for words in (("run", "--shards", ""), ("run", "--workers", ""), ("explain", "--epoch-offset", ""), ("compact", "--format", "")):
            self.assertEqual(self.completed(*words), set())


class Completions(unittest.TestCase):
    def test_name_the_same_words(self):
        options = set().union(*OPTIONS.values())
        for name, spelled in (("pgpeer.bash", "--{}"), ("_pgpeer", "--{}"), ("pgpeer.fish", "-l {}")):
            text = (COMPLETIONS / name).read_text()
            for option in options | {"--help", "--version"}:
                self.assertIn(spelled.format(option[2:]), text, name)
            for subcommand in SUBCOMMANDS:
                self.assertIn(subcommand, text, name)

    def test_of_the_other_command_name_the_same_words(self):
        for name, spelled in (("pgpeer-ceph.bash", "--{}"), ("_pgpeer-ceph", "--{}"), ("pgpeer-ceph.fish", "-l {}")):
            text = (COMPLETIONS / name).read_text()
            for verb in VERBS:
                self.assertIn(verb, text, name)
                for option in options_of(verb):
                    self.assertIn(spelled.format(option[2:]), text, (name, verb))

    def test_are_read_by_their_shells(self):
        for of in ("pgpeer", "pgpeer-ceph"):
            for shell, name in (("bash", f"{of}.bash"), ("zsh", f"_{of}"), ("fish", f"{of}.fish")):
                if shutil.which(shell):
                    subprocess.run([shell, "-n", COMPLETIONS / name], check=True)


class Page(unittest.TestCase):
    def test_names_each_subcommand_and_option(self):
        for name, options in OPTIONS.items():
            self.assertIn(f".SS pgpeer {name}\n", page())
            for option in options | {"--help", "--version"}:
                self.assertRegex(page(), re.escape(option))

    def test_names_each_verb_and_its_options(self):
        text = page(PAGE_OF_CEPH)
        for verb in VERBS:
            part = text[text.index(f".SS pgpeer-ceph {verb} "):].split("\n.SS ")[0].split("\n.SH ")[0]
            self.assertEqual(set(OPTION.findall(part)), options_of(verb) - {"--help"}, verb)
        self.assertLessEqual({"--help", "--version"}, set(OPTION.findall(text)))

    def test_of_the_other_command_is_of_its_version(self):
        told = subprocess.run([COMMAND, "--version"], capture_output=True, text=True, check=True).stdout
        self.assertIn(f'"{told.strip()}"', page(PAGE_OF_CEPH).splitlines()[0])

    def test_names_each_call_of_the_library(self):
        header = (ROOT / "include/pgpeer.h").read_text()
        calls = set(re.findall(r"^(?:static inline )?[\w ]+[ *](pgp_\w+)\(", header, re.M))
        self.assertEqual(set(re.findall(r"(pgp_\w+)\(\w", page(PAGE_OF_LIBRARY))), calls)

    @unittest.skipUnless(shutil.which("groff"), "groff isn't there")
    def test_is_laid_out_without_a_warning(self):
        for path in (PAGE, PAGE_OF_CEPH, PAGE_OF_LIBRARY):
            ran = subprocess.run(["groff", "-man", "-Tutf8", "-ww", "-z", path], capture_output=True, text=True)
            self.assertEqual((ran.returncode, ran.stderr), (0, ""))

    @unittest.skipUnless(shutil.which("mandoc"), "mandoc isn't there")
    def test_passes_mandoc(self):
        for path in (PAGE, PAGE_OF_CEPH, PAGE_OF_LIBRARY):
            ran = subprocess.run(["mandoc", "-T", "lint", "-W", "warning", path], capture_output=True, text=True)
            self.assertEqual(ran.stdout + ran.stderr, "")

    @unittest.skipUnless(HAS_PROGRAM, "no program")
    def test_names_what_help_names(self):
        for words in ([], ["run"], ["explain"], ["compact"]):
            told = subprocess.run([PROGRAM, *words, "--help"], capture_output=True, text=True, check=True).stdout
            named = set(OPTION.findall(told))
            self.assertEqual(named - set(OPTION.findall(page())), set(), words)
            if words:
                self.assertEqual(named, OPTIONS[words[0]] | {"--help"})

    @unittest.skipUnless(HAS_PROGRAM, "no program")
    def test_is_of_the_version_of_the_program(self):
        told = subprocess.run([PROGRAM, "--version"], capture_output=True, text=True, check=True).stdout
        self.assertIn(f'"{told.strip()}"', page().splitlines()[0])


if __name__ == "__main__":
    unittest.main()
