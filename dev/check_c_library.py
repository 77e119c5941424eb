#!/usr/bin/env python3
"""Checks the static library for C against the stored scripts, the examples and the sources.

    dev/check_c_library.py [--memory] [FOLDER]

FOLDER is what tools/build_c_library.sh made: crates/pgp_c/out/c where none is given, which is made first. Needs a C compiler, cc or
$CC. What is checked, each with a line:

  names      the numbers and names of pgpeer.h are those of the sources in Rattle
  version    pgp_version, the header, pgpeer.pc, the man page, the program and examples/rust have one version
  symbols    archive and shared object define the calls of the header and nothing else, and the shared object has its name
  stored     each script of crates/pgp_scripts has its stored answers, told to a session of its own, with rooms of several sizes,
             on one thread, on two, and with each line told by a thread of its own
  refused    the same of short scripts, with each call of malloc and realloc refused in turn: the line is answered by one of the two
             texts for it, and then told again
  typed      what the calls that give and take values do is what the answers to lines say, also with each call of malloc and
             realloc refused in turn
  example    examples/c and examples/python print the stored answers to each script of examples/, and those of `pgpeer run` to
             lines that are long or have a NUL, and examples/c/ask.c what it is to print of an outage
  pkg-config examples/c/outage.c is built with the words that pkg-config gives of pgpeer.pc, and prints the stored answers
  CMake      the same by find_package, over the archive and over the shared object, from a folder where all is installed
  tests in Rust  the tests of examples/rust pass, by cargo
  restart in L   a program of examples/ in the language L is told the outage, and killed after each of its answers in turn: when it is
             started again, it has kept what its log took, and goes on as if nothing had been

With --memory it looks for faults of memory in place of that:

  valgrind   finds no fault, no leak and no race in a short script and in the calls of values
  sanitizer  that of addresses and the one of undefined behaviour find none
  L by valgrind, L by sanitizer  the same of the programs that are started again

What lacks its compiler or its tool is skipped, and its line says so. The last line is `N checks, M wrong`, and the status is 1 where
something was wrong.
"""

import argparse
import ctypes
import functools
import os
import pathlib
import re
import shlex
import shutil
import subprocess
import sys
import tempfile

import keeping
from built import ROOT
from run_examples import examples

STRICT = ["-std=c11", "-Wall", "-Wextra", "-Werror", "-O1"]
WRAPPED = "-Wl,--wrap=malloc,--wrap=realloc"
SHORT = ("first", "outage", "explain_need_log")  # examples, for each call of the allocator
OUTAGE = b"""Serve, since epoch 2 of 3
osd.1 has the best copy
osd.1 has to be heard
osd.2 has to be heard
osd.2 lacks b, written as 1'2
osd.1 serves 1000 of 1000 objects
"""  # what examples/c/ask.c prints of examples/outage.jsonl
TOLD = [ROOT / "examples/outage.jsonl", ROOT / "examples/outage.answers.jsonl"]
LONGEST_LINE = 1_048_576
CLOSE = b'{"op":"close"}'
ODD_LINES = {  # of the longest line, of longer ones, of one with a NUL, and of a last one without a line feed, with their answers
    CLOSE.ljust(LONGEST_LINE) + b"\n": b'{"count":1,"epoch":0,"ok":"close"}\n',
    CLOSE.ljust(LONGEST_LINE + 1) + b"\n": b'{"code":30,"refused":"LineTooLong"}\n',
    CLOSE + b"\0\n": b'{"code":31,"refused":"NotJson"}\n',
    b"x" * 3 * LONGEST_LINE + b"\n\n": b'{"code":30,"refused":"LineTooLong"}\n',
    CLOSE: b'{"code":64,"refused":"Closed"}\n',
}


def run(*words, **more):
    return subprocess.run([str(word) for word in words], capture_output=True, timeout=240, check=False, **more)


def compiled(folder, program, *words):
    """Builds a program of these words over the archive."""
    built = run(os.environ.get("CC", "cc"), *STRICT, f"-I{folder}", "-o", program, *words, folder / "libpgpeer.a")
    if built.returncode:
        sys.exit(f"check_c_library.py: {built.stderr.decode()}")
    return program


def tests_in_c(folder, work, words):
    """Builds the two tests in C, with these words for the compiler."""
    tests = ROOT / "dev/tests/c"
    play = compiled(folder, work / "play", *words, WRAPPED, tests / "play.c", "-pthread")
    return play, compiled(folder, work / "typed", *words, WRAPPED, tests / "typed.c")


# Names and numbers

# of kinds of pools and of buckets, which the typed calls are held against lines with
IN_INCREMENTALS = {"PGP_REPLICATED": 0, "PGP_ERASURE": 1, "PGP_GROUPED": 2, "PGP_ALG_UNIFORM": 0, "PGP_ALG_LIST": 1, "PGP_ALG_STRAW2": 2}
UNNAMED = {"PGP_LONGEST_LINE", "PGP_NO_DEVICE", "PGP_MISSING", "PGP_BACKFILL", "PGP_DIVERGED", *IN_INCREMENTALS}

def numbers_in(source, pattern):
    """The names and numbers of the arms of a function of the source."""
    return {name: int(number) for name, number in re.findall(pattern, (ROOT / "crates" / source).read_text())}


def upper(name):
    return "PGP_" + re.sub(r"(?<!^)(?=[A-Z])", "_", name).upper()


def wanted_numbers():
    """The names of the header with their numbers, by the sources."""
    wanted = {"PGP_LONGEST_LINE": 1_048_576, "PGP_NO_DEVICE": 65535, "PGP_ASK_UNKNOWN_GROUP": 40, **IN_INCREMENTALS}
    for source, pattern, memory in (
        ("pgp_c/src/status.rt", r"Status::(\w+) => (\d+)", None),
        ("pgp_c/src/view.rt", r"Verdict::(\w+) => (\d+)", None),
        ("pgp_c/src/lists.rt", r"PeerState::(\w+)(?:\(\w+\))? => \((\d), ", None),
        ("pgp_ids/src/locate_refusal.rt", r"LocateRefusal::(UnknownPool) => (\d+)", None),
        ("pgp_ids/src/text_fault.rt", r"TextFault::(\w+)(?:\(_\))? => (\d+)", "PGP_LINE_MEMORY"),
        ("pgp_ids/src/refusal.rt", r"Refusal::(\w+)(?:\(_\))? => (\d+)", "PGP_ENTRY_MEMORY"),
    ):
        for name, number in numbers_in(source, pattern).items():
            wanted[memory if name == "Memory" else upper(name)] = number
    return wanted


def wrong_names(header):
    """What of the header isn't what the sources say."""
    told = {name: int(number) for name, number in re.findall(r"(PGP_(?!VERSION)[A-Z_0-9]+)(?: =| ) ?(\d+)", header)}
    wanted = wanted_numbers()
    for name in {*told, *wanted}:
        if told.get(name) != wanted.get(name):
            yield f"{name}: {told.get(name)} in the header, {wanted.get(name)} in the sources"
    cases = dict(re.findall(r"case (PGP_\w+):(?:\n\s*case PGP_\w+:)? return \"(\w+)\";", header))
    for name, word in cases.items():
        if upper(word) not in (name, name.replace("ASK_", ""), name.replace("LINE_", "")):
            yield f"{name}: its name is {word}"
    unnamed = {name for name in wanted if f"case {name}:" not in header}
    yield from (f"{name}: it has no name" for name in unnamed - UNNAMED)


def wrong_versions(folder):
    """What has another version than the library says."""
    number = ctypes.CDLL(str(folder / "libpgpeer.so")).pgp_version()
    version = f"{number // 10000}.{number // 100 % 100}.{number % 100}"
    for file, pattern in (
        (folder / "pgpeer.pc", r"^Version: (\S+)$"),
        (ROOT / "share/man/pgpeer.3", r'^\.TH .*"pgpeer (\S+)"'),
        (ROOT / "crates/pgp_cli/src/commands.rt", r'\.version\("(\S+)"\)'),
        (ROOT / "examples/rust/Cargo.toml", r'^version = "(\S+)"$'),
        (ROOT / "examples/rust/sys/Cargo.toml", r'^version = "(\S+)"$'),
    ):
        told = re.findall(pattern, file.read_text(), re.M)
        if told != [version]:
            yield f"{file.name}: {told}, and {version} in the library"
    parts = re.findall(r"#define PGP_VERSION_(?:MAJOR|MINOR|PATCH) (\d+)$", (folder / "pgpeer.h").read_text(), re.M)
    if ".".join(parts) != version:
        yield f"pgpeer.h: {parts}, and {version} in the library"


def wrong_symbols(folder):
    """What archive and shared object define otherwise than the header."""
    calls = set(re.findall(r"^uint32_t (pgp_\w+)\(", (folder / "pgpeer.h").read_text(), re.M))
    for name, how in (("libpgpeer.a", "-g"), ("libpgpeer.so", "-D")):
        listed = run("nm", how, "--defined-only", folder / name).stdout.decode()
        told = set(re.findall(r"^[0-9a-f]+ [^aA] (\w+)", listed, re.M))
        yield from (f"{name}: {symbol}" for symbol in sorted(told ^ calls))
    if "[libpgpeer.so.0]" not in run("readelf", "-d", folder / "libpgpeer.so").stdout.decode():
        yield "libpgpeer.so: no name libpgpeer.so.0"


# Scripts


def wrong_runs(play):
    scripts = ROOT / "crates/pgp_scripts"
    for how in ([], ["threads"], ["moves"]):
        ended = run(play, scripts / "stdin", scripts / "stdout", *how)
        if ended.returncode:
            yield f"stored scripts {how}: {ended.stderr.decode()}"


def wrong_refusals(play):
    for name in SHORT:
        ended = run(play, ROOT / f"examples/{name}.jsonl", ROOT / f"examples/{name}.answers.jsonl", "refuse")
        if ended.returncode:
            yield f"{name}: {ended.stderr.decode()}"


def wrong_examples(folder, outage, ask):
    python = [sys.executable, "-B", ROOT / "examples/python/pgpeer.py"]
    env = {**os.environ, "PGPEER_SO": str(folder / "libpgpeer.so")}
    rows = [(script.name, script.read_bytes(), answers.read_bytes()) for script, answers in examples()]
    for name, script, answers in [*rows, ("odd lines", b"".join(ODD_LINES), b"".join(ODD_LINES.values()))]:
        for words in ([outage], python):
            ended = run(*words, input=script, env=env)
            if ended.stdout != answers or ended.returncode:
                yield f"{name}, {words[-1]}: {ended.stderr.decode()[-300:]}"
    asked = run(ask, input=(ROOT / "examples/outage.jsonl").read_bytes())
    if asked.stdout != OUTAGE or asked.returncode:
        yield f"ask: {asked.stdout.decode()}{asked.stderr.decode()}"


IN_VALUES = """
import pgpeer, sys
session = pgpeer.Session(sys.argv[1])
for line in open(sys.argv[2], "rb"):
    session.tell(line.rstrip())
view, place, peer = session.ask(1, 0), session.locate(1, "a"), session.missing(1, 0)[0]
assert (pgpeer.VERDICTS[view.verdict], view.best_osd, view.up_primary) == ("Serve", 1, pgpeer.NO_DEVICE)
assert (place.epoch, list(place.acting[:3]), pgpeer.STATES[peer.state], peer.osd) == (3, [1, 2, pgpeer.NO_DEVICE], "missing", 2)
assert [(it.name, it.epoch, it.number) for it in session.missing_objects(1, 0, 2, 0)] == [("b", 1, 2)]
assert (session.compact(), session.ask(1, 0).count) == (0, 6)
session.close()
"""  # what examples/python/pgpeer.py gives in values


def wrong_values(folder):
    words = [sys.executable, "-B", "-c", IN_VALUES, folder / "libpgpeer.so", ROOT / "examples/outage.jsonl"]
    return faults(run(*words, cwd=ROOT / "examples/python"))


def wrong_package(folder, program):
    """What is wrong where a program is built by pkg-config, by a stored example."""
    env = {**os.environ, "PKG_CONFIG_PATH": str(folder)}
    asked = run("pkg-config", "--cflags", "--libs", "pgpeer", env=env)
    if asked.returncode:
        return faults(asked)
    built = run(os.environ.get("CC", "cc"), "-o", program, ROOT / "examples/c/outage.c", *shlex.split(asked.stdout.decode()))
    if built.returncode:
        return faults(built)
    told = run(program, input=(ROOT / "examples/outage.jsonl").read_bytes())
    if told.stdout != (ROOT / "examples/outage.answers.jsonl").read_bytes():
        return ["other answers"]
    return faults(told)


CMAKE = """
cmake_minimum_required(VERSION 3.13)
project(outage C)
find_package(pgpeer 0.3 REQUIRED)
foreach(kind static shared)
    add_executable(by_${kind} OUTAGE)
    target_link_libraries(by_${kind} pgpeer::${kind})
endforeach()
"""  # a project over the installed package


def wrong_installed(folder, work):
    """What is wrong where a program is built by CMake, over what install.sh installs."""
    prefix, made = work / "prefix", work / "cmake"
    installed = run(ROOT / "tools/install.sh", "--program", "/bin/true", "--library", folder, prefix)
    made.mkdir()
    (made / "CMakeLists.txt").write_text(CMAKE.replace("OUTAGE", str(ROOT / "examples/c/outage.c")))
    built = [run("cmake", f"-DCMAKE_PREFIX_PATH={prefix}", ".", cwd=made), run("cmake", "--build", ".", cwd=made)]
    for ended in (installed, *built):
        if ended.returncode:
            return faults(ended)
    script, answers = (ROOT / "examples/outage.jsonl").read_bytes(), (ROOT / "examples/outage.answers.jsonl").read_bytes()
    return [f"other answers by {kind}" for kind in ("static", "shared") if run(made / f"by_{kind}", input=script).stdout != answers]


def wrong_crate(folder, work):
    """What is wrong with examples/rust, in a copy: cargo writes beside its files."""
    env = {**os.environ, "PGPEER_DIR": str(folder), "CARGO_TARGET_DIR": str(work / "target")}
    return faults(run("cargo", "test", "-q", "--offline", cwd=keeping.copied("rust", work), env=env))


# Memory


def by_valgrind(play, typed):
    leaks = [*keeping.VALGRIND, *keeping.LEAKS]
    races = [*keeping.VALGRIND, "--tool=helgrind"]
    for words in ([*leaks, play, *TOLD], [*leaks, typed], [*races, play, *TOLD, "threads"], [*races, play, *TOLD, "moves"]):
        yield from faults(run(*words))


def by_sanitizer(folder, work):
    play, typed = tests_in_c(folder, work, keeping.SANITIZED)
    for words in ([play, *TOLD], [play, *TOLD, "threads"], [play, *TOLD, "refuse"], [typed]):
        yield from faults(run(*words))


def faults(ended):
    return [ended.stderr.decode()[-600:]] if ended.returncode else []


def kept(check, keeper, folder, work):
    """What a check of a program that keeps its log finds, in a folder of its own."""
    place = pathlib.Path(tempfile.mkdtemp(dir=work))
    try:
        return list(check(keeper, folder, place))
    except (subprocess.CalledProcessError, subprocess.TimeoutExpired) as why:
        return [str(why)]


# Each check has its name, the program without which it is skipped, and what finds faults.


def checks_of_calls(folder, work):
    play, typed = tests_in_c(folder, work, [])
    outage = compiled(folder, work / "outage", ROOT / "examples/c/outage.c")
    ask = compiled(folder, work / "ask", ROOT / "examples/c/ask.c")
    return [
        ("names", "cc", lambda: wrong_names((folder / "pgpeer.h").read_text())),
        ("version", "cc", lambda: wrong_versions(folder)),
        ("symbols", "cc", lambda: wrong_symbols(folder)),
        ("stored", "cc", lambda: wrong_runs(play)),
        ("refused", "cc", lambda: wrong_refusals(play)),
        ("typed", "cc", lambda: faults(run(typed)) + faults(run(typed, "refuse"))),
        ("example", "cc", lambda: [*wrong_examples(folder, outage, ask), *wrong_values(folder)]),
        ("pkg-config", "pkg-config", lambda: wrong_package(folder, work / "packaged")),
        ("CMake", "cmake", lambda: wrong_installed(folder, work)),
        ("tests in Rust", "cargo", lambda: wrong_crate(folder, work)),
    ] + [
        (f"restart in {it.language}", it.compiler, functools.partial(kept, keeping.restarts, it, folder, work)) for it in keeping.KEEPERS
    ]


def checks_of_memory(folder, work):
    play, typed = tests_in_c(folder, work, [])
    checks = [("valgrind", "valgrind", lambda: by_valgrind(play, typed)), ("sanitizer", "cc", lambda: by_sanitizer(folder, work))]
    for it in keeping.KEEPERS:
        if it.valgrind is not None:
            program = it.compiler if shutil.which("valgrind") else "valgrind"
            checks.append((f"{it.language} by valgrind", program, functools.partial(kept, keeping.in_valgrind, it, folder, work)))
        if it.sanitized is not None:
            checks.append((f"{it.language} by sanitizer", it.compiler, functools.partial(kept, keeping.sanitized, it, folder, work)))
    return checks


def main():
    parser = argparse.ArgumentParser(description=__doc__, formatter_class=argparse.RawDescriptionHelpFormatter)
    parser.add_argument("--memory", action="store_true", help="look for faults of memory alone")
    parser.add_argument("folder", nargs="?", type=pathlib.Path, metavar="FOLDER")
    options = parser.parse_args()
    folder = (options.folder or ROOT / "crates/pgp_c/out/c").resolve()
    if not options.folder:
        subprocess.run([str(ROOT / "tools/build_c_library.sh"), str(folder)], check=True, stdout=subprocess.DEVNULL)
    done = failed = 0
    with tempfile.TemporaryDirectory() as work:
        for name, program, look in (checks_of_memory if options.memory else checks_of_calls)(folder, pathlib.Path(work)):
            if not shutil.which(program):
                print(f"{name} skipped, since {program} isn't there")
                continue
            wrong = list(look())
            done, failed = done + 1, failed + bool(wrong)
            print(f"{name} {'wrong' if wrong else 'right'}", *wrong, sep="\n    ", flush=True)
    print(f"{done} checks, {failed} wrong")
    return int(failed > 0)


if __name__ == "__main__":
    sys.exit(main())
