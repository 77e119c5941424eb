"""The programs of examples/ that keep their log in a file, one for each language, for check_c_library.py.

Each is told the outage, is killed after some of the answers, and goes on from its file when it is started again.
"""

import os
import pathlib
import shutil
import subprocess
import sys
from typing import Callable, List, NamedTuple, Optional

from built import ROOT

CUT_OFF = b'{"op":"inc","ep'  # a line that was killed as it was written
SANITIZED = ["-g", "-fsanitize=address,undefined", "-fno-sanitize-recover=all"]
VALGRIND = ["valgrind", "-q", "--error-exitcode=3"]
LEAKS = ["--leak-check=full"]


class Keeper(NamedTuple):
    """A program in a language."""

    language: str
    compiler: str
    build: Callable[[pathlib.Path, pathlib.Path, List[str]], List[object]]  # the library's folder, one for itself, words for its compiler
    sanitized: Optional[List[str]]  # the words with which it is built for address sanitizer
    valgrind: Optional[List[str]]  # what else valgrind looks for


def run(*words, **more):
    """Runs a compiler."""
    subprocess.run([str(word) for word in words], stdout=subprocess.DEVNULL, check=True, timeout=600, **more)


def copied(name, work):
    """A copy of a folder of examples/, beside the scripts: its tools write beside its files."""
    into = work / "examples"
    shutil.copytree(ROOT / "examples", into, ignore=shutil.ignore_patterns("target", "Cargo.lock"), dirs_exist_ok=True)
    return into / name


def build_c(folder, work, words):
    cc = [os.environ.get("CC", "cc"), "-std=c11", "-Wall", "-Wextra", "-Werror", "-O1", *words]
    run(*cc, f"-I{folder}", "-o", work / "daemon", ROOT / "examples/c/daemon.c", folder / "libpgpeer.a")
    return [work / "daemon"]


def build_cpp(folder, work, words):
    cpp = [os.environ.get("CXX", "c++"), "-std=c++17", "-Wall", "-Wextra", "-Werror", "-O1", *words]
    run(*cpp, f"-I{folder}", "-o", work / "keep", ROOT / "examples/cpp/keep.cpp", folder / "libpgpeer.a")
    return [work / "keep"]


def build_python(folder, work, words):
    return ["env", "PYTHONMALLOC=malloc", f"PGPEER_SO={folder / 'libpgpeer.so'}", sys.executable, "-B", ROOT / "examples/python/pgpeer.py"]


def build_go(folder, work, words):
    env = {**os.environ, "PKG_CONFIG_PATH": str(folder), "GOTOOLCHAIN": "local", "GOPROXY": "off"}
    run("go", "build", *words, "-o", work / "keep", "./keep", cwd=copied("go", work), env=env)
    return [work / "keep"]


def build_rust(folder, work, words):
    env = {**os.environ, "PGPEER_DIR": str(folder), "CARGO_TARGET_DIR": str(work / "target")}
    run("cargo", "build", "-q", "--offline", "--example", "keep", cwd=copied("rust", work), env=env)
    return [work / "target/debug/examples/keep"]


KEEPERS = (
    Keeper("C", "cc", build_c, SANITIZED, LEAKS),
    Keeper("C++", "c++", build_cpp, SANITIZED, LEAKS),
    Keeper("Python", sys.executable, build_python, None, ["--trace-children=yes", "--undef-value-errors=no"]),
    Keeper("Go", "go", build_go, ["-asan"], None),
    Keeper("Rust", "cargo", build_rust, None, LEAKS),
)


def taken(lines, answers):
    """The lines that the log took, by their answers."""
    return b"".join(line for line, answer in zip(lines, answers) if answer.startswith(b'{"count":'))


def wrong_restart(words, file, lines, answers, cut):
    """What is wrong where a program is killed after this many answers and started again, or None."""
    with subprocess.Popen([*words, file], stdin=subprocess.PIPE, stdout=subprocess.PIPE) as first:
        first.stdin.write(b"".join(lines[:cut]))
        first.stdin.flush()
        told = [first.stdout.readline() for _ in range(cut)]
        first.kill()
    if told != answers[:cut] or cut and file.read_bytes() != taken(lines[:cut], answers):
        return f"{cut} lines: other answers, or others were kept"
    with file.open("ab") as log:
        log.write(CUT_OFF)
    second = subprocess.run([*words, file], input=b"".join(lines[cut:]), capture_output=True, timeout=240)
    if second.returncode or second.stdout.splitlines(keepends=True) != answers[cut:]:
        return f"started again after {cut} lines: status {second.returncode}, {second.stderr.decode()[-600:]}"
    return None if file.read_bytes() == taken(lines, answers) else f"started again after {cut} lines: others were kept"


def wrong_restarts(words, work, cuts=range(9)):
    """What is wrong with a program that is killed after so many answers of the outage, in turn."""
    lines, answers = ((ROOT / f"examples/outage{it}.jsonl").read_bytes().splitlines(keepends=True) for it in ("", ".answers"))
    for cut in cuts:
        (work / "log").unlink(missing_ok=True)
        why = wrong_restart([str(it) for it in words], work / "log", lines, answers, cut)
        if why:
            yield why


def restarts(keeper, folder, work):
    """What is wrong with a keeper as it is."""
    return wrong_restarts(keeper.build(folder, work, []), work)


def sanitized(keeper, folder, work):
    """What address sanitizer finds."""
    return wrong_restarts(keeper.build(folder, work, keeper.sanitized), work, [5])


def in_valgrind(keeper, folder, work):
    """What valgrind finds."""
    return wrong_restarts([*VALGRIND, *keeper.valgrind, *keeper.build(folder, work, [])], work, [5])
