#!/usr/bin/env python3
"""Kills examples/c/daemon.c at each of its writes, and holds what it answers when it is started again against `pgpeer run`.

    dev/check_daemon.py [--program PATH] [FOLDER]

FOLDER is what tools/build_c_library.sh made: crates/pgp_c/out/c where none is given. The daemon is told scripts of examples/, with a
question about each group behind each line, and takes a snapshot after each third line that its log took. What it answers has to be what
`pgpeer run` writes for the whole script, except for the count of entries and past intervals that ended before `les`. It is then killed
at each call that changes a file or writes, by kill_at_write.c:

  before  before the call
  half    after it; of a write, after half of the bytes
  lost    before it, and all that no fsync put onto the disk is lost
  again   before it, and each daemon that goes on is killed at its call of that number too

A daemon that is started on the file that is left is told the lines that had no answer. Its answers have to be those of the whole script
too. The first of these lines may have been taken before: then it has the answer of a line that is told twice. A third one is asked the
last questions again.

A file with other lines is no log, and a file has one daemon. The last line is `N checks, M wrong`, and the status is 1 where something
was wrong. Needs a C compiler, cc or $CC.
"""

import json
import os
import pathlib
import subprocess
import sys
import tempfile

from built import ROOT, command_line

SCRIPTS = ("compact", "reports", "lost_shard", "explain_ranking", "grouped", "clean")
EVERY = 3  # lines that the log took between two snapshots
MOST_GROUPS = 3  # of a pool, that are asked for
CLOSING = [b'{"op":"close"}', b'{"op":"inc","epoch":99}']
WAYS = ("before", "half", "lost")
AGAIN = range(8, 24)  # calls that a daemon makes in a run before it is killed, over and over
KILLED = -9
QUESTIONS = (b'"ask"', b'"locate"', b'"trace"')


def compiled(folder, work):
    """Builds the daemon and what kills it."""
    cc = [os.environ.get("CC", "cc"), "-std=c11", "-Wall", "-Wextra", "-Werror", "-O1"]
    for words in (
        ["-o", work / "daemon", f"-I{folder}", ROOT / "examples/c/daemon.c", folder / "libpgpeer.a"],
        ["-o", work / "kill.so", "-shared", "-fPIC", ROOT / "dev/kill_at_write.c", "-ldl"],
    ):
        built = subprocess.run([*cc, *words], capture_output=True, text=True)
        if built.returncode:
            sys.exit(f"check_daemon.py: {built.stderr}")


def is_question(line):
    return any(it in line for it in QUESTIONS)


def with_questions(script):
    """The lines of a script, with a question about some groups of each of its pools behind each line that is told."""
    lines = [it for it in script.splitlines() if it.strip()] + CLOSING
    pools = [pool for line in lines for pool in json.loads(line).get("pools", ())]
    asks = [b'{"op":"ask","pg":[%d,%d]}' % (it["id"], pg) for it in pools for pg in range(min(it["pg_num"], MOST_GROUPS))]
    return [it for line in lines for it in ([line] if is_question(line) else [line, *asks])]


def alike(line):
    """The answer without what a snapshot may change."""
    answer = json.loads(line)
    answer.pop("count", None)
    if "les" in answer:
        answer["intervals"] = [it for it in answer["intervals"] if it["last"] >= answer["les"]]
    return answer


class Script:
    """Lines with the answers of the program, and for each line what it is answered when it is told once more."""

    def __init__(self, program, path):
        self.program, self.lines = program, with_questions(path.read_bytes())
        self.last_questions = 1 + max(at for at, it in enumerate(self.lines) if not is_question(it))
        self.answers = self.run(self.lines)
        self.twice = [self.run([*self.lines[: at + 1], it])[-1] for at, it in enumerate(self.lines)]

    def run(self, lines):
        ran = subprocess.run([self.program, "run", "--format", "3"], input=b"\n".join(lines), capture_output=True, check=True, timeout=60)
        return [alike(it) for it in ran.stdout.splitlines()]

    def is_right(self, answers, begin, once_more=True):
        """Whether these are the answers to the lines from this one on, which is perhaps told once more."""
        wanted = self.answers[begin : begin + len(answers)]
        return answers == wanted or once_more and answers[1:] == wanted[1:] and answers[0] == self.twice[begin]


class Daemons:
    """Daemons that are started on one file, one after the other."""

    def __init__(self, work):
        self.work, self.file = work, work / "log"
        for it in work.glob("log*"):
            it.unlink()

    def start(self, lines, kill=0, how="before"):
        """Tells a daemon these lines. Gives the whole answers, its status, and what it said."""
        env = {**os.environ, "LD_PRELOAD": str(self.work / "kill.so"), "KILL": str(kill), "HOW": how, "COUNT_TO": str(self.work / "count")}
        words = [self.work / "daemon", self.file, str(EVERY)]
        ran = subprocess.run(words, input=b"\n".join(lines) + b"\n", capture_output=True, env=env, timeout=60)
        answers = [alike(it) for it in ran.stdout.splitlines(keepends=True) if it.endswith(b"\n")]
        return answers, ran.returncode, ran.stderr.decode()

    def count(self):
        """How many calls the last daemon made, which wasn't killed."""
        return int((self.work / "count").read_text())


def wrong_start(script, work, kill, how):
    """What is wrong where a daemon is killed at this call, another one goes on, and a third one is asked the last questions."""
    daemons = Daemons(work)
    answers, status, said = daemons.start(script.lines, kill, how)
    if status != KILLED or not script.is_right(answers, 0, once_more=False):
        return f"status {status}, {len(answers)} answers, {said}"
    for begin in (len(answers), script.last_questions):
        answers, status, said = daemons.start(script.lines[begin:])
        if status != 0 or len(answers) != len(script.lines) - begin or not script.is_right(answers, begin):
            return f"after {begin} answers: status {status}, {len(answers)} answers, {said}"
    return None


def wrong_starts(script, work, kill):
    """What is wrong where each daemon is killed at its call of this number, until one has told all lines."""
    daemons, begin = Daemons(work), 0
    for _ in range(2 * len(script.lines)):
        answers, status, said = daemons.start(script.lines[begin:], kill)
        if status not in (0, KILLED) or not script.is_right(answers, begin):
            return f"after {begin} answers: status {status}, {len(answers)} answers, {said}"
        begin += len(answers)
        if status == 0:
            return None if begin == len(script.lines) else f"{begin} answers"
    return f"{begin} answers, and no end"


def checks_of(script, work):
    """Each check of a script with what is wrong, or None."""
    daemons = Daemons(work)
    answers, status, said = daemons.start(script.lines)
    yield "to the end", None if status == 0 and answers == script.answers else f"status {status}, {said}"
    for kill in range(1, daemons.count() + 1):
        for how in WAYS:
            yield f"{how} {kill}", wrong_start(script, work, kill, how)
    for kill in AGAIN:
        yield f"again {kill}", wrong_starts(script, work, kill)


def checks_of_files(work):
    """A file that is no log is left as it was, and so is one that another daemon keeps."""
    line = b'{"op":"info"}\n'
    daemons = Daemons(work)
    daemons.file.write_bytes(line)
    _, status, _ = daemons.start([])
    yield "no log", None if status == 1 and daemons.file.read_bytes() == line else f"status {status}"
    daemons = Daemons(work)
    with subprocess.Popen([work / "daemon", daemons.file], stdin=subprocess.PIPE, stdout=subprocess.PIPE) as first:
        first.stdin.write(CLOSING[0] + b"\n")
        first.stdin.flush()
        first.stdout.readline()
        _, status, said = daemons.start(CLOSING)
        first.stdin.close()
    yield "two daemons", None if (status, first.wait()) == (1, 0) and "another daemon" in said else f"status {status}, {said}"


def main(options):
    checks = wrong = 0
    memory = pathlib.Path("/dev/shm")
    with tempfile.TemporaryDirectory(dir=memory if memory.is_dir() else None) as name:
        work = pathlib.Path(name)
        compiled(options.folder.resolve(), work)
        parts = {it: checks_of(Script(options.program, ROOT / f"examples/{it}.jsonl"), work) for it in SCRIPTS}
        for part, found in {**parts, "files": checks_of_files(work)}.items():
            for check, why in found:
                checks += 1
                if why:
                    wrong += 1
                    print(f"{part}, {check}: {why}")
    print(f"{checks} checks, {wrong} wrong")
    return int(wrong > 0)


if __name__ == "__main__":
    parser = command_line(__doc__)
    parser.add_argument("folder", nargs="?", default=ROOT / "crates/pgp_c/out/c", type=pathlib.Path, metavar="FOLDER")
    sys.exit(main(parser.parse_args()))
