#!/usr/bin/env python3
"""Runs the examples of the repository on the built program, and says which answers differ.

    dev/run_examples.py [--program PATH]

Each script examples/NAME.jsonl is run and its answers compared
with examples/NAME.answers.jsonl, and with `--format 3` where examples/NAME.format3.answers.jsonl is there. Where examples/NAME.txt is there, `explain 1.0` has to print just that of the script, and
`explain 1.0 --json` what stands in examples/NAME.explain.json; with `--losses` what stands in examples/NAME.losses.txt and
examples/NAME.losses.json; and `explain` and `explain --json` what stands in examples/NAME.summary.txt and
examples/NAME.summary.json. Where examples/NAME.compacted.jsonl is there, `compact` has to
write just that of the script, and of itself; with `--format 3` where it is examples/NAME.format3.compacted.jsonl. Where examples/NAME.joined.jsonl is there,
`compact --join` has to write just that of the script. Of docs/FORMAT.md each line of JSON that stands indented by four is run as the
line after examples/first.jsonl, whose map it speaks of: it may be answered neither as no command nor by a fault of its line,
but where the next indented line is its answer, and then that has to be it. Exits with 1 where an answer differs.
"""

import json
import subprocess
import sys

from built import ROOT, command_line

FAULTS_OF_A_LINE = range(30, 35)
OF_VERSION_3 = ["--format", "3"]
EXPLANATIONS = {
    ".txt": ["explain", "1.0"],
    ".explain.json": ["explain", "1.0", "--json"],
    ".losses.txt": ["explain", "1.0", "--losses"],
    ".losses.json": ["explain", "1.0", "--losses", "--json"],
    ".summary.txt": ["explain"],
    ".summary.json": ["explain", "--json"],
}


def answers(program, script, *words):
    """Gives what a script is answered, or what other words print for it, line by line; it has to end with status 0."""
    run = subprocess.run([program, *(words or ["run"])], input=script, capture_output=True, timeout=60, check=True)
    return run.stdout.splitlines()


def examples():
    """Gives each script with its answers."""
    for script in sorted((ROOT / "examples").glob("*.jsonl")):
        if "." not in script.stem:
            yield script, script.with_suffix("").with_suffix(".answers.jsonl")


def examples_of_version_3():
    """Gives each script whose answers with `--format 3` are there, with them."""
    for wanted in sorted((ROOT / "examples").glob("*.format3.answers.jsonl")):
        yield wanted.with_name(wanted.name.replace(".format3.answers", "")), wanted


def explanations():
    """Gives each explanation beside a script with that script, and with the words that print it."""
    for suffix, words in EXPLANATIONS.items():
        for wanted in sorted((ROOT / "examples").glob(f"*{suffix}")):
            name = wanted.name[: -len(suffix)]
            if "." not in name:
                yield wanted, wanted.with_name(name + ".jsonl"), words


def compactions():
    """Gives each script that is there compacted too, and then each that was compacted, with what words write of it."""
    for wanted in sorted((ROOT / "examples").glob("*.compacted.jsonl")):
        words = ["compact", *(OF_VERSION_3 if ".format3." in wanted.name else [])]
        yield wanted.with_name(wanted.name.replace(".format3", "").replace(".compacted", "")), wanted, words
        yield wanted, wanted, words


def joins():
    """Gives each script whose incrementals are there joined too, with what is written of it."""
    for wanted in sorted((ROOT / "examples").glob("*.joined.jsonl")):
        yield wanted.with_name(wanted.name.replace(".joined", "")), wanted


def is_answer(line):
    """Tells whether the line of JSON is an answer and no command."""
    return "op" not in json.loads(line)


def documented():
    """Gives the commands of docs/FORMAT.md, each with its answer, or None where none stands beside it."""
    text = (ROOT / "docs" / "FORMAT.md").read_bytes()
    lines = [line.strip() for line in text.splitlines() if line.startswith(b"    {")]
    for line, following in zip(lines, lines[1:] + [b'{"op":""}']):
        if not is_answer(line):
            yield line, following if is_answer(following) else None


def wrong_example(program, script, wanted, *words):
    """Says what is wrong with the answers to a script, or with what other words print for it, if anything."""
    try:
        found, wanted = answers(program, script.read_bytes(), *words), wanted.read_bytes().splitlines()
    except subprocess.CalledProcessError as end:
        return f"ended with status {end.returncode}: {end.stderr.decode(errors='replace')[-500:].strip()}"
    if found == wanted:
        return None
    what = "line" if words and words[0] != "run" else "answer"
    for place, pair in enumerate(zip(found, wanted)):
        if pair[0] != pair[1]:
            return f"{what} {place + 1} is {pair[0].decode()} and not {pair[1].decode()}"
    return f"{len(found)} {what}s and not {len(wanted)}"


def wrong_line(program, before, line, wanted):
    """Says what is wrong with the answer to a line of the document, if anything."""
    found = answers(program, before + line + b"\n")[-1]
    if wanted is not None:
        return None if found == wanted else f"answered {found.decode()} and not {wanted.decode()}"
    return f"answered {found.decode()}" if json.loads(found).get("code") in FAULTS_OF_A_LINE else None


def main(program):
    wrong, tried = [], 0
    for script, wanted in examples():
        tried += 1
        wrong.append((script.name, wrong_example(program, script, wanted)))
    for script, wanted in examples_of_version_3():
        tried += 1
        wrong.append((wanted.name, wrong_example(program, script, wanted, "run", *OF_VERSION_3)))
    for wanted, script, words in explanations():
        tried += 1
        wrong.append((wanted.name, wrong_example(program, script, wanted, *words)))
    for script, wanted, words in compactions():
        tried += 1
        wrong.append((f"{script.name}, compacted", wrong_example(program, script, wanted, *words)))
    for script, wanted in joins():
        tried += 1
        wrong.append((wanted.name, wrong_example(program, script, wanted, "compact", "--join")))
    before = (ROOT / "examples" / "first.jsonl").read_bytes()
    for line, wanted in documented():
        tried += 1
        wrong.append((f"docs/FORMAT.md: {line.decode()}", wrong_line(program, before, line, wanted)))
    wrong = [(name, what) for name, what in wrong if what is not None]
    for name, what in wrong:
        print(f"{name}: {what}")
    print(f"{tried} examples, {len(wrong)} wrong")
    return 1 if wrong or tried == 0 else 0


if __name__ == "__main__":
    parser = command_line(__doc__)
    sys.exit(main(str(parser.parse_args().program)))
