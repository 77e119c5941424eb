#!/usr/bin/env python3
"""Stands in for the built program, by the model in fuzz/: `standin.py run`, `standin.py compact`, also with `--format 3`, and
`standin.py compact --join --format 3`. With MOST_TAKEN in its environment a log takes as many entries."""

import os
import pathlib
import sys

sys.path.insert(0, str(pathlib.Path(__file__).resolve().parents[2] / "fuzz"))

import model  # noqa: E402


def run(last: int) -> None:
    log = model.Model(last)
    for line in sys.stdin.buffer:
        answer = log.answer(line.rstrip(b"\n"))
        if answer is not None:
            sys.stdout.buffer.write(answer.text.encode() + b"\n")
            sys.stdout.buffer.flush()


def shorten(last: int, joins: bool) -> None:
    import joining  # takes longer to load than a run

    script = sys.stdin.buffer.read()
    text, said = joining.by_model(script) if joins else joining.compact.by_model(script, last)
    sys.stdout.buffer.write(text)
    sys.stderr.buffer.write(said)


def main() -> None:
    command, *options = sys.argv[1:]
    last = 3 if options[-2:] == ["--format", "3"] else 2
    model.MOST_TAKEN = int(os.environ.get("MOST_TAKEN", model.MOST_TAKEN))
    if command == "run":
        run(last)
    else:
        shorten(last, "--join" in options)


if __name__ == "__main__":
    main()
