"""Runs of a command in which one allocation is refused, or one start of a thread, by a library that is loaded before it."""

import contextlib
import itertools
import os
import pathlib
import subprocess
import tempfile
from typing import Iterator, List

from built import ROOT


@contextlib.contextmanager
def library_of(source: str) -> Iterator[str]:
    """A library, made of a file of this folder by a C compiler."""
    with tempfile.TemporaryDirectory() as folder:
        library = f"{folder}/refuse.so"
        subprocess.run(["cc", "-shared", "-fPIC", "-O1", "-o", library, ROOT / "dev" / source, "-ldl"], check=True)
        yield library


def runs(command: List[str], text: bytes = b"") -> Iterator["subprocess.CompletedProcess[bytes]"]:
    """The runs of a command in which one allocation is refused: the first, the second, until one has no such."""
    with library_of("refuse_allocation.c") as library:
        count = pathlib.Path(f"{library}.count")
        for number in itertools.count(1):
            count.unlink(missing_ok=True)
            env = {**os.environ, "LD_PRELOAD": library, "REFUSE": str(number), "COUNT_TO": str(count)}
            ended = subprocess.run(command, input=text, capture_output=True, env=env, timeout=60)
            if count.exists() and int(count.read_text()) < number:
                return
            yield ended
