"""How the command writes, and how it ends: with one line on standard error and status 2 where something is wrong."""

import contextlib
import os
import sys
import tempfile
from typing import Callable, Dict, Optional, Union

from .nodes import Unusable
from .notes import one_line

COMMAND = "pgpeer-ceph"


def write(text: Union[str, bytes], path: Optional[str] = None) -> None:
    """Writes to standard output, to a device or a pipe, or to a file, which is there whole or not at all."""
    if path is None:
        sys.stdout.write(str(text))
        sys.stdout.flush()
        return
    if is_stream(path):
        with open(path, "wb") as place:
            place.write(bytes_of(text))
        return
    write_files({path: text})


def is_stream(path: str) -> bool:
    """Tells whether a path is that of a device or a pipe."""
    return os.path.exists(path) and not os.path.isfile(path)


def write_files(texts: Dict[str, Union[str, bytes]]) -> None:
    """Writes files, all of them whole, or none."""
    parts: Dict[str, str] = {}
    try:
        for name, text in texts.items():
            path = os.path.realpath(name)
            handle, parts[path] = tempfile.mkstemp(prefix=".part-", dir=os.path.dirname(path))
            with os.fdopen(handle, "wb") as file:
                file.write(bytes_of(text))
            os.chmod(parts[path], 0o644)
        for path, part in parts.items():
            os.replace(part, path)
    finally:
        for part in parts.values():
            with contextlib.suppress(FileNotFoundError):
                os.unlink(part)


def bytes_of(text: Union[str, bytes]) -> bytes:
    return text if isinstance(text, bytes) else text.encode("utf-8")


def tell(text: str, tool: str = COMMAND) -> None:
    """Says something on standard error, beside what is written; where that is closed, nowhere."""
    if sys.stderr is not None:
        print(f"{tool}: {one_line(text)}", file=sys.stderr)


def ended(body: Callable[[], int], tool: str = COMMAND) -> int:
    """The status of a tool. Each fault of its input or of a write is one line on standard error, and status 2."""
    try:
        return body()
    except Unusable as fault:
        return failed(tool, str(fault))
    except OSError as fault:
        where = f"{fault.filename}: " if fault.filename else "writing: "
        drop_output()
        return failed(tool, f"{where}{fault.strerror or fault}")
    except (MemoryError, RecursionError) as fault:
        return failed(tool, f"the input is too large ({type(fault).__name__})")
    except KeyboardInterrupt:
        return failed(tool, "interrupted")


def failed(tool: str, text: str) -> int:
    try:
        tell(f"error: {text}", tool)
    except OSError:
        pass  # there is nowhere left to say it
    return 2


def drop_output() -> None:
    """Has what is still to be written to standard output go nowhere, so that the end of the process doesn't fail on it."""
    try:
        nowhere = os.open(os.devnull, os.O_WRONLY)
        os.dup2(nowhere, sys.stdout.fileno())
        os.close(nowhere)
    except (OSError, ValueError):
        pass  # standard output is no file, as in a test
