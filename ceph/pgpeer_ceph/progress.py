"""A line on a terminal that says how far a verb has come."""

import sys

from .notes import one_line


class Progress:
    """The line; where standard error is no terminal there is none."""

    def __init__(self) -> None:
        self.is_shown = sys.stderr is not None and sys.stderr.isatty()

    def show(self, text: str) -> None:
        if self.is_shown:
            sys.stderr.write(f"\r\x1b[K{one_line(text)}")
            sys.stderr.flush()

    def clear(self) -> None:
        if self.is_shown:
            sys.stderr.write("\r\x1b[K")
            sys.stderr.flush()
