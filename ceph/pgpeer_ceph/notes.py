"""What can't be carried over: causes, and for each the things that it concerns."""

from typing import Dict, Iterator

MOST_THINGS = 40  # told of one cause


class Notes:
    """What can't be carried over: for each cause the things that it concerns."""

    def __init__(self) -> None:
        self.things: Dict[str, Dict[str, None]] = {}

    def tell(self, cause: str, thing: str) -> None:
        self.things.setdefault(cause, {}).setdefault(thing)

    def lines(self) -> Iterator[str]:
        for cause, things in self.things.items():
            shown = list(things)[:MOST_THINGS]
            more = f" and {len(things) - len(shown)} more" if len(things) > len(shown) else ""
            yield one_line(f"{cause}: {', '.join(shown)}{more}")


def one_line(text: str) -> str:
    """The text without line feeds and other marks that a terminal would obey."""
    return "".join(mark if mark.isprintable() else " " for mark in text)
