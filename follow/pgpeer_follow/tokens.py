"""Which tokens stand in the log, at which places: what makes a line that is told twice stand once."""

from dataclasses import dataclass
from typing import Dict, Iterable, List, Optional

WINDOW = 65_536  # places: so far back a token is known


@dataclass
class Known:
    """A token of the log, its place, the digest of its line, and the program's answer to it, empty until it came."""

    token: str
    place: int
    digest: str
    answer: bytes = b""


class Tokens:
    """The tokens of the last places, by their places. One thread notes them; others may look meanwhile."""

    def __init__(self, known: Iterable[Known] = (), window: int = WINDOW):
        self.window = window
        self.by_token: Dict[str, Known] = {it.token: it for it in known}

    def note(self, token: str, place: int, digest: str) -> None:
        """A line with this token stands at the next place. Should the token stand already, its first place is its place."""
        self.by_token.setdefault(token, Known(token, place, digest))
        while self.by_token:
            oldest = next(iter(self.by_token.values()))
            if oldest.place > place - self.window:
                break
            del self.by_token[oldest.token]

    def get(self, token: str) -> Optional[Known]:
        return self.by_token.get(token)

    def all(self, place: int) -> List[Known]:
        """Those that a log of this last place knows, in the order of their places."""
        return [it for it in list(self.by_token.values()) if it.place > place - self.window]
