"""What stands under the prefix in etcd, and how an entry of the log is written.

    PREFIX/id                       which log this is
    PREFIX/head                     its last place
    PREFIX/log/PLACE                an entry
    PREFIX/snapshot/PLACE           what a snapshot consists of, written when all its pieces stand
    PREFIX/piece/PLACE/MAKER/N      a piece of a snapshot
    PREFIX/leader                   who makes snapshots
"""

import hashlib
import re
from typing import List, NamedTuple, Optional

LONGEST_LINE = 1_048_576  # bytes, as the program's
LONGEST_TOKEN = 64
TOKEN = re.compile(r"[A-Za-z0-9._:-]{1,%d}" % LONGEST_TOKEN)
PREFIX = re.compile(r"/[A-Za-z0-9._/-]{0,200}")
MARK = b"compact\n"
BLANKS = b" \t\r"


class Keys:
    """The names of the keys of one log."""

    def __init__(self, prefix: str):
        if not PREFIX.fullmatch(prefix):
            raise ValueError(f"{prefix!r} is no prefix: a slash, and then at most 200 letters, digits, dots, lines and slashes")
        self.parts = [it for it in prefix.split("/") if it]
        self.top = "/".join(["", *self.parts, ""]).encode()
        self.top_end = self.top[:-1] + b"0"  # the byte after a slash
        self.identity, self.head, self.leader = (self.top + name for name in (b"id", b"head", b"leader"))
        self.log_end = self.top + b"log0"
        self.snapshots, self.snapshots_end = self.top + b"snapshot/", self.top + b"snapshot0"
        self.pieces, self.pieces_end = self.top + b"piece/", self.top + b"piece0"

    def place(self, place: int) -> bytes:
        return self.top + b"log/%016d" % place

    def place_of(self, key: bytes) -> Optional[int]:
        """The place whose entry the key has, if it is one."""
        digits = key[len(self.top) + 4 :]
        is_one = digits.isdigit() and key == self.place(int(digits))
        return int(digits) if is_one else None

    def snapshot(self, place: int) -> bytes:
        return self.snapshots + b"%016d" % place

    def pieces_of(self, place: int, maker: str) -> bytes:
        return self.pieces + b"%016d/%s/" % (place, maker.encode())

    def outer_identities(self) -> List[bytes]:
        """The identities of the logs that this prefix would lie in."""
        return ["/".join(["", *self.parts[:count], "id"]).encode() for count in range(len(self.parts))]


class Entry(NamedTuple):
    """What stands at a place: a line with its token, a mark, or, where neither is there, what can't be read, and changes nothing."""

    place: int
    token: str = ""
    line: bytes = b""
    is_mark: bool = False


def is_sound(line: bytes) -> bool:
    """Tells whether a line may stand in the log: the program gives it one answer."""
    return len(line) <= LONGEST_LINE and b"\n" not in line and line.strip(BLANKS) != b""


def value_of(token: str, line: bytes) -> bytes:
    return b"line " + token.encode() + b"\n" + line


def entry_of(place: int, value: bytes) -> Entry:
    """The entry that a value is: the same for every follower."""
    if value == MARK:
        return Entry(place, is_mark=True)
    head, _, line = value.partition(b"\n")
    token = head[5:].decode("latin-1")
    if head[:5] != b"line " or not TOKEN.fullmatch(token) or not is_sound(line):
        return Entry(place)
    return Entry(place, token, line)


def digest_of(line: bytes) -> str:
    """By which a token's line is known once the line itself is gone."""
    return hashlib.sha256(line).hexdigest()[:24]
