"""The lines that a follower takes and gives: the program's, with a few keys more.

A request is a line of the program with an optional `after`, and an entry also with an optional `token`. These members are cut out;
what is left, byte for byte as it was told, is the program's. In an `inc` line of version 3 `after` is the program's too. An answer
begins with the follower's keys, `at` the first; what follows is the program's, byte for byte.
"""

import json
from typing import Any, Dict, List, NamedTuple, Optional, Tuple

from .faults import Fault
from .keys import BLANKS, LONGEST_LINE, TOKEN

ENTRIES = ("inc", "info", "entries", "close")
OWN = {"health": set(), "place": {"token", "after"}}  # what the follower answers by itself, with the further keys
MOST_ENVELOPE = 4096  # bytes of the follower's keys in a line
MOST_PLACE = 10**15
SPACE = " \t\r\n"

scan = json.JSONDecoder()


class Refused(Exception):
    """A line that is refused as the program refuses lines, by the same numbers and names."""

    def __init__(self, code: int, name: str, key: str = ""):
        super().__init__(name)
        self.code, self.name, self.key = code, name, key


class Request(NamedTuple):
    """What a line asks."""

    op: str  # empty where it names none: the program says so
    line: bytes  # for the program
    after: int
    token: str  # empty where none is told

    def is_entry(self) -> bool:
        return self.op in ENTRIES


class Member(NamedTuple):
    """A member of an object, with its text."""

    key: str
    value: Any
    text: str


def past(text: str, at: int) -> int:
    """The first place from here on without a blank."""
    while at < len(text) and text[at] in SPACE:
        at += 1
    return at


def members(text: str) -> List[Member]:
    """The members of an object, as they follow one another. ValueError: it is no object in JSON."""
    at, found = past(text, 0), []
    if text[at : at + 1] != "{":
        raise ValueError("no object")
    at = past(text, at + 1)
    while text[at : at + 1] != "}" or found:
        begin = at
        if text[at : at + 1] != '"':
            raise ValueError("no key")
        key, at = scan.raw_decode(text, at)
        at = past(text, at)
        if text[at : at + 1] != ":":
            raise ValueError("no value")
        value, at = scan.raw_decode(text, past(text, at + 1))
        found.append(Member(key, value, text[begin:at]))
        at = past(text, at)
        if text[at : at + 1] != ",":
            break
        at = past(text, at + 1)
    if text[at : at + 1] != "}" or past(text, at + 1) != len(text):
        raise ValueError("no end")
    return found


def read(line: bytes) -> Request:
    """Reads a line that isn't blank. Refused: it is no JSON, no object, too long, or a key of the envelope is wrong."""
    if len(line) > LONGEST_LINE + MOST_ENVELOPE:
        raise Refused(30, "LineTooLong")
    try:
        text = line.decode()
        if not text.lstrip(SPACE).startswith("{"):
            json.loads(text)
            raise Refused(32, "NoOp")
        found = members(text)
    except (ValueError, RecursionError):
        raise Refused(31, "NotJson") from None
    return of_members(line, found)


def of_members(line: bytes, found: List[Member]) -> Request:
    """The request of an object; a key that stands twice has its last value."""
    last = {it.key: it for it in found}
    op = last["op"].value if "op" in last and isinstance(last["op"].value, str) else ""
    envelope = set() if names_its_map(op, last) else {"after"}
    envelope |= {"token"} if op in ENTRIES or op == "place" else set()
    if op in OWN:
        unknown = sorted(last.keys() - OWN[op] - {"op"}, key=lambda key: key.encode(errors="surrogatepass"))
        if unknown:
            raise Refused(33, "UnknownKey", unknown[0])
        if op == "place" and "token" not in last:
            raise Refused(34, "BadField", "token")
    own = {key: last[key] for key in last.keys() & envelope}
    after, token = after_of(own.get("after")), token_of(own.get("token"))
    if own:
        kept = [it.text for it in found if it.key not in envelope]
        line = ("{" + ",".join(kept) + "}").encode()
    if len(line) > LONGEST_LINE:
        raise Refused(30, "LineTooLong")
    return Request(op, line, after, token)


def names_its_map(op: str, last: Dict[str, Member]) -> bool:
    """Tells whether `after` is the epoch of the map that an incremental changes, and no place of the log."""
    return op == "inc" and "v" in last and type(last["v"].value) is int and last["v"].value == 3


def after_of(member: Optional[Member]) -> int:
    if member is None:
        return 0
    digits = member.text.rpartition(":")[2].strip(SPACE)
    if not digits.isascii() or not digits.isdigit() or not isinstance(member.value, int) or member.value > MOST_PLACE:
        raise Refused(34, "BadField", "after")
    return member.value


def token_of(member: Optional[Member]) -> str:
    if member is None:
        return ""
    if not isinstance(member.value, str) or not TOKEN.fullmatch(member.value):
        raise Refused(34, "BadField", "token")
    return member.value


def is_blank(line: bytes) -> bool:
    return not line.strip(BLANKS)


# Answers


def compact(values: Dict[str, Any]) -> bytes:
    return json.dumps(values, separators=(",", ":"), ensure_ascii=False, sort_keys=True).encode(errors="replace")


def head_of(at: int, age: Optional[int]) -> bytes:
    return b'{"at":%d,' % at if age is None else b'{"age":%d,"at":%d,' % (age, at)


def answer_of(at: int, age: Optional[int], answer: bytes) -> bytes:
    """The program's answer, of a place. The age is in seconds, where it is told."""
    return head_of(at, age) + answer[1:]


def fault_of(at: int, age: Optional[int], fault: Fault) -> bytes:
    return answer_of(at, age, compact({"code": fault.code, "refused": fault.name, "says": str(fault), **fault.more}))


def split(reply: bytes) -> Tuple[int, Optional[int], bytes]:
    """The place and the age of an answer, and what the program said: what a client may undo."""
    age = None
    rest = reply
    if rest.startswith(b'{"age":'):
        number, _, rest = rest[7:].partition(b",")
        age, rest = int(number), b"{" + rest
    if not rest.startswith(b'{"at":'):
        raise ValueError("no answer of a follower")
    at, _, rest = rest[6:].partition(b",")
    return int(at), age, b"{" + rest
