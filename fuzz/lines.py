"""What a line is: a command, or the first fault of it, by docs/FORMAT.md.

The reader of JSON is Python's own, made as strict as RFC 8259 and serde_json: no NaN, no half of a surrogate pair, no number
beyond a float, no nesting deeper than 127.
"""

import json
import re
from typing import Any, Callable, Dict, NamedTuple, Optional, Union

import codes

LONGEST = 1_048_576  # bytes of a line
DEEPEST = 127
WORD = 0xFFFFFFFF
MOST_PLACES, MOST_PARTS, MOST_EPOCHS, MOST_ENTRIES, LONGEST_NAME = 16, 16, 4096, 256, 255

Shape = Callable[[Any], bool]


class Fault(NamedTuple):
    """What is wrong with a line."""

    code: int
    name: str
    key: Optional[str] = None
    op: str = ""


class Command(NamedTuple):
    """What a line asks for: its operation, and its object as it was read."""

    op: str
    value: Dict[str, Any]


# JSON


def whole(text: str) -> Union[int, float]:
    """A number without fraction and exponent. `-0` is no whole number, and one that no float holds is no number."""
    if text == "-0":
        return -0.0
    if len(text) > 300:
        return finite(text)
    return int(text)


def finite(text: str) -> float:
    value = float(text)
    if value in (float("inf"), float("-inf")):
        raise ValueError
    return value


def refused(_text: str) -> Any:
    raise ValueError


JSON = json.JSONDecoder(parse_int=whole, parse_float=finite, parse_constant=refused)
TEXTS = re.compile(r'"(?:[^"\\]|\\.)*"')
PAIR = re.compile(r"\\u[dD][89abAB][0-9a-fA-F]{2}\\u[dD][c-fC-F][0-9a-fA-F]{2}")
HALF = re.compile(r"\\u[dD][89a-fA-F]")


def depth(text: str) -> int:
    """How deep the lists and objects of a JSON text are nested."""
    deepest = now = 0
    for sign in re.sub(r"[^\[\]{}]+", "", TEXTS.sub("", text)):
        now += 1 if sign in "[{" else -1
        deepest = max(deepest, now)
    return deepest


def escapes_half_pair(text: str) -> bool:
    """Tells whether a JSON text escapes one half of a surrogate pair without the other, be it in a value that is dropped."""
    return HALF.search(PAIR.sub(" ", text.replace("\\\\", " "))) is not None


def parsed(line: bytes) -> Any:
    """The value of a JSON text; a ValueError where it is none."""
    text = line.decode()
    value = JSON.decode(text)
    if text.count("[") + text.count("{") > DEEPEST and depth(text) > DEEPEST:
        raise ValueError
    if "\\u" in text and escapes_half_pair(text):
        raise ValueError
    return value


# Shapes


def number(least: int, most: int) -> Shape:
    return lambda value: type(value) is int and least <= value <= most


def is_text(value: Any) -> bool:
    return isinstance(value, str)


def list_of(shape: Shape, least: int = 0, most: Optional[int] = None) -> Shape:
    def is_list(value: Any) -> bool:
        if not isinstance(value, list) or len(value) < least or (most is not None and len(value) > most):
            return False
        return all(map(shape, value))

    return is_list


def parts(*shapes: Shape) -> Shape:
    """A list of just these parts."""

    def has_parts(value: Any) -> bool:
        return isinstance(value, list) and len(value) == len(shapes) and all(shape(it) for shape, it in zip(shapes, value))

    return has_parts


def keys(**shapes: Shape) -> Shape:
    """An object of just these keys."""

    def has_keys(value: Any) -> bool:
        return isinstance(value, dict) and value.keys() == shapes.keys() and all(shapes[key](value[key]) for key in shapes)

    return has_keys


def either(*shapes: Shape) -> Shape:
    return lambda value: any(shape(value) for shape in shapes)


def one_of(*values: str) -> Shape:
    return lambda value: isinstance(value, str) and value in values


device, pool_id, group_number, byte, word = number(0, 4095), number(1, 255), number(0, 1023), number(0, 255), number(0, WORD)
group = parts(pool_id, group_number)
version = parts(word, word)


def is_name(value: Any) -> bool:
    return isinstance(value, str) and 1 <= len(value.encode("utf-8", "surrogatepass")) <= LONGEST_NAME


def is_null(value: Any) -> bool:
    return value is None


groups = list_of(parts(list_of(number(0, 15), most=codes.MOST_SLOTS), byte), most=MOST_PARTS)
pool_parts = {"id": pool_id, "pg_num": number(0, 65535), "size": byte, "min_size": byte, "leaf": byte}
pool = either(keys(kind=one_of("replicated"), **pool_parts), keys(kind=one_of("erasure"), k=byte, **pool_parts))
pool_of_two = either(pool, keys(kind=one_of("grouped"), groups=groups, **pool_parts))
bucket_parts = {"id": number(-65536, -1), "type": byte, "items": list_of(number(-65536, 65535))}
uniform_bucket = keys(alg=one_of("uniform"), **bucket_parts)
list_bucket = keys(alg=one_of("list"), weights=list_of(word), **bucket_parts)


straw2_bucket = keys(alg=one_of("straw2"), weights=list_of(word), **bucket_parts)


def is_bucket(value: Any) -> bool:
    return uniform_bucket(value) or (list_bucket(value) and len(value["weights"]) == len(value["items"]))


def is_bucket_of_three(value: Any) -> bool:
    return is_bucket(value) or (straw2_bucket(value) and len(value["weights"]) == len(value["items"]))


def epoch_of(place: Shape) -> Shape:
    """An epoch of a trace."""
    places = list_of(place, most=MOST_PLACES)
    size = number(1, MOST_PLACES)
    plain = keys(up=places, acting=places, size=size, min_size=size, up_from=word, up_thru=word)
    return lambda value: plain(value) and value["min_size"] <= value["size"]


code = either(keys(kind=one_of("replicated")), keys(kind=one_of("erasure"), k=number(1, 16)))
grouped_code = keys(kind=one_of("grouped"), groups=groups)


def is_code_of_two(value: Any) -> bool:
    """Tells whether a trace of version 2 may have the code."""
    return code(value) or (grouped_code(value) and not codes.are_faulty(value["groups"], codes.MOST_SLOTS))


replicated_epochs = list_of(epoch_of(device), 1, MOST_EPOCHS)
placed_epochs = list_of(epoch_of(either(device, is_null)), 1, MOST_EPOCHS)

REPORT = {"pg": group, "from": parts(device, number(0, 15)), "stamp": word}
REQUIRED: Dict[str, Dict[str, Shape]] = {
    "inc": {"epoch": word},
    "info": {
        **REPORT,
        "les": word,
        "history_les": word,
        "last_update": version,
        "log_tail": version,
        "complete": lambda value: isinstance(value, bool),
    },
    "entries": {**REPORT, "log": list_of(parts(word, word, one_of("modify", "delete"), is_name), 1, MOST_ENTRIES)},
    "close": {},
    "ask": {"pg": group},
    "locate": {"pool": pool_id, "name": is_name},
    "trace": {"code": code, "epochs": is_null},
}
OPTIONAL: Dict[str, Dict[str, Shape]] = {
    "inc": {
        **dict.fromkeys(("up", "down", "gone"), list_of(device)),
        "weight": list_of(parts(device, word)),
        **dict.fromkeys(("up_thru", "lost"), list_of(parts(device, word))),
        "pools": list_of(pool),
        "sizes": list_of(parts(pool_id, byte, byte)),
        "temp": list_of(parts(pool_id, group_number, list_of(either(device, is_null)))),
        "crush": list_of(is_bucket),
    },
    "info": {"last_epoch_clean": word},
}
LATER: Dict[int, Dict[str, Shape]] = {  # shapes that a later version has otherwise, from it on
    2: {"pools": list_of(pool_of_two), "code": is_code_of_two},
    3: {"crush": list_of(is_bucket_of_three)},
}
MORE: Dict[int, Dict[str, Dict[str, Shape]]] = {3: {"inc": {"after": word}}}  # keys that a later version has more, from it on
OPS = tuple(REQUIRED)


def version_read(value: Dict[str, Any], last: int) -> int:
    """The version in which the keys of an object are read: the one that it says, else 1, and the last where it says none up to that."""
    version = value.get("v", 1)
    return version if number(1, last)(version) else last


def more_keys(op: str, version: int) -> Dict[str, Shape]:
    """The keys that an operation has by this version and hadn't in the first."""
    return {key: shape for since, more in MORE.items() if since <= version for key, shape in more.get(op, {}).items()}


def least_bad(op: str, value: Dict[str, Any], last: int) -> Optional[str]:
    """The least key of an object that is absent though required, or has a value of another shape."""
    version = version_read(value, last)
    shapes = {**REQUIRED[op], **OPTIONAL.get(op, {}), **more_keys(op, version), "v": number(1, last)}
    if op == "trace":
        is_replicated = isinstance(value.get("code"), dict) and value["code"].get("kind") == "replicated"
        shapes["epochs"] = replicated_epochs if is_replicated else placed_epochs
    for since, later in LATER.items():
        if since <= version:
            shapes.update((key, shape) for key, shape in later.items() if key in shapes)
    bad = [key for key, shape in shapes.items() if key in value and not shape(value[key])]
    return min(bad + [key for key in REQUIRED[op] if key not in value], default=None)


def is_blank(line: bytes) -> bool:
    return not line.strip(b" \t\r")


def read(line: bytes, last: int = 2) -> Union[Command, Fault]:
    """The command that a line is, which isn't blank and has no line feed, or its first fault. Lines up to the last version are read."""
    if len(line) > LONGEST:
        return Fault(30, "LineTooLong")
    try:
        value = parsed(line)
    except (ValueError, RecursionError):
        return Fault(31, "NotJson")
    op = value.get("op") if isinstance(value, dict) else None
    if not isinstance(op, str) or op not in OPS:
        return Fault(32, "NoOp")
    unknown = value.keys() - {"op", "v", *REQUIRED[op], *OPTIONAL.get(op, {}), *more_keys(op, version_read(value, last))}
    if unknown:
        return Fault(33, "UnknownKey", min(unknown), op)
    bad = least_bad(op, value, last)
    return Command(op, value) if bad is None else Fault(34, "BadField", bad, op)
