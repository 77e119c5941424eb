"""Changes lines: by key, by value, by byte, by cutting and by splicing; and makes noise."""

import copy
import random
from typing import Any, Dict, List, Tuple

import grouped
from grammar import compact

TEXTS = (
    b"{", b"}", b"[", b"]", b",", b":", b'"', b"\\", b"0", b"-", b"1e9", b"null", b"true", b" ", b"\t", b"\r", b"\x00", b"\xff",
    b"\xc3", b"\xed\xa0\x80", b"\\u0000", b"\\ud800", b'"op":"ask"',
)  # fmt: skip
ODD_NUMBERS = (
    -1, 0, 1, 2, 3, 15, 16, 17, 255, 256, 257, 1023, 1024, 4095, 4096, 65535, 65536, 2**31, 2**32 - 1, 2**32, 2**63,
    2**64 - 1, 2**64, -65536, -65537, -(2**63), -(2**63) - 1,
)  # fmt: skip
ODD_VALUES: Tuple[Any, ...] = (
    None, True, False, 0.5, 1.0, "", "x", [], {}, [[]], [0], {"a": 1}, "modify", "erasure", "replicated", "grouped", "x" * 256,
)  # fmt: skip
RAW_NUMBERS = (
    b"-0", b"1.0", b"1e0", b"0.0", b"1E2", b"1e400", b"-1e400", b"0e999", b"1e-999", b"01", b"1.", b".5", b"+1", b"0x10",
    b"9" * 20, b"9" * 330, b"NaN", b"Infinity", b"1e+2", b"--1", b"-",
)  # fmt: skip
KEYS = (
    "op", "epoch", "up", "down", "gone", "weight", "up_thru", "lost", "pools", "sizes", "temp", "crush", "pg", "from", "stamp",
    "les", "history_les", "last_update", "log_tail", "complete", "log", "pool", "name", "code", "epochs", "id", "kind", "k", "v",
    "size", "min_size", "leaf", "alg", "items", "weights", "", "Op", "zz", "é", '"', "\\", "\n", "\x7f", "last_epoch_clean",
    "groups", "after",
)
WORDS = ("modify", "delete", "uniform", "list", "straw2", "replicated", "erasure", "grouped", "x" * 255, "x" * 256, "é" * 127, "é" * 128)
VERSIONS: Tuple[Any, ...] = (0, 3, 3, -1, 4, 1.0, 2.0, "1", "2", None, True, [2], {}, 2**32 + 1, 2**64 + 2, 1, 2)
OPS = ("inc", "info", "entries", "close", "ask", "locate", "trace", "peer", "", "Inc")


def spots(value: Any, found: List[Tuple[Any, Any]]) -> List[Tuple[Any, Any]]:
    """All places inside a value: each a list or an object, with the index or key in it."""
    if isinstance(value, dict):
        for key, inner in value.items():
            found.append((value, key))
            spots(inner, found)
    elif isinstance(value, list):
        for at, inner in enumerate(value[:40]):
            found.append((value, at))
            spots(inner, found)
    return found


def by_value(rng: random.Random, line: Dict[str, Any]) -> bytes:
    """The line with a value or two changed, mostly by a little."""
    line = copy.deepcopy(line)
    for _ in range(rng.choice((1, 1, 1, 2))):
        holder, at = rng.choice(spots(line, []) or [(line, "op")])
        old = holder.get(at) if isinstance(holder, dict) else holder[at]
        holder[at] = changed(rng, old)
    return compact(line)


def changed(rng: random.Random, old: Any) -> Any:
    roll = rng.random()
    if type(old) is int and roll < 0.5:
        return old + rng.choice((-1, 1, 1, 2))
    if isinstance(old, list) and roll < 0.6:
        new = list(old)
        if new and rng.random() < 0.5:
            new.insert(rng.randrange(len(new) + 1), rng.choice(new))  # one that is twice in it
        elif new:
            new.pop(rng.randrange(len(new)))
        else:
            new.append(rng.choice((0, 1, None, [0, 0], [1, 1])))
        return new
    if isinstance(old, bool) and roll < 0.5:
        return not old
    if isinstance(old, str) and roll < 0.5:
        return rng.choice((*WORDS, *OPS))
    return rng.choice(ODD_NUMBERS) if roll < 0.85 else copy.deepcopy(rng.choice(ODD_VALUES))


def by_key(rng: random.Random, line: Dict[str, Any]) -> bytes:
    """The line with a key of it, or of an object inside, taken away, renamed, added, or standing twice."""
    line = copy.deepcopy(line)
    objects = [line] + [holder[at] for holder, at in spots(line, []) if isinstance(holder[at], dict)]
    there = rng.choice(objects) if rng.random() < 0.4 else line
    key = rng.choice(list(there) or ["op"])
    roll = rng.random()
    if roll < 0.3:
        there.pop(key, None)
    elif roll < 0.5:
        there[rng.choice(KEYS)] = there.pop(key, 0)
    elif roll < 0.8:
        for _ in range(rng.choice((1, 1, 2))):
            there[rng.choice(KEYS)] = rng.choice((0, [], 1, [1, 0], "a", None))
    else:
        text = compact(line)
        extra = compact({key: there.get(key) if rng.random() < 0.5 else rng.choice(ODD_NUMBERS)})
        return text[:-1] + b"," + extra[1:] if rng.random() < 0.5 else extra[:-1] + b"," + text[1:]
    return compact(line)


def by_version(rng: random.Random, line: Dict[str, Any]) -> bytes:
    """The line with another version, or none, or with faulty parts of a grouped code or pool of it; and perhaps more."""
    line = copy.deepcopy(line)
    codes = [it for it in (line.get("code"), *line.get("pools", ())) if it and "groups" in it]
    if codes and rng.random() < 0.6:
        code = rng.choice(codes)
        code["groups"] = grouped.faulty(rng, code["groups"], code.get("size", grouped.MOST))
    if not codes or rng.random() < 0.5:
        line["v"] = rng.choice(VERSIONS)
    if rng.random() < 0.15:
        line.pop("v", None)
    return by_value(rng, line) if rng.random() < 0.2 else compact(line)


def by_look(rng: random.Random, line: Dict[str, Any]) -> bytes:
    """The same line written otherwise: other order of keys, blanks, escapes."""
    items = list(line.items())
    rng.shuffle(items)
    text = compact(dict(items))
    roll = rng.random()
    if roll < 0.4:
        for sign in rng.sample((b",", b":", b"[", b"]", b"{", b"}"), 2):
            text = text.replace(sign, sign + rng.choice((b" ", b"\t", b"\r", b"  ")))
    elif roll < 0.7:
        text = rng.choice((b" ", b"\t", b"\r", b"", b"   ")) + text + rng.choice((b" ", b"\r", b"\t\r", b"  "))
    elif roll < 0.9:
        letter = rng.choice(b"abcdefghijklmnopqrstuvwxyz_")
        text = text.replace(bytes([letter]), b"\\u%04x" % letter, rng.choice((1, -1)))
    return text


def by_number(rng: random.Random, text: bytes) -> bytes:
    """The text with a digit replaced by an odd number."""
    digits = [at for at, sign in enumerate(text) if 48 <= sign <= 57]
    if not digits:
        return text
    at = rng.choice(digits)
    return text[:at] + rng.choice(RAW_NUMBERS) + text[at + 1 :]


def by_bytes(rng: random.Random, text: bytes) -> bytes:
    """The text with a few bytes changed, put in or taken out."""
    found = bytearray(text)
    for _ in range(rng.choice((1, 1, 1, 2, 4, 16))):
        at = rng.randrange(len(found) + 1)
        roll = rng.random()
        if roll < 0.3 and at < len(found):
            found[at] ^= 1 << rng.randrange(8)
        elif roll < 0.5:
            found[at : at + rng.choice((1, 1, 2, 8))] = b""
        elif roll < 0.8:
            found[at:at] = rng.choice(TEXTS)
        else:
            found[at : at + 1] = bytes([rng.randrange(256)])
    return bytes(found)


def cut(rng: random.Random, text: bytes) -> bytes:
    at = rng.randrange(len(text) + 1)
    return text[:at] if rng.random() < 0.7 else text[at:]


def splice(rng: random.Random, text: bytes, other: bytes) -> bytes:
    """The head of one line and the tail of another, cut at commas if there are some."""
    heads = [at for at, sign in enumerate(text) if sign == 44] or [len(text) // 2]
    tails = [at for at, sign in enumerate(other) if sign == 44] or [len(other) // 2]
    return text[: rng.choice(heads)] + other[rng.choice(tails) :]


def noise(rng: random.Random) -> bytes:
    """Bytes that have nothing of a line."""
    roll = rng.random()
    if roll < 0.35:
        return rng.randbytes(rng.choice((1, 2, 5, 20, 80)))
    if roll < 0.7:
        return b"".join(rng.choices(TEXTS, k=rng.choice((1, 2, 3, 5, 8))))
    if roll < 0.8:
        return rng.choice((b"", b" ", b"\t \r", b"   ", b" " * 300))
    if roll < 0.9:
        return compact(rng.choice((*ODD_VALUES, *ODD_NUMBERS)))
    if roll < 0.97:
        return compact({rng.choice(KEYS): rng.choice(ODD_VALUES), "op": rng.choice(OPS)})
    depth = rng.choice((3, 126, 127, 128, 129, 500))
    half = rng.choice((b"[", b'{"op":'))
    return half * depth + rng.choice((b"0", b'"ask"', b"")) + (b"]" if half == b"[" else b"}") * depth


def of_length(rng: random.Random, text: bytes) -> bytes:
    """The text with blanks up to a length about the longest of a line."""
    length = 1_048_576 + rng.choice((-1, 0, 1, 2, 70_000))
    fill = b" " * (length - len(text))
    return rng.choice((text + fill, fill + text, b"x" * length, b" " * length, b'"' + b"x" * (length - 2) + b'"'))


def hostile(rng: random.Random, line: Dict[str, Any], others: List[bytes]) -> bytes:
    """A changed form of the line; `others` are texts to splice it with."""
    roll = rng.random()
    if "v" in line and rng.random() < 0.3:
        text = by_version(rng, line)
    elif roll < 0.4:
        text = by_value(rng, line)
    elif roll < 0.6:
        text = by_key(rng, line)
    elif roll < 0.7:
        text = by_look(rng, line)
    elif roll < 0.76:
        text = by_number(rng, compact(line))
    elif roll < 0.88:
        text = by_bytes(rng, compact(line))
    elif roll < 0.93:
        text = cut(rng, compact(line))
    else:
        text = splice(rng, compact(line), rng.choice(others))
    return text.replace(b"\n", b" ")
