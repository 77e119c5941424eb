"""Dumps of Ceph as values with their places there, so that whatever a dump holds, a fault is one line that says where."""

import json
import math
import sys
from typing import Any, Iterable, List

MOST = 2**32 - 1  # of an epoch, a weight or the number of a version
MOST_BYTES = 1 << 30  # of a file


class Unusable(Exception):
    """The input isn't what Ceph's tools print, or can't be read; the text says where."""


class Node:
    """A value of a dump together with its place there, so that errors can name it."""

    def __init__(self, value: Any, where: str):
        self.value, self.where = value, where

    def has(self, key: str) -> bool:
        return isinstance(self.value, dict) and key in self.value

    def key(self, key: str) -> "Node":
        if not isinstance(self.value, dict):
            raise Unusable(f"{self.where} is no object")
        if key not in self.value:
            raise Unusable(f"{self.where} has no key '{key}'")
        return Node(self.value[key], f"{self.where}.{key}")

    def items(self) -> List["Node"]:
        if not isinstance(self.value, list):
            raise Unusable(f"{self.where} is no list")
        return [Node(value, f"{self.where}[{at}]") for at, value in enumerate(self.value)]

    def items_of(self, key: str) -> List["Node"]:
        """The items of a list that may be absent."""
        return self.key(key).items() if self.has(key) else []

    def whole(self) -> int:
        if not isinstance(self.value, int) or isinstance(self.value, bool):
            raise Unusable(f"{self.where} is no whole number")
        if not -MOST <= self.value <= MOST:
            raise Unusable(f"{self.where} is out of range")
        return self.value

    def count(self) -> int:
        """A whole number from 0 on, also where Ceph prints it as text."""
        if isinstance(self.value, str) and self.value.isascii() and self.value.isdigit() and len(self.value) <= 10:
            return Node(int(self.value), self.where).count()
        if self.whole() < 0:
            raise Unusable(f"{self.where} is below 0")
        return self.value

    def count_of(self, key: str) -> int:
        """A count that may be absent, and then is 0."""
        return self.key(key).count() if self.has(key) else 0

    def number(self) -> float:
        if not isinstance(self.value, (int, float)) or isinstance(self.value, bool):
            raise Unusable(f"{self.where} is no number")
        if not (math.isfinite(self.value) and abs(self.value) <= MOST):
            raise Unusable(f"{self.where} is out of range")
        return self.value

    def text(self) -> str:
        if not isinstance(self.value, str):
            raise Unusable(f"{self.where} is no text")
        return self.value


# Reading


def text_of(path: str) -> str:
    """What a file holds, or standard input where the path is `-`."""
    try:
        if path == "-":
            found = sys.stdin.buffer.read(MOST_BYTES + 1)
        else:
            with open(path, "rb") as file:
                found = file.read(MOST_BYTES + 1)
        if len(found) > MOST_BYTES:
            raise Unusable(f"{path}: more than {MOST_BYTES:,} bytes")
        return found.decode("utf-8")
    except OSError as fault:
        raise Unusable(f"{path}: {fault.strerror}") from fault
    except ValueError as fault:
        raise Unusable(f"{path}: not UTF-8") from fault


def load(path: str) -> Node:
    """The value of a file, or of standard input where the path is `-`."""
    return parsed(text_of(path), "standard input" if path == "-" else path)


def parsed(text: str, where: str) -> Node:
    """The value of a dump. Lines before the first that opens an object, as osdmaptool prints with marks, are passed over."""
    if not text.startswith("{"):
        lines = text.splitlines(keepends=True)
        first = next((at for at, line in enumerate(lines) if line.startswith("{")), 0)
        text = "".join(lines[first:])
    try:
        return Node(json.loads(text), where)
    except (ValueError, RecursionError) as fault:
        raise Unusable(f"{where} is not JSON: {fault}") from fault


def ranges(numbers: Iterable[int]) -> str:
    """The numbers in ascending order, runs of them as first-last."""
    runs: List[List[int]] = []
    for number in sorted(numbers):
        if runs and runs[-1][1] + 1 == number:
            runs[-1][1] = number
        else:
            runs.append([number, number])
    return " ".join(str(a) if a == b else f"{a}-{b}" for a, b in runs)


# Writing


def compact(value: Any) -> str:
    return json.dumps(value, separators=(",", ":"))
