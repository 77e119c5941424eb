"""A session of the peering core, by ctypes over the shared object that tools/build_c_library.sh makes.

    PGPEER_SO=/tmp/pgpeer/libpgpeer.so python3 examples/python/pgpeer.py [FILE] < examples/outage.jsonl

Tells it each line, and prints the answers. Where FILE is named, the lines that the log took are kept in it: started again, it goes on
from that.
"""

from __future__ import annotations

import ctypes
import os
import sys

DONE, ROOM_TOO_SMALL, NO_MEMORY, NO_LIST, NO_DEVICE = 0, 1, 2, 6, 65535
VERDICTS = ("NoPrimary", "Down", "Waiting", "Incomplete", "Short", "NeedLog", "NeedUpThru", "Serve")
STATES = ("missing", "backfill", "diverged")


class _Kept(ctypes.Structure):
    _fields_ = [("is_open", ctypes.c_bool), ("held", ctypes.c_void_p)]


class Place(ctypes.Structure):
    """pgp_place of pgpeer.h: where an object lies."""

    _fields_ = [
        ("epoch", ctypes.c_uint32),
        ("pg", ctypes.c_uint16),
        ("up_primary", ctypes.c_uint16),
        ("acting_primary", ctypes.c_uint16),
        ("size", ctypes.c_uint8),
        ("min_size", ctypes.c_uint8),
        ("up_length", ctypes.c_uint8),
        ("acting_length", ctypes.c_uint8),
        ("up", ctypes.c_uint16 * 16),
        ("acting", ctypes.c_uint16 * 16),
    ]


class View(ctypes.Structure):
    """pgp_view of pgpeer.h: what the log says of a group."""

    _fields_ = [
        *((name, ctypes.c_size_t) for name in ("count", "intervals", "probe", "blocked_by", "missing")),
        *((name, ctypes.c_uint32) for name in ("epoch", "first", "les", "verdict")),
        *((name, ctypes.c_uint16) for name in ("up_primary", "acting_primary", "best_osd")),
        *((name, ctypes.c_uint8) for name in ("best_slot", "up_length", "acting_length")),
        ("up", ctypes.c_uint16 * 16),
        ("acting", ctypes.c_uint16 * 16),
    ]


class Peer(ctypes.Structure):
    """pgp_peer of pgpeer.h: the state of a member."""

    _fields_ = [("objects", ctypes.c_size_t), ("osd", ctypes.c_uint16), ("slot", ctypes.c_uint8), ("state", ctypes.c_uint8)]


class Object(ctypes.Structure):
    """pgp_object of pgpeer.h: an object that a member lacks."""

    _fields_ = [("epoch", ctypes.c_uint32), ("number", ctypes.c_uint32), ("name_length", ctypes.c_uint8), ("_name", ctypes.c_uint8 * 255)]

    @property
    def name(self) -> str:
        return bytes(self._name[: self.name_length]).decode()


class Log(ctypes.Structure):
    """pgp_log of pgpeer.h: what a session knows without a group."""

    _fields_ = [
        *((name, ctypes.c_size_t) for name in ("count", "incrementals", "infos", "parts")),
        ("epoch", ctypes.c_uint32),
        ("closed", ctypes.c_uint8),
    ]


class Session:
    """The log that these lines make, up to a version of the format. A session is used by one thread at a time."""

    def __init__(self, library: str, format: int = 2, lines: bytes = b"") -> None:
        self._calls = ctypes.CDLL(library)
        self._kept = _Kept()
        self._room = ctypes.create_string_buffer(4096)
        refused = ctypes.c_size_t()
        given = (lines, ctypes.c_size_t(len(lines)), ctypes.byref(refused))
        self._made(self._calls.pgp_open_lines(ctypes.byref(self._kept), format, *given))
        self.refused = refused.value

    @staticmethod
    def _made(status: int) -> None:
        if status == NO_MEMORY:
            raise MemoryError
        if status != DONE:
            raise ValueError(f"status {status}")

    def tell(self, line: bytes) -> bytes:
        """The answer to a line, which is given without its line feed."""
        wanted = ctypes.c_size_t()
        kept = ctypes.byref(self._kept)
        given = (self._room, ctypes.c_size_t(len(self._room)), ctypes.byref(wanted))
        status = self._calls.pgp_line(kept, line, ctypes.c_size_t(len(line)), *given)
        if status == ROOM_TOO_SMALL:
            self._room = ctypes.create_string_buffer(wanted.value)
            status = self._calls.pgp_answer(kept, self._room, wanted, ctypes.byref(wanted))
        self._made(status)
        return self._room.raw[: wanted.value]

    def log(self) -> Log:
        """What the session knows of its log."""
        log = Log()
        self._made(self._calls.pgp_ask_log(ctypes.byref(self._kept), ctypes.byref(log)))
        return log

    def locate(self, pool: int, name: str) -> Place:
        """Where an object lies. A pool that there isn't, or no name of an object, is a ValueError."""
        place, text = Place(), name.encode()
        self._made(self._calls.pgp_locate(ctypes.byref(self._kept), pool, text, ctypes.c_size_t(len(text)), ctypes.byref(place)))
        return place

    def ask(self, pool: int, pg: int) -> View:
        """What the log says of a group. A group that there isn't is a ValueError."""
        view = View()
        self._made(self._calls.pgp_ask(ctypes.byref(self._kept), pool, pg, ctypes.byref(view)))
        return view

    def _list(self, call, kind: type[ctypes.Structure], *words: int) -> list:
        count, room = ctypes.c_size_t(), (kind * 16)()
        kept = ctypes.byref(self._kept)
        status = call(kept, *words, room, ctypes.c_size_t(len(room)), ctypes.byref(count))
        if status == ROOM_TOO_SMALL:
            room = (kind * count.value)()
            status = call(kept, *words, room, count, ctypes.byref(count))
        self._made(status)
        return room[: count.value]

    def missing(self, pool: int, pg: int) -> list[Peer]:
        """The states of the group's other members that were heard."""
        return self._list(self._calls.pgp_missing, Peer, pool, pg)

    def missing_objects(self, pool: int, pg: int, osd: int, slot: int) -> list[Object]:
        """The objects that a member lacks whose state is missing. Of any other one it is a ValueError."""
        return self._list(self._calls.pgp_missing_objects, Object, pool, pg, osd, slot)

    def compact(self) -> int:
        """Leaves out reports that no answer needs any more, and says how many they were."""
        left_out = ctypes.c_size_t()
        self._made(self._calls.pgp_compact_log(ctypes.byref(self._kept), ctypes.byref(left_out)))
        return left_out.value

    def close(self) -> None:
        self._calls.pgp_close(ctypes.byref(self._kept))


def whole_lines(path: str) -> bytes:
    """The whole lines of a file. One that was cut off as it was written was never answered, and is taken away."""
    with open(path, "r+b") as file:
        text = file.read()
        whole = text.rfind(b"\n") + 1
        file.truncate(whole)
    return text[:whole]


def main() -> None:
    path = sys.argv[1] if len(sys.argv) > 1 else None
    log = open(path, "ab") if path else None
    session = Session(os.environ.get("PGPEER_SO", "libpgpeer.so"), lines=whole_lines(path) if path else b"")
    if session.refused:
        sys.exit(f"{path}: it has other lines than those of a log")
    for line in sys.stdin.buffer:
        before, line = session.log().count, line.rstrip(b"\n")
        answer = session.tell(line)
        if log and session.log().count > before:
            log.write(line + b"\n")
            log.flush()
            os.fsync(log.fileno())
        sys.stdout.buffer.write(answer)
        sys.stdout.buffer.flush()
    session.close()


if __name__ == "__main__":
    main()
