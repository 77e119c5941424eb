"""Ceph's commands by librados, over one connection: thousands of queries in seconds, where Debian's python3-rados is there."""

import json
import os
import shlex
from typing import Any, Dict, List, Optional, Tuple

from .calls import SECONDS, TRIES, Ceph, NoAnswer, tried
from .nodes import Node, parsed

OPTIONS = {"-c": "conf", "--conf": "conf", "-n": "name", "--name": "name", "--id": "id", "--user": "id", "--cluster": "cluster",
           "-k": "keyring", "--keyring": "keyring", "-m": "mon_host"}
LIMITS = {"client_mount_timeout": "10", "rados_mon_op_timeout": "30", "rados_osd_op_timeout": "15"}  # seconds
OF_MGR = ("pg dump", "osd df")
WITH_OPTIONS: Dict[Tuple[str, ...], Dict[str, Any]] = {  # words that no prefix has
    ("osd", "df", "tree"): {"prefix": "osd df", "output_method": "tree"},
    ("pg", "dump", "pgs"): {"prefix": "pg dump", "dumpcontents": ["pgs"]},
}


class Connection:
    """A cluster by librados, called as by commands."""

    def __init__(self, cluster: Any, words: List[str]):
        self.cluster, self.words = cluster, words

    def value(self, *words: str, tries: int = TRIES, seconds: float = SECONDS) -> Node:
        """What a command answers as JSON."""
        where = f"`ceph {shlex.join(words)}`"
        return tried(lambda: parsed(self.answer(words, "json").decode(errors="replace"), where), tries)

    def binary(self, *words: str) -> bytes:
        """What a command answers as it is."""
        return bytes(tried(lambda: self.answer(words, None)))

    def answer(self, words: Tuple[str, ...], form: Optional[str]) -> bytes:
        status, out, told = self.call(words, form)
        if status != 0:
            raise NoAnswer(f"`ceph {shlex.join(words)}`: {told or os.strerror(abs(status))}")
        return out

    def call(self, words: Tuple[str, ...], form: Optional[str]) -> Tuple[int, bytes, str]:
        """Has whoever answers a command answer it: the primary of a group, the manager or a monitor."""
        more = {"format": form} if form else {}
        if "tell" in words:
            group = words[words.index("tell") + 1]
            text = json.dumps({"prefix": words[-1], "pgid": group, **more})
            return self.told(lambda: self.cluster.pg_command(group, text, b""))
        asked = command_of(words)
        text = json.dumps({**asked, **more})
        if asked["prefix"] in OF_MGR:
            return self.told(lambda: self.cluster.mgr_command(text, b""))
        return self.told(lambda: self.cluster.mon_command(text, b""))

    @staticmethod
    def told(call: Any) -> Tuple[int, bytes, str]:
        try:
            status, out, told = call()
        except Exception as fault:  # librados' own, which no module names where it isn't there
            raise NoAnswer(f"librados: {fault}") from fault
        return status, bytes(out), str(told)


def command_of(words: Tuple[str, ...]) -> Dict[str, Any]:
    """A command of words, as Ceph's daemons take it."""
    if words[-1].isdigit():
        return {"prefix": " ".join(words[:-1]), "epoch": int(words[-1])}
    return WITH_OPTIONS.get(words) or {"prefix": " ".join(words)}


def connected(ceph: Ceph) -> Optional[Connection]:
    """A connection, where the words call `ceph` with options that librados has, and librados is there and connects."""
    options = options_of([*shlex.split(os.environ.get("CEPH_ARGS", "")), *ceph.words[1:]])
    if os.path.basename(ceph.words[0]) != "ceph" or options is None:
        return None
    try:
        import rados  # type: ignore[import-not-found]
    except ImportError:
        return None
    name = options.pop("name", f"client.{options.pop('id', 'admin')}")
    try:
        cluster = rados.Rados(name=name, clustername=options.pop("cluster", "ceph"))
        cluster.conf_read_file(options.pop("conf", None))
        for option, value in {**LIMITS, **options}.items():
            cluster.conf_set(option, value)
        cluster.connect()
    except Exception:  # whatever librados finds wrong, the command `ceph` tells better
        return None
    return Connection(cluster, ceph.words)


def options_of(words: List[str]) -> Optional[Dict[str, str]]:
    """The options of `ceph` that librados has, by their names there; None where there are others."""
    found: Dict[str, str] = {}
    parts = [part for word in words for part in (word.split("=", 1) if word.startswith("--") else [word])]
    for option, value in zip(parts[::2], parts[1::2]):
        if option not in OPTIONS:
            return None
        found[OPTIONS[option]] = value
    return None if len(parts) % 2 else found
