"""Nodes of etcd, followers and clients for checks, all on the loopback of this machine, with files in a folder that goes with them."""

import json
import os
import pathlib
import signal
import socket
import subprocess
import sys
import tempfile
import time
from typing import Any, Dict, List, Optional, Sequence, Tuple, Union

ROOT = pathlib.Path(__file__).resolve().parents[2]
PACKAGE = ROOT / "follow"
STARTING = 30.0  # seconds within which a node or a follower has to answer
sys.path.insert(0, str(PACKAGE))
sys.path.append(str(ROOT / "dev"))

from built import PROGRAM, command_line  # noqa: E402, F401
from pgpeer_follow import gateway  # noqa: E402


def free_ports(count: int) -> List[int]:
    """Ports of the loopback that nobody has now."""
    held = [socket.create_server(("127.0.0.1", 0)) for _ in range(count)]
    ports = [it.getsockname()[1] for it in held]
    for it in held:
        it.close()
    return ports


class Process:
    """A child that can be killed, stopped and run again."""

    def __init__(self, words: Sequence[str], log: pathlib.Path):
        self.words, self.log = list(words), log
        self.child: Optional["subprocess.Popen[bytes]"] = None

    def start(self) -> None:
        with open(self.log, "ab") as out:
            env = {**os.environ, "PYTHONPATH": str(PACKAGE), "PYTHONDONTWRITEBYTECODE": "1"}
            self.child = subprocess.Popen(self.words, stdin=subprocess.DEVNULL, stdout=out, stderr=out, env=env)

    def send(self, number: int) -> None:
        if self.child and self.child.poll() is None:
            self.child.send_signal(number)

    def kill(self) -> None:
        if self.child:
            self.child.kill()
            self.child.wait()

    def end(self) -> None:
        """By SIGTERM, and by SIGKILL where that doesn't end it soon."""
        self.send(signal.SIGCONT)
        self.send(signal.SIGTERM)
        if self.child:
            try:
                self.child.wait(8)
            except subprocess.TimeoutExpired:
                self.kill()


class Cluster:
    """Nodes of etcd and followers. As a context it ends what it started."""

    def __init__(self, nodes: int = 3, followers: int = 3, program: str = PROGRAM, words: Sequence[str] = (), level: str = "info"):
        self.room = tempfile.TemporaryDirectory(prefix="pgpeer-follow-")
        folder = pathlib.Path(self.room.name)
        ports = free_ports(2 * nodes + followers)
        self.client_ports, peers, self.ports = ports[:nodes], ports[nodes : 2 * nodes], ports[2 * nodes :]
        members = ",".join(f"n{at}=http://127.0.0.1:{port}" for at, port in enumerate(peers))
        self.nodes = [self.node(folder, at, self.client_ports[at], peers[at], members) for at in range(nodes)]
        self.endpoints = ",".join(f"http://127.0.0.1:{port}" for port in self.client_ports)
        module = [sys.executable, "-m", "pgpeer_follow", "--create", "--endpoints", self.endpoints, "--program", program]
        self.followers = [
            Process([*module, "--listen", str(port), "--log-level", level, *words], folder / f"f{at}.log")
            for at, port in enumerate(self.ports)
        ]
        self.folder = folder

    def node(self, folder: pathlib.Path, at: int, client: int, peer: int, members: str) -> Process:
        words = ["etcd", "--name", f"n{at}", "--data-dir", str(folder / f"n{at}"), "--initial-cluster", members]
        for kind, port in (("client", client), ("peer", peer)):
            urls = f"http://127.0.0.1:{port}"
            shown = "--advertise-client-urls" if kind == "client" else "--initial-advertise-peer-urls"
            words += [f"--listen-{kind}-urls", urls, shown, urls]
        words += ["--logger", "zap", "--log-level", "error", "--auto-compaction-mode", "revision", "--auto-compaction-retention", "1000"]
        return Process(words, folder / f"n{at}.log")

    def __enter__(self) -> "Cluster":
        for it in [*self.nodes, *self.followers]:
            it.start()
        try:
            for port in self.ports:
                self.wait_for(port)
        except BaseException:
            self.__exit__()
            raise
        return self

    def __exit__(self, *_: object) -> None:
        for it in [*self.followers, *self.nodes]:
            it.end()
        self.room.cleanup()

    def wait_for(self, port: int, seconds: float = STARTING) -> Dict[str, Any]:
        return wait_for(port, self.folder, seconds)

    def to_etcd(self) -> gateway.Gateway:
        return gateway.Gateway(gateway.Access(self.endpoints.split(",")))


def counted(found: Sequence[Tuple[bool, str]]) -> int:
    """Prints checks, each with whether it is right, and how many are wrong; gives the status."""
    for is_well, says in found:
        print(f"{'right' if is_well else 'WRONG'}: {says[:400]}")
    wrong = sum(not is_well for is_well, _ in found)
    print(f"{len(found)} checks, {wrong} wrong")
    return 1 if wrong else 0


def wait_for(address: Union[int, str], folder: pathlib.Path, seconds: float = STARTING) -> Dict[str, Any]:
    """Waits until a follower answers and follows. TimeoutError, with what stands in the folder's logs."""
    end, told = time.monotonic() + seconds, {}
    while time.monotonic() < end:
        try:
            with Client(address) as client:
                told = client.tell({"op": "health"})
            if told.get("state") == "following" and told["is_ready"] and "age" not in told:
                return told
        except OSError:
            pass
        time.sleep(0.1)
    logs = {it.name: it.read_text()[-1500:] for it in sorted(folder.glob("*.log"))}
    raise TimeoutError(f"the follower at {address} says {told}: {logs}")


class Client:
    """A connection to a follower, at a port or a Unix socket."""

    def __init__(self, address: Union[int, str], seconds: float = 30.0):
        if isinstance(address, int):
            self.link = socket.create_connection(("127.0.0.1", address), timeout=seconds)
            self.link.setsockopt(socket.IPPROTO_TCP, socket.TCP_NODELAY, 1)
        else:
            self.link = socket.socket(socket.AF_UNIX)
            self.link.settimeout(seconds)
            self.link.connect(address)
        self.lines = self.link.makefile("rb")

    def __enter__(self) -> "Client":
        return self

    def __exit__(self, *_: object) -> None:
        self.close()

    def close(self) -> None:
        self.lines.close()
        self.link.close()

    def send(self, line: bytes) -> None:
        self.link.sendall(line + b"\n")

    def receive(self) -> bytes:
        line = self.lines.readline()
        if not line.endswith(b"\n"):
            raise ConnectionError("the follower is gone")
        return line[:-1]

    def raw(self, line: bytes) -> bytes:
        self.send(line)
        return self.receive()

    def tell(self, values: Dict[str, Any]) -> Dict[str, Any]:
        return json.loads(self.raw(json.dumps(values, separators=(",", ":")).encode()))
