#!/usr/bin/env python3
"""Checks a follower on a node of etcd with TLS, client certificates and users.

    follow/checks/secured.py [--program PATH]

The last line is `N checks, M wrong`. Needs openssl, etcd and etcdctl.
"""

import pathlib
import subprocess
import sys
import tempfile
import time
from typing import List, Tuple

import cluster
from outages import INFO


def made_certificates(folder: pathlib.Path) -> None:
    """A root, and a certificate of it for both ends, without a CommonName: with users etcd's gateway takes none from a client."""

    def openssl(*words: str) -> None:
        subprocess.run(["openssl", *words], cwd=folder, check=True, capture_output=True)

    new = ("-newkey", "ec", "-pkeyopt", "ec_paramgen_curve:prime256v1", "-nodes")
    openssl("req", "-x509", *new, "-subj", "/CN=root", "-days", "2", "-keyout", "ca.key", "-out", "ca.pem")
    openssl("req", *new, "-subj", "/O=both", "-keyout", "both.key", "-out", "both.csr")
    (folder / "names").write_text("subjectAltName=IP:127.0.0.1\nextendedKeyUsage=serverAuth,clientAuth\n")
    signed = ("-CA", "ca.pem", "-CAkey", "ca.key", "-CAcreateserial", "-days", "2", "-extfile", "names")
    openssl("x509", "-req", "-in", "both.csr", *signed, "-out", "both.pem")


def node(folder: pathlib.Path, port: int, peer: int) -> cluster.Process:
    url, among = f"https://127.0.0.1:{port}", f"http://127.0.0.1:{peer}"
    words = ["etcd", "--name", "n", "--data-dir", str(folder / "n"), "--initial-cluster", f"n={among}"]
    words += ["--listen-client-urls", url, "--advertise-client-urls", url, "--listen-peer-urls", among, "--initial-advertise-peer-urls", among]
    words += ["--cert-file", str(folder / "both.pem"), "--key-file", str(folder / "both.key"), "--trusted-ca-file", str(folder / "ca.pem")]
    return cluster.Process([*words, "--client-cert-auth", "--logger", "zap", "--log-level", "error"], folder / "n.log")


def checked(folder: pathlib.Path, program: str) -> List[Tuple[bool, str]]:
    made_certificates(folder)
    port, peer, at = cluster.free_ports(3)
    secrets = ["--cacert", str(folder / "ca.pem"), "--cert", str(folder / "both.pem"), "--key", str(folder / "both.key")]
    etcd = node(folder, port, peer)
    words = [sys.executable, "-m", "pgpeer_follow", "--create", "--listen", str(at), "--wait", "4", "--program", program]
    words += ["--endpoints", f"https://127.0.0.1:{port}"]
    found = []
    etcd.start()
    try:
        time.sleep(2)
        for command in ("user add root:secret", "user grant-role root root", "auth enable"):
            subprocess.run(["etcdctl", *secrets, "--endpoints", f"https://127.0.0.1:{port}", *command.split()], check=True, capture_output=True)
        for more, is_let_in in (
            ([*secrets, "--user", "root:secret"], True),
            ([*secrets, "--user", "root", "--password", "secret"], True),
            ([*secrets, "--user", "root:wrong"], False),
            (["--cacert", secrets[1], "--user", "root:secret"], False),
            ([*secrets[2:], "--user", "root:secret"], False),
        ):
            follower = cluster.Process([*words, *more], folder / "f.log")
            follower.start()
            try:
                time.sleep(2)
                with cluster.Client(at) as client:
                    reply = client.tell(INFO)
            finally:
                follower.end()
            wanted = "UnknownGroup" if is_let_in else "Unavailable"
            found.append((reply.get("refused") == wanted, f"{' '.join(more[-4:])}: {reply}"))
    finally:
        etcd.end()
    return found


def main() -> int:
    options = cluster.command_line(__doc__).parse_args()
    with tempfile.TemporaryDirectory(prefix="pgpeer-follow-") as folder:
        found = checked(pathlib.Path(folder), options.program)
    return cluster.counted(found)


if __name__ == "__main__":
    sys.exit(main())
