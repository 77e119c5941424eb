"""Has the package of the folder ceph be found by developers' tools, which import this before its modules."""

import pathlib
import sys

TOP = pathlib.Path(__file__).resolve().parent.parent

sys.path.append(str(TOP / "ceph"))
