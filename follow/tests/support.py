"""What the tests share."""

import pathlib
import sys
import time
from typing import Callable

HERE = pathlib.Path(__file__).resolve().parent
STANDIN = str(HERE / "standin.py")
for folder in (HERE, HERE.parent, HERE.parent / "checks"):
    sys.path.insert(0, str(folder))

MAP = b'{"op":"inc","epoch":1,"up":[0,1,2],"up_thru":[[0,1]],"pools":[{"id":1,"pg_num":1,"kind":"replicated","size":3,"min_size":2,"leaf":0}],"temp":[[1,0,[0,1,2]]],"crush":[{"id":-1,"type":1,"alg":"uniform","items":[0,1,2]}]}'
INFO = b'{"op":"info","pg":[1,0],"from":[%d,0],"stamp":1,"les":0,"history_les":0,"last_update":[0,0],"log_tail":[0,0],"complete":true}'
ASK = b'{"op":"ask","pg":[1,0]}'


def wait_until(is_so: Callable[[], object], seconds: float = 120.0) -> None:
    """Waits until something is so."""
    end = time.monotonic() + seconds
    while not is_so():
        if time.monotonic() > end:
            raise AssertionError("it didn't come to be so")
        time.sleep(0.01)
