"""The named faults of a follower, beside those that the program names."""

from typing import Any


class Fault(Exception):
    """A fault with its number and its name, as they stand in an answer. `more` are further keys of that answer."""

    code = 0
    name = ""

    def __init__(self, says: str = "", **more: Any):
        super().__init__(says or self.name)
        self.more = more


class NotYet(Fault):
    """The place that was handed in wasn't reached within the bound."""

    code, name = 80, "NotYet"


class Unavailable(Fault):
    """etcd can't be reached, or has no quorum. Nothing was written."""

    code, name = 81, "Unavailable"


class Unsure(Fault):
    """A write was sent, and its answer didn't come: it may stand, or come to stand."""

    code, name = 82, "Unsure"


class WrongCluster(Unavailable):
    """Another etcd cluster answered than the one that was followed."""

    code, name = 83, "WrongCluster"


class TwoLogs(Fault):
    """What stands under the prefix isn't one log, or isn't the log that was followed."""

    code, name = 84, "TwoLogs"


class CoreFault(Fault):
    """The program can't be run, or doesn't answer."""

    code, name = 85, "CoreFault"


class TokenUsed(Fault):
    """The token stands in the log with another line."""

    code, name = 86, "TokenUsed"


class Busy(Fault):
    """More lines or connections wait than the follower takes."""

    code, name = 87, "Busy"


class Unanswered(Fault):
    """The line stands in the log, and its answer isn't known here yet."""

    code, name = 88, "Unanswered"


class NoLog(Fault):
    """There is no log under the prefix, and none was to be made."""

    code, name = 89, "NoLog"
