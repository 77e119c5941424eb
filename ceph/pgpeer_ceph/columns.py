"""The columns of a picture: a step each, or several that are folded into one."""

import itertools
from typing import List, NamedTuple, Sequence, Set, Tuple

from .steps import Span, Step, View

MOST_COLUMNS = 200


class Column(NamedTuple):
    """A step, or several that are folded into one column."""

    steps: List[Step]

    def step(self) -> Step:
        return self.steps[-1]

    def epochs(self) -> Tuple[int, int]:
        return self.steps[0].view["epoch"], self.steps[-1].view["epoch"]

    def is_mixed(self) -> bool:
        """Tells whether the column holds steps of different states."""
        return any(step.state() != self.steps[0].state() for step in self.steps)


def telling(spans: Sequence[Span], view: View, most: int) -> List[Span]:
    """The intervals that are never hidden, the weightiest first, as many as have room: those that block the group, the last
    that may have gone read-write, and those whose members have to be heard."""
    wrote = [span for span in reversed(spans) if span.rw and span.last >= view.get("les", 0)]
    blocked = set(view["blocked_by"])
    blocks = [span for span in wrote if blocked & set(span.acting)]
    last = next((span for span in reversed(spans) if span.rw), None)
    ordered = [*blocks[:1], *([last] if last else []), *blocks[1:], *wrote]
    return list({span.first: span for span in ordered}.values())[:most]


def folded(steps: List[Step], spans: Sequence[Span] = (), most: int = MOST_COLUMNS) -> List[Column]:
    """A column for each step. Where they are too many, the longest runs in which nothing changes become two columns, their
    first step and the others; and where that isn't enough, the oldest columns become one, except those of intervals
    that are never hidden."""
    runs = [list(run) for _, run in itertools.groupby(steps, Step.state)]
    count, short = len(steps), set()
    for at in sorted(range(len(runs)), key=lambda at: -len(runs[at])):
        if count > most and len(runs[at]) > 2:
            short.add(at)
            count -= len(runs[at]) - 2
    columns = []
    for at, run in enumerate(runs):
        columns += [Column(run[:1]), Column(run[1:])] if at in short else [Column([step]) for step in run]
    if len(columns) <= most:
        return columns
    kept = kept_columns(columns, telling(spans, steps[-1].view, most // 5))
    return merged(columns, kept, most)


def kept_columns(columns: List[Column], spans: List[Span]) -> Set[int]:
    """The columns of these intervals, of each the first and the last."""
    kept = set()
    for span in spans:
        inside = [at for at, column in enumerate(columns) if span.first <= column.epochs()[0] and column.epochs()[1] <= span.last]
        kept.update(inside[:1] + inside[-1:])
    return kept


def merged(columns: List[Column], kept: Set[int], most: int) -> List[Column]:
    """The columns, with the oldest that aren't kept as one between those that are, until there are few enough."""
    found: List[Column] = []
    over, is_open = len(columns) - most, False
    for at, column in enumerate(columns):
        if is_open and at not in kept and over > 0:
            found[-1] = Column(found[-1].steps + column.steps)
            over -= 1
        else:
            found.append(column)
            is_open = at not in kept
    return found
