"""The picture of a group, as SVG.

The picture has one column for each entry, from left to right, under the epoch of its map. Where an incremental passes over
epochs, two ticks stand before its column. At the top each device that was ever in up or acting has a row, with a bar where it
stood in acting: its colour says whether the interval may have gone read-write, a line in it that only a report says so, and the
current interval stands apart. Below stand the verdicts, and for whom the group waits: devices that are down and block it, and
devices that have yet to be heard. The verdict is unknown where no report of the interval was kept so far. At the head stands
what `pgpeer explain` says of the group after the last entry: why it doesn't serve, and what it waits for. The last column's
marks follow that too. Beyond 200 columns runs of entries that change nothing for the group are folded, and then the oldest, but
never the intervals that block the group, the last that may have gone read-write, or (as many as have room) others whose members
have to be heard.
"""

import bisect
import itertools
import textwrap
from html import escape
from typing import Any, Dict, Iterator, List, Optional, Tuple

from .columns import folded
from .epochs import Epochs
from .marks import LETTERS, line, rect, room_for, style, text, triangle
from .reasons import epochs_text
from .steps import UNKNOWN, Group, Span, Step
from .words import at_end, ending, reason

LEFT, RIGHT, TOP = 84, 24, 66  # TOP with one line of words at the head
ROW, BAR, WORDS = 26, 14, 18  # heights
MOST_LINES = 5  # of words at the head
STRIP, WAIT = 24, 16
LEAST_WIDTH = 760
FOLDED = "\u2026"  # under a column that stands for several entries


class Picture:
    """The picture of a group: columns, rows and what stands in them."""

    def __init__(self, group: Group, epochs: Epochs = Epochs()):
        self.group, self.named = group, epochs
        self.columns = folded(group.steps, group.spans())
        self.begins = [column.epochs()[0] for column in self.columns]
        first = group.steps[0].view["epoch"]
        self.spans = [span for span in group.spans() if span.last >= first]
        self.places = {span.first: self.columns_of(span) for span in self.spans}
        self.wide = max(12.0, min(84.0, 700 / len(self.columns)))
        self.width = max(LEAST_WIDTH, self.x(len(self.columns)) + RIGHT)
        self.head = self.wrapped(f"At the end: {at_end(group.steps[-1], group.pool, group.why)}")
        self.helps = self.wrapped(ending(group.why) if group.why else "", 8.7)
        self.rows = sorted({osd for span in self.spans if self.places[span.first] for osd in span.devices()})
        self.has_empty = any(None in span.acting for span in self.spans if self.places[span.first])
        self.waited = sorted({osd for at in range(len(self.columns)) for osd in self.waits_at(at)})
        self.has_folded = any(len(it.steps) > 1 and not it.is_mixed() for it in self.columns)
        self.top = TOP + WORDS * (len(self.head) - 1) + (WORDS * len(self.helps) + 6 if self.helps else 0)
        self.strip_y = self.top + ROW * (len(self.rows) + self.has_empty) + 28
        self.waits_y = self.strip_y + STRIP + (26 if self.waited else 8) + (14 if self.has_folded else 0)
        self.legend_y = self.waits_y + WAIT * len(self.waited) + 16

    def x(self, column: float) -> float:
        return LEFT + self.wide * column

    def columns_of(self, span: Span) -> Optional[Tuple[int, int]]:
        """The first column of an interval and the one after its last, without mixed ones."""
        at = bisect.bisect_left(self.begins, span.first)
        found = list(itertools.takewhile(lambda place: self.columns[place].epochs()[1] <= span.last, range(at, len(self.columns))))
        found = [place for place in found if not self.columns[place].is_mixed()]
        return (found[0], found[-1] + 1) if found else None

    def svg(self) -> str:
        legend, end = self.legend()
        height = end + 20
        about = f"Group {self.group.name}: its acting sets, epoch by epoch, and its verdicts, entry by entry"
        size = f'viewBox="0 0 {self.width:.0f} {height:.0f}" width="{self.width:.0f}" height="{height:.0f}"'
        head = [f'<svg xmlns="http://www.w3.org/2000/svg" {size} role="img">', f"<title>{escape(about)}</title>", style()]
        ground = [rect(0, 0, self.width, height, "page"), *self.titles(), *self.band(), *self.grid(), *self.epochs(), *self.gaps()]
        body = [*self.bars(), *self.events(), *self.verdicts(), *self.waits(), *self.folds()]
        return "\n".join([*head, *ground, *body, *legend, "</svg>"]) + "\n"

    def titles(self) -> Iterator[str]:
        yield text(16, 25, f"Group {self.group.name}", "title")
        right = 16 + room_for(f"Group {self.group.name}", 17) + 12
        yield text(right, 25, self.cut(self.group.pool.text(), right), "soft")
        for at, words in enumerate(self.head):
            yield text(16, 45 + WORDS * at, words)
        for at, words in enumerate(self.helps, len(self.head)):
            yield text(16, 48 + WORDS * at, words, "helps")

    def wrapped(self, words: str, wide: float = 7.44) -> List[str]:
        """The words in as many lines as they need; what has no room in the last that there may be is left out."""
        return textwrap.wrap(words, int((self.width - 32) / wide), max_lines=MOST_LINES, placeholder="\u2026")

    def cut(self, words: str, x: float) -> str:
        """The words, as far as there is room to the right of x."""
        most = int((self.width - 16 - x) / 7.44)
        return words if len(words) <= most else words[: most - 1] + "\u2026"

    def band(self) -> Iterator[str]:
        """The ground of the current interval."""
        place = self.places[self.spans[-1].first]
        if place:
            top, bottom = self.top + 2, self.strip_y + STRIP
            yield rect(self.x(place[0]), top, self.x(place[1]) - self.x(place[0]), bottom - top, "band")
            yield line(self.x(place[0]), top, self.x(place[0]), bottom, "edge")

    def grid(self) -> Iterator[str]:
        end = self.x(len(self.columns))
        for at, osd in enumerate(self.rows):
            y = self.top + ROW * at + 4
            yield text(LEFT - 10, y + ROW - 10, f"osd.{osd}", "end")
            yield line(LEFT, y + ROW - 1, end, y + ROW - 1, "line")
        if self.has_empty:
            yield text(LEFT - 10, self.top + ROW * len(self.rows) + ROW - 6, "no device", "end soft")

    def epochs(self) -> Iterator[str]:
        """A tick where each epoch begins, and as many numbers as have room."""
        free, after = 0.0, None
        yield text(LEFT - 10, self.top - 2, "epoch", "end soft")
        for at, column in enumerate(self.columns):
            first, last = column.epochs()
            if first == after and last == after:
                continue
            x, words = self.x(at), self.named.text(first if first != after else last)
            yield line(x, self.top, x, self.top + 5, "axis")
            if x >= free:
                yield text(x + 1, self.top - 2, words, "small soft")
                free = x + room_for(words, 10) + 6
            after = last

    def passed_over(self) -> List[int]:
        """The columns whose entry passes over epochs."""
        ends = [column.epochs() for column in self.columns]
        return [at for at in range(1, len(ends)) if ends[at][0] > ends[at - 1][1] + 1]

    def gaps(self) -> Iterator[str]:
        """A second tick before the entry that passes over epochs, which tells whose map these have."""
        for at in self.passed_over():
            x, before, after = self.x(at), self.columns[at - 1].epochs()[1], self.columns[at].epochs()[0]
            words = epochs_text([{"first": before + 1, "last": after - 1}], self.named)
            yield line(x - 3, self.top, x - 3, self.top + 5, "axis")
            yield rect(x - 6, self.top - 1, 9, 7, "clear", f"{words}: passed over, with the map of epoch {self.named.text(before)}")

    def bars(self) -> Iterator[str]:
        for span in self.spans:
            place = self.places[span.first]
            if place:
                x, wide = self.x(place[0]), self.x(place[1]) - self.x(place[0])
                yield from self.bars_of(span, x, wide)

    def bars_of(self, span: Span, x: float, wide: float) -> Iterator[str]:
        kind = "now" if span.rw is None else "wrote" if span.rw else "idle"
        told = {"now": "current interval", "wrote": "may have gone read-write", "idle": "did not go read-write"}[kind]
        if span.by_report:
            told += ", as a report says that the group was clean in it"
        for at, osd in enumerate(self.rows):
            y = self.top + ROW * at + 12
            tip = f"osd.{osd}, epochs {self.named.text(span.first)} to {self.named.text(span.last)}: {told}"
            if osd in span.acting:
                yield rect(x + 0.5, y, wide - 1, BAR, kind, tip, 2)
                if span.by_report:
                    yield rect(x + 3, y + BAR - 3, wide - 6, 1.5, f"on-{kind}")
                if osd == span.primary:
                    yield f'<circle cx="{x + 6:.1f}" cy="{y + BAR / 2:.1f}" r="2.6" class="on-{kind}"/>'
                shard = f"{span.acting.index(osd)}"
                if self.group.pool.is_by_place() and wide >= 22:
                    yield text(x + wide / 2 + 3, y + 11, shard, f"small mid on-{kind}")
            elif osd in span.up:
                yield rect(x + 1, y + 1, wide - 2, BAR - 2, "alone", f"{tip}, in up alone", 2)
        if None in span.acting:
            yield from self.empty_places(span, x, wide)

    def empty_places(self, span: Span, x: float, wide: float) -> Iterator[str]:
        slots = [str(slot) for slot, osd in enumerate(span.acting) if osd is None]
        y = self.top + ROW * len(self.rows) + 12
        yield rect(x + 1, y + 1, wide - 2, BAR - 2, "alone", f"no device for shard {', '.join(slots)}", 2)
        words = next((it for it in (" ".join(slots), f"\u00d7{len(slots)}", "") if room_for(it, 10) < wide - 4), "")
        if words:
            yield text(x + wide / 2, y + 11, words, "small mid soft")

    def events(self) -> Iterator[str]:
        """A mark where a device of the picture boots, goes down or is destroyed."""
        for at, column in enumerate(self.columns):
            if column.is_mixed():
                continue
            for event in (event for step in column.steps for event in step.events):
                if event.osd in self.rows:
                    y = self.top + ROW * self.rows.index(event.osd) + 5
                    yield triangle(self.x(at) + 1, y, event.kind == "up")

    def verdicts(self) -> Iterator[str]:
        """The strip of verdicts: runs of one verdict, with its name, or its letter where there is no room."""
        yield text(LEFT - 10, self.strip_y + 16, "verdict", "end")
        for first, count, verdict in self.verdict_runs():
            x, wide = self.x(first), self.wide * count
            yield rect(x + 0.5, self.strip_y, wide - 1, STRIP, verdict, "", 2)
            words = verdict if self.has_room(verdict, count) else LETTERS[verdict]
            yield text(x + wide / 2, self.strip_y + 16, words, f"mid on-{UNKNOWN if verdict == UNKNOWN else 'verdict'}")
        for at, column in enumerate(self.columns):
            if column.is_mixed():
                continue
            tip = f"epoch {self.named.text(column.epochs()[1])}, {self.reason_at(at)}"
            yield rect(self.x(at), self.strip_y, self.wide, STRIP, "clear", tip)
            if len(column.steps) > 1:
                yield text(self.x(at + 0.5), self.strip_y + STRIP + 12, FOLDED, "small mid soft")

    def verdict_runs(self) -> Iterator[Tuple[int, int, str]]:
        """The runs of columns of one verdict: the first column, how many they are, the verdict."""
        at = 0
        for verdict, run in itertools.groupby("" if it.is_mixed() else it.step().verdict() for it in self.columns):
            count = len(list(run))
            if verdict:
                yield at, count, verdict
            at += count

    def has_room(self, verdict: str, count: int) -> bool:
        """Tells whether the verdict's name has room in this many columns."""
        return room_for(verdict) < self.wide * count - 4

    def waits(self) -> Iterator[str]:
        """For each device for which the group ever waited, where it did."""
        for at, osd in enumerate(self.waited):
            y = self.waits_y + WAIT * at
            yield text(LEFT - 10, y + 11, f"osd.{osd}", "end")
            yield line(LEFT, y + WAIT - 0.5, self.x(len(self.columns)), y + WAIT - 0.5, "line")
            for kind, run in itertools.groupby(range(len(self.columns)), lambda place: self.wait_of(place, osd)):
                places = list(run)
                x, wide = self.x(places[0]) + 1.5, self.wide * len(places) - 3
                if kind == "blocks":
                    yield rect(x, y + 3, wide, 9, kind, f"osd.{osd} is down and may come back", 1)
                elif kind == "unheard":
                    yield rect(x, y + 4.5, wide, 6, kind, f"osd.{osd} has yet to be heard", 3)
        if self.waited:
            yield text(LEFT - 10, self.waits_y - 5, "waits for", "end soft")

    def wait_of(self, place: int, osd: int) -> str:
        return "" if self.columns[place].is_mixed() else self.waits_at(place).get(osd, "")

    def is_explained(self, place: int) -> bool:
        """Tells whether what is said of the group is said of this column, which is the last."""
        return self.group.why is not None and place == len(self.columns) - 1

    def waits_at(self, place: int) -> Dict[int, str]:
        """For which devices the group waits in a column, and how."""
        return self.group.why.waits() if self.group.why and self.is_explained(place) else waited_by(self.columns[place].step())

    def reason_at(self, place: int) -> str:
        """The verdict of a column, and why."""
        step = self.columns[place].step()
        return at_end(step, self.group.pool, self.group.why) if self.is_explained(place) else reason(step, self.group.pool)

    def folds(self) -> Iterator[str]:
        """A veil over the columns that stand for many steps of different states."""
        for at, column in enumerate(self.columns):
            if column.is_mixed():
                first, last = column.epochs()
                top, bottom = self.top + 6, self.legend_y - 14
                x = self.x(at)
                words = f"{len(column.steps)} entries"
                yield rect(x + 1, top, self.wide - 2, bottom - top, "fold", f"epochs {self.named.text(first)} to {self.named.text(last)}: {words}")
                middle = x + self.wide / 2 + 4, (top + bottom) / 2
                place = f'transform="rotate(-90 {middle[0]:.1f} {middle[1]:.1f})"'
                yield f'<text x="{middle[0]:.1f}" y="{middle[1]:.1f}" class="small mid soft" {place}>{words}</text>'

    def legend(self) -> Tuple[List[str], float]:
        """What colours and marks mean, in as many lines as they need, and where they end."""
        x, y, parts = 16.0, self.legend_y + 8, []
        for sample, words in self.legend_items():
            wide = 22 + room_for(words) + 14
            if x + wide > self.width - 8:
                x, y = 16.0, y + 20
            parts += [sample(x, y), text(x + 22, y + 10, words, "soft")]
            x += wide
        return parts, y + 14

    def legend_items(self) -> Iterator[Tuple[Any, str]]:
        def box(kind: str) -> Any:
            return lambda x, y: rect(x + 1, y + 1, 15, 10, kind, "", 2)

        kinds = {span.rw for span in self.spans}
        samples = ((True, "wrote", "interval that may have gone read-write"), (False, "idle", "interval that did not"),
                   (None, "now", "current interval"))
        for rw, kind, words in samples:
            if rw in kinds:
                yield box(kind), words
        if any(span.by_report for span in self.spans):
            yield lambda x, y: box("wrote")(x, y) + rect(x + 4, y + 8, 9, 1.5, "on-wrote"), "so by a report alone"
        if any(set(span.up) - set(span.acting) - {None} for span in self.spans) or self.has_empty:
            yield box("alone"), "in up alone, or an empty place" if self.has_empty else "in up alone"
        yield lambda x, y: f'<circle cx="{x + 9:.1f}" cy="{y + 6:.1f}" r="3" class="soft"/>', "primary"
        events = {event.kind == "up" for step in self.group.steps for event in step.events if event.osd in self.rows}
        for upward, words in ((True, "boots"), (False, "goes down, or is destroyed")):
            if upward in events:
                yield lambda x, y, upward=upward: triangle(x + 5, y + 3, upward), words
        if self.passed_over():
            yield lambda x, y: "".join(line(at, y + 3, at, y + 8, "axis") for at in (x + 7, x + 10)), "epochs are passed over"
        waits = {kind for at in range(len(self.columns)) for kind in self.waits_at(at).values()}
        if "unheard" in waits:
            yield lambda x, y: rect(x + 1, y + 3, 15, 6, "unheard", "", 3), "has yet to be heard"
        if "blocks" in waits:
            yield lambda x, y: rect(x + 1, y + 2, 15, 9, "blocks", "", 1), "down, and blocks the group"
        short = {verdict for _, count, verdict in self.verdict_runs() if not self.has_room(verdict, count)}
        for verdict in LETTERS:
            if verdict in short:
                yield self.letter(verdict), verdict
        if self.has_folded:
            yield self.mark(FOLDED), "entries that change nothing here"

    @staticmethod
    def mark(words: str) -> Any:
        return lambda x, y: text(x + 8, y + 10, words, "mid soft")

    @staticmethod
    def letter(verdict: str) -> Any:
        def sample(x: float, y: float) -> str:
            return rect(x + 1, y, 15, 13, verdict, "", 2) + text(x + 8.5, y + 10, LETTERS[verdict], f"small mid on-{UNKNOWN if verdict == UNKNOWN else 'verdict'}")

        return sample


def waited_by(step: Step) -> Dict[int, str]:
    """For which devices the group waits after a step, and how."""
    waits = {osd: "unheard" for osd, _ in step.unheard} if step.verdict() == "Waiting" else {}
    return {**waits, **{osd: "blocks" for osd in step.view["blocked_by"]}}
