"""Makes lines of clusters that heal: devices fall and come back, and then the groups tell that they serve and are clean.

So past intervals stop to matter, and most incrementals can be joined. Late lines stand between: reports from devices that were
down, of epochs long ago, up_thru and losses that go back, boots.
"""

import random
from typing import Any, Callable, Dict, List, Optional, Sequence

import grammar
import grouped
import model
from maps import Group
from placement import FULL

Line = Dict[str, Any]
Step = Callable[[], Optional[Line]]  # gives a line when its turn comes, or none where there is nothing to tell


class Healing(grammar.Story):
    """The lines of one script, as a story's."""

    def __init__(self, rng: random.Random, log: "model.Model"):
        super().__init__(rng, log, 10**6)
        self.most_pools = rng.choice((1, 1, 2))
        self.devices = self.devices[: rng.choice((4, 6, 8, 12, 24))]
        self.most_groups = rng.choice((1, 2, 4, 8))  # of a pool
        self.asks = 0.3
        self.own = rng.choice((0, 0.02, 0.1, 0.3))  # the share of the story's own lines
        self.late = rng.choice((0, 0.05, 0.2))  # of late ones
        self.healed = rng.choice((0.6, 0.95, 1, 1))  # of the groups, after a change
        self.steps: List[Step] = []
        self.episodes: Sequence[Callable[[], Any]] = (
            *[self.flap] * 3, self.move, self.reweigh, self.resize, *[self.lose] * 2, *[self.destroy] * 2, self.replant,
        )  # fmt: skip

    def unplanned(self) -> Line:
        rng = self.rng
        if not self.maps.made:
            return self.inc(has_pools=True, up=list(self.devices), crush=grammar.tree(rng, list(self.devices), self.straw2))
        if rng.random() < self.late:
            return self.late_line()
        while rng.random() >= self.own:
            self.steps = self.steps or self.episode()
            line = self.steps.pop(0)()
            if line is not None:
                return line
        return super().unplanned()

    def pools(self) -> List[Line]:
        """Pools of few groups, most of which find devices in any tree."""
        made, rng = super().pools(), self.rng
        for pool in made:
            pool["pg_num"] = min(pool["pg_num"], self.most_groups)
            pool["leaf"] = 0 if rng.random() < 0.8 else pool["leaf"]
            if rng.random() < 0.5:
                pool["size"] = max(pool["size"], rng.choice((2, 3, 4)))
                pool["min_size"] = min(pool["min_size"], rng.choice((1, 2)))
                if "groups" in pool:
                    pool["groups"] = grouped.sound(rng, pool["size"])
        return made

    # What happens to a cluster

    def all_groups(self) -> List[Group]:
        found = [(pool, pg) for pool, made in self.maps.made.items() for pg in range(made["pg_num"])]
        return self.rng.sample(found, len(found))

    def with_state(self, *states: str) -> List[int]:
        now = self.maps.epoch
        return [osd for osd in self.devices if self.maps.states.last(osd, now, "absent") in states]

    def changes(self, **parts: List[Any]) -> Optional[Line]:
        """An incremental of these parts, if there is something in them."""
        found = {key: value for key, value in parts.items() if value}
        return self.inc_only(**found) if found else None

    def episode(self) -> List[Step]:
        """Something changes, the groups go on, at times it is undone, and in the end the groups heal."""
        do, undo = self.rng.choice(self.episodes)() if 2 * len(self.with_state("up")) > len(self.devices) else self.restart()
        between = self.rng.choice(([], [self.record], [self.record, *self.healing()], self.going_on()))
        after = self.rng.choice(([self.record], [self.record], [self.record, *self.going_on()]))
        return [*do, *between, *undo, *after, *self.healing()]

    def flap(self) -> Any:
        """Devices fall and come back, more than one after the other at times."""
        falls = grammar.some(self.rng, self.with_state("up"), self.rng.choice((1, 1, 2, 4)))
        fall = lambda: self.changes(down=[osd for osd in falls if osd in self.with_state("up")])  # noqa: E731
        boot = lambda: self.changes(up=[osd for osd in self.with_state("down") if self.rng.random() < 0.9])  # noqa: E731
        return [fall], [boot]

    def restart(self) -> Any:
        """All devices boot."""
        return [lambda: self.changes(up=self.with_state("down", "gone", "absent"))], []

    def move(self) -> Any:
        """A group has a pg_temp list for a while."""
        pool, pg = self.group()
        place = lambda: self.inc_only(temp=[[pool, pg, self.temp(self.maps.made[pool])]])  # noqa: E731
        return [place], [lambda: self.inc_only(temp=[[pool, pg, []]])]

    def reweigh(self) -> Any:
        osds = grammar.some(self.rng, self.with_state("up", "down"), 2)
        weigh = lambda weight: self.changes(weight=[[osd, weight] for osd in osds if self.maps.exists(osd, self.maps.epoch)])  # noqa: E731
        return [lambda: weigh(self.rng.choice((0, FULL // 2, 1)))], [lambda: weigh(FULL)]

    def resize(self) -> Any:
        pool = self.rng.choice(list(self.maps.made))
        made = self.maps.made[pool]
        return [lambda: self.inc_only(sizes=[self.new_size(pool)])], [lambda: self.inc_only(sizes=[[pool, made["size"], made["min_size"]]])]

    def lose(self) -> Any:
        """Devices fall and are declared lost, and may come back."""
        (fall,), undo = self.flap()
        when = lambda: self.rng.choice((self.maps.epoch, self.maps.epoch + 1, self.told(self.maps.epoch)))  # noqa: E731
        losses = lambda: [[osd, when()] for osd in self.with_state("down") if self.rng.random() < 0.7]  # noqa: E731
        return [fall, *[self.record] * self.rng.choice((0, 1, 2)), lambda: self.changes(lost=losses())], self.rng.choice((undo, undo, []))

    def destroy(self) -> Any:
        """Devices fall, say what they have or that a group serves, are destroyed, and may come back."""
        (fall,), undo = self.flap()
        say = lambda: self.rng.choice((self.late_info, self.last_words))(self.with_state("down"))  # noqa: E731
        end = lambda: self.changes(gone=self.with_state("down")[: self.rng.choice((1, 2))])  # noqa: E731
        boot = lambda: self.changes(up=self.with_state("gone", "absent"))  # noqa: E731
        return [fall, say, end], self.rng.choice(([boot], [boot], undo, []))

    def replant(self) -> Any:
        if self.rng.random() < 0.5:
            return self.flap()
        return [lambda: self.inc_only(crush=grammar.tree(self.rng, list(self.devices), self.straw2))], []

    # How groups go on

    def record(self) -> Optional[Line]:
        """The map records that primaries are up."""
        now = self.maps.epoch
        found = {self.maps.membership(it, now).acting_primary for it in self.all_groups() if self.rng.random() < 0.9}
        step = self.step()
        told = [[osd, self.rng.choice((now, step["epoch"]))] for osd in sorted(it for it in found if it is not None)]
        told = [[osd, epoch] for osd, epoch in told if epoch >= self.maps.up_thru(osd, now)]
        return {"op": "inc", **step, "up_thru": told} if told else None

    def going_on(self) -> List[Step]:
        """Each group says what it wants; the other lines stand where the epochs went on by then."""

        def go_on(group: Group) -> Optional[Line]:
            self.plan = self.wanted(group)[:-1]
            return self.plan.pop(0) if self.plan else None

        return [lambda group=group: go_on(group) for group in self.all_groups()]  # type: ignore[misc]

    def healing(self) -> List[Step]:
        """Groups say that they serve in their current interval, and are clean."""
        return [lambda group=group: self.heal(group) for group in self.all_groups() if self.rng.random() < self.healed]  # type: ignore[misc]

    def heal(self, group: Group) -> Line:
        rng, now, first = self.rng, self.maps.epoch, self.log.view(group)["first"]
        info = self.info(group, self.member(group), now)
        clean = {} if self.is_first_form else {"last_epoch_clean": rng.choice((now, first, rng.randint(first, now), 0))}
        return {**info, "les": rng.choice((first, first, 0)), "history_les": first, **clean}

    def last_words(self, osds: List[int]) -> Line:
        """One of these devices says that a group serves."""
        line = self.heal(self.group())
        return {**line, "from": [self.rng.choice(osds or self.devices), line["from"][1]]}

    # Late lines

    def told(self, most: int) -> int:
        """An epoch in which something began or ended, or one beside it, up to this one."""
        rng, now, view = self.rng, self.maps.epoch, self.log.view(self.group())
        osd = rng.choice(self.devices)
        found = [view["first"], view["les"], self.maps.up_from(osd, now), self.maps.up_thru(osd, now), self.maps.lost_at(osd), now]
        found += [it[key] for it in rng.sample(view["intervals"], min(3, len(view["intervals"]))) for key in ("first", "last")]
        found.append(rng.randint(0, now))
        return min(most, max(0, rng.choice(found) + rng.choice((-1, 0, 0, 1))))

    def late_line(self) -> Line:
        makers = (
            *[self.late_info] * 4, self.late_echo, *[self.late_entries] * 2, *[self.late_record] * 2, *[self.late_loss] * 2,
            self.late_boot, *[self.late_fall] * 2, self.late_end, self.late_weight,
        )  # fmt: skip
        line = self.rng.choice(makers)()
        if line is None or self.rng.random() < 0.3:
            self.plan = [self.ask() for _ in range(self.rng.choice((1, 2)))]
        return line or self.plan.pop(0)

    def ask(self) -> Line:
        return {"op": "ask", "pg": list(self.group())}

    def late_echo(self) -> Optional[Line]:
        """An info that a device sent before its last boot, and yet in the current interval of a group."""
        rng, now, group = self.rng, self.maps.epoch, self.group()
        view = self.log.view(group)
        found = [osd for osd in self.with_state("up") if self.maps.up_from(osd, now) > view["first"]]
        if not found:
            return None
        osd = rng.choice(found)
        booted = self.maps.up_from(osd, now)
        stamp = rng.choice((booted - 1, rng.randint(view["first"], booted)))
        info = self.info(group, (osd, self.member(group)[1]), stamp)
        last = [0, 0] if self.maps.code(group[0]) is not None else [stamp, 10**6]  # which is preferred
        best = {"last_update": last, "log_tail": last} if stamp and rng.random() < 0.7 else {}
        self.plan = [{"op": "ask", "pg": list(group)}]
        return {**info, "les": min(stamp, view["les"]), "history_les": 0, "complete": True, **best}

    def late_info(self, osds: Optional[List[int]] = None) -> Line:
        """An info from any device, or one of these, of any stamp; it seldom tells of a new start."""
        rng, group = self.rng, self.group()
        osd, slot = rng.choice(osds or self.devices), self.member(group)[1]
        booted = self.maps.up_from(osd, self.maps.epoch)
        stamp = self.told(self.maps.epoch + 1) if rng.random() < 0.7 else rng.randint(max(0, booted - 3), booted)
        info = self.info(group, (osd, slot), min(stamp, self.maps.epoch))
        known = min(stamp, self.log.view(group)["les"])
        starts = rng.choice((0, known, self.told(known), self.told(known), self.told(stamp)))
        clean = {} if self.is_first_form or rng.random() < 0.4 else {"last_epoch_clean": self.told(stamp)}
        return {**info, "stamp": stamp, "les": rng.choice((0, starts, self.told(stamp))), "history_les": starts, **clean}

    def late_entries(self) -> Line:
        group = self.group()
        line = self.entries(group, (self.rng.choice(self.devices), self.member(group)[1]), whole=self.rng.random() < 0.5)
        least = max([epoch for epoch, _, _, _ in line.get("log", ())], default=line["stamp"])
        return {**line, "stamp": max(self.told(self.maps.epoch), least if self.rng.random() < 0.8 else 0)}

    def late_record(self) -> Line:
        """Of an up_thru that goes back, or no further than an epoch long ago."""
        osd, step = self.rng.choice(self.devices), self.step()
        old = self.maps.up_thru(osd, self.maps.epoch)
        value = self.rng.choice((old, old, max(0, old - 1), old + 1, self.told(step["epoch"]), max(old, self.told(step["epoch"]))))
        return {"op": "inc", **step, "up_thru": [[osd, value]]}

    def late_loss(self) -> Optional[Line]:
        down = self.with_state("down") or list(self.devices)
        return self.changes(lost=[[osd, self.told(self.maps.epoch)] for osd in grammar.some(self.rng, down, 2)])

    def late_boot(self) -> Optional[Line]:
        return self.changes(up=grammar.some(self.rng, self.with_state("down", "gone", "absent") or self.devices, 3))

    def late_fall(self) -> Optional[Line]:
        """Of a few devices, or of most, or of those that had been given up for lost."""
        rng, up = self.rng, self.with_state("up") or list(self.devices)
        lost = [osd for osd in up if self.maps.lost_at(osd) > 0]
        others = [osd for osd in up if osd not in lost]
        few, most = grammar.some(rng, up, 3), rng.sample(up, rng.randint(len(up) // 2, len(up)))
        return self.changes(down=rng.choice((few, most, lost + rng.sample(others, rng.randint(0, len(others))))))

    def late_end(self) -> Optional[Line]:
        return self.changes(gone=grammar.some(self.rng, self.with_state("down", "gone") or self.devices, 2))

    def late_weight(self) -> Optional[Line]:
        return self.changes(weight=[[osd, self.rng.choice(grammar.DEVICE_WEIGHTS)] for osd in grammar.some(self.rng, self.devices, 2)])
