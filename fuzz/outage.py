"""Makes lines of outages: groups write while they lose devices, so that several past intervals block them."""

import random
from typing import Any, Dict, List, Optional

import grammar
import grouped
import model
from maps import Group


class Outage(grammar.Story):
    """The lines of one script, as a story's; most close intervals that may have gone read-write, and few tell of a new start."""

    def __init__(self, rng: random.Random, log: "model.Model"):
        super().__init__(rng, log, 10**6)
        self.most_pools = rng.choice((1, 1, 2))
        self.devices = self.devices[: rng.choice((4, 6, 8, 12, 12))]
        self.asks = 0.1
        self.calm = rng.choice((0.2, 0.5, 0.8))  # the share of the story's own lines

    def unplanned(self) -> Dict[str, Any]:
        if not self.maps.made or self.rng.random() < self.calm:
            return super().unplanned()
        return self.write_and_change()

    def write_and_change(self) -> Dict[str, Any]:
        """Mostly the map records that the primary of a group is up, and then the group gets other members."""
        now = self.maps.membership(self.group(), self.maps.epoch)
        change = self.change([osd for osd in now.acting if osd is not None])
        if now.acting_primary is None or self.rng.random() < 0.2:
            return self.inc_only(**change)
        record = self.inc_only(up_thru=[[now.acting_primary, self.maps.epoch + 1]])
        self.plan = [{"op": "inc", "epoch": record["epoch"] + 1, **change}]
        return record

    def change(self, acting: List[int]) -> Dict[str, Any]:
        """Devices that fall, boot, are declared lost and are destroyed."""
        rng, now = self.rng, self.maps.epoch
        down = [osd for osd in self.devices if self.maps.exists(osd, now) and not self.maps.is_up(osd, now)]
        change: Dict[str, Any] = {}
        if rng.random() < 0.15:
            return {"down": self.power_failure()}
        if acting and (not down or rng.random() < 0.7):
            change["down"] = grammar.some(rng, acting, rng.choice((2, 3, 8)))
        if down and (not acting or rng.random() < 0.6):
            change["up"] = grammar.some(rng, down, 4)
        rest = [osd for osd in down if osd not in change.get("up", ())]
        if rest and rng.random() < 0.1:
            change["lost"] = [[rng.choice(rest), rng.randint(1, now + 1)]]
        if rest and rng.random() < 0.03:
            change["gone"] = [rng.choice(rest)]
        return change

    def power_failure(self) -> List[int]:
        """All devices but one or two."""
        up = [osd for osd in self.devices if self.maps.is_up(osd, self.maps.epoch)]
        return self.rng.sample(up, max(0, len(up) - self.rng.choice((1, 2))))

    def pools(self) -> List[Dict[str, Any]]:
        """Pools that go on with few devices, as often as not."""
        made, rng = super().pools(), self.rng
        for pool in made:
            pool["size"] = max(pool["size"], rng.choice((2, 3, 4, 6, 8)))
            if "groups" in pool:
                pool["groups"] = grouped.sound(rng, pool["size"])
            if "k" in pool:
                pool["k"] = rng.randint(1, pool["size"])
            pool["min_size"] = rng.randint(1, pool["size"] // 2 + 1)
            pool["pg_num"] = min(pool["pg_num"], 12)
        return made

    def info(self, group: Group, member: Any, stamp: Optional[int] = None) -> Dict[str, Any]:
        """An info that seldom tells of a start, after which the past intervals before it wouldn't block."""
        info = super().info(group, member, stamp)
        return {**info, "les": 0, "history_les": 0} if self.rng.random() < 0.9 else info
