"""What is kept of a dump: without the parts that nobody reads, and with one value for what many maps have alike.

A map of 300 devices is 300 KB, and a cluster has hundreds of maps, that differ in a device or two.
"""

from typing import Any, Dict

UNREAD_OF_MAP = ("osd_xinfo", "blocklist", "range_blocklist", "removed_snaps_queue", "new_removed_snaps", "new_purged_snaps")
UNREAD_OF_INFO = ("stats", "purged_snaps", "hit_set_history")
UNREAD_OF_QUERY = ("scrubber", "agent_state", "snap_trimq")
UNREAD_OF_STAT = ("stat_sum", "purged_snaps", "avail_no_missing", "object_location_counts")


class Lean:
    """The values of many dumps, as they are kept."""

    def __init__(self) -> None:
        self.known: Dict[str, Any] = {}

    def value(self, kind: str, value: Any) -> Any:
        """The value of a dump of this kind."""
        if kind == "map":
            parts = {key: self.shared(value[key]) for key in ("osds", "pools")}
            return {**without(value, UNREAD_OF_MAP), **parts}
        if kind == "query":
            infos = {"info": without(value["info"], UNREAD_OF_INFO), "peer_info": each_without(value["peer_info"], UNREAD_OF_INFO)}
            return {**without(value, UNREAD_OF_QUERY), **infos}
        if kind == "stats":
            whole = value["pg_map"] if "pg_map" in value else value
            has_stats = isinstance(whole, dict) and "pg_stats" in whole
            return {"pg_stats": each_without(whole["pg_stats"], UNREAD_OF_STAT)} if has_stats else value
        return value

    def shared(self, items: Any) -> Any:
        """The items of a list, each without its addresses and as the equal one that was there before."""
        if not isinstance(items, list):
            return items
        found = []
        for item in items:
            item = {key: it for key, it in item.items() if "_addr" not in key} if isinstance(item, dict) else item
            found.append(self.known.setdefault(repr(item), item))
        return found


def without(value: Any, keys: Any) -> Any:
    return {key: it for key, it in value.items() if key not in keys} if isinstance(value, dict) else value


def each_without(items: Any, keys: Any) -> Any:
    return [without(item, keys) for item in items] if isinstance(items, list) else items
