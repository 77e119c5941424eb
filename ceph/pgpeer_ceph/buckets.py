"""The hosts, racks and other buckets of a cluster, with the devices below each."""

from typing import Dict, Iterator, List, NamedTuple, Set, Tuple

from .cluster import Cluster
from .nodes import Node, Unusable

MOST_NAMED = 12


class Place(NamedTuple):
    """A bucket, or a device as the bucket of itself."""

    kind: str
    name: str
    osds: Tuple[int, ...]

    def text(self) -> str:
        return self.name if self.kind == "osd" else f"{self.kind} {self.name}"


class Item(NamedTuple):
    kind: str
    name: str
    items: List[int]


def items_of(cluster: Cluster) -> Dict[int, Item]:
    """The buckets of the last tree, or of `ceph osd df tree` where no tree was kept. Those of a device class are left out."""
    found: Dict[int, Item] = {}
    if cluster.tree is not None:
        for node in cluster.tree.key("buckets").items():
            items = [it.key("id").whole() for it in node.key("items").items()]
            found[node.key("id").whole()] = Item(kind_of(node), node.key("name").text(), items)
    else:
        for node in (it for use in cluster.uses for it in use.key("nodes").items() if it.has("children")):
            items = [it.whole() for it in node.key("children").items()]
            found[node.key("id").whole()] = Item(node.key("type").text(), node.key("name").text(), items)
    return {number: item for number, item in found.items() if "~" not in item.name}


def kind_of(node: Node) -> str:
    return node.key("type_name").text() if node.has("type_name") else "bucket"


def below(items: Dict[int, Item], number: int, seen: Set[int]) -> Iterator[int]:
    """The devices below a bucket, none twice."""
    for item in items[number].items:
        if item not in seen:
            seen.add(item)
            if item >= 0:
                yield item
            elif item in items:
                yield from below(items, item, seen)


def places_of(cluster: Cluster, kind: str) -> List[Place]:
    """The buckets of a kind, by name; of the kind osd the devices."""
    if kind == "osd":
        return [Place("osd", f"osd.{osd}", (osd,)) for osd in sorted(cluster.devices())]
    items = items_of(cluster)
    found = [Place(kind, item.name, tuple(sorted(below(items, number, set())))) for number, item in items.items() if item.kind == kind]
    if not found:
        kinds = ", ".join(sorted({item.kind for item in items.values()})) or "none, as no tree was kept"
        raise Unusable(f"the cluster has no {kind}; it has {kinds}")
    return sorted(found, key=lambda place: place.name)


def place_of(cluster: Cluster, words: str) -> Place:
    """The place that a command line names: osd.7, or host:h3."""
    kind, _, name = ("osd", ":", words) if ":" not in words else words.partition(":")
    found = places_of(cluster, kind)
    for place in found:
        if place.name == name:
            return place
    named = ", ".join(place.name for place in found[:MOST_NAMED]) + (", .." if len(found) > MOST_NAMED else "")
    raise Unusable(f"the cluster has no {kind} {name}; it has {named}")


def hosts_of(cluster: Cluster) -> Dict[int, str]:
    """The host of each device, where the tree tells."""
    items = items_of(cluster)
    return {osd: item.name for number, item in items.items() if item.kind == "host" for osd in below(items, number, set())}
