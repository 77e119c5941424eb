"""A cluster as a folder keeps it: what Ceph said of its groups, the script of its dumps, and what the program says of that."""

import argparse
import json
from typing import Any, Callable, Dict, Iterable, Iterator, List, NamedTuple, Optional, Set, Tuple

from . import script
from .epochs import Epochs
from .folder import Dumps, read_folder, version_of
from .maps import Group, Places, group_text, places_of, read_group
from .nodes import Node, Unusable
from .notes import Notes
from .numbers import pools_of
from .parts import Part, Parts
from .reasons import Reasons, explained
from .reports import peering_of
from .sets import stats_of
from .steps import Pool, View, answer_of, streamed

Added = Callable[[List[Group], Part], List[str]]  # the lines that are added for some groups of the script

SERVES = ("Serve", "NeedUpThru")  # the second passes with the next map
REFUSED = b'{"code":'  # how the answer to a line begins that is refused


class Said(NamedTuple):
    """What Ceph said last of a group."""

    epoch: int
    state: str
    up: Places
    acting: Places
    blocked_by: List[int]
    is_query: bool

    def is_active(self) -> bool:
        words = self.state.split("+")
        return "active" in words and "stale" not in words


def said_of(dumps: Dumps) -> Dict[Group, Said]:
    """What Ceph said last of each group; of the same epoch a query."""
    found: Dict[Group, Said] = {}
    for dump in dumps.stats:
        for stat in stats_of(dump):
            take_said(found, read_group(stat.key("pgid")), said_by(stat, stat.count_of("reported_epoch"), [], False))
    for query in dumps.queries:
        peering = peering_of(query)
        blocked = [it.key("osd").whole() for it in peering.items_of("peering_blocked_by")] if peering else []
        take_said(found, read_group(query.key("info").key("pgid")), said_by(query, query.key("epoch").count(), blocked, True))
    return found


def said_by(node: Node, epoch: int, blocked: List[int], is_query: bool) -> Said:
    return Said(epoch, node.key("state").text(), places_of(node.key("up")), places_of(node.key("acting")), blocked, is_query)


def take_said(found: Dict[Group, Said], group: Group, said: Said) -> None:
    if group not in found or said.epoch >= found[group].epoch:
        found[group] = said


class Cluster:
    """What a folder keeps of a cluster, with the script of it. Groups are named as Ceph names them."""

    def __init__(self, folder: str, program: str, named: Iterable[Group] = ()):
        self.folder, self.program, self.notes = folder, program, Notes()
        dumps = read_folder([folder], self.notes)
        made = script.history_of(dumps, options_of(folder, named), self.notes)
        self.numbers, self.epochs = made.numbers, made.epochs or Epochs()
        self.parts = Parts(made.lines)
        self.said = said_of(dumps)
        self.at_end: Dict[Group, View] = {}  # what the program says of all groups, once it was asked
        self.last, self.uses = dumps.maps[max(dumps.maps)], dumps.uses
        self.modified = {epoch: node.value.get("modified") for epoch, node in dumps.maps.items()}
        trees = [version for version in dumps.trees if version <= version_of(self.last)]
        self.tree: Optional[Node] = dumps.trees[max(trees)] if trees else None
        counts = pools_of(self.last)
        self.groups = [(pool, pg) for pool, count in sorted(counts.items()) for pg in range(count)]
        self.tell_others()
        self.check_named(named)

    def tell_others(self) -> None:
        """Tells of groups that Ceph named and the last map hasn't, as where maps of later epochs weren't kept."""
        for group in sorted(self.said.keys() - set(self.groups)):
            self.notes.tell(f"groups that the last map, of epoch {self.last.key('epoch').count()}, doesn't have", group_text(group))

    def check_named(self, named: Iterable[Group]) -> None:
        for group in named:
            if group not in self.carried():
                raise Unusable(f"{self.folder} has no group {group_text(group)}")

    def carried(self) -> Set[Group]:
        """The groups that the script has."""
        if self.numbers.pools:
            return set(self.numbers.scripts)
        return {(pool, pg) for pool, count in self.parts.counts().items() for pg in range(count)}

    def in_script(self, group: Group) -> Group:
        return self.numbers.in_script(group)

    def pool(self, group: Group) -> Pool:
        return self.parts.pool(self.in_script(group))

    def devices(self) -> Dict[int, Dict[str, Any]]:
        """What the last map says of each device."""
        return {it.key("osd").whole(): it.value for it in self.last.key("osds").items()}

    # What the program says

    def all_views(self) -> Dict[Group, View]:
        """What the program says of all groups that the script has, at its end."""
        if not self.at_end:
            asked = sorted(self.in_script(group) for group in self.carried())
            self.at_end = self.answered(list(self.parts.whole()), [], {group: group for group in asked})
        return self.at_end

    def views(self, groups: Iterable[Group], more: Optional[Added] = None) -> Dict[Group, View]:
        """What the program says of some groups at the end of the script, after more lines."""
        asked = [self.in_script(group) for group in groups]
        part = self.parts.of(asked)
        return self.answered(part.lines, more(asked, part) if more else [], part.names)

    def answered(self, lines: List[str], added: List[str], names: Dict[Group, Group]) -> Dict[Group, View]:
        """The views of groups, without intervals that play no part. Epochs are the script's."""
        asked, found, count, first = list(names), {}, 0, len(lines) + len(added)
        for count, line in enumerate(streamed(self.program, with_questions([*lines, *added], names.values())), 1):
            if count > first:
                view = slim(answer_of(line, self.program))
                if "ok" in view:
                    found[self.numbers.in_ceph(asked[count - first - 1])] = view
            elif line.startswith(REFUSED):
                own = count <= len(lines)
                self.take_refused(answer_of(line, self.program), lines[count - 1] if own else added[count - 1 - len(lines)], not own)
        if count != first + len(asked):
            raise Unusable(f"{self.program} gave {count} answers to {first + len(asked)} lines")
        return found

    def take_refused(self, answer: Dict[str, Any], line: str, is_added: bool) -> None:
        """Tells of a line that the program refused."""
        told = f"{answer.get('refused')} of {line[:80]}"
        if is_added:
            raise Unusable(f"{self.program} refused what was to be tried: {told}")
        self.notes.tell("lines of the script that the program refused", told)

    def reasons(self, group: Group, with_losses: bool = False) -> Reasons:
        """Why a group doesn't serve, in Ceph's epochs."""
        own = self.in_script(group)
        part = self.parts.alone(own)
        return explained(self.program, part.lines, group_text(part.names[own]), self.epochs, with_losses)

    def unheard(self, group: Group, view: View) -> List[Tuple[int, int]]:
        """The members that a group waits to hear from."""
        return self.parts.unheard(self.in_script(group), view)


def options_of(folder: str, named: Iterable[Group]) -> argparse.Namespace:
    """The options of the verb `script` for a folder, as they are where nothing is said."""
    verbs = argparse.ArgumentParser().add_subparsers()
    script.add_to(verbs)
    words = [word for group in named for word in ("--pg", group_text(group))]
    options: argparse.Namespace = verbs.choices["script"].parse_args([*words, "--", folder])
    return options


def with_questions(lines: List[str], groups: Iterable[Group]) -> Iterator[str]:
    yield from lines
    for group in groups:
        yield json.dumps({"op": "ask", "pg": list(group)})


def slim(view: View) -> View:
    """A view with those of its past intervals alone that may have gone read-write and matter, and how many were before."""
    wrote = [it for it in view.get("intervals", ()) if it["rw"]]
    kept = [it for it in wrote if it["last"] >= view["les"]]
    return {**view, "intervals": kept, "settled": len(wrote) - len(kept)}
