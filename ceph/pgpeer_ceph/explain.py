"""The verb `explain`: why groups don't serve, from a folder or a script, in the words and the epochs of Ceph."""

import argparse
import json
import os
from typing import Any, Dict, List, NamedTuple, Tuple

from .epochs import epochs_of, numbers_beside
from .folder_told import folder_text
from .group_told import Infos, Told, head, lines_of
from .maps import group_text, named_group
from .nodes import Unusable
from .output import tell, write
from .program import option_of_program
from .reasons import explained
from .steps import Entry, History, View, answers, group_of, missing_group, read_script

ABOUT = """\
Tells why groups don't serve, in the names, states and epochs of Ceph. Of a FOLDER that fetch filled: what Ceph says and what the
program says by the script of it, and which rule of docs/REAL_MAPS.md tells why they differ. Without a group it is a table of all
that aren't active; a group PG is told at length, with what of it couldn't be carried over. Of a SCRIPT, a file of lines for
pgpeer or `-`: each group in one line, or some at length; epochs and groups are Ceph's where SCRIPT.epochs.json stands beside it,
or by --epochs FILE. It changes nothing in the cluster.

Status 0: the groups were told. Status 2: the command line or the input is wrong, or the group isn't in the map.
"""


def pools_of(entries: List[Entry]) -> Dict[int, Dict[str, Any]]:
    """The pools that the script tries to make."""
    pools = [pool for _, _, entry in entries for pool in entry.get("pools") or [] if isinstance(pool, dict)]
    return {pool["id"]: pool for pool in pools if isinstance(pool.get("id"), int) and isinstance(pool.get("pg_num"), int)}


class Answers(NamedTuple):
    """What the program answers to a script: the entries that it takes, and of each group what it says at the end."""

    taken: List[Dict[str, Any]]
    views: Dict[Tuple[int, int], View]

    def history(self, group: Tuple[int, int]) -> History:
        found = History(*group)
        for entry in self.taken:
            found.take(entry)
        return found


    def infos(self, group: Tuple[int, int]) -> Infos:
        """The last info of each member."""
        found: Infos = {}
        for entry in self.taken:
            if entry["op"] == "info" and entry["pg"] == list(group):
                member = entry["from"][0], entry["from"][1]
                found[member] = max(found.get(member, entry), entry, key=lambda info: info["stamp"])
        return found


def told_of(program: str, entries: List[Entry], groups: List[Tuple[int, int]]) -> Answers:
    questions = [json.dumps({"op": "ask", "pg": list(group)}) for group in groups]
    said = answers(program, [*(line for _, line, _ in entries), *questions])
    found = said[len(said) - len(groups) :] if groups else []
    for number, answer in enumerate(said[: len(entries)], 1):
        if "ok" not in answer:
            tell(f"entry {number} of the script was refused: {answer.get('refused')}")
    taken = [entry for (_, _, entry), answer in zip(entries, said) if "ok" in answer]
    return Answers(taken, {group: view for group, view in zip(groups, found) if "ok" in view})


def groups_text(options: argparse.Namespace) -> str:
    entries, epochs = read_script(options.script), epochs_of(options.script, options.epochs)
    numbers = numbers_beside(options.script, options.epochs)
    pools = pools_of(entries)
    every = [(pool, pg) for pool, it in sorted(pools.items()) for pg in range(min(max(it["pg_num"], 0), 1024))]
    wanted = [group_of(words, numbers) for words in options.groups]
    told = told_of(options.program, entries, wanted or every)
    for words, group in zip(options.groups, wanted):
        if group not in told.views:
            raise missing_group(options.script, words, {pool: it["pg_num"] for pool, it in pools.items()})
    lines = []
    for group, view in told.views.items():
        name = group_text(numbers.in_ceph(group))
        if wanted:
            why = explained(options.program, [line for _, line, _ in entries], group_text(group), epochs, options.losses)
            lines += lines_of(Told(name, view, told.history(group), epochs, why, infos=told.infos(group)))
        else:
            lines.append(head(view, name, epochs))
    return "".join(f"{line}\n" for line in lines)


def run(options: argparse.Namespace) -> int:
    if os.path.isdir(options.script):
        if options.epochs:
            raise Unusable("--epochs is for a script; a folder has its own")
        groups = [named_group(words) for words in options.groups]
        write(folder_text(options.script, options.program, groups, options.losses))
    else:
        write(groups_text(options))
    return 0


def add_to(verbs: Any) -> None:
    parser = verbs.add_parser("explain", help="why groups don't serve, of a folder or a script", description=ABOUT,
                              formatter_class=argparse.RawDescriptionHelpFormatter)
    parser.add_argument("script", metavar="FOLDER|SCRIPT", help="what fetch filled, or a file of lines for pgpeer, or -")
    parser.add_argument("groups", metavar="PG", nargs="*", help="a group, PG in hexadecimal")
    parser.add_argument("--epochs", metavar="FILE", help="how the script's epochs and Ceph's go together")
    parser.add_argument("--losses", action="store_true", help="name devices to declare lost, too: the last resort")
    option_of_program(parser)
    parser.set_defaults(run=run)
