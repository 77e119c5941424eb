"""Generated logs, one after the other, until something is found: for laws.py and compaction.py."""

import argparse
import itertools
import random
import time
from typing import Callable, Counter, Iterable, List, Optional, TypeVar

import model
from maps import Group

Found = TypeVar("Found")


def first_groups(log: model.Model) -> List[Group]:
    """The first groups of each pool, which a story is about."""
    made = log.maps.made
    return [(pool, pg) for pool in made for pg in range(min(made[pool]["pg_num"], 2))]


def options_of(about: Optional[str], wrong: Iterable[str]) -> argparse.Namespace:
    """The command line: how many logs, and which of the wrong definitions is put into the model."""
    parser = argparse.ArgumentParser(description=about, formatter_class=argparse.RawDescriptionHelpFormatter)
    parser.add_argument("--seed", default="1")
    parser.add_argument("--logs", type=int, default=200, metavar="N", help="how many logs (by default 200)")
    parser.add_argument("--minutes", type=float, metavar="M", help="goes on for so long instead")
    parser.add_argument("--wrong", choices=list(wrong), default="", metavar="NAME", help=", ".join(wrong))
    return parser.parse_args()


def first_found(
    options: argparse.Namespace, begin: Callable[[random.Random], Callable[[], Optional[Found]]], counted: Counter[str]
) -> Optional[Found]:
    """What is found first. Each log begins by `begin`, which gives what takes a line and says what is found then."""
    end = time.monotonic() + 60 * (options.minutes or 0)
    for number in itertools.count():
        if time.monotonic() > end if options.minutes else number >= options.logs:
            return None
        rng = random.Random(f"{options.seed}/{number}")
        take = begin(rng)
        for _ in range(rng.choice((50, 150, 400))):
            found = take()
            if found is not None:
                return found
        counted["logs"] += 1
    return None


def figures(counted: Counter[str]) -> str:
    return ", ".join(f"{counted[key]:,} {key}" for key in sorted(counted))
