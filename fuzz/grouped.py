"""Makes the parts of grouped pools, sound and faulty: lists of [slots, least]."""

import copy
import random
from typing import Any, Callable, List

MOST = 16  # parts, slots of a part, and slots in all
Parts = List[List[Any]]


def sound(rng: random.Random, size: int) -> Parts:
    """The parts of a code of this size."""
    return rng.choice((sites, sites, local, any_parts))(rng, size)


def sites(rng: random.Random, size: int) -> Parts:
    """Neighbouring slots, as many in each site, of which the same number has to be there, or one."""
    width = rng.choice((1, 2, 2, 3, size))
    slots = [list(range(begin, min(begin + width, size))) for begin in range(0, size, width)]
    least = rng.randint(1, width)
    return [[part, min(least, len(part))] for part in slots]


def local(rng: random.Random, size: int) -> Parts:
    """Two halves, each of which can make up for one slot, and slots that no part has to have."""
    half = max(1, size // 2 - rng.choice((0, 0, 1)))
    halves = [list(range(half)), list(range(half, min(2 * half, size)))]
    return [[part, max(1, len(part) - 1)] for part in halves if part]


def any_parts(rng: random.Random, size: int) -> Parts:
    """Some of the slots in any order, in any number of parts, with any least numbers."""
    slots = rng.sample(range(size), rng.randint(1, size))
    cuts = sorted(rng.sample(range(1, len(slots)), rng.randint(0, min(3, len(slots) - 1))))
    pieces = [slots[begin:end] for begin, end in zip([0, *cuts], [*cuts, len(slots)])]
    return [[part, rng.randint(1, len(part))] for part in pieces]


# Faults


def is_part(value: Any) -> bool:
    """Tells whether the value has the shape of a part, if not its bounds."""
    return isinstance(value, list) and len(value) == 2 and isinstance(value[0], list)


def another(rng: random.Random, groups: Parts) -> List[Any]:
    """Any of the parts that have their shape; one is put in where there is none."""
    shaped = [part for part in groups if is_part(part)]
    if not shaped:
        shaped = [[[0], 1]]
        groups += shaped
    return rng.choice(shaped)


def many_parts(rng: random.Random, groups: Parts, size: int) -> None:
    groups[:] = [[[slot % MOST], 1] for slot in range(rng.choice((16, 17, 17, 40)))]


def many_slots(rng: random.Random, groups: Parts, size: int) -> None:
    another(rng, groups)[0] = [slot % MOST for slot in range(rng.choice((16, 17, 17, 40)))]


def far_slot(rng: random.Random, groups: Parts, size: int) -> None:
    another(rng, groups)[0].append(rng.choice((size, size - 1, 15, 16, 16, -1, 255)))


def least_beyond(rng: random.Random, groups: Parts, size: int) -> None:
    part = another(rng, groups)
    part[1] = rng.choice((0, 0, len(part[0]), len(part[0]) + 1, len(part[0]) + 1, 255, 256, -1))


def twice_in_one(rng: random.Random, groups: Parts, size: int) -> None:
    slots = another(rng, groups)[0]
    slots.append(rng.choice(slots or [0]))


def twice_in_two(rng: random.Random, groups: Parts, size: int) -> None:
    groups.append([[rng.choice(another(rng, groups)[0] or [0])], 1])


def empty_part(rng: random.Random, groups: Parts, size: int) -> None:
    groups.insert(rng.randint(0, len(groups)), [[], rng.choice((0, 1, 1))])


def no_part(rng: random.Random, groups: Parts, size: int) -> None:
    groups.clear()


def other_shape(rng: random.Random, groups: Parts, size: int) -> None:
    part = another(rng, groups)
    roll = rng.randrange(4)
    if roll == 0:
        part.append(1)
    elif roll == 1:
        part.pop()
    elif roll == 2:
        part.reverse()
    else:
        part[1] = rng.choice((1.0, "1", None, True, [1]))


FAULTS: List[Callable[[random.Random, Parts, int], None]] = [
    many_parts, many_slots, far_slot, far_slot, least_beyond, least_beyond, twice_in_one, twice_in_two, empty_part, no_part,
    other_shape,
]  # fmt: skip


def faulty(rng: random.Random, groups: Parts, size: int) -> Parts:
    """The parts with a fault or two, or just short of one. One that changes the shape of a part comes last."""
    found = copy.deepcopy(groups)
    for fault in sorted(rng.sample(FAULTS, rng.choice((1, 1, 1, 2))), key=FAULTS.index):
        fault(rng, found, size)
    return found
