"""What `pgpeer explain` says of a group at the end of a script: why it doesn't serve, and what it waits for."""

import json
import re
import subprocess
from typing import Any, Dict, Iterable, List, NamedTuple

from .epochs import Epochs
from .nodes import Unusable
from .program import FORMAT

Set = List[int]  # devices that are enough together
MOST_SPANS = 5  # runs of epochs that are named
NAMED = re.compile(r"(?<=\bepoch )\d+|(?<=\bup_thru )\d+|(?<=\bepochs )\d+(?:(?:, and | and |, | to )\d+)*")  # epochs in a sentence
KEYS = ("says", "verdict", "blocking", "ways", "unheard")


class Reasons(NamedTuple):
    """The keys of the explanation that a picture shows."""

    says: str
    verdict: str
    blocking: List[Dict[str, Any]]  # each with the keys of its interval
    ways: Dict[str, Any]
    unheard: List[List[int]]
    epochs: Epochs = Epochs()  # how those of the script, in all keys except `says`, go together with Ceph's
    whole: Dict[str, Any] = {}  # all keys, as the program gave them

    def waits(self) -> Dict[int, str]:
        """For which devices the group waits, and how."""
        unheard = self.unheard if self.verdict == "Waiting" else []
        return {**{osd: "unheard" for osd, _ in unheard}, **{osd: "blocks" for it in self.blocking for osd in it["down"]}}


def together(names: Iterable[str]) -> str:
    """Names as a list in words."""
    found = list(names)
    return " and ".join([", ".join(found[:-1]), found[-1]] if len(found) > 1 else found)


def osds_named(osds: Iterable[int]) -> str:
    return together(f"osd.{osd}" for osd in osds)


def sets_text(ways: Dict[str, Any], epochs: Epochs = Epochs()) -> str:
    """Sets of devices, each of which is enough, as `osd.0, or osd.3 and osd.5`, with what goes on without."""
    if ways["any"] is not None and ways["any"]["least"] > 1:
        return f"any {ways['any']['least']} of {osds_named(ways['any']['osds'])}{without_text(ways['sets'][0], epochs)}"
    found = ", or ".join(osds_named(way["start"]) + without_text(way, epochs) for way in ways["sets"])
    return found + (" (there may be others)" if ways["more"] else "")


def given_up(way: Dict[str, Any]) -> List[Dict[str, Any]]:
    """The intervals without whose writes a group goes on."""
    return [it for it in way["intervals"] if it["writes"] != "readable"]


def without_text(way: Dict[str, Any], epochs: Epochs) -> str:
    """The writes without which a group goes on, if there are some."""
    lost = given_up(way)
    return f" (without what was written in {epochs_text(lost, epochs)} at least)" if lost else ""


def way_text(way: Dict[str, Any], epochs: Epochs = Epochs()) -> str:
    """What is done, and what the group is then."""
    deeds = [f"start {osds_named(way['start'])}"] if way["start"] else []
    deeds += [f"declare {osds_named(way['lost'])} lost"] if way["lost"] else []
    then = f", then {way['then']['verdict']}" if way["then"] else ""
    unreadable = ", and no object can be read then" if way["unreadable"] else ""
    return f"{' and '.join(deeds)}{then}{without_text(way, epochs)}{unreadable}"


def epochs_text(blocking: List[Dict[str, Any]], epochs: Epochs = Epochs()) -> str:
    """The epochs of intervals, as `epoch 3` or `epochs 3 to 4 and 7`; those that follow on each other are told as one."""
    runs: List[List[int]] = []
    for it in blocking:
        if runs and runs[-1][1] + 1 == it["first"]:
            runs[-1][1] = it["last"]
        else:
            runs.append([it["first"], it["last"]])
    texts = ((epochs.text(first), epochs.text(last)) for first, last in runs)
    spans = [first if first == last else f"{first} to {last}" for first, last in texts]
    named = together(spans) if len(spans) <= MOST_SPANS else ", ".join([*spans[:MOST_SPANS], "and later ones"])
    return f"epoch{'' if len(spans) == 1 and ' ' not in spans[0] else 's'} {named}"


def in_ceph(sentence: str, epochs: Epochs) -> str:
    """A sentence of the program's with the epochs of Ceph."""
    return NAMED.sub(lambda named: re.sub(r"\d+", lambda epoch: epochs.text(int(epoch[0])), named[0]), sentence)


def explained(program: str, lines: Iterable[str], group: str, epochs: Epochs = Epochs(), with_losses: bool = False) -> Reasons:
    """What the program says of a group that the lines make, with the epochs of Ceph."""
    words = [program, "explain", group, "--json", *(["--losses"] if with_losses else []), *FORMAT]
    script = "".join(f"{line}\n" for line in lines)
    try:
        run = subprocess.run(words, input=script.encode(), capture_output=True)
    except OSError as fault:
        raise Unusable(f"{program}: {fault.strerror}") from fault
    if run.returncode != 0:
        told = run.stderr.decode(errors="replace").strip().splitlines()[-1:]
        raise Unusable(f"{program} explain ended with status {run.returncode}: {''.join(told)}")
    try:
        found = json.loads(run.stdout)
        reasons = Reasons(*(found[key] for key in KEYS), epochs)
        blocking = [{**it["interval"], **it} for it in reasons.blocking]
        return reasons._replace(says=in_ceph(reasons.says, epochs), blocking=blocking, whole=found)
    except (ValueError, RecursionError, KeyError, TypeError) as fault:
        raise Unusable(f"{program} explain gave no explanation") from fault
