"""The verb `map`: the incrementals that make the map of a Ceph cluster, without history and reports.

The script's epochs count from 1, or with --keep-epochs lead to the map's. Devices boot in the first, and the pools are made
once those that are down have gone down. An up_thru that was recorded since the device booted becomes the script's last epoch,
so the interval in which the pools are made may have gone read-write, as it may have in Ceph.
"""

import argparse
from typing import Any, Dict, Iterator, List, Optional, Tuple

from .carry import finish, options_of_scripts
from .history import Script, bucket_object, map_lines, pool_parts
from .maps import IN, Device, Pool, read_devices, read_pool, read_pools, read_temps, tell_map
from .nodes import Node, Unusable, load, ranges
from .notes import Notes
from .trees import Bucket, carried_tree, choice_of, pools_of_one_root, read_crush, tell_classes, within_all_groups

HISTORY = "the map's history, and what members report of groups"
HOW = "pgpeer-ceph fetch FOLDER and script FOLDER carry them; --alone says that the map alone is wanted"
ABOUT = """\
Writes the incrementals that make the map of a Ceph cluster. OSDMAP.json is what `ceph osd dump --format json` or
`osdmaptool MAP --dump json` prints, and CRUSH.json what `ceph osd crush dump` or `crushtool -i CRUSH --dump` prints; `-` is
standard input. What can't be carried over is told on standard error, a line for each cause; with --strict it is an error.

Status 0: the script was written. Status 2: the command line or the input is wrong, a write failed, or --strict found something;
then nothing was written.
"""

Line = Dict[str, Any]


def device_parts(devices: List[Device], tree: List[Bucket], notes: Notes) -> List[Line]:
    """The incrementals that make the devices: they boot, then those go down that are down, then those that don't exist."""
    known = {device.id for device in devices}
    absent = sorted({item for bucket in tree for item in bucket.items if item >= 0} - known)
    if absent:
        notes.tell("weights of devices that stand in the tree and don't exist, taken for 0", f"osd {ranges(absent)}")
    weights = [[device.id, device.weight] for device in devices if device.weight != IN] + [[osd, 0] for osd in absent]
    down = sorted([device.id for device in devices if not device.up] + absent)
    first = {"up": sorted([*known, *absent]), "weight": sorted(weights), "crush": [bucket_object(it) for it in tree]}
    parts: List[Line] = [first, {"down": down}, {"gone": absent}]
    return [part for part in parts if any(part.values())]


def script(osdmap: Node, crush_node: Optional[Node], options: argparse.Namespace, notes: Notes) -> Tuple[List[Line], List[Pool]]:
    """The incrementals, and the pools that they make. With pools wanted, just those."""
    wanted: List[int] = options.pool
    devices, pools = read_devices(osdmap, notes), read_pools(osdmap, notes) if not wanted else []
    if wanted:
        pools = wanted_pools(osdmap, wanted, notes)
    tree: List[Bucket] = []
    leaves = {pool.id: 0 for pool in pools}
    if crush_node is None:
        notes.tell("the tree, in whose place the script has none", "no CRUSH dump was given")
    else:
        crush = read_crush(crush_node, notes)
        root, pools = pools_of_one_root(crush, pools, notes)
        tell_classes(crush_node, notes)
        tree = carried_tree(crush, root, options.straw2, notes)
        leaves = {pool.id: choice_of(crush, pool).type for pool in pools}
    pools = within_all_groups(pools, notes)
    tell_map(osdmap, {pool.id for pool in pools}, notes)
    temps = read_temps(osdmap, pools, notes)
    parts = device_parts(devices, tree, notes) + list(pool_parts(pools, temps, leaves))
    served = [device.id for device in devices if device.served()]
    last = osdmap.key("epoch").count() if options.keep_epochs else len(parts)
    if pools and served:
        parts[-1]["up_thru"] = [[osd, last] for osd in sorted(served)]
    return map_lines(parts, last), pools


def wanted_pools(osdmap: Node, wanted: List[int], notes: Notes) -> List[Pool]:
    nodes = {pool.key("pool").whole(): pool for pool in osdmap.key("pools").items()}
    for number in wanted:
        if number not in nodes:
            raise Unusable(f"{osdmap.where} has no pool {number}")
    pools = [read_pool(osdmap, nodes[number], notes) for number in sorted(set(wanted))]
    return [pool for pool in pools if pool]


def questions(pools: List[Pool]) -> Iterator[Line]:
    """A question for each group."""
    return ({"op": "ask", "pg": [pool.id, group]} for pool in pools for group in range(pool.pg_num))


def map_alone(options: argparse.Namespace, notes: Notes) -> Script:
    osdmap, crush = load(options.osdmap), load(options.crush) if options.crush else None
    lines, pools = script(osdmap, crush, options, notes)
    if pools and not options.alone:
        notes.tell(HISTORY, HOW)
    return Script([*lines, *(questions(pools) if options.ask else ())], None)


# The verb


def add_to(verbs: Any) -> None:
    parser = verbs.add_parser("map", help="the script of one map, without history", description=ABOUT,
                              formatter_class=argparse.RawDescriptionHelpFormatter)
    options_of_scripts(parser)
    parser.add_argument("osdmap", metavar="OSDMAP.json", help="the map, as JSON")
    parser.add_argument("crush", metavar="CRUSH.json", nargs="?", help="its CRUSH tree, as JSON; without it there is no tree")
    parser.add_argument("--alone", action="store_true", help="the map alone is wanted, without history and reports")
    parser.set_defaults(run=lambda options: finish(options, map_alone))
