"""The verb `script`: the script of a cluster's history, from the dumps of maps, trees, groups, queries and logs."""

import argparse
from dataclasses import replace
from typing import Any

from .carry import PLACING, finish, is_misplaced, options_of_scripts
from .folder import Dumps, read_folder
from .history import Script, history
from .maps import named_group
from .nodes import MOST, Unusable
from .notes import Notes
from .numbers import Numbers, do_fit, infos_under, numbers_of, renumbered
from .story import Selection

ABOUT = """\
Writes an incremental for each epoch, from the dumps of maps, trees, groups, queries and logs in files and folders; each is told
by what it holds. docs/REAL_MAPS.md has their names and what comes of them; `-` is standard input. What can't be carried over is
told on standard error, a line for each cause; with --strict it is an error.

Status 0: the script was written. Status 2: the command line or the input is wrong, a write failed, or --strict found something;
then nothing was written.
"""


def whole_history(options: argparse.Namespace, notes: Notes) -> Script:
    """The script of all dumps that the command line names."""
    return history_of(read_folder([*options.files, *options.groups], notes), options, notes)


def history_of(dumps: Dumps, options: argparse.Namespace, notes: Notes) -> Script:
    """The script of all dumps. Where the tree can't be carried and groups were dumped, acting sets are Ceph's."""
    for cause, things in dumps.not_fetched.things.items():
        for thing in things:
            notes.tell(f"not fetched: {cause}", thing)
    wanted = Selection(options.pool, options.since, options.until, bool(options.groups), options.ask, options.straw2, options.keep_epochs)
    if options.groups and not (dumps.sets or dumps.stats):
        raise Unusable(f"{' '.join(options.groups)}: no groups, as osdmaptool --test-map-pgs-dump-all prints them")
    for pool in options.pool:
        if not any(node.key("pool").whole() == pool for it in dumps.maps.values() for node in it.key("pools").items()):
            raise Unusable(f"the maps have no pool {pool}")
    numbers, has_sets = Numbers(), bool(dumps.sets or dumps.stats or dumps.queries)
    if has_sets and not do_fit(dumps):
        numbers = numbers_of(dumps, options.pool, {named_group(words) for words in options.pg}, notes)
        dumps = replace(renumbered(dumps, numbers), infos=infos_under(dumps, numbers))
        wanted = wanted._replace(own_sets=True, pools=[])
    first = Notes()
    found = history(dumps, wanted, first)
    if not wanted.own_sets and has_sets and is_misplaced(first):
        first = Notes()
        wanted = wanted._replace(own_sets=True)
        found = history(dumps, wanted, first)
    for cause, things in first.things.items():
        for thing in things:
            if not (wanted.own_sets and cause.startswith(PLACING)):
                notes.tell(cause, numbers.named(thing))
    return found._replace(numbers=numbers)


def add_to(verbs: Any) -> None:
    parser = verbs.add_parser("script", help="the script of a cluster's history", description=ABOUT,
                              formatter_class=argparse.RawDescriptionHelpFormatter)
    options_of_scripts(parser)
    parser.add_argument("files", metavar="FILE|FOLDER", nargs="+", help="dumps, and folders of them")
    parser.add_argument("--pg", action="append", default=[], metavar="PG", help="carry this group, also where there are more than fit")
    parser.add_argument("--groups", action="append", default=[], metavar="FILE", help=(
        "where groups lie, as `osdmaptool MAP --test-map-pgs-dump-all` or `ceph pg dump --format json` prints it; "
        "acting sets are then Ceph's"))
    parser.add_argument("--from", dest="since", type=int, default=0, metavar="EPOCH", help="the first epoch")
    parser.add_argument("--to", dest="until", type=int, default=MOST, metavar="EPOCH", help="the last epoch")
    parser.set_defaults(run=lambda options: finish(options, whole_history))
