"""The verb `draw`: a picture of what a script says of one group."""

import argparse
import sys
from typing import Any, Optional

from .epochs import Epochs, epochs_of, numbers_beside
from .maps import group_text, named_group
from .nodes import Unusable
from .output import tell, write
from .picture import Picture
from .program import option_of_program
from .steps import MOST_EPOCH, followed, group_of

ABOUT = """\
Draws what a script says of one group, as an SVG picture. SCRIPT is a file of lines for pgpeer, or `-`, and POOL.PG the group as
Ceph writes it, PG in hexadecimal. The program is asked after each entry that it takes. Lines of the script that ask are passed
over; an entry that is refused is told on standard error and not drawn. Where the script has its epochs beside it
(SCRIPT.epochs.json, or --epochs FILE), the picture's are Ceph's, and so are those of --from and --to.

Status 0: the picture was written. Status 2: the command line or the script is wrong, the group isn't in its map, or a write
failed; with --output there is no picture then.
"""


def script_epoch(epochs: Epochs, epoch: Optional[int], otherwise: int) -> int:
    """The script's epoch for one that the command line names."""
    if epoch is None:
        return otherwise
    if epoch < 0:
        raise Unusable(f"there is no epoch {epoch}")
    return epochs.in_script(epoch)


def drawn(options: argparse.Namespace) -> str:
    epochs, numbers = epochs_of(options.script, options.epochs), numbers_beside(options.script, options.epochs)
    since, until = script_epoch(epochs, options.since, 0), script_epoch(epochs, options.until, MOST_EPOCH)
    group, refused = followed(options.program, options.script, *group_of(options.group, numbers), since, until, epochs)
    for told in refused:
        tell(told)
    return Picture(group._replace(name=group_text(named_group(options.group))), epochs).svg()


def run(options: argparse.Namespace) -> int:
    picture = drawn(options)
    if options.output is None and hasattr(sys.stdout, "reconfigure"):
        sys.stdout.reconfigure(encoding="utf-8")
    write(picture, options.output)
    return 0


def add_to(verbs: Any) -> None:
    parser = verbs.add_parser("draw", help="a picture of a group's intervals", description=ABOUT,
                              formatter_class=argparse.RawDescriptionHelpFormatter)
    parser.add_argument("script", metavar="SCRIPT", help="a file of lines for pgpeer, or -")
    parser.add_argument("group", metavar="POOL.PG", help="the group, PG in hexadecimal")
    option_of_program(parser)
    parser.add_argument("--from", dest="since", type=int, metavar="EPOCH", help="the first epoch that is drawn")
    parser.add_argument("--to", dest="until", type=int, metavar="EPOCH", help="the last epoch, at whose end the group is told")
    parser.add_argument("--epochs", metavar="FILE", help="how the script's epochs and Ceph's go together")
    parser.add_argument("--output", "-o", metavar="PICTURE", help="the picture's file, which is written whole or not at all")
    parser.set_defaults(run=run)
