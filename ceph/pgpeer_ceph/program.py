"""Where the program is that judges groups."""

import argparse
import os
import pathlib
import shutil

TOP = pathlib.Path(__file__).resolve().parents[2]  # of the repository, or where the command is installed as one file


def found() -> str:
    """The program that the environment's PGPEER names, that of the repository, that beside the command, or that of the path."""
    beside = (str(it) for it in (TOP / "crates/pgpeer/out/pgpeer", TOP / "pgpeer") if it.is_file())
    return os.environ.get("PGPEER") or next(beside, None) or shutil.which("pgpeer") or "pgpeer"


FORMAT = ("--format", "3")  # of the lines that are read


def option_of_program(parser: argparse.ArgumentParser) -> None:
    parser.add_argument("--program", default=found(), metavar="PATH", help="the program pgpeer, where it isn't found")
