"""`python3 -m gract days`: an archive of days from a shell, as for a nightly job."""

import argparse
from pathlib import Path
from typing import Any, Optional, Union

from ..errors import ArgumentError
from ..grid import Grid
from . import days
from .folders import WAIT
from .manifest import Manifest


def add_to(parser: argparse.ArgumentParser) -> None:
    """Gives the command its words."""
    commands = parser.add_subparsers(dest="days", required=True)
    build = added(commands, "build", "build an archive of CSV files of rows")
    build.add_argument("rows", metavar="CSV", nargs="+")
    build.add_argument("--length", required=True, help="of a day, in units of time of the rows, or with a grid as '1 d'")
    for word, most, what in (("cell", None, "units a cell is wide"), ("tick", None, "units of time an instant lasts"),
                             ("period", 120, "instants a period has")):
        build.add_argument(f"--{word}", type=int, default=most, help=f"how many {what} ({most or 1})")
    build.add_argument("--grid", metavar="FILE", help="the grid, as NAME.grid.json")
    add = added(commands, "add", "add CSV files of rows: new days are built, to those that are there rows are joined")
    add.add_argument("rows", metavar="CSV", nargs="+")
    add.add_argument("--names", metavar="FILE", help="a CSV file object,name of objects that are new")
    drop = added(commands, "drop", "take away days that end before a time")
    drop.add_argument("--before", required=True, metavar="TIME", help="an instant, or with a grid as '2022-06-01 12:00', in UTC")
    for command in (build, add, drop):
        command.add_argument("--wait", type=float, default=WAIT, metavar="SECONDS", help=f"for another that writes ({WAIT:g})")
    added(commands, "list", "tell what there is of each day")
    added(commands, "check", "compare each day with the list, and open it; with status 1 where one is another, or a file not listed")


def added(commands: Any, name: str, what: str) -> argparse.ArgumentParser:
    """A command for a folder."""
    parser: argparse.ArgumentParser = commands.add_parser(name, help=what, description=f"{what[0].upper()}{what[1:]}.")
    parser.add_argument("folder", metavar="FOLDER")
    return parser


def run(given: argparse.Namespace) -> int:
    """Runs the command, and answers with its status."""
    if given.days == "build":
        grid = Grid.load(given.grid) if given.grid else None
        days.build(
            given.rows, given.folder, length=number_or_text(given.length), cell=given.cell, tick=given.tick, period=given.period,
            grid=grid, program=given.program, wait=given.wait,
        )
    elif given.days == "add":
        grid = with_names(given.folder, given.names) if given.names else None
        rows = given.rows[0] if len(given.rows) == 1 else given.rows
        print(days.add(rows, given.folder, grid=grid, program=given.program, wait=given.wait).text)
    elif given.days == "drop":
        dropped = days.drop(given.folder, before=number_or_text(given.before), wait=given.wait)
        print(f"dropped: {', '.join(map(str, dropped)) or 'none'}")
    elif given.days == "list":
        print(days.list(given.folder).table(), end="")
    else:
        return check(given)
    return 0


def check(given: argparse.Namespace) -> int:
    """Checks an archive."""
    found = days.check(given.folder, program=given.program)
    print(found.text)
    return 0 if found.is_whole else 1


def number_or_text(word: str) -> Union[int, str]:
    """A word as a whole number, where it is one."""
    try:
        return int(word)
    except ValueError:
        return word


def with_names(folder: str, names: str) -> Optional[Grid]:
    """The grid of an archive with these names. Refuses, by `ArgumentError`, where it has none."""
    grid = Manifest.load(Path(folder)).grid
    if grid is None:
        raise ArgumentError("names", f"{folder} was built without a grid, and has no names")
    return grid.with_names(Grid(names=names).names)
