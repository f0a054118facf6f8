"""`python3 -m gract instant`: the instant of a time, for questions, and back."""

import argparse

from .errors import ArgumentError
from .grid import Grid


def add_to(parser: argparse.ArgumentParser) -> None:
    """Gives the command its words."""
    parser.add_argument("--unit", type=int, default=1, metavar="SECONDS", help="of a unit of time of the rows (1)")
    parser.add_argument("--back", action="store_true", help="TIME is an instant")
    parser.add_argument("tick", type=int, metavar="TICK", help="the word that the index was built with")
    parser.add_argument("time", metavar="TIME", help="as '2022-06-01 12:00', in UTC")


def run(given: argparse.Namespace) -> int:
    """Prints the instant, or the time at which it begins, and answers with the status."""
    grid = Grid(tick=given.tick, unit=given.unit)
    if not given.back:
        print(grid.instant(given.time))
        return 0
    try:
        instant = int(given.time)
    except ValueError:
        raise ArgumentError("instant", f"{given.time} is no whole number") from None
    print(grid.time_text(instant))
    return 0
