"""`python3 -m gract cell`: the cell of a longitude and a latitude, for questions, and back."""

import argparse
from decimal import Decimal

from .errors import ArgumentError
from .grid import Grid


def add_to(parser: argparse.ArgumentParser) -> None:
    """Gives the command its words."""
    choice = parser.add_mutually_exclusive_group(required=True)
    choice.add_argument("--middle", type=float, metavar="LATITUDE", help="the rows are metres round this latitude")
    choice.add_argument("--per-degree", type=int, metavar="N", help="the rows are in degrees, N units to each")
    parser.add_argument("--west", type=int, default=-180, metavar="LONGITUDE", help="where the plane is cut (-180)")
    parser.add_argument("--back", action="store_true", help="X and Y are those of a cell")
    parser.add_argument("cell", type=int, metavar="CELL", help="the word that the index was built with")
    parser.add_argument("x", type=number, help="the longitude")
    parser.add_argument("y", type=number, help="the latitude")


def number(text: str) -> Decimal:
    """A number of a size that a place can have. Raises ValueError."""
    try:
        found = Decimal(text)
    except ArithmeticError:
        raise ValueError(f"not a number: {text}") from None
    if not found.is_finite() or abs(found.adjusted()) > 100:
        raise ValueError(f"not a number: {text}")
    return found


def run(given: argparse.Namespace) -> int:
    """Prints the cell, or the place of its corner, and answers with the status."""
    others = {"cell": given.cell, "west": given.west}
    grid = Grid.metres(given.middle, **others) if given.middle is not None else Grid.degrees(given.per_degree, **others)
    if not given.back:
        print(*grid.cell_of(given.x, given.y))
        return 0
    if given.x % 1 or given.y % 1 or max(abs(given.x), abs(given.y)) > 2**40:
        raise ArgumentError("cell", f"{given.x} {given.y} is no cell")
    longitude, latitude = grid.corner(int(given.x), int(given.y))
    print(f"{longitude:.5f} {latitude:.5f}")
    return 0
