"""Polygons as squares, and places as cells with their fractions."""

from fractions import Fraction
from typing import Any, Iterator, List, Optional, Sequence, Tuple

from .. import zones
from ..errors import ArgumentError
from ..grid import Grid
from ..planes import Degrees, Metres, turned
from ..questions import MOST_BYTES, MOST_SHAPES, Rect, Region, Zone

Ring = Sequence[Sequence[float]]

# What a line has besides its region, at most.
BESIDE = 80


def zones_of(grid: Optional[Grid], ring: Ring, squares: int) -> Tuple[List[Region], int]:
    """The zones of a polygon, in degrees where the grid has a plane and else in cells, and the side of its squares in cells: its longer
    side has about so many. Refuses what passes a limit of the program."""
    places = [place_of(grid, *corner) for corner in ring]
    longest = max(max(axis) - min(axis) for axis in zip(*places))
    side = max(1, int(longest / squares))
    try:
        found = zones.fewest_rectangles([[[(Fraction(x) / side, Fraction(y) / side) for x, y in places]]])
    except ArgumentError:
        raise
    except Exception as refusal:
        raise ArgumentError("polygon", str(refusal)) from None
    rects = [Rect(x1 * side, y1 * side, (x2 + 1) * side - 1, (y2 + 1) * side - 1) for x1, y1, x2, y2 in found]
    return list(in_zones(rects)), side


def place_of(grid: Optional[Grid], x: float, y: float) -> Tuple[float, float]:
    """A corner in cells, with their fractions. Refuses degrees that are off the globe."""
    if grid is None or grid.plane is None:
        return float(x), float(y)
    if not (abs(x) <= 360 and abs(y) <= 90):
        raise ArgumentError("polygon", f"the corner {x} {y} is off the globe")
    east, north = units_of(grid, float(turned(x, grid.west)), y)
    return east / grid.cell, north / grid.cell


def units_of(grid: Grid, longitude: float, latitude: float) -> Tuple[float, float]:
    """A place in units of a plane, with their fractions where the plane is linear in degrees."""
    plane: Any = grid.plane
    if isinstance(plane, (Metres, Degrees)):
        return longitude * plane.east, latitude * plane.north
    return plane.place(latitude, longitude)  # type: ignore[no-any-return]


def in_zones(rects: Sequence[Rect]) -> Iterator[Region]:
    """Rectangles in zones, as many in each as a line can hold."""
    held: List[Rect] = []
    room = MOST_BYTES - BESIDE
    for rect in rects:
        size = len(" rect" + "".join(f" {number}" for number in rect))
        if held and (len(held) == MOST_SHAPES or size > room):
            yield Zone(tuple(held))
            held, room = [], MOST_BYTES - BESIDE
        held.append(rect)
        room -= size
    if held:
        yield Zone(tuple(held)) if len(held) > 1 else held[0]
