"""What an answer leaves out, as its notes tell it: instants, windows and objects that an index has not, and degrees in place of cells."""

import warnings
from typing import TYPE_CHECKING, List, Optional, Sequence, Tuple

from . import times
from .errors import ArgumentError, OutsideWarning
from .questions import Disc, Region, Zone
from .records import time_of

if TYPE_CHECKING:
    from .asking import Asked, Instant

# What degrees are at most: longitudes and latitudes.
MOST_DEGREES = (360, 90)

Window = Tuple[int, int]
Corners = Tuple[int, int, int, int]


def until_of(asked: "Asked", until: "Instant") -> Tuple[int, List[str]]:
    """The last instant of a window, and a note where that is a date without a time: it is the last one of that day."""
    if not times.is_date(until):
        return asked.instant(until, "until"), []
    found = asked._needs_grid("until", until).last_instant(str(until), "until")
    return found, [f"until {until} is until the end of that day, instant {told_instant(asked, found)}"]


def told_instant(asked: "Asked", instant: int) -> str:
    """An instant, with a grid and its time."""
    time = "" if asked.grid is None else time_of(asked.grid, instant)
    return f"{instant} ({time})" if time else str(instant)


def window_notes(asked: "Asked", window: Window) -> List[str]:
    """What is to be said of an instant or a window."""
    (since, until), (first, last) = window, (asked.facts.first, asked.facts.last)
    there = f"the first instant is {told_instant(asked, first)} and the last {told_instant(asked, last)}"
    if until < first or since > last:
        what = f"at instant {told_instant(asked, since)}"
        if since != until:
            what = f"from {told_instant(asked, since)} to {told_instant(asked, until)}"
        return [f"there is no row {what}: {there}"]
    if since > until:
        return [f"since, {told_instant(asked, since)}, is after until, {told_instant(asked, until)}: no instant is asked for"]
    return []


def object_notes(asked: "Asked", numbers: Sequence[int]) -> List[str]:
    """What is to be said of objects that have no row at all. A line for each."""
    lacking = [number for number in dict.fromkeys(numbers) if not asked._has(number)]
    names = {} if asked.grid is None else asked.grid.names
    return [f"object {number}{f' ({names[number]})' if number in names else ''} has no row at all" for number in lacking]


def notes(asked: "Asked", is_empty: bool, window: Optional[Window] = None, objects: Sequence[int] = (),
          region: Optional[Region] = None) -> List[str]:
    """What is to be said of a question. Only where its answer is empty a line is asked for it."""
    found = [] if window is None else window_notes(asked, window)
    if found or not is_empty:
        return found
    return object_notes(asked, objects) or degree_notes(asked, region)


def warn(asked: "Asked", window: Window, number: int) -> None:
    """Warns where a position is None since there is no such instant, or no such object."""
    for note in window_notes(asked, window) or object_notes(asked, [number]):
        # Who asks for the position is told.
        warnings.warn(note, OutsideWarning, stacklevel=3)


# Degrees.


def degree_notes(asked: "Asked", region: Optional[Region]) -> List[str]:
    """What is to be said of cells that lie outside those of the index, and would lie inside as degrees."""
    corners = corners_of(region)
    if corners is None or asked.grid is None or asked.grid.plane is None or not may_be_degrees(corners):
        return []
    there = asked._cells()
    if there is None or overlap(corners, there):
        return []
    x1, y1, x2, y2 = corners
    try:
        x, y = asked.grid.cell_of((x1 + x2) / 2, (y1 + y2) / 2)
    except ArgumentError:
        return []
    if not overlap((x, y, x, y), there):
        return []
    told = f"there is no row in the cells from ({x1}, {y1}) to ({x2}, {y2}), and these numbers as degrees lie among the rows"
    return [f"{told}: degrees are asked by box=, around= and place="]


def corners_of(region: Optional[Region]) -> Optional[Corners]:
    """The rectangle that a rectangle or a disc is in; None of a zone."""
    if region is None or isinstance(region, Zone):
        return None
    if isinstance(region, Disc):
        return region.x - region.r, region.y - region.r, region.x + region.r, region.y + region.r
    return region.x1, region.y1, region.x2, region.y2


def may_be_degrees(corners: Corners) -> bool:
    """Whether these numbers could be degrees."""
    return all(abs(number) <= MOST_DEGREES[place % 2] for place, number in enumerate(corners))


def overlap(one: Corners, other: Corners) -> bool:
    """Whether two rectangles have a cell in common."""
    return all(one[axis] <= other[axis + 2] and other[axis] <= one[axis + 2] for axis in (0, 1))
