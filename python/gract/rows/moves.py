"""Rows that an object could not have reached, objects that do not move, and rows that follow too soon. Memory is by the number of
objects."""

import math
import mmap
import tempfile
from typing import Dict, Iterable, Iterator, List, NamedTuple, Optional, Set, Tuple

from .. import times
from ..planes import RADIUS
from .causes import Causes
from .spool import Row as Kept
from .spool import Spool

METRES_A_SECOND = 1852 / 3600

# So many runs of rows of one object are kept open while the longest is looked for.
MOST_RUNS = 8

Point = Tuple[float, float]


class Row(NamedTuple):
    """A row as it is kept."""

    seconds: int
    number: int
    latitude: str
    longitude: str


def by_time(spool: Spool) -> Iterator[Row]:
    """The rows by time."""
    return map(Row._make, spool.sorted())


def radians_of(row: Row) -> Point:
    """The latitude and the longitude of a row."""
    return math.radians(float(row.latitude)), math.radians(float(row.longitude))


def metres_between(here: Point, there: Point) -> float:
    """The distance on the ground of two places, each a latitude and a longitude in radians, on a sphere."""
    (north, east), (north2, east2) = here, there
    half = math.sin((north2 - north) / 2) ** 2 + math.cos(north) * math.cos(north2) * math.sin((east2 - east) / 2) ** 2
    return 2 * RADIUS * math.asin(min(1, math.sqrt(half)))


class Run:
    """Rows of one object, each of which it can have reached from the one before: when and where the last is, its number among all rows, and
    how many they are."""

    __slots__ = ("seconds", "place", "nth", "length")

    def __init__(self, seconds: int, place: Point, nth: int, length: int):
        self.seconds, self.place, self.nth, self.length = seconds, place, nth, length


def follow(ends: List[Run], row: Row, nth: int, speed: float) -> int:
    """Puts a row behind the longest run from whose end it can be reached at so many metres a second, or begins a run of its own where
    there is none. Answers with the number of the row before it, or -1. Times are whole seconds, so a second is added to each."""
    place, best = radians_of(row), None
    for run in ends:
        if metres_between(run.place, place) <= speed * (row.seconds - run.seconds + 1) and (best is None or run.length > best.length):
            best = run
    if best is not None:
        ends.remove(best)
    ends.append(Run(row.seconds, place, nth, best.length + 1 if best else 1))
    if len(ends) > MOST_RUNS:
        ends.remove(min(ends, key=lambda run: run.length))
    return best.nth if best else -1


class Numbers:
    """Whole numbers in a file, which are read and written like those of a list."""

    def __init__(self, count: int):
        self.file = tempfile.TemporaryFile(prefix="gract-")
        self.file.truncate(max(8, 8 * count))
        self.map = mmap.mmap(self.file.fileno(), max(8, 8 * count))
        self.values = memoryview(self.map).cast("q")

    def close(self) -> None:
        """Gives the file up."""
        self.values.release()
        self.map.close()
        self.file.close()


def reachable(spool: Spool, knots: float) -> Iterator[Tuple[Row, bool]]:
    """The rows by time, each with whether it is in the longest run of its object that was found."""
    ends: Dict[int, List[Run]] = {}
    before = Numbers(spool.count)
    try:
        for nth, row in enumerate(by_time(spool)):
            before.values[nth] = follow(ends.setdefault(row.number, []), row, nth, knots * METRES_A_SECOND)
        wanted = {max(runs, key=lambda run: run.length).nth for runs in ends.values()}
        # From the last row to the first: a row is kept where one that is kept goes on from it. Each is marked in its own place.
        for nth in range(spool.count - 1, -1, -1):
            if nth in wanted:
                wanted.remove(nth)
                wanted.add(before.values[nth])
                before.values[nth] = 1
            else:
                before.values[nth] = 0
        for nth, row in enumerate(by_time(spool)):
            yield row, bool(before.values[nth])
    finally:
        before.close()


def row_text(row: Row) -> str:
    """A row as people read it."""
    return f"object {row.number} at {times.time_text(row.seconds)}, latitude {row.latitude}, longitude {row.longitude}"


def without_jumps(spool: Spool, knots: float, causes: Causes) -> Iterator[Kept]:
    """The rows without those that an object could only have reached faster than so many knots."""
    for row, is_reached in reachable(spool, knots):
        if is_reached:
            yield row
        else:
            causes.leave_out(f"a jump faster than {knots:g} knots", "", row_text(row))


def movers(rows: Iterable[Row], metres: float) -> Set[int]:
    """The objects that are once so many metres away from where they were first."""
    first: Dict[int, Point] = {}
    found: Set[int] = set()
    for row in rows:
        if row.number not in found:
            place = radians_of(row)
            if metres_between(first.setdefault(row.number, place), place) >= metres:
                found.add(row.number)
    return found


def without_still(spool: Spool, metres: float, causes: Causes) -> Iterator[Kept]:
    """The rows without those of objects that never are so many metres away from where they were first."""
    moving = movers(by_time(spool), metres)
    for row in by_time(spool):
        if row.number in moving:
            yield row
        else:
            causes.leave_out(f"an object that stays within {metres:g} metres", "", row_text(row))


def thinned(spool: Spool, seconds: int, causes: Causes) -> Iterator[Kept]:
    """Of each object the first row, and each that is so many seconds or more after the one kept before it."""
    last: Dict[int, int] = {}
    for row in by_time(spool):
        before: Optional[int] = last.get(row.number)
        if before is None or row.seconds - before >= seconds:
            last[row.number] = row.seconds
            yield row
        else:
            causes.leave_out(f"less than {seconds} seconds after the row before (--every)")
