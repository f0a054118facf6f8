"""Questions that people ask and one line does not answer, over the lines that there are."""

from typing import TYPE_CHECKING, Dict, Iterator, List, Optional

from .answers import Hit, Last, Life, Stop, Visit
from .errors import ArgumentError
from .grid import Grid, Reach
from .planes import Degree, Projected
from .questions import EVERYWHERE, INSTANT, Interval, Path, Region

if TYPE_CHECKING:
    from .asking import Asked

# Windows reach back so many times as far as the ones before.
GROWTH = 16


def last_known(index: "Asked", at: int, within: int, region: Region) -> List[Last]:
    """Of each object its last row from `at - within` to `at`, both counted, where it is in the region. Such an object was in the
    region in that time, so that no other is looked at."""
    since = max(at - within, INSTANT[0])
    found: List[Hit] = next(index.ask([Interval(since, at, region)]))
    paths = index.ask(Path(hit.object, hit.instant, at) for hit in found)
    rows = ((hit.object, stops[-1]) for hit, stops in zip(found, paths))
    return [Last(number, stop.instant, stop.x, stop.y, at - stop.instant) for number, stop in rows if region.contains(stop.x, stop.y)]


def visits(index: "Asked", region: Region, since: int, until: int, gap: Optional[int]) -> List[Visit]:
    """All stays in a region within a window. What comes before an object's first row there belongs to none, and is not asked for."""
    found: List[Hit] = next(index.ask([Interval(since, until, region)]))
    paths = index.ask(Path(hit.object, hit.instant, until) for hit in found)
    return [visit for hit, stops in zip(found, paths) for visit in stays(hit.object, stops, region, gap)]


def stays(number: int, stops: List[Stop], region: Region, gap: Optional[int]) -> Iterator[Visit]:
    """The stays of one object's rows."""
    stay: List[Stop] = []
    for stop in stops:
        inside = region.contains(stop.x, stop.y)
        if stay and (not inside or (gap is not None and stop.instant - stay[-1].instant > gap)):
            yield Visit(number, *stay[0], *stay[-1], len(stay))
            stay = []
        if inside:
            stay.append(stop)
    if stay:
        yield Visit(number, *stay[0], *stay[-1], len(stay))


def objects(index: "Asked") -> List[Life]:
    """The first and the last row of each object. The last is sought in windows back from the last instant, each `GROWTH` times as
    long as all before it, so that no row is told twice."""
    first, last = index.facts.first, index.facts.last
    found: List[Hit] = next(index.ask([Interval(first, last, EVERYWHERE)]))
    ends: Dict[int, Stop] = {}
    left, until, length = found, last, GROWTH
    while left:
        since = last - length + 1
        paths = list(zip(left, index.ask([Path(hit.object, max(since, hit.instant), until) for hit in left])))
        ends.update((hit.object, stops[-1]) for hit, stops in paths if stops)
        left, until, length = [hit for hit, stops in paths if not stops], since - 1, length * GROWTH
    return [Life(hit.object, hit.instant, hit.x, hit.y, *ends[hit.object]) for hit in found]


def reach_of(index: "Asked", grid: Grid, metres: Degree, number: int, since: int, until: int) -> Reach:
    """The distance in cells within which all are that come within so many metres of an object in a window: by the latitudes that its
    rows there have. Refuses where it comes so near to the longitude at which the plane is cut that it could meet others beyond."""
    stops: List[Stop] = next(index.ask([Path(number, since, until)]))
    if not stops:
        # Nobody meets it.
        return grid.reach(metres, 0, 0)
    xs, ys = [stop.x for stop in stops], [stop.y for stop in stops]
    west, south, east, north = grid.degrees_of(min(xs), min(ys), max(xs), max(ys))
    found = grid.reach(metres, south, north, west=west, east=east)
    if isinstance(grid.plane, Projected):
        return found
    far = grid.corner(found.cells, 0).longitude
    if not grid.west <= west - far <= east + far <= grid.west + 360:
        raise ArgumentError("metres", f"object {number} comes near to longitude {grid.west}, at which the plane is cut: give reach=")
    return found
