"""Questions about an area of several zones, as a polygon is: of each zone the same is asked, and the answers are put together.

    from gract.explorer import within
    within.visits(index, zones, since="2016-07-02", until="2016-07-03")
"""

from typing import Dict, List, Optional, Sequence, Union

from .. import derived
from ..answers import Hit, Sighting, Visit
from ..asking import Asked, Instant
from ..questions import Interval, Path, Region, Slice
from ..times import Duration


class Area:
    """The cells that are in at least one of several regions."""

    def __init__(self, zones: Sequence[Region]):
        self.zones = list(zones)

    def contains(self, x: int, y: int) -> bool:
        """Whether it has that cell."""
        return any(zone.contains(x, y) for zone in self.zones)


def interval(index: Asked, zones: Sequence[Region], since: Optional[Instant] = None, until: Optional[Instant] = None) -> List[Hit]:
    """Who was in the zones at some instant of a window, each with its first row there, by object. One line a zone."""
    first, last = index.window(since, until)
    least: Dict[int, Hit] = {}
    for hits in index.ask([Interval(first, last, zone) for zone in zones]):
        for hit in hits:
            if hit.object not in least or hit.instant < least[hit.object].instant:
                least[hit.object] = hit
    return [least[number] for number in sorted(least)]


def visits(index: Asked, zones: Sequence[Region], since: Optional[Instant] = None, until: Optional[Instant] = None,
           gap: Union[None, int, Duration] = None) -> List[Visit]:
    """All stays in the zones within a window, by object, then by time, as `Index.visits` has them of one region. One line a zone, and one
    line `path` for each object that was there."""
    area, (_, last) = Area(zones), index.window(since, until)
    most = None if gap is None else index.instants(gap, "gap")
    hits = interval(index, zones, since, until)
    paths = index.ask([Path(hit.object, hit.instant, last) for hit in hits])
    return [
        visit for hit, stops in zip(hits, paths)
        for visit in derived.stays(hit.object, stops, area, most)  # type: ignore[arg-type]
    ]


def slice(index: Asked, zones: Sequence[Region], at: Instant) -> List[Sighting]:
    """Who was in the zones at an instant, by object. One line a zone."""
    instant = index.instant(at)
    rows = {row.object: row for found in index.ask([Slice(instant, zone) for zone in zones]) for row in found}
    return [rows[number] for number in sorted(rows)]
