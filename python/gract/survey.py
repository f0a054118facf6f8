"""`Survey`: what reports are like, found in one pass. Memory is by the number of objects, and not of reports."""

import bisect
import itertools
import math
import operator
from collections import Counter, defaultdict
from typing import DefaultDict, Dict, Iterable, List, Optional, Sequence, Tuple

from .planes import METRES_A_DEGREE

# What is nearer than so many metres, or units of x and y, is at the same place.
LEAST = 1e-3

# Two distances that are told apart differ by a factor of 2 ** (1 / FINENESS), and two times by the third of their digits; those below
# FULL have no more.
FINENESS = 8
DIGITS = 3
FULL = 10**DIGITS

# Distances are measured at the first reports of an object, and then at each so manieth.
MEASURED, EACH = 32, 4

# An object's number, and the time and the place of a report: degrees of longitude and latitude, or units of a plane.
Sight = Tuple[int, int, float, float]

time_of = operator.itemgetter(1)


class Track:
    """What is kept of an object: how many reports it has, its first and its last time, its last report, and the one before."""

    __slots__ = ("count", "first", "last", "now", "before")

    def __init__(self, report: Sight):
        self.count = 1
        self.first = self.last = report[1]
        self.now, self.before = report, report


class Survey:
    """What is found of reports. `ticks` are lengths of an instant, each a multiple of the one before, of which it counts what each
    would lose; `degrees` says what places are."""

    def __init__(self, ticks: Sequence[int], degrees: bool):
        self.ticks, self.degrees = tuple(ticks), degrees
        self.tracks: Dict[int, Track] = {}
        self.count = 0
        self.in_order = True
        self._bounds: List[float] = []
        self._gaps: "Counter[int]" = Counter()
        self._steps: "Counter[int]" = Counter()
        self._scatter: "Counter[int]" = Counter()
        # How many reports are in one instant with the report before, under the tick of that place and under none before; the last are
        # those that are not under any.
        self._shared = [0] * (len(self.ticks) + 1)

    def take(self, reports: Sequence[Sight]) -> None:
        """Takes one report or more. They are put in their order, so that some that come late do no harm."""
        found: DefaultDict[int, List[Sight]] = defaultdict(list)
        for report in sorted(reports, key=time_of):
            found[report[0]].append(report)
        for number, own in found.items():
            track = self.tracks.get(number)
            if track is None:
                self.tracks[number] = track = Track(own.pop(0))
            if own:
                self._follow(track, own)
        self.count += len(reports)
        xs, ys = [report[2] for report in reports], [report[3] for report in reports]
        west, south, east, north = self._bounds or [xs[0], ys[0], xs[0], ys[0]]
        self._bounds = [min(west, min(xs)), min(south, min(ys)), max(east, max(xs)), max(north, max(ys))]

    def _follow(self, track: Track, reports: List[Sight]) -> None:
        """Takes the next reports of an object, by time."""
        if reports[0][1] < track.now[1]:
            reports = self._late(track, reports)
        times = [track.now[1], *map(time_of, reports)]
        gaps = list(map(operator.sub, times[1:], times))
        least = min(gaps, default=0)
        self._gaps.update(gaps if max(gaps, default=0) < FULL else map(shortened, gaps))
        del self._gaps[0]
        self._share(times, gaps)
        way = [track.before, track.now, *reports] if track.before[1] < track.now[1] else [track.now, *reports]
        known = len(way) - len(reports)
        if least == 0:
            # Of reports of one time the last.
            way = list({report[1]: report for report in way}.values())
        self._measure(way, known, track.count)
        track.count += len(reports)
        track.last, track.now, track.before = times[-1], way[-1], way[-2:][0]

    def _late(self, track: Track, reports: List[Sight]) -> List[Sight]:
        """Counts those of some reports that come before the last one of their object, and answers with the others."""
        late = sum(report[1] < track.now[1] for report in reports)
        self.in_order = False
        track.first = min(track.first, reports[0][1])
        track.count += late
        return reports[late:]

    def _share(self, times: Sequence[int], gaps: Sequence[int]) -> None:
        """Counts reports by the first tick under which each is in one instant with the one before, of whose time and whose distance in time
        it is told: so they are under all longer ticks too, which are multiples of it."""
        ticks, shared, many = self.ticks, self._shared, len(self.ticks)
        for time, gap in zip(times, gaps):
            place = bisect.bisect(ticks, gap)
            while place < many and time // ticks[place] != (time + gap) // ticks[place]:
                place += 1
            shared[place] += 1

    def _measure(self, way: Sequence[Sight], known: int, count: int) -> None:
        """Measures the way to some reports of an object behind those that are known, and how far the one before each is from the line
        between its neighbours. The object had so many reports before. Distances are metres on the ground, or units of a plane."""
        distance, remainder, once_round = math.hypot, math.remainder, 360.0 if self.degrees else math.inf
        steps, scatter, narrow, unit = [], [], 1.0, METRES_A_DEGREE if self.degrees else 1.0
        for place in measured(known, len(way), count + 1):
            (_, time, x, y), (_, later, right, up) = way[place - 1], way[place]
            if self.degrees:
                narrow = math.cos(math.radians(y))
            steps.append(distance(remainder(right - x, once_round) * narrow, up - y) * unit)
            if place > 1:
                # Where the object was if it went straight and evenly from the report before that to this one.
                _, earlier, left, down = way[place - 2]
                part = (time - earlier) / (later - earlier)
                along, north = left + remainder(right - left, once_round) * part, down + (up - down) * part
                scatter.append(distance(remainder(along - x, once_round) * narrow, north - y) * unit)
        self._steps.update(levels(steps))
        self._scatter.update(levels(scatter))

    @property
    def bounds(self) -> Tuple[float, float, float, float]:
        """The least x and y, and the greatest."""
        west, south, east, north = self._bounds
        return west, south, east, north

    @property
    def ends(self) -> Tuple[int, int]:
        """The first and the last time."""
        return min(track.first for track in self.tracks.values()), max(track.last for track in self.tracks.values())

    @property
    def gap(self) -> Optional[int]:
        """The median time from a report of an object to its next; None where no object has two times."""
        return median(self._gaps)

    @property
    def step(self) -> Optional[float]:
        """The median distance from a report of an object to its next, of those that moved."""
        return distance(median(self._steps))

    @property
    def noise(self) -> Optional[float]:
        """How far reports are, in the median, from the line between the one before and the one after, of those that are not on it."""
        return distance(median(self._scatter))

    def lost(self, tick: int) -> int:
        """How many reports are followed by one of the same object and instant; at least so many, where they were not `in_order`."""
        return sum(self._shared[:self.ticks.index(tick) + 1])

    def lives(self, tick: int) -> Iterable[Tuple[int, int, int]]:
        """Of each object how many reports it has, and its first and last instant."""
        return ((track.count, track.first // tick, track.last // tick) for track in self.tracks.values())


def shortened(number: int) -> int:
    """A whole number with its first digits, so that there are few of them."""
    return number if number < FULL else round(number, DIGITS - len(str(number)))


def measured(known: int, end: int, first: int) -> Iterable[int]:
    """The places of reports, from those that are known on up to an end, at which distances are measured; the one behind those that are
    known is the object's report of that number."""
    each = min(end, max(known, known + MEASURED + 1 - first))
    return itertools.chain(range(known, each), range(each + (known - first - each) % EACH, end, EACH))


def levels(distances: Iterable[float]) -> Iterable[int]:
    """The places of distances on a scale of powers of two, but for those that are none."""
    return [round(FINENESS * math.log2(far)) for far in distances if far >= LEAST]


def distance(level: Optional[int]) -> Optional[float]:
    """The distance at a place of that scale."""
    return None if level is None else float(2 ** (level / FINENESS))


def median(found: "Counter[int]") -> Optional[int]:
    """The median of counted numbers, the lower of two."""
    left = sum(found.values())
    for number in sorted(found):
        left -= 2 * found[number]
        if left <= 0:
            return number
    return None
