"""Coasts to lay under a picture: polygons and lines of a GeoJSON file, or GSHHG's from Debian's package gmt-gshhg.

GSHHG keeps its shores in netCDF files, cut into bins of some degrees. A bin has segments of shores, which begin and end on its
sides or are closed, and tells of which level its corners are: 0 is the sea, 1 land, 2 a lake, 3 an island in one, and so on. The layout
is that of GMT's gmt_shore.c.
"""

import importlib
import json
import math
import os
from typing import Any, Dict, IO, Iterable, Iterator, List, Sequence, Tuple

from ..errors import SourceError
from ..rows.sources import sources_of

GSHHG = "/usr/share/gmt-gshhg"

# Which of GSHHG's files: the greatest extent of a picture, in degrees, for which it is fine enough.
RESOLUTIONS = ((1.5, "f"), (8, "h"), (25, "i"), (90, "l"), (math.inf, "c"))

LAND, LAKE, SHORE = "land", "lake", "shore"
MOST_LEVEL = 4

# The most bytes of a GeoJSON file, unpacked, and the most degrees that a coast of one may lie on either side of Greenwich.
MOST_BYTES, MOST_EAST = 1 << 28, 540

# A longitude and a latitude, or another place of a plane; and a kind of shape with its places.
Place = Tuple[float, float]
Shape = Tuple[str, List[Place]]
Segment = Tuple[int, int, List[Place]]


class Window:
    """The part of the globe that a picture shows, in degrees; its longitudes may go on beyond 180."""

    def __init__(self, west: float, south: float, east: float, north: float):
        self.west, self.south, self.east, self.north = west, south, east, north

    def turned(self, places: Sequence[Place]) -> Iterator[List[Place]]:
        """The places, as often as they are seen in the window: whole turns to the east or the west."""
        if not places:
            return
        easts, norths = [east for east, _ in places], [north for _, north in places]
        if max(norths) < self.south or min(norths) > self.north:
            return
        for turn in range(math.ceil((self.west - max(easts)) / 360), math.floor((self.east - min(easts)) / 360) + 1):
            yield [(east + 360 * turn, north) for east, north in places]

    def clipped(self, ring: List[Place]) -> List[Place]:
        """A polygon within the window (after Sutherland and Hodgman)."""
        for axis, limit, sign in ((0, self.west, 1), (0, self.east, -1), (1, self.south, 1), (1, self.north, -1)):
            ring = clipped_side(ring, axis, limit, sign)
        return ring


def clipped_side(ring: List[Place], axis: int, limit: float, sign: int) -> List[Place]:
    """A polygon on one side of a line."""
    found: List[Place] = []
    for before, point in zip(ring[-1:] + ring[:-1], ring):
        inside, was_inside = sign * (point[axis] - limit) >= 0, sign * (before[axis] - limit) >= 0
        if inside != was_inside:
            part = (limit - before[axis]) / (point[axis] - before[axis])
            found.append((before[0] + part * (point[0] - before[0]), before[1] + part * (point[1] - before[1])))
        if inside:
            found.append(point)
    return found


def shapes_of(name: str, window: Window) -> Iterator[Shape]:
    """The kind of each shape of a coast that is seen in a window, and its places, as longitudes and latitudes. The coast is that of a
    GeoJSON file, of a folder of GSHHG, or, by the name gshhg, of Debian's package."""
    if name == "gshhg" or os.path.isdir(name):
        found = gshhg(GSHHG if name == "gshhg" else name, window)
    else:
        found = geojson(name)
    for kind, places in found:
        for turned in window.turned(places):
            if kind == SHORE:
                yield kind, turned
            else:
                ring = window.clipped(turned)
                if len(ring) > 2:
                    yield kind, ring


def geojson(name: str) -> Iterator[Shape]:
    """The polygons and lines of a GeoJSON file. Refuses places that are off the globe."""
    for kind, places in shapes_in(name):
        for east, north in places:
            if not (abs(east) <= MOST_EAST and abs(north) <= 90):
                raise SourceError(f"{name}: the place {east:g} {north:g} is off the globe")
        yield kind, places


def shapes_in(name: str) -> Iterator[Shape]:
    """The polygons and lines of a GeoJSON file, in degrees or in units of a plane. Refuses what is none, and what is not finite."""
    for source in sources_of(name, MOST_BYTES):
        yield from shapes_read(name, source.raw)


def shapes_read(name: str, raw: IO[bytes]) -> Iterator[Shape]:
    """The polygons and lines of GeoJSON that is read from a file of that name."""
    try:
        yield from parts_of(json.load(raw))
    except SourceError:
        raise
    except (ValueError, TypeError, KeyError, IndexError, AttributeError, RecursionError, OverflowError):
        raise SourceError(f"{name} is no GeoJSON") from None


def parts_of(said: Any) -> Iterator[Shape]:
    """The polygons and lines of a part of GeoJSON."""
    kind = said["type"]
    if kind == "FeatureCollection":
        for it in said["features"]:
            yield from parts_of(it)
    elif kind == "Feature":
        if said["geometry"]:
            yield from parts_of(said["geometry"])
    elif kind == "GeometryCollection":
        for it in said["geometries"]:
            yield from parts_of(it)
    elif kind in ("Polygon", "MultiPolygon"):
        for polygon in said["coordinates"] if kind == "MultiPolygon" else [said["coordinates"]]:
            for nth, ring in enumerate(polygon):
                yield LAKE if nth else LAND, places_in(ring)
    elif kind in ("LineString", "MultiLineString"):
        for line in said["coordinates"] if kind == "MultiLineString" else [said["coordinates"]]:
            yield SHORE, places_in(line)
    elif kind not in ("Point", "MultiPoint"):
        raise ValueError(kind)


def places_in(line: Any) -> List[Place]:
    """The places of a line. Raises ValueError for one that is not finite."""
    found = [(float(place[0]), float(place[1])) for place in line]
    if not all(math.isfinite(east) and math.isfinite(north) for east, north in found):
        raise ValueError("not finite")
    return found


def gshhg(folder: str, window: Window) -> Iterator[Shape]:
    """Land, lakes, and the shores of both, of the file of GSHHG that is fine enough, or the next that is there."""
    try:
        dataset: Any = importlib.import_module("netCDF4").Dataset
    except ImportError:
        raise SourceError(
            "GSHHG's coasts need the Python module netCDF4: Debian's package python3-netcdf4 has it, for /usr/bin/python3"
        ) from None

    wanted = next(nth for nth, (most, _) in enumerate(RESOLUTIONS) if max(window.east - window.west, window.north - window.south) <= most)
    order = [letter for _, letter in RESOLUTIONS]
    files = [os.path.join(folder, f"binned_GSHHS_{letter}.nc") for letter in order[wanted:] + order[:wanted][::-1]]
    name = next((file for file in files if os.path.exists(file)), None)
    if name is None:
        raise SourceError(f"{folder} has no coasts of GSHHG (binned_GSHHS_c.nc and others); Debian's package gmt-gshhg has them")
    with dataset(name) as file:
        # Each value is one, also those that netCDF would take for missing.
        file.set_auto_mask(False)
        shores = Shores(file)
        for number in shores.bins_in(window):
            yield from shores.of_bin(number)


class Shores:
    """A file of GSHHG."""

    def __init__(self, file: Any):
        variables = file.variables
        self.size = int(variables["Bin_size_in_minutes"][0]) / 60
        self.wide = int(variables["N_bins_in_360_longitude_range"][0])
        self.first: List[int] = variables["Id_of_first_segment_in_a_bin"][:].tolist()
        self.levels: List[int] = variables["Embedded_node_levels_in_a_bin"][:].tolist()
        self.count: List[int] = variables["N_segments_in_a_bin"][:].tolist()
        self.segments: List[int] = variables["Embedded_npts_levels_exit_entry_for_a_segment"][:].tolist()
        self.starts: List[int] = variables["Id_of_first_point_in_a_segment"][:].tolist()
        self.ice: List[int] = variables["Embedded_ANT_flag"][:].tolist()
        self.east = variables["Relative_longitude_from_SW_corner_of_bin"]
        self.north = variables["Relative_latitude_from_SW_corner_of_bin"]

    def bins_in(self, window: Window) -> Iterator[int]:
        """The bins that are seen in a window."""
        for number in range(len(self.first)):
            west, south = self.corner(number)
            box = [(west, south), (west + self.size, south + self.size)]
            if any(True for _ in window.turned(box)):
                yield number

    def corner(self, number: int) -> Place:
        """The south-western corner of a bin."""
        return number % self.wide * self.size, 90 - (number // self.wide + 1) * self.size

    def of_bin(self, number: int) -> Iterator[Shape]:
        """Land, lakes and shores of a bin."""
        west, south = self.corner(number)
        packed = self.levels[number]
        corners = [packed >> shift & 7 for shift in (9, 6, 3, 0)]
        by_level: Dict[int, List[Segment]] = {}
        segments = range(self.first[number], self.first[number] + self.count[number])
        points = self.points_of(segments)
        for segment in segments:
            fields, start = self.segments[segment], self.starts[segment] - self.starts[segments[0]]
            # Of Antarctica's two shores the one of its ice is drawn.
            if self.ice[segment] == 2:
                continue
            places = points[start:start + (fields >> 9)]
            by_level.setdefault(fields >> 6 & 7, []).append((fields >> 3 & 7, fields & 7, places))
        for level in range(1, MOST_LEVEL + 1):
            kind = LAND if level % 2 else LAKE
            for ring in rings_of(by_level.get(level, []), [corner >= level for corner in corners], inside_left=level % 2 == 1):
                yield kind, [(west + east * self.size, south + north * self.size) for east, north in ring]
        for found in by_level.values():
            for _, _, places in found:
                yield SHORE, [(west + east * self.size, south + north * self.size) for east, north in places]

    def points_of(self, segments: Sequence[int]) -> List[Place]:
        """The points of a bin's segments, which stand one after the other, in parts of its sides from its south-west corner."""
        if not segments:
            return []
        start, end = self.starts[segments[0]], self.starts[segments[-1]] + (self.segments[segments[-1]] >> 9)
        easts, norths = (variable[start:end].tolist() for variable in (self.east, self.north))
        return [((east & 0xFFFF) / 65535, (north & 0xFFFF) / 65535) for east, north in zip(easts, norths)]


# The corners of a bin, in parts of its side, against the clock from the south-west.
CORNERS = ((0, 0), (1, 0), (1, 1), (0, 1))


def along(place: Place) -> float:
    """How far a place on the sides of a bin is from its south-west corner, against the clock, in sides."""
    east, north = place
    gaps = (north, 1 - east, 1 - north, east)
    side = gaps.index(min(gaps))
    return (east, 1 + north, 3 - east, 4 - north)[side] % 4


def rings_of(segments: Iterable[Segment], inside: Sequence[bool], inside_left: bool) -> Iterator[List[Place]]:
    """The polygons of what is inside within one bin, of sides 1: its closed segments, and those that its open ones make with its sides."""
    open_ones = []
    for enter, leave, places in segments:
        if enter == 4 or leave == 4 or len(places) < 2:
            yield places
        else:
            open_ones.append(places if inside_left else places[::-1])
    if not open_ones:
        if all(inside):
            yield list(CORNERS)
        return
    starts = sorted((along(places[0]), nth) for nth, places in enumerate(open_ones))
    left = set(range(len(open_ones)))
    while left:
        first = here = min(left)
        ring: List[Place] = []
        while here in left:
            left.discard(here)
            ring += open_ones[here]
            here = next_start(along(open_ones[here][-1]), starts, ring)
        if here == first or ring:
            yield ring


def next_start(end: float, starts: Sequence[Tuple[float, int]], ring: List[Place]) -> int:
    """The segment that begins next, against the clock from the end of one; the corners on the way are added."""
    at, nth = next(((at, nth) for at, nth in starts if at >= end), (starts[0][0] + 4, starts[0][1]))
    for corner in range(math.ceil(end), math.floor(at) + 1):
        ring.append(CORNERS[corner % 4])
    return nth
