"""Planes: how degrees of longitude and latitude become the whole numbers x and y of rows, and back."""

import math
from decimal import Decimal, InvalidOperation
from typing import Any, Dict, List, NamedTuple, Optional, Sequence, Tuple, Union

from .errors import ArgumentError
from .libraries import library

# The mean radius of the earth, in metres (IUGG).
RADIUS = 6371008.8
METRES_A_DEGREE = RADIUS * math.pi / 180

Degree = Union[int, float, Decimal]


class RawRow(NamedTuple):
    """A row as gract reads it: an object's number, a time and a place in a plane, all whole numbers."""

    object: int
    time: int
    x: int
    y: int


def degrees_of(latitude: str, longitude: str, most_longitude: int = 180) -> Optional[Tuple[Decimal, Decimal]]:
    """Two texts as decimal degrees; None where one is no number, or is off the globe, as AIS's 91 and 181 are."""
    try:
        found = Decimal(latitude.strip()), Decimal(longitude.strip())
    except InvalidOperation:
        return None
    if not (found[0].is_finite() and found[1].is_finite()):
        return None
    if abs(found[0]) > 90 or not -180 <= found[1] <= most_longitude:
        return None
    return found


def turned(longitude: Degree, west: int) -> Degree:
    """The same longitude, from `west` on and less than once round."""
    return longitude - 360 * math.floor((longitude - west) / 360)


class Metres:
    """The plane of whole metres round a middle latitude: a degree of longitude is everywhere as wide as there.

    At the middle latitude a `disc` is a circle on the ground, and `nearest` compares distances on the ground. At another
    latitude a metre east and west in the plane is cos(latitude) / cos(middle) metres on the ground.
    """

    def __init__(self, middle: float):
        self.middle = middle
        self.east = METRES_A_DEGREE * math.cos(math.radians(middle))
        self.north = METRES_A_DEGREE
        # How many metres its unit is, to the north.
        self.unit = 1.0
        self.text = f"whole metres, with the width of a degree at latitude {middle}"

    def place(self, latitude: Degree, longitude: Degree) -> Tuple[int, int]:
        """The x and y, rounded down."""
        return math.floor(float(longitude) * self.east), math.floor(float(latitude) * self.north)

    def degrees(self, x: float, y: float) -> Tuple[float, float]:
        """The latitude and longitude."""
        return y / self.north, x / self.east

    def bounds(self, west: float, south: float, east: float, north: float) -> Tuple[float, float, float, float]:
        """The least x and y and the greatest of a box in degrees."""
        return (*self.place(south, west), *self.place(north, east))

    def degree_bounds(self, x1: float, y1: float, x2: float, y2: float) -> Tuple[float, float, float, float]:
        """The least longitude and latitude and the greatest of a rectangle of the plane."""
        (south, west), (north, east) = self.degrees(x1, y1), self.degrees(x2, y2)
        return west, south, east, north


class Degrees:
    """The plane of degrees, so many units to each.

    A `disc` and `nearest` count a degree of longitude like one of latitude. On the ground it is cos(latitude) times as wide: at
    60 degrees a disc is half as wide as it is high, and `nearest` takes what lies east or west for twice as far as it is.
    """

    def __init__(self, units: int):
        self.units = self.east = self.north = units
        self.unit = METRES_A_DEGREE / units
        self.text = f"degrees, {units} units to each"

    def place(self, latitude: Degree, longitude: Degree) -> Tuple[int, int]:
        """The x and y, rounded down."""
        return math.floor(exact(longitude) * self.units), math.floor(exact(latitude) * self.units)

    def degrees(self, x: float, y: float) -> Tuple[float, float]:
        """The latitude and longitude."""
        return y / self.units, x / self.units

    def bounds(self, west: float, south: float, east: float, north: float) -> Tuple[float, float, float, float]:
        """The least x and y and the greatest of a box in degrees."""
        return (*self.place(south, west), *self.place(north, east))

    def degree_bounds(self, x1: float, y1: float, x2: float, y2: float) -> Tuple[float, float, float, float]:
        """The least longitude and latitude and the greatest of a rectangle of the plane."""
        (south, west), (north, east) = self.degrees(x1, y1), self.degrees(x2, y2)
        return west, south, east, north


class Projected:
    """A plane of the EPSG registry, as UTM's, by pyproj: x is its easting and y its northing, in its own unit, mostly metres.

    Refuses, by `LibraryMissing`, where pyproj is not there; by `ArgumentError` what is no projection of that registry.
    """

    def __init__(self, crs: Union[int, str]):
        pyproj = library("pyproj")
        try:
            found = pyproj.CRS.from_user_input(crs)
        except (pyproj.exceptions.CRSError, TypeError) as fault:
            raise ArgumentError("crs", f"{crs!r} is none that pyproj knows: {fault}") from None
        epsg = found.to_epsg()
        if epsg is None or not found.is_projected:
            raise ArgumentError("crs", f"{crs!r} is no projection with a number of EPSG, as EPSG:3035")
        self.epsg: int = epsg
        # How many metres its unit is.
        self.unit: float = found.axis_info[0].unit_conversion_factor
        self.text = f"the projection EPSG:{epsg} ({found.name}), in {'metres' if self.unit == 1 else found.axis_info[0].unit_name}"
        self._there = pyproj.Transformer.from_crs(4326, found, always_xy=True)
        self._factors = pyproj.Proj(found).get_factors

    def __getstate__(self) -> Dict[str, Any]:
        return {"epsg": self.epsg}

    def __setstate__(self, state: Dict[str, Any]) -> None:
        self.__init__(state["epsg"])  # type: ignore[misc]

    def place(self, latitude: Degree, longitude: Degree) -> Tuple[int, int]:
        """The x and y, rounded down. Refuses a place that the projection does not have."""
        (x, y), = self.points([float(longitude)], [float(latitude)])
        return math.floor(x), math.floor(y)

    def points(self, longitudes: Sequence[float], latitudes: Sequence[float]) -> List[Tuple[float, float]]:
        """The x and y of places, before they are rounded."""
        xs, ys = self._there.transform(list(longitudes), list(latitudes))
        for x, y, longitude, latitude in zip(xs, ys, longitudes, latitudes):
            if not (math.isfinite(x) and math.isfinite(y)):
                raise ArgumentError("place", f"({longitude}, {latitude}) is outside of EPSG:{self.epsg}")
        return list(zip(xs, ys))

    def degrees(self, x: float, y: float) -> Tuple[float, float]:
        """The latitude and longitude."""
        longitude, latitude = self._there.transform(x, y, direction="INVERSE")
        return float(latitude), float(longitude)

    def bounds(self, west: float, south: float, east: float, north: float) -> Tuple[float, float, float, float]:
        """The least x and y and the greatest of a box in degrees, whose edges are curved: by points of the edges, and as much more as
        they bend between two of these."""
        found = [box_of(self.points(*zip(*line))) for line in edges(west, south, east, north)]
        return around(found)

    def degree_bounds(self, x1: float, y1: float, x2: float, y2: float) -> Tuple[float, float, float, float]:
        """The least longitude and latitude and the greatest of a rectangle of the plane, whose edges are curved alike. One that has a pole
        in it, or the longitude of 180 degrees, has all longitudes."""
        lines = [self._there.transform(*zip(*line), direction="INVERSE") for line in edges(x1, y1, x2, y2)]
        west, south, east, north = around([box_of(list(zip(*line))) for line in lines])
        turns = any(abs(one - other) > 180 for longitudes, _ in lines for one, other in zip(longitudes, longitudes[1:]))
        poles = [latitude for latitude in (-90.0, 90.0) if self._has_pole(latitude, x1, y1, x2, y2)]
        if turns or poles:
            west, east = -180.0, 180.0
        return west, max(-90.0, min(south, *poles, 90.0)), east, min(90.0, max(north, *poles, -90.0))

    def _has_pole(self, latitude: float, x1: float, y1: float, x2: float, y2: float) -> bool:
        """Whether a pole is in a rectangle."""
        x, y = self._there.transform(0.0, latitude)
        return bool(x1 <= x <= x2 and y1 <= y <= y2)

    def scales(self, west: float, south: float, east: float, north: float) -> Tuple[float, float]:
        """How many units a metre on the ground has at most, and at least, in any direction, within a box in degrees: by Tissot's indicatrix
        at points all over it, with a margin for what is between, and for a globe of the mean radius in place of the ellipsoid."""
        steps = [nth / SAMPLES for nth in range(SAMPLES + 1)]
        places = [(west + (east - west) * right, south + (north - south) * up) for right in steps for up in steps]
        found = [self._factors(math.remainder(longitude, 360), max(-89.999, min(89.999, latitude))) for longitude, latitude in places]
        most, least = max(factors.tissot_semimajor for factors in found), min(factors.tissot_semiminor for factors in found)
        if not (math.isfinite(most) and least > 0):
            raise ArgumentError("place", f"the box ({west}, {south}, {east}, {north}) reaches out of EPSG:{self.epsg}")
        margin = (most / least) ** (1 / SAMPLES) * MEAN_RADIUS_ERROR
        return most * margin / self.unit, least / margin / self.unit


Plane = Union[Metres, Degrees, Projected]

# The edges of a box are looked at in so many places each, and its inside in so many rows and columns.
EDGE_POINTS = 512
SAMPLES = 8

# A way on the ellipsoid is at most so many times as long as on a globe of the mean radius, or as short.
MEAN_RADIUS_ERROR = 1.006


def edges(west: float, south: float, east: float, north: float) -> List[List[Tuple[float, float]]]:
    """Points on each of the four edges of a box."""
    steps = [nth / EDGE_POINTS for nth in range(EDGE_POINTS + 1)]
    right, up = east - west, north - south
    return [
        [(west + right * step, south) for step in steps], [(east, south + up * step) for step in steps],
        [(west + right * step, north) for step in steps], [(west, south + up * step) for step in steps],
    ]


def box_of(line: Sequence[Tuple[float, float]]) -> Tuple[float, float, float, float]:
    """The least box that has a curve, of which these are points at even steps: between two of them it bends away from the straight line by
    at most an eighth of its second difference."""
    found = []
    for values in zip(*line):
        bend = max((abs(one - 2 * value + other) for one, value, other in zip(values, values[1:], values[2:])), default=0.0) / 8
        found.append((min(values) - bend, max(values) + bend))
    (west, east), (south, north) = found
    return west, south, east, north


def around(boxes: Sequence[Tuple[float, float, float, float]]) -> Tuple[float, float, float, float]:
    """The least box that has these."""
    wests, souths, easts, norths = zip(*boxes)
    return min(wests), min(souths), max(easts), max(norths)


def middle_of(south: float, north: float) -> int:
    """The middle latitude of two, in whole degrees, that `Metres` takes."""
    return max(-89, min(89, round((south + north) / 2)))


def exact(degree: Degree) -> Union[int, Decimal]:
    """A degree as the decimal fraction that is written: the float 10.2 is 10.2, and not the binary fraction next to it."""
    return degree if isinstance(degree, (int, Decimal)) else Decimal(repr(float(degree)))


def most_units(plane: Union[Metres, Degrees], latitude: float) -> float:
    """How many units of the plane a metre on the ground has at most, in any direction, between the equator and that latitude on
    either side. A way on the ground that stays there is in the plane at most so many times as long."""
    return max(plane.north, plane.east / math.cos(math.radians(latitude))) / METRES_A_DEGREE


def least_units(plane: Union[Metres, Degrees], latitude: float) -> float:
    """How many it has at least, between that latitude and the poles."""
    return min(plane.north, plane.east / math.cos(math.radians(latitude))) / METRES_A_DEGREE


def stretch_of(plane: Plane, west: float, south: float, east: float, north: float) -> float:
    """By how much a way is longer in the plane than on the ground, or shorter, at most within a box in degrees: 0.25 is a quarter longer,
    or 1.25 times as long on the ground. Of metres and degrees it is that of ways east and west, beside ways north."""
    if isinstance(plane, Projected):
        most, least = plane.scales(west, south, east, north)
        return max(most * plane.unit, 1 / (least * plane.unit)) - 1
    far, near = max(abs(south), abs(north)), 0.0 if south <= 0 <= north else min(abs(south), abs(north))
    even = plane.east / plane.north
    longest, shortest = (even / max(math.cos(math.radians(latitude)), 1e-9) for latitude in (far, near))
    return max(longest, 1 / shortest) - 1
