"""Places of rows: decimal degrees as texts, checked when they are read and put into a plane when they are written."""

import math
import re
from decimal import Decimal, InvalidOperation
from typing import Callable, List, Optional, Sequence, Tuple

from .. import planes
from ..planes import Metres, Plane, Projected
from .spool import Row

# Degrees as most files write them. With no more than so many figures a float is told from 90 and 180 as exactly as the text.
PLAIN = re.compile(r"[+-]?[0-9]{1,3}(?:\.[0-9]{1,12})?").fullmatch
MOST_SIGNS = 64

# All others that are read: numbers whose exponent is none that would fill the memory.
OTHER = re.compile(r"\s*[+-]?(?:\d+\.?\d*|\.\d+)(?:[eE][+-]?\d{1,3})?\s*").fullmatch

TENS = [10**power for power in range(16)]

MISSING = ("", "na", "nan", "null", "none", "-", "\\n")

Placed = Tuple[str, str]
Placer = Callable[[str, str], Tuple[int, int]]
Liner = Callable[[Sequence[Row]], List[str]]


def position_of(latitude: str, longitude: str, most_longitude: int = 180) -> Optional[Placed]:
    """Two texts of decimal degrees; None where one is no number, or is off the globe, as AIS's 91 and 181 are."""
    if PLAIN(latitude) and PLAIN(longitude):
        return (latitude, longitude) if -90 <= float(latitude) <= 90 and -180 <= float(longitude) <= most_longitude else None
    if not all(len(text) <= MOST_SIGNS and OTHER(text) for text in (latitude, longitude)):
        return None
    if planes.degrees_of(latitude, longitude, most_longitude) is None:
        return None
    return latitude.strip(), longitude.strip()


def position_fault(latitude: str, longitude: str) -> str:
    """Why two texts are no position."""
    if latitude.strip().lower() in MISSING or longitude.strip().lower() in MISSING:
        return "no position"
    if len(latitude) > MOST_SIGNS or len(longitude) > MOST_SIGNS:
        return "a position that is no number"
    try:
        found = Decimal(latitude), Decimal(longitude)
    except InvalidOperation:
        return "a position that is no number"
    return "no position (latitude 91 or longitude 181)" if found[0] == 91 or found[1] == 181 else "a position off the globe"


def placer(plane: Plane, west: int) -> Placer:
    """What puts two texts of degrees, a latitude and a longitude, into a plane that is cut at a longitude: the x and y, rounded down."""
    east = west + 360

    def exactly(latitude: str, longitude: str) -> Tuple[int, int]:
        return plane.place(Decimal(latitude), planes.turned(Decimal(longitude), west))

    if isinstance(plane, Metres):
        wide, high, floor = plane.east, plane.north, math.floor

        def in_metres(latitude: str, longitude: str) -> Tuple[int, int]:
            along = float(longitude)
            return (floor(along * wide), floor(float(latitude) * high)) if west < along < east else exactly(latitude, longitude)

        return in_metres
    if isinstance(plane, Projected):
        return exactly
    units = plane.units

    def in_degrees(latitude: str, longitude: str) -> Tuple[int, int]:
        if not (PLAIN(latitude) and PLAIN(longitude) and west < float(longitude) < east):
            return exactly(latitude, longitude)
        whole, _, part = longitude.partition(".")
        high, _, more = latitude.partition(".")
        return int(whole + part) * units // TENS[len(part)], int(high + more) * units // TENS[len(more)]

    return in_degrees


def liner(plane: Plane, west: int, is_turned: bool) -> Liner:
    """What makes lines of rows, in a plane that is cut at a longitude, from which some of them may have to be turned."""
    if isinstance(plane, Metres) and not is_turned:
        wide, high, floor = plane.east, plane.north, math.floor

        def in_metres(rows: Sequence[Row]) -> List[str]:
            return [f"{item},{seconds},{floor(float(east) * wide)},{floor(float(north) * high)}\n" for seconds, item, north, east in rows]

        return in_metres
    place = placer(plane, west)
    return lambda rows: ["%d,%d,%d,%d\n" % (item, seconds, *place(north, east)) for seconds, item, north, east in rows]
