"""The coast beneath the map: of a GeoJSON file, of GSHHG, or the coarse one of Natural Earth that Debian's python3-geopandas has.

A shapefile is read by its published layout (ESRI, 1998), polygons alone, so that geopandas is not started for it.
"""

import importlib.util
import struct
from pathlib import Path
from typing import Any, Iterable, Iterator, List, NamedTuple, Optional, Sequence, Tuple

from ..errors import GractError
from ..grid import Grid
from ..pictures import coasts
from . import polygons
from .binary import rings_block

COARSE = "/usr/lib/python3/dist-packages/geopandas/datasets/naturalearth_lowres/naturalearth_lowres.shp"

# How many places a coast has at most, and how near to the poles it goes.
MOST_PLACES = 1_000_000
MOST_LATITUDE = 89.9

POLYGON = 5
HEADER, RECORD = 100, 8

# What a ring of the response is.
KINDS = {"land": 0, "lake": 1, "shore": 2}

Places = List[Tuple[float, float]]


class Coast(NamedTuple):
    """Rings in cells as bytes, and what is said of them."""

    said: str
    data: bytes = b""


class CoastError(GractError):
    """A coast that cannot be read. `file` is its name."""

    def __init__(self, file: str, why: str):
        super().__init__(f"{file} could not be read as a coast: {why}")
        self.file = file


def coast_of(grid: Optional[Grid], file: Optional[str], box: Optional[Sequence[int]] = None) -> Coast:
    """The coast of a GeoJSON file, or, where it is `gshhg` or a folder of GSHHG, of what lies round a box of cells; without a file the
    coarse one, where it is there. Refuses, by `CoastError`, a file that is none."""
    if grid is None or grid.plane is None:
        if file is not None:
            raise CoastError(file, "the index has no plane, and so nothing on it has degrees: save a grid beside it")
        return Coast("no coast: the index has no degrees")
    if file is not None:
        is_gshhg = file == "gshhg" or Path(file).is_dir()
        if is_gshhg and importlib.util.find_spec("netCDF4") is None:
            raise CoastError(file, "GSHHG wants the Python module netCDF4, which Debian's python3-netcdf4 has for /usr/bin/python3")
        window = window_of(grid, box if is_gshhg else None)
        return Coast(f"coast: {Path(file).name}", drawn(grid, file, of_file(file, window)))
    if not Path(COARSE).exists():
        return Coast("no coast: Debian's python3-geopandas has a coarse one; --coast FILE gives another")
    shapes = seen(window_of(grid, None), of_shapefile(COARSE))
    return Coast("coast: Natural Earth 1:110m, coarse: some kilometres off", drawn(grid, COARSE, shapes))


def window_of(grid: Grid, box: Optional[Sequence[int]]) -> Any:
    """What is looked at, in degrees: a box of cells and as much around it, or the whole plane."""
    west, south, east, north = float(grid.west), -MOST_LATITUDE, grid.west + 360.0, MOST_LATITUDE
    if box is not None:
        (x1, y1), (x2, y2) = grid.corner(box[0], box[1]), grid.corner(box[2] + 1, box[3] + 1)
        west, south = max(west, 2 * x1 - x2), max(south, 2 * y1 - y2)
        east, north = min(east, 2 * x2 - x1), min(north, 2 * y2 - y1)
    return coasts.Window(west, south, east, north)


def seen(window: Any, shapes: Iterable[Tuple[str, Places]]) -> Iterator[Tuple[str, Places]]:
    """Polygons within a window, turned round the globe into it."""
    for kind, places in shapes:
        for turned in window.turned(places):
            yield kind, window.clipped(turned)


def drawn(grid: Grid, file: str, shapes: Iterable[Tuple[str, Places]]) -> bytes:
    """Shapes as rings in cells. Refuses, by `CoastError`, too many places."""
    count, rings = 0, []
    for kind, ring in shapes:
        count += len(ring)
        if count > MOST_PLACES:
            raise CoastError(file, f"it has more than {MOST_PLACES:,} places: cut out the region that is looked at")
        if len(ring) > 1:
            rings.append((KINDS[kind], cells_of(grid, ring)))
    return rings_block(rings)


def cells_of(grid: Grid, ring: Sequence[Tuple[float, float]]) -> List[float]:
    """Places of a ring in cells: x, y, x, y and so on."""
    found: List[float] = []
    for longitude, latitude in ring:
        x, y = polygons.units_of(grid, longitude, latitude)
        found += x / grid.cell, y / grid.cell
    return found


def of_file(file: str, window: Any) -> Iterator[Tuple[str, Places]]:
    """The shapes of a GeoJSON file or of GSHHG that are seen in a window."""
    try:
        yield from coasts.shapes_of(file, window)
    except Exception as fault:
        raise CoastError(file, str(fault)) from None


def of_shapefile(file: str) -> Iterator[Tuple[str, Places]]:
    """The rings of a shapefile's polygons; those that turn against the clock are holes."""
    data = Path(file).read_bytes()
    try:
        at = HEADER
        while at + RECORD <= len(data):
            size = 2 * struct.unpack_from(">i", data, at + 4)[0]
            yield from rings_of(data[at + RECORD:at + RECORD + size])
            at += RECORD + size
    except (struct.error, IndexError):
        raise CoastError(file, "it ends within a record") from None


def rings_of(record: bytes) -> Iterator[Tuple[str, Places]]:
    """The rings of one polygon."""
    if struct.unpack_from("<i", record, 0)[0] != POLYGON:
        return
    parts, places = struct.unpack_from("<2i", record, 36)
    starts = [*struct.unpack_from(f"<{parts}i", record, 44), places]
    numbers = struct.unpack_from(f"<{2 * places}d", record, 44 + 4 * parts)
    for start, end in zip(starts, starts[1:]):
        ring = [(numbers[2 * nth], numbers[2 * nth + 1]) for nth in range(start, end)]
        yield ("land" if area_of(ring) <= 0 else "lake"), ring


def area_of(ring: Places) -> float:
    """Twice the area of a ring, positive where it turns against the clock."""
    return sum(x1 * y2 - x2 * y1 for (x1, y1), (x2, y2) in zip(ring, ring[1:]))
