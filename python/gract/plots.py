"""Answers as pictures of matplotlib."""

import json
import math
import os
from typing import TYPE_CHECKING, Any, Dict, Iterator, List, Optional, Sequence, Tuple, Union

from .errors import ArgumentError
from .grid import Grid
from .libraries import library
from .questions import EVERYWHERE, Disc, Rect, Region, Zone
from .records import CELLS, OBJECTS

if TYPE_CHECKING:
    from .answers import Answers

# So many names are written at most.
MOST_NAMES = 30

# A disc is drawn with so many corners.
CORNERS = 72

COAST = {"color": "0.6", "linewidth": 0.8, "zorder": 0}
OUTLINE = {"color": "0.3", "linewidth": 1.0, "linestyle": "--"}

Line = List[Tuple[float, float]]


def draw(answers: "Answers[Any]", ax: Any, coast: Union[None, str, "os.PathLike[str]"], style: Dict[str, Any]) -> Any:
    """Draws an answer, and answers with its axes."""
    if ax is None:
        ax = new_axes()
    grid = answers.grid if answers.grid is not None and answers.grid.plane is not None else None
    for line in outlines(answers.region, grid):
        ax.plot(*zip(*line), **OUTLINE)
    records = list(answers.records())
    for label, line in lines_of(answers, records, grid is not None):
        is_path = "object" in answers.asked
        ax.plot(*zip(*line), **{"marker": ".", "linestyle": "-" if is_path else "", "label": label, **style})
        if not is_path and len(records) <= MOST_NAMES:
            ax.annotate(label, line[0], textcoords="offset points", xytext=(4, 4), fontsize="small")
    if coast is not None:
        for line in coast_lines(coast):
            ax.plot(*zip(*line), **COAST)
    fit(ax, grid is not None)
    return ax


def new_axes() -> Any:
    """The axes of a new picture."""
    return library("matplotlib.pyplot").subplots()[1]


def lines_of(answers: "Answers[Any]", records: Sequence[Dict[str, Any]], degrees: bool) -> Iterator[Tuple[str, Line]]:
    """What is drawn, with its name: a path as one line, any other row as the point, or the points, where it was."""
    columns = [pair if degrees else (f"{begin}x", f"{begin}y") for begin, pair in CELLS.items()]
    places = [pair for pair in columns if pair[0] in answers.columns]
    if "object" in answers.asked and records:
        yield label_of(records[0]), [(record[x], record[y]) for record in records for x, y in places[:1]]
        return
    for record in records:
        yield label_of(record), [(record[x], record[y]) for x, y in places]


def label_of(record: Dict[str, Any]) -> str:
    """The name of a record's object, or its number; of a meeting both."""
    names = [record.get(name) or record.get(number) for number, name in OBJECTS.items()]
    return " and ".join(str(name) for name in names if name is not None)


def outlines(region: Optional[Region], grid: Optional[Grid]) -> Iterator[Line]:
    """The outline of each shape of a region, in degrees where there is a grid."""
    if region is None or region == EVERYWHERE:
        return
    for shape in region.shapes if isinstance(region, Zone) else (region,):
        line = rect_line(shape) if isinstance(shape, Rect) else disc_line(shape)
        yield [degrees_of(grid, x, y) for x, y in line] if grid is not None else line


def degrees_of(grid: Grid, x: float, y: float) -> Tuple[float, float]:
    """The degrees of a corner between cells."""
    place = grid.corner(x, y)  # type: ignore[arg-type]
    return place.longitude, max(-90.0, min(90.0, place.latitude))


def rect_line(rect: Rect) -> Line:
    """The outer edge of the cells of a rectangle."""
    x1, y1, x2, y2 = rect.x1, rect.y1, rect.x2 + 1, rect.y2 + 1
    return [(x1, y1), (x2, y1), (x2, y2), (x1, y2), (x1, y1)]


def disc_line(disc: Disc) -> Line:
    """A circle round the middle of a cell."""
    turns = (2 * math.pi * nth / CORNERS for nth in range(CORNERS + 1))
    return [(disc.x + 0.5 + disc.r * math.cos(turn), disc.y + 0.5 + disc.r * math.sin(turn)) for turn in turns]


def coast_lines(file: Union[str, "os.PathLike[str]"]) -> Iterator[Line]:
    """The lines of a GeoJSON file: of lines themselves, and of polygons the edges. Refuses, by the argument `coast`, what is none."""
    try:
        with open(file, encoding="utf-8") as text:
            yield from lines_within(json.load(text))
    except (OSError, ValueError, TypeError, KeyError, RecursionError) as fault:
        raise ArgumentError("coast", f"{os.fspath(file)} could not be read as GeoJSON: {fault}") from None


def lines_within(value: Any) -> Iterator[Line]:
    """The lines in a value of GeoJSON."""
    if isinstance(value, dict):
        for name in ("features", "geometries", "geometry", "coordinates"):
            if value.get(name) is not None:
                yield from lines_within(value[name])
    elif value and isinstance(value[0], list) and value[0] and isinstance(value[0][0], (int, float)):
        yield [(float(point[0]), float(point[1])) for point in value]
    elif isinstance(value, list):
        for part in value:
            if isinstance(part, (dict, list)):
                yield from lines_within(part)


def fit(ax: Any, degrees: bool) -> None:
    """Shows all that was drawn, but of the coast only what is there, with a degree of longitude as wide as it is in the middle."""
    ax.set_xlabel("longitude" if degrees else "x (cells)")
    ax.set_ylabel("latitude" if degrees else "y (cells)")
    drawn = [line for line in ax.lines if line.get_zorder() != COAST["zorder"]]
    xs = [float(x) for line in drawn for x in line.get_xdata()]
    ys = [float(y) for line in drawn for y in line.get_ydata()]
    if not xs:
        return
    margin = 0.05 * max(max(xs) - min(xs), max(ys) - min(ys)) or 1.0
    ax.set_xlim(min(xs) - margin, max(xs) + margin)
    ax.set_ylim(min(ys) - margin, max(ys) + margin)
    middle = (min(ys) + max(ys)) / 2
    ax.set_aspect(1 / max(0.01, math.cos(math.radians(middle))) if degrees else 1)
