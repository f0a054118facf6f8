"""Zones: the squares of cells that a polygon touches, put together into rectangles, and the question lines that ask of them.

    from gract import zones
    polygons = zones.polygons_in("gulf.geojson")
    rects = zones.cover(polygons, zones.Squares(5, grid=storms.grid))

A file of polygons is GeoJSON with Polygons or MultiPolygons, whose holes are no part of the zone, or a text with a corner on each line:
longitude and latitude where the plane is told, and else X and Y in cells; lines that begin with # are notes. The sides of a polygon are
straight in the plane.

What the rectangles cover, exactly: squares of so many times so many cells, which lie side by side from the south-western corner of cell
(0, 0) on. A square has its western and southern sides and not the other two, as a cell has. Those that have a point of the zone, its edge
counted, are covered, each once, and no others. So no row in the zone is missed, and each that is found lies less than a square's
diagonal from the zone. Squares whose middle lies in the zone would follow its edge as well and lose rows along it.

A line has at most 16 rectangles and 1,024 bytes. Where there are several lines, `gract.pictures.first_hits` makes one reply of theirs.
"""

import argparse
import math
import sys
from decimal import Decimal
from fractions import Fraction
from typing import Dict, Iterable, Iterator, List, Optional, Sequence, Tuple

from .errors import ArgumentError, SourceError
from .grid import Grid
from .pictures import coasts
from .planes import Degrees, Metres, Plane, Projected, turned
from .rows.sources import sources_of

MOST_SHAPES, MOST_BYTES, MOST_ROWS, MOST_COORDINATE = 16, 1024, 100000, 2**41

# The words after each kind of question before its region.
INSTANTS = {"slice": 1, "interval": 2}

# The most bytes of a file of polygons, unpacked, and the most digits of a number in it.
MOST_TEXT, MOST_DIGITS = 1 << 28, 1000

# A corner, and a polygon: its outer ring, then its holes.
Corner = Tuple[Decimal, Decimal]
Polygon = List[List[Corner]]
Place = Tuple[Fraction, Fraction]

# An edge: X and Y of its lower end, and of its upper one. The first and the last square of a row. X1, Y1, X2 and Y2 of a rectangle.
Edge = Tuple[Fraction, Fraction, Fraction, Fraction]
Span = Tuple[int, int]
Rect = Tuple[int, int, int, int]


def polygons_in(name: str) -> List[Polygon]:
    """The polygons of a file. Refuses a file without one, and a polygon with fewer than three corners."""
    found: List[Polygon] = []
    for source in sources_of(name, MOST_TEXT):
        if source.head.lstrip(b"\xef\xbb\xbf \t\r\n")[:1] == b"{":
            found += polygons_of(name, coasts.shapes_read(name, source.raw))
        else:
            found.append([corners_in(name, source.lines())])
    if not found or any(len(ring) < 3 for rings in found for ring in rings):
        raise SourceError(f"{name}: a polygon has three corners or more")
    return found


def polygons_of(name: str, shapes: Iterable[coasts.Shape]) -> List[Polygon]:
    """The polygons of GeoJSON."""
    found: List[Polygon] = []
    for kind, ring in shapes:
        if kind == coasts.SHORE:
            raise SourceError(f"{name} has a line, and a zone is made of polygons")
        if kind == coasts.LAND:
            found.append([])
        found[-1].append([(Decimal(repr(east)), Decimal(repr(north))) for east, north in ring])
    return found


def corners_in(name: str, lines: Iterable[Tuple[int, str]]) -> List[Corner]:
    """The corners of a text, one on each line."""
    found: List[Corner] = []
    for nth, line in lines:
        words = line.replace(",", " ").split()
        if not words or words[0].startswith("#"):
            continue
        try:
            x, y = (Decimal(word) for word in words)
        except (ValueError, ArithmeticError):
            raise SourceError(f"{name} line {nth} is no corner, which is two numbers: {line[:60]}") from None
        if not (x.is_finite() and y.is_finite() and max(abs(x.adjusted()), abs(y.adjusted())) < MOST_DIGITS):
            raise SourceError(f"{name} line {nth} is no corner, since its numbers are not finite, or have no end: {line[:60]}")
        found.append((x, y))
    return found


class Squares:
    """The squares of a plane, `side` cells wide and high, and how corners become places in them: exactly as the rows' places are before
    they are rounded. Without a grid, or where it has no plane, corners are in cells, and else in degrees."""

    def __init__(self, side: int = 1, grid: Optional[Grid] = None):
        if side < 1:
            raise ArgumentError("square", f"{side} is not 1 or more")
        self.side, self.plane = side, grid.plane if grid is not None else None
        self.units = side * (grid.cell if grid is not None and grid.plane is not None else 1)
        self.west = grid.west if grid is not None else -180

    def places(self, ring: Sequence[Corner]) -> List[Place]:
        """The places of corners. Refuses those off the globe, or beyond all cells, and a polygon that the plane cuts in two."""
        if self.plane is None:
            if any(abs(number) > 2 * MOST_COORDINATE for corner in ring for number in corner):
                raise SourceError("the zone has cells beyond 2^41")
            return [(Fraction(x) / self.units, Fraction(y) / self.units) for x, y in ring]
        if isinstance(self.plane, Projected):
            raise SourceError(f"a polygon in degrees has curved edges in EPSG:{self.plane.epsg}, the grid's plane: give corners in cells")
        for longitude, latitude in ring:
            if not (abs(latitude) <= 90 and abs(longitude) <= 360):
                raise SourceError(f"the corner {longitude} {latitude} is off the globe")
        least = min(longitude for longitude, _ in ring)
        turn = Decimal(turned(least, self.west)) - least
        if max(longitude for longitude, _ in ring) + turn > self.west + 360:
            raise SourceError(f"a polygon crosses longitude {self.west}, at which the plane is cut: make one on each side of it")
        return [(self.along(x + turn, self.plane.east), self.along(y, self.plane.north)) for x, y in ring]

    def along(self, degrees: Decimal, units: float) -> Fraction:
        """Degrees along an axis, in sides of a square."""
        return Fraction(float(degrees) * units if isinstance(units, float) else Fraction(degrees) * units) / self.units


def cover(polygons: Sequence[Polygon], squares: Squares) -> List[Rect]:
    """The rectangles of cells, both ends counted, that cover the squares of polygons. Refuses a zone beyond all cells."""
    found = fewest_rectangles([[squares.places(ring) for ring in rings] for rings in polygons])
    side = squares.side
    cells = [(x1 * side, y1 * side, (x2 + 1) * side - 1, (y2 + 1) * side - 1) for x1, y1, x2, y2 in found]
    if any(abs(number) > MOST_COORDINATE for numbers in cells for number in numbers):
        raise SourceError("the zone has cells beyond 2^41")
    return cells


def edges_of(rings: Iterable[Sequence[Place]]) -> Iterator[Edge]:
    """The edges of rings, each from its lower end to its upper one."""
    for ring in rings:
        for (x1, y1), (x2, y2) in zip(ring, [*ring[1:], *ring[:1]]):
            yield (x1, y1, x2, y2) if y1 <= y2 else (x2, y2, x1, y1)


def x_at(edge: Edge, y: Fraction) -> Fraction:
    """Where an edge is at a height."""
    x1, y1, x2, y2 = edge
    return x1 + (x2 - x1) * (y - y1) / (y2 - y1)


def span_of(edge: Edge, row: int) -> Span:
    """The first and the last square of a row in which an edge has a point; the row has its lower side and not its upper one."""
    x1, y1, x2, y2 = edge
    if y1 == y2:
        return math.floor(min(x1, x2)), math.floor(max(x1, x2))
    begin, end = x_at(edge, max(y1, Fraction(row))), x_at(edge, min(y2, Fraction(row + 1)))
    if y2 < row + 1 or end <= begin:
        return math.floor(min(begin, end)), math.floor(max(begin, end))
    return math.floor(begin), math.ceil(end) - 1


def joined(spans: Iterable[Span]) -> List[Span]:
    """Spans put together where they overlap or follow one another, in their order."""
    found: List[Span] = []
    for begin, end in sorted(spans):
        if found and begin <= found[-1][1] + 1:
            found[-1] = found[-1][0], max(end, found[-1][1])
        else:
            found.append((begin, end))
    return found


def runs_of(edges: Sequence[Edge], row: int) -> List[Span]:
    """The runs of a row's squares that have a point of a polygon with these edges in the row. Between squares with a part of an edge
    each is wholly inside or wholly outside: inside where an odd number of edges lies west of its middle."""
    spans = joined(span_of(edge, row) for edge in edges)
    middle = row + Fraction(1, 2)
    crossings = [x_at(edge, middle) for edge in edges if edge[1] <= middle < edge[3]]
    inner = [
        (end + 1, begin - 1) for (_, end), (begin, _) in zip(spans, spans[1:])
        if sum(x < end + 1 for x in crossings) % 2
    ]
    return joined(spans + inner)


def rows_of(polygons: Sequence[Sequence[Sequence[Place]]]) -> List[Tuple[int, List[Span]]]:
    """The rows of squares that have a point of the polygons, from the south, each with its runs."""
    rows: Dict[int, List[Span]] = {}
    if sum(edge[3] - edge[1] for rings in polygons for edge in edges_of(rings)) > MOST_ROWS:
        raise SourceError(f"the edge of the zone passes more than {MOST_ROWS} squares: take greater ones (--square)")
    for rings in polygons:
        by_row: Dict[int, List[Edge]] = {}
        for edge in edges_of(rings):
            for row in range(math.floor(edge[1]), math.floor(edge[3]) + 1):
                by_row.setdefault(row, []).append(edge)
        for row, edges in by_row.items():
            rows.setdefault(row, []).extend(runs_of(edges, row))
    return [(row, joined(runs)) for row, runs in sorted(rows.items())]


def rectangles_of(polygons: Sequence[Sequence[Sequence[Place]]]) -> List[Rect]:
    """Rectangles of squares X1, Y1, X2, Y2, both ends counted: each run with the equal ones of the rows that follow."""
    found: List[Tuple[Span, Span]] = []
    below: Dict[Span, Span] = {}
    for row, runs in rows_of(polygons):
        here = {}
        for run in runs:
            # A run of the row below that has the same ends goes on.
            first, last = below.get(run, (row, None))
            here[run] = (first, row) if last == row - 1 else (row, row)
        found += [(run, ends) for run, ends in below.items() if here.get(run, (None,))[0] != ends[0]]
        below = here
    found += below.items()
    return sorted((x1, y1, x2, y2) for (x1, x2), (y1, y2) in found)


def fewest_rectangles(polygons: Sequence[Sequence[Sequence[Place]]]) -> List[Rect]:
    """The rectangles by rows, or those by columns where they are fewer. Both cover the same squares."""
    turned = [[[(y, x) for x, y in ring] for ring in rings] for rings in polygons]
    by_columns = sorted((x1, y1, x2, y2) for y1, x1, y2, x2 in rectangles_of(turned))
    return min(rectangles_of(polygons), by_columns, key=len)


def lines_of(head: Sequence[str], shapes: Iterable[str]) -> Iterator[str]:
    """Question lines with all shapes in their order, as many on each as it can hold."""
    left = list(shapes)
    while left:
        count = min(MOST_SHAPES, len(left))
        while len(line_of(head, left[:count])) > MOST_BYTES:
            count -= 1
        yield line_of(head, left[:count])
        left = left[count:]


def line_of(head: Sequence[str], shapes: Sequence[str]) -> str:
    """A question line."""
    return " ".join([*head, "any", str(len(shapes)), *shapes])


def head_of(question: Sequence[str]) -> List[str]:
    """The words of a question before its region."""
    try:
        if len(question) - 1 == INSTANTS.get(question[0]):
            return [question[0], *(str(int(word)) for word in question[1:])]
    except ValueError:
        pass
    raise SourceError("the question is slice T or interval T1 T2, with instants as whole numbers")


def grid_of(words: argparse.Namespace) -> Grid:
    """The grid that the words say: without a plane, where they say none."""
    plane: Optional[Plane] = None
    if words.middle is not None:
        plane = Metres(words.middle)
    elif words.per_degree is not None:
        if words.per_degree < 1:
            raise ArgumentError("--per-degree", f"{words.per_degree} is not 1 or more")
        plane = Degrees(words.per_degree)
    return Grid(plane, cell=words.cell, west=words.west)


def lines_for(words: argparse.Namespace) -> Tuple[List[str], str]:
    """The question lines that the words ask for, and what is told of them."""
    head, squares = head_of(words.question), Squares(words.square, grid_of(words))
    cells = cover(polygons_in(words.polygon), squares)
    count = sum((x2 - x1 + 1) * (y2 - y1 + 1) for x1, y1, x2, y2 in cells) // words.square**2
    lines = list(lines_of(head, [" ".join(map(str, ("rect", *numbers))) for numbers in cells]))
    return lines, f"{count} squares, {len(cells)} rectangles, {len(lines)} lines"


def add_to(parser: argparse.ArgumentParser) -> None:
    """Gives the command `zone` its words."""
    choice = parser.add_mutually_exclusive_group()
    choice.add_argument("--middle", type=float, metavar="LATITUDE", help="corners are in degrees, and rows in metres round this latitude")
    choice.add_argument("--per-degree", type=int, metavar="N", help="corners are in degrees, and rows in degrees, N units to each")
    parser.add_argument("--west", type=int, default=-180, metavar="LONGITUDE", help="where the plane is cut (-180)")
    parser.add_argument("--cell", type=int, default=1, help="where the plane is told: the word CELL that the index was built with (1)")
    parser.add_argument("--square", type=int, default=1, metavar="CELLS", help="how many cells a square is wide and high (1)")
    parser.add_argument("polygon", help="a GeoJSON file, or a text with a corner on each line")
    parser.add_argument("question", nargs="+", help="slice T, or interval T1 T2")


def run(given: argparse.Namespace) -> int:
    """Prints the question lines, and answers with the status."""
    lines, told = lines_for(given)
    print(*lines, sep="\n")
    print(told, file=sys.stderr)
    return 0
