"""How pictures are drawn: shapes in cells, the axes round them, and both as an SVG."""

import math
from dataclasses import dataclass
from html import escape
from typing import Iterator, List, Optional, Sequence, Tuple, Union

from ..planes import Plane
from . import labels

# The colours of tracks, none of which is near that of regions and hits.
COLOURS = ("#1f5fa8", "#2f7d4f", "#7a4fa3", "#a8741f", "#2a8a94", "#5b6470", "#6b7a1e", "#3c3f8f")
HIT, EDGE, PALE, TOWN = "#c8102e", "#444444", "#d5dadd", "#222222"
LAND, SHORE, SEA = "#f0ece0", "#b3a98f", "#ffffff"

# Of the drawing, in pixels: its width, its greatest height, its least sides, and the margins (the left one at least).
WIDTH, MOST_HEIGHT, LEAST, LEFT, RIGHT, TOP, BOTTOM = 900, 760, 280, 56, 28, 40, 40

# From so many tracks on dates are left out, and from so many on names too; and the names of hits from so many hits on.
MOST_DATED, MOST_NAMED, MOST_HITS = 8, 40, 60


def colour_of(nth: int) -> str:
    """The colour of a track by its place among all: those above, and then others, but no red."""
    if nth < len(COLOURS):
        return COLOURS[nth]
    return f"hsl({round(40 + 137.508 * nth % 250)},{55 + nth % 3 * 10}%,{34 + nth % 2 * 8}%)"


# A place in cells, and one in pixels.
Point = Tuple[float, float]


@dataclass
class Line:
    """A line through places."""

    points: List[Point]
    colour: str
    dashed: bool = False


@dataclass
class Dot:
    """A row that was found."""

    x: float
    y: float
    text: str

    @property
    def points(self) -> List[Point]:
        """The places that have to be in the picture."""
        return [(self.x, self.y)]


@dataclass
class Mark(Dot):
    """A place on a track with a date, or its end with a name."""

    colour: str
    is_end: bool = False


class Place(Dot):
    """A town or a port."""


@dataclass
class Cross:
    """A place to which the nearest were asked for."""

    x: float
    y: float

    @property
    def points(self) -> List[Point]:
        """The places that have to be in the picture."""
        return [(self.x, self.y)]


@dataclass
class Box:
    """A rectangle of cells."""

    x1: float
    y1: float
    x2: float
    y2: float

    @property
    def points(self) -> List[Point]:
        """The places that have to be in the picture."""
        return [(self.x1, self.y1), (self.x2, self.y2)]


@dataclass
class Circle:
    """A disc of cells."""

    x: float
    y: float
    radius: float

    @property
    def points(self) -> List[Point]:
        """The places that have to be in the picture."""
        return [(self.x - self.radius, self.y - self.radius), (self.x + self.radius, self.y + self.radius)]


Shape = Union[Line, Dot, Cross, Box, Circle]

# A part of the land: its places, its colour, and whether a line goes round it.
Land = Tuple[List[Point], str, bool]


class Axes:
    """What stands along the edges: degrees, where the plane is known, and else cells."""

    def __init__(self, plane: Optional[Plane], cell: int, narrow: bool = False):
        self.plane, self.cell, self.narrow = plane, cell, narrow

    def wide(self, y: float) -> float:
        """How wide a cell is for its height, at this height of the picture."""
        if not self.narrow or self.plane is None:
            return 1
        latitude = max(-84, min(84, self.plane.degrees(0, y * self.cell)[0]))
        return math.cos(math.radians(latitude))

    def sizes(self) -> Tuple[float, float]:
        """How many degrees a cell is wide and high, or 1 where the plane is not known."""
        if not self.plane:
            return 1, 1
        latitude, longitude = self.plane.degrees(self.cell, self.cell)
        return longitude, latitude

    def marks(self, low: float, high: float, is_x: bool, most: int) -> Iterator[Tuple[float, str]]:
        """At most about so many marks from one cell to another: the cell, and what stands beside it."""
        size = self.sizes()[0 if is_x else 1]
        step = step_of((high - low) * size, most, whole=not self.plane)
        for nth in range(math.ceil(low * size / step), math.floor(high * size / step) + 1):
            yield nth * step / size, self.text(nth * step, step, is_x)

    def text(self, value: float, step: float, is_x: bool) -> str:
        """What stands beside a mark."""
        if not self.plane:
            return f"{value:.0f}"
        if is_x:
            value = (value + 180) % 360 - 180
        figures = max(0, -math.floor(math.log10(step) + 1e-9))
        shown = f"{abs(value):.{figures}f}"
        if float(shown) == 0 or (is_x and float(shown) == 180):
            return f"{shown}°"
        return f"{shown}°{('E' if is_x else 'N') if value > 0 else ('W' if is_x else 'S')}"


def step_of(length: float, most: int, whole: bool) -> float:
    """The least round step of which a length has at most so many."""
    power = 10.0 ** math.floor(math.log10(length / most))
    step = next(power * part for part in (1, 2, 5, 10) if power * part * most >= length * (1 - 1e-9))
    return max(1, step) if whole else step


class Picture:
    """Shapes in a frame with axes, a title and texts."""

    def __init__(self, shapes: List[Shape], axes: Axes, title: str, has_dates: Optional[bool] = None, has_names: Optional[bool] = None):
        self.shapes, self.axes, self.title, self.left = shapes, axes, title, LEFT
        self.frame()
        # What stands beside the frame has to fit there.
        self.left = max(LEFT, round(12 + max((labels.width_of(text, 11) for _, text in self.marks_up()), default=0)))
        self.frame()
        ends = sum(isinstance(shape, Mark) and shape.is_end for shape in shapes)
        hits = sum(type(shape) is Dot for shape in shapes)
        self.has_dates = ends <= MOST_DATED if has_dates is None else has_dates
        self.names_tracks = ends <= MOST_NAMED if has_names is None else has_names
        self.names_hits = hits <= MOST_HITS if has_names is None else has_names
        self.is_crowded = ends > MOST_DATED
        self.land: List[Land] = []
        self.left_out = 0

    def frame(self) -> None:
        """The part of the plane that is shown, and how many pixels a cell is wide and high."""
        points = [point for shape in self.shapes for point in shape.points]
        xs, ys = [x for x, _ in points], [y for _, y in points]
        wide = self.axes.wide((min(ys) + max(ys)) / 2)
        edge = 0.06 * max((max(xs) - min(xs)) * wide, max(ys) - min(ys), 10)
        x1, x2, y1, y2 = min(xs) - edge / wide, max(xs) + edge / wide, min(ys) - edge, max(ys) + edge
        high, across = MOST_HEIGHT - TOP - BOTTOM, WIDTH - self.left - RIGHT
        self.down = min(high / (y2 - y1), across / ((x2 - x1) * wide))
        self.across = self.down * wide
        # A strip is made wider, so that what stands along its edges has room.
        more_x = max(0, LEAST - (x2 - x1) * self.across) / 2 / self.across
        more_y = max(0, LEAST - (y2 - y1) * self.down) / 2 / self.down
        self.x1, self.x2, self.y1, self.y2 = x1 - more_x, x2 + more_x, y1 - more_y, y2 + more_y
        self.width = self.left + RIGHT + round((self.x2 - self.x1) * self.across)
        self.height = TOP + BOTTOM + round((self.y2 - self.y1) * self.down)
        self.right, self.low = self.width - RIGHT, self.height - BOTTOM

    def marks_up(self) -> Iterator[Tuple[float, str]]:
        """The marks of the left side."""
        return self.axes.marks(self.y1, self.y2, False, max(2, (self.low - TOP) // 70))

    def at(self, x: float, y: float) -> Point:
        """Where a place in cells is, in pixels."""
        return round(self.left + (x - self.x1) * self.across, 1), round(TOP + (self.y2 - y) * self.down, 1)

    def svg(self) -> str:
        """The picture as an SVG."""
        texts = list(self.placed_labels())
        size = min(15, 15 * (self.width - self.left) / (labels.width_of(self.title, 15, bold=True) + 1))
        lines = [
            f'<svg xmlns="http://www.w3.org/2000/svg" width="{self.width}" height="{self.height}"'
            f' viewBox="0 0 {self.width} {self.height}" font-family="sans-serif" font-size="11">',
            f'<clipPath id="frame"><path d="M{self.left} {TOP}H{self.right}V{self.low}H{self.left}Z"/></clipPath>',
            f'<rect width="{self.width}" height="{self.height}" fill="white"/>',
            '<g clip-path="url(#frame)">',
            *self.svg_land(),
            "</g>",
            *self.svg_axes(),
            '<g clip-path="url(#frame)">',
            *(line for shape in sorted(self.shapes, key=turn_of) for line in self.svg_shape(shape)),
            "</g>",
            *(line for text in texts for line in svg_text(text)),
            f'<text x="{self.left}" y="{TOP - 16}" font-size="{size:.3g}" font-weight="bold">{escape(self.title)}</text>',
            "</svg>",
        ]
        return "\n".join(lines) + "\n"

    def svg_land(self) -> Iterator[str]:
        """Land and lakes as they are filled, and shores as lines; polygons have a line round them where there are no shores."""
        for places, fill, outlined in self.land:
            path = "M" + "L".join(f"{x} {y}" for x, y in thinned([self.at(*place) for place in places]))
            stroke = f' stroke="{SHORE}" stroke-width="0.6"' if outlined else f' stroke="{fill}" stroke-width="0.4"'
            yield f'<path d="{path}{"Z" if fill else ""}" fill="{fill or "none"}"{stroke}/>'

    def svg_axes(self) -> Iterator[str]:
        """The lines of degrees or cells, and the frame."""
        for x, text in self.axes.marks(self.x1, self.x2, True, max(2, (self.right - self.left) // 72)):
            across, _ = self.at(x, self.y1)
            yield f'<path d="M{across} {TOP}V{self.low}" stroke="{PALE}"/>'
            yield f'<text x="{across}" y="{self.low + 16}" text-anchor="middle" fill="{EDGE}">{text}</text>'
        for y, text in self.marks_up():
            _, down = self.at(self.x1, y)
            yield f'<path d="M{self.left} {down}H{self.right}" stroke="{PALE}"/>'
            yield f'<text x="{self.left - 6}" y="{down + 4}" text-anchor="end" fill="{EDGE}">{text}</text>'
        yield f'<path d="M{self.left} {TOP}H{self.right}V{self.low}H{self.left}Z" fill="none" stroke="{EDGE}"/>'

    def svg_shape(self, shape: Shape) -> Iterator[str]:
        """A shape."""
        x, y = self.at(*shape.points[0])
        if isinstance(shape, Line):
            points = thinned([self.at(*point) for point in shape.points])
            path = " ".join(f"{across},{down}" for across, down in points)
            dashes = ' stroke-dasharray="2 4"' if shape.dashed else ""
            width = 1.1 if self.is_crowded else 1.6
            yield f'<polyline points="{path}" fill="none" stroke="{shape.colour}" stroke-width="{width}"{dashes}/>'
        elif isinstance(shape, Box):
            right, high = self.at(shape.x2, shape.y2)
            yield f'<path d="M{x} {y}H{right}V{high}H{x}Z" fill="none" stroke="{HIT}" stroke-dasharray="7 4"/>'
        elif isinstance(shape, Circle):
            x, y = self.at(shape.x, shape.y)
            sizes = f'rx="{shape.radius * self.across:.1f}" ry="{shape.radius * self.down:.1f}"'
            yield f'<ellipse cx="{x}" cy="{y}" {sizes} fill="none" stroke="{HIT}" stroke-dasharray="7 4"/>'
        elif isinstance(shape, Cross):
            yield f'<path d="M{x - 6} {y}h12M{x} {y - 6}v12" stroke="{HIT}" stroke-width="2"/>'
        elif isinstance(shape, Mark):
            if shape.is_end or self.has_dates:
                radius = 3 if shape.is_end else 2
                yield f'<circle cx="{x}" cy="{y}" r="{radius}" fill="{shape.colour}"/>'
        elif isinstance(shape, Place):
            yield f'<rect x="{x - 2}" y="{y - 2}" width="4" height="4" fill="{TOWN}"/>'
        else:
            size = "4.5" if self.names_hits else "3"
            yield f'<circle cx="{x}" cy="{y}" r="{size}" fill="{HIT}" stroke="white"/>'

    def placed_labels(self) -> List[labels.Placed]:
        """The texts that find room beside what they name."""
        room = labels.Room(self.left, TOP, self.right, self.low)
        wanted = []
        for shape in self.shapes:
            if isinstance(shape, Line):
                room.add_line([self.at(*point) for point in shape.points])
            elif isinstance(shape, (Box, Circle)):
                room.add_line([self.at(*point) for point in edge_of(shape)])
            elif isinstance(shape, (Dot, Cross)):
                x, y = self.at(*shape.points[0])
                label = self.label_of(shape, x, y)
                if label:
                    wanted.append(label)
                if label or not isinstance(shape, Mark):
                    room.take((x - 3, y - 3, x + 3, y + 3))
        found = list(labels.placed(wanted, room))
        self.left_out = len(wanted) - len(found)
        return found

    def label_of(self, shape: Union[Dot, Cross], x: float, y: float) -> Optional[labels.Label]:
        """The text beside a shape; None where it has none."""
        if isinstance(shape, Place):
            return labels.Label(x, y, shape.text, TOWN, rank=0, held=True)
        if isinstance(shape, Mark):
            if shape.is_end:
                size, bold = (10, False) if self.is_crowded else (13, True)
                return labels.Label(x, y, shape.text, shape.colour, size, bold, 2, True) if self.names_tracks else None
            return labels.Label(x, y, shape.text, shape.colour, 10, rank=3) if self.has_dates else None
        if isinstance(shape, Dot) and shape.text and self.names_hits:
            return labels.Label(x, y, shape.text, HIT, rank=1, held=True)
        return None


def edge_of(region: Union[Box, Circle]) -> List[Point]:
    """Places along the edge of a region."""
    if isinstance(region, Box):
        return [(region.x1, region.y1), (region.x2, region.y1), (region.x2, region.y2), (region.x1, region.y2), (region.x1, region.y1)]
    turns = [2 * math.pi * nth / 60 for nth in range(61)]
    return [(region.x + region.radius * math.cos(turn), region.y + region.radius * math.sin(turn)) for turn in turns]


def turn_of(shape: Shape) -> int:
    """When a shape is drawn: lines first, then marks on them, regions, and towns and hits last."""
    if isinstance(shape, Line):
        return 0
    if isinstance(shape, Mark):
        return 1
    return 3 if isinstance(shape, Dot) else 2


def thinned(points: Sequence[Point], least: float = 0.4) -> List[Point]:
    """Points of a line without those that lie within a part of a pixel of the one before; its ends stay."""
    found = list(points[:1])
    for point in points[1:-1]:
        if max(abs(point[0] - found[-1][0]), abs(point[1] - found[-1][1])) >= least:
            found.append(point)
    return [*found, *points[-1:]]


def svg_text(placed: labels.Placed) -> Iterator[str]:
    """A text, with a line to its point where it is far away."""
    label = placed.label
    if placed.line:
        left, low = placed.left, placed.low - 0.35 * label.size
        right = left + labels.width_of(label.text, label.size, label.bold)
        to = left if label.x < left else right if label.x > right else label.x
        yield f'<path d="M{label.x} {label.y}L{to:.1f} {low:.1f}" stroke="{label.colour}" stroke-width="0.5"/>'
    weight = ' font-weight="bold"' if label.bold else ""
    yield (
        f'<text x="{placed.left:.1f}" y="{placed.low:.1f}" font-size="{label.size}" fill="{label.colour}"{weight}'
        f' stroke="white" stroke-width="2.5" stroke-linejoin="round" paint-order="stroke">{escape(label.text)}</text>'
    )
