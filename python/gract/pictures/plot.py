"""`python3 -m gract plot`: questions and their replies as an SVG, or as a page to look around in.

Each `path`, and each `more` of one that is held, is a line with dates along it, dashed where rows are missing in between, and the
object's name at its end. The region of each `interval` and `slice` is outlined, of a zone each shape, and its hits are dots. A `position`
is a dot, a `meet` is two, and a `nearest` a cross with dots for those that were found.
"""

import argparse
import sys
from typing import Dict, Iterable, Iterator, List, Optional, Sequence, Tuple

from .. import times
from ..errors import SourceError
from ..names import shown
from . import coasts, drawing, page, replies

# The ways to date a track: seconds between two dates, of which the first that gives few enough is taken.
STEPS = [60, 300, 900] + [3600 * hours for hours in (1, 3, 6, 12, 24, 48, 120, 240, 720, 2160, 8760)]
MOST_DATES = 8

MONTHS = "Jan Feb Mar Apr May Jun Jul Aug Sep Oct Nov Dec".split()


class Dates:
    """What an instant of the chart is as a time."""

    def __init__(self, tick: int, unit: int):
        self.seconds = tick * unit

    def text(self, instant: int, step: int = 0) -> str:
        """When an instant begins: its day alone, where a step is a day or more."""
        whole, clock = times.time_text(instant * self.seconds).split()
        _, month, day = whole.split("-")
        date = f"{int(day)} {MONTHS[int(month) - 1]}"
        return date if step >= 86400 else f"{date} {clock}"

    def along(self, stops: Sequence[replies.Stop]) -> Iterator[Tuple[str, int, int]]:
        """The stops of a track at which a date stands, and the dates."""
        first, last = stops[0][0] * self.seconds, stops[-1][0] * self.seconds
        step = next((step for step in STEPS if (last - first) // step <= MOST_DATES), STEPS[-1])
        before = None
        for instant, x, y in stops:
            now = instant * self.seconds // step
            if now != before and before is not None or instant == stops[0][0]:
                yield self.text(instant, step), x, y
            before = now


def region_of(region: replies.Region) -> Optional[drawing.Shape]:
    """A region as it is drawn, from the edges of its cells; None for a rect without a cell."""
    if region.kind == "rect":
        x1, y1, x2, y2 = region.numbers
        return drawing.Box(x1, y1, x2 + 1, y2 + 1) if x1 <= x2 and y1 <= y2 else None
    x, y, radius = region.numbers
    return drawing.Circle(x + 0.5, y + 0.5, radius)


def middle(x: int, y: int) -> drawing.Point:
    """The middle of a cell."""
    return x + 0.5, y + 0.5


class Scene:
    """What is drawn, in cells."""

    def __init__(self, told: Iterable[replies.Told], dates: Dates, names: Dict[int, str], wraps: float):
        self.dates, self.names, self.wraps = dates, names, wraps
        self.shapes: List[drawing.Shape] = []
        self.colours: Dict[int, str] = {}
        self.dots: Dict[Tuple[int, int, int], drawing.Dot] = {}
        self.ends: Dict[int, Tuple[int, drawing.Mark]] = {}
        for it in told:
            if isinstance(it, replies.Track):
                self.add_track(it)
            elif isinstance(it, replies.Region):
                region = region_of(it)
                self.shapes += [region] if region else []
            elif isinstance(it, replies.Hit):
                self.add_hit(it)
            elif isinstance(it, replies.Target):
                self.shapes.append(drawing.Cross(*middle(it.x, it.y)))

    def called(self, number: int) -> str:
        """The name of an object, or else its number."""
        return self.names.get(number, str(number))

    def colour(self, number: int) -> str:
        """The colour of an object's tracks."""
        return self.colours.setdefault(number, drawing.colour_of(len(self.colours)))

    def add_hit(self, hit: replies.Hit) -> None:
        """Adds a row that was found."""
        text = self.called(hit.number) + (f" {self.dates.text(hit.instant)}" if hit.dated else "")
        # An object that two questions found in one cell is drawn once, with its time where one of them tells it.
        dot = self.dots.get((hit.number, hit.x, hit.y))
        if dot is None:
            dot = self.dots[hit.number, hit.x, hit.y] = drawing.Dot(*middle(hit.x, hit.y), text)
            self.shapes.append(dot)
        elif dot.text == self.called(hit.number):
            dot.text = text

    def add_line(self, stops: Sequence[replies.Stop], colour: str, dashed: bool = False) -> None:
        """A line through stops, broken where it goes round the edge of the plane."""
        part = [stops[0]]
        for stop in stops[1:]:
            if self.wraps and abs(stop[1] - part[-1][1]) > self.wraps / 2:
                self.shapes.append(drawing.Line([middle(x, y) for _, x, y in part], colour, dashed))
                part = []
            part.append(stop)
        self.shapes.append(drawing.Line([middle(x, y) for _, x, y in part], colour, dashed))

    def add_track(self, track: replies.Track) -> None:
        """Adds a track with its dates and its name."""
        colour, before = self.colour(track.number), None
        for piece in track.pieces():
            if before:
                self.add_line([before, piece[0]], colour, dashed=True)
            self.add_line(piece, colour)
            before = piece[-1]
        for text, x, y in self.dates.along(track.stops):
            self.shapes.append(drawing.Mark(*middle(x, y), text, colour))
        instant, x, y = track.stops[-1]
        # Of several parts of one track the last one has the name.
        if track.number not in self.ends or self.ends[track.number][0] < instant:
            self.ends[track.number] = instant, drawing.Mark(*middle(x, y), self.called(track.number), colour, is_end=True)

    def whole(self) -> List[drawing.Shape]:
        """All shapes, with the names at the ends of tracks."""
        return [*self.shapes, *(mark for _, mark in self.ends.values())]


def add_places(scene: Scene, places: Iterable[str]) -> None:
    """Adds cells with names."""
    for place in places:
        try:
            x, y, name = place.split(None, 2)
            scene.shapes.append(drawing.Place(*middle(int(x), int(y)), shown(name)))
        except ValueError:
            raise SourceError(f"--place {place!r} is not a cell's X and Y and a name") from None


def window_of(picture: drawing.Picture, beyond: float) -> coasts.Window:
    """The part of the globe that a picture shows, and so much beyond it on each side, in parts of its greater side."""
    plane, cell = picture.axes.plane, picture.axes.cell
    if plane is None:
        raise SourceError("to lay a coast under the picture the plane has to be told: --middle LATITUDE or --per-degree N")
    more = beyond * max(picture.x2 - picture.x1, picture.y2 - picture.y1)
    south, west = plane.degrees((picture.x1 - more) * cell, (picture.y1 - more) * cell)
    north, east = plane.degrees((picture.x2 + more) * cell, (picture.y2 + more) * cell)
    return coasts.Window(west, south, east, north)


def lay_coast(picture: drawing.Picture, name: str, beyond: float) -> None:
    """Adds the coasts to a picture: land first, lakes on it, and shores last."""
    window, (wide, high) = window_of(picture, beyond), picture.axes.sizes()
    fills = {coasts.LAND: drawing.LAND, coasts.LAKE: drawing.SEA, coasts.SHORE: ""}
    found = sorted(coasts.shapes_of(name, window), key=lambda it: list(fills).index(it[0]))
    if not found:
        print(f"gract: {name} has no coast in this picture", file=sys.stderr)
    whole = any(kind == coasts.SHORE for kind, _ in found)
    picture.land = [
        ([(east / wide, north / high) for east, north in places], fills[kind], not (whole and kind != coasts.SHORE))
        for kind, places in found
    ]


def picture_of(words: argparse.Namespace) -> Tuple[replies.Answers, Scene, drawing.Picture]:
    """What is told, and its scene and picture."""
    told = replies.Answers(words.questions, words.replies)
    plane = replies.plane_of(words)
    # Once round the globe, in cells.
    wraps = 360 * words.per_degree / told.cell if words.per_degree else 0
    scene = Scene(told.told, Dates(told.tick, words.unit), replies.names_in(words.names), wraps)
    add_places(scene, words.place)
    if not scene.shapes:
        raise SourceError("there is nothing to draw")
    axes = drawing.Axes(plane, told.cell, narrow=words.per_degree is not None)
    picture = drawing.Picture(scene.whole(), axes, shown(words.title), words.dates, words.names_too)
    if words.coast:
        # In a page one can look round beyond the picture.
        lay_coast(picture, words.coast, 0.5 if words.html else 0.02)
    return told, scene, picture


def add_to(parser: argparse.ArgumentParser) -> None:
    """Gives the command its words."""
    parser.description = (
        "Draws questions and their replies: makes NAME.svg, or with --html NAME.html, a page of one file with zoom, pan and a slider "
        "over time. Lines of QUESTIONS that begin with # are notes. The other lines must have been asked in that order. The width of a "
        "cell and the length of an instant are those that an `info` among the replies tells, and else 1."
    )
    parser.add_argument("questions")
    parser.add_argument("replies")
    parser.add_argument("name", help="of the picture, without .svg or .html")
    replies.add_plane(parser)
    parser.add_argument("--place", action="append", default=[], metavar="'X Y NAME'", help="a cell to mark by a name")
    parser.add_argument("--title", default="")
    parser.add_argument("--coast", metavar="FILE", help="coasts to lay under it: a GeoJSON file, a folder of GSHHG, or gshhg, Debian's own")
    parser.add_argument("--html", action="store_true", help="make a page with zoom, pan and a slider over time")
    for option, keeps, what in (("dates", "dates", "dates"), ("names-too", "names", "names")):
        choice = parser.add_mutually_exclusive_group()
        store = option.replace("-", "_")
        choice.add_argument(f"--{option}", dest=store, action="store_true", default=None, help=f"{what} also where there are many")
        choice.add_argument(f"--no-{keeps}", dest=store, action="store_false", help=f"no {what}")


def run(given: argparse.Namespace) -> int:
    """Draws the picture, and answers with the status."""
    try:
        told, scene, picture = picture_of(given)
        text = page.text_of(told, scene, picture) if given.html else picture.svg()
    except (ValueError, ArithmeticError) as fault:
        if isinstance(fault, SourceError):
            raise
        raise SourceError(f"{given.replies}: a time or a place is none that can be drawn: {fault}") from None
    with open(f"{given.name}.{'html' if given.html else 'svg'}", "w", encoding="utf-8") as out:
        out.write(text)
    if picture.left_out and not given.html:
        print(f"gract: {picture.left_out} labels found no room", file=sys.stderr)
    return 0
