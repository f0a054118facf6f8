"""Questions and their replies as a map that other programs read: GeoJSON, GPX or CSV.

The tracks of each `path` and `more` become LineStrings, or segments of a GPX track. They are cut where an instant has no row, and where
they cross longitude 180; a row between two absences is a point. What `position`, `slice`, `interval`, `nearest` and `meet` found are
points, or waypoints, and the regions are polygons, of a zone each shape (not in GPX and CSV). Each has the object's number and name, and
its time or times. Places are the middles of cells, in degrees, so the plane of the rows has to be told.
"""

import argparse
import csv
import json
import math
import sys
from typing import Any, Callable, Dict, Iterable, Iterator, List, Sequence, Tuple
from xml.sax.saxutils import escape

from .. import times
from ..errors import SourceError
from . import replies

# So many corners stand for a disc.
CORNERS = 72


Place = Tuple[float, float]
Feature = Dict[str, Any]


def rounded(place: Sequence[float]) -> List[float]:
    """A place as maps have it."""
    return [round(part, 6) for part in place]


def usual(longitude: float) -> float:
    """A longitude from -180 on and below 180."""
    return (longitude + 180) % 360 - 180


def cut(places: Sequence[Place]) -> List[List[Place]]:
    """A line as parts, cut where it crosses longitude 180: the shorter way round is taken between two places."""
    parts = [[places[0]]]
    for (east, north), (east2, north2) in zip(places, places[1:]):
        if abs(east2 - east) > 180:
            edge: float = 180 if east > 0 else -180
            far = edge - east + (edge + east2)
            part = (edge - east) / far if far else 0
            middle = north + (north2 - north) * part
            parts[-1].append((edge, middle))
            parts.append([(-edge, middle)])
        parts[-1].append((east2, north2))
    return parts


class World:
    """Where cells are on the globe, when instants are, and what objects are called."""

    def __init__(self, told: replies.Answers, words: argparse.Namespace):
        plane = replies.plane_of(words)
        if plane is None:
            raise SourceError("the plane of the rows is not known: give --middle LATITUDE or --per-degree N")
        self.plane, self.cell, self.seconds = plane, told.cell, told.tick * words.unit
        self.names = replies.names_in(words.names)

    def corner(self, x: float, y: float) -> Place:
        """Longitude and latitude of a place in cells."""
        latitude, longitude = self.plane.degrees(x * self.cell, y * self.cell)
        return longitude, latitude

    def middle(self, x: int, y: int) -> Place:
        """Longitude and latitude of the middle of a cell."""
        longitude, latitude = self.corner(x + 0.5, y + 0.5)
        return usual(longitude), latitude

    def time(self, instant: int) -> str:
        """When an instant begins."""
        seconds = instant * self.seconds
        return f"{times.time_text(seconds).replace(' ', 'T')}:{seconds % 60:02}Z"

    def called(self, number: int) -> str:
        """The name of an object, or else its number."""
        return self.names.get(number, str(number))

    def lines(self, track: replies.Track) -> Iterator[Tuple[List[replies.Stop], List[List[Place]]]]:
        """The parts of a track: the rows of each piece, and its places cut at longitude 180."""
        for piece in track.pieces():
            yield piece, cut([self.middle(x, y) for _, x, y in piece])


def ring_of(region: replies.Region, world: World) -> List[List[float]]:
    """The corners of a region's polygon, against the clock, the first of them again at the end."""
    if region.kind == "rect":
        x1, y1, x2, y2 = region.numbers
        corners: List[Place] = [(x1, y1), (x2 + 1, y1), (x2 + 1, y2 + 1), (x1, y2 + 1)] if x1 <= x2 and y1 <= y2 else []
    else:
        x, y, radius = region.numbers
        turns = [2 * math.pi * nth / CORNERS for nth in range(CORNERS)]
        corners = [(x + 0.5 + radius * math.cos(turn), y + 0.5 + radius * math.sin(turn)) for turn in turns]
    return [rounded(world.corner(*corner)) for corner in [*corners, *corners[:1]]]


def feature(geometry: str, coordinates: Any, **properties: Any) -> Feature:
    """A feature of GeoJSON."""
    return {"type": "Feature", "geometry": {"type": geometry, "coordinates": coordinates}, "properties": properties}


def features(told: Iterable[replies.Told], world: World, points: bool) -> Iterator[Feature]:
    """All that was told."""
    for it in told:
        if isinstance(it, replies.Track):
            yield from track_features(it, world, points)
        elif isinstance(it, replies.Hit):
            yield point_feature(it.kind, it.number, it.instant, it.x, it.y, world)
        elif isinstance(it, replies.Region):
            ring = ring_of(it, world)
            if ring:
                yield feature(
                    "Polygon", [ring], kind="region", region=it.text, **{"from": world.time(it.first), "to": world.time(it.last)},
                )
        elif isinstance(it, replies.Target):
            yield feature("Point", rounded(world.middle(it.x, it.y)), kind="target", time=world.time(it.instant))


def point_feature(kind: str, number: int, instant: int, x: int, y: int, world: World) -> Feature:
    """A row as a point."""
    place = rounded(world.middle(x, y))
    return feature("Point", place, kind=kind, id=number, name=world.called(number), time=world.time(instant))


def track_features(track: replies.Track, world: World, points: bool) -> Iterator[Feature]:
    """A track as lines, and with `points` its rows as points too."""
    for piece, parts in world.lines(track):
        if len(piece) == 1 and not points:
            yield point_feature("row", track.number, *piece[0], world)
        for part in parts:
            if len(part) > 1:
                times = {"from": world.time(piece[0][0]), "to": world.time(piece[-1][0])}
                line = [rounded(place) for place in part]
                yield feature("LineString", line, kind="track", id=track.number, name=world.called(track.number), **times)
    if points:
        for stop in track.stops:
            yield point_feature("row", track.number, *stop, world)


def geojson(told: Sequence[replies.Told], world: World, points: bool) -> Iterator[str]:
    """The lines of a GeoJSON file."""
    yield '{"type": "FeatureCollection", "features": ['
    comma = ""
    for it in features(told, world, points):
        yield f"{comma}{json.dumps(it, ensure_ascii=False)}"
        comma = ",\n"
    yield "]}"


def gpx(told: Sequence[replies.Told], world: World, _: bool) -> Iterator[str]:
    """Waypoints come before tracks, as the schema of GPX 1.1 wants it."""
    yield '<?xml version="1.0" encoding="UTF-8"?>'
    yield '<gpx version="1.1" creator="gract" xmlns="http://www.topografix.com/GPX/1/1">'
    for it in told:
        if isinstance(it, replies.Hit):
            longitude, latitude = rounded(world.middle(it.x, it.y))
            yield (
                f'<wpt lat="{latitude}" lon="{longitude}"><time>{world.time(it.instant)}</time>'
                f"<name>{escape(world.called(it.number))}</name><cmt>{it.number}</cmt><type>{it.kind}</type></wpt>"
            )
    for it in told:
        if isinstance(it, replies.Track):
            yield f"<trk><name>{escape(world.called(it.number))}</name><cmt>{it.number}</cmt>"
            yield from gpx_segments(it, world)
            yield "</trk>"
    yield "</gpx>"


def gpx_segments(track: replies.Track, world: World) -> Iterator[str]:
    """The segments of a track."""
    for piece in track.pieces():
        before = None
        yield "<trkseg>"
        for instant, x, y in piece:
            longitude, latitude = rounded(world.middle(x, y))
            if before is not None and abs(longitude - before) > 180:
                yield "</trkseg><trkseg>"
            before = longitude
            yield f'<trkpt lat="{latitude}" lon="{longitude}"><time>{world.time(instant)}</time></trkpt>'
        yield "</trkseg>"


class Line:
    """A file of the text that was last written to it."""

    def write(self, text: str) -> None:
        """Takes a text."""
        self.text = text


def table(told: Sequence[replies.Told], world: World, _: bool) -> Iterator[str]:
    """The lines of a CSV file."""
    line = Line()
    rows = csv.writer(line, lineterminator="")
    yield "kind,id,name,time,longitude,latitude"
    for it in told:
        if isinstance(it, replies.Track):
            found = [("row", it.number, *stop) for stop in it.stops]
        else:
            found = [(it.kind, it.number, it.instant, it.x, it.y)] if isinstance(it, replies.Hit) else []
        for kind, number, instant, x, y in found:
            longitude, latitude = world.middle(x, y)
            rows.writerow((kind, number, world.called(number), world.time(instant), f"{longitude:.6f}", f"{latitude:.6f}"))
            yield line.text


FORMS: Dict[str, Callable[[Sequence[replies.Told], World, bool], Iterator[str]]] = {"geojson": geojson, "gpx": gpx, "csv": table}


def add_to(parser: argparse.ArgumentParser) -> None:
    """Gives the command `map` its words."""
    parser.add_argument("form", choices=list(FORMS))
    parser.add_argument("questions")
    parser.add_argument("replies")
    replies.add_plane(parser)
    parser.add_argument("--points", action="store_true", help="of GeoJSON: each row of a track as a point too")


def run(given: argparse.Namespace) -> int:
    """Prints the map, and answers with the status."""
    told = replies.Answers(given.questions, given.replies)
    world = World(told, given)
    try:
        lines = [f"{line}\n" for line in FORMS[given.form](told.told, world, given.points)]
    except (ValueError, ArithmeticError) as fault:
        raise SourceError(f"{given.replies}: a time or a place is none: {fault}") from None
    if hasattr(sys.stdout, "reconfigure"):
        sys.stdout.reconfigure(encoding="utf-8")
    sys.stdout.writelines(lines)
    sys.stdout.flush()
    return 0
