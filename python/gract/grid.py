"""`Grid`: what times, degrees and names are in an index, and back."""

import datetime
import json
import math
import os
from pathlib import Path
from typing import Any, Dict, Iterator, List, Mapping, NamedTuple, Optional, Sequence, Tuple, Union

from . import names as named
from . import planes, times
from .errors import ArgumentError, GridError
from .frames import Table, frame_table, is_frame
from .plain_json import read_json
from .planes import Degree, Degrees, Metres, Plane, Projected
from .planes import RawRow as RawRow
from .ranges import real as real
from .ranges import whole as whole

# The form of a grid's file; one of a projection has another, so that no older package takes it for one without a plane.
FORM, PROJECTED_FORM = 1, 2
MOST_UNITS = 2**30

# How many seconds a day has.
DAY = 86400

# By how much the plane may be longer than the ground, or shorter, where reports are, and from where on answers in metres say it.
MOST_STRETCH, TOLD_STRETCH = 0.25, 0.05


class Place(NamedTuple):
    """A place on the globe, in degrees, east and north positive."""

    longitude: float
    latitude: float


class Reach(NamedTuple):
    """A distance in cells that the cells of any two rows within some metres of each other are not beyond. No two rows whose cells are
    that near are `metres` apart or more. `stretch` is by how much the plane is longer there than the ground, or shorter."""

    cells: int
    metres: float
    stretch: float

    @property
    def notes(self) -> List[str]:
        """What is to be said of the stretch."""
        if self.stretch < TOLD_STRETCH:
            return []
        stretch = f"here a way in the plane is up to {self.stretch:.0%} longer or shorter than on the ground"
        return [f"{stretch}: Grid.utm and Grid.projected stretch less"]


class Circle(NamedTuple):
    """The disc of cells that has every row within some metres of a place. No row of the disc is `reach` metres away or more; `notes`
    say what is to be said of the plane there."""

    x: int
    y: int
    radius: int
    reach: float
    notes: Tuple[str, ...] = ()


Report = Tuple[Union[int, str], Union[int, times.Time], Degree, Degree]


class Grid:
    """How the times, places and objects of reports became the instants, cells and numbers of an index.

    A time is whole units of `unit` seconds after `epoch` (seconds since 1970-01-01 00:00 UTC), and an instant lasts `tick` of them. A
    place is whole units of `plane`, cut at the longitude `west`, and a cell is `cell` of them wide. All are rounded down, also
    below 0. Without a plane there are no degrees. `names` are the objects' names by number. `stretch` is by how much a way may be longer
    in the plane than on the ground, or shorter, where reports are (0.25): reports where it is more are refused.

    Refuses, by `ArgumentError`, numbers that are not whole or out of range.
    """

    def __init__(self, plane: Optional[Plane] = None, *, cell: int = 1, tick: int = 1, unit: int = 1, epoch: int = 0,
                 west: int = -180, names: Union[None, str, "os.PathLike[str]", Mapping[int, str]] = None, stretch: float = MOST_STRETCH):
        self.plane = plane
        self.cell = whole("cell", cell, 1, MOST_UNITS)
        self.tick = whole("tick", tick, 1, MOST_UNITS)
        self.unit = whole("unit", unit, 1, MOST_UNITS)
        self.epoch = whole("epoch", epoch, -2**62, 2**62)
        self.west = whole("west", west, -360, 180)
        self.stretch = real("stretch", stretch, 0, math.inf)
        if names is not None and not isinstance(names, Mapping):
            names = names_of_file(names)
        self.names: Dict[int, str] = dict(names or {})
        self._numbers: Dict[str, List[int]] = {}
        for number, name in self.names.items():
            whole("names", number, 0, named.MOST_OBJECT)
            self._numbers.setdefault(name, []).append(number)

    @classmethod
    def metres(cls, middle: float, **others: Any) -> "Grid":
        """A grid in whole metres, with the width of a degree of longitude at the latitude `middle`."""
        return cls(Metres(real("middle", middle, -89, 89)), **others)

    @classmethod
    def degrees(cls, per_degree: int, **others: Any) -> "Grid":
        """A grid in degrees, with so many units to each."""
        return cls(Degrees(whole("per_degree", per_degree, 1, MOST_UNITS)), **others)

    @classmethod
    def projected(cls, crs: Union[int, str], **others: Any) -> "Grid":
        """A grid in the units of a projection of the EPSG registry, mostly metres, as `Grid.projected("EPSG:3035")`, by pyproj. Refuses,
        by `LibraryMissing`, where that is not there."""
        return cls(Projected(crs), **others)

    @classmethod
    def utm(cls, reports: Any, **others: Any) -> "Grid":
        """A grid in metres of the zone of UTM in which the middle of a DataFrame is, or of reports (object, time, longitude, latitude),
        with names as `of_reports` has them. All reports are looked at once."""
        called, (west, south, east, north) = survey_of(reports)
        others.setdefault("names", named.names_of(called))
        zone = math.floor(float(planes.turned((west + east) / 2, -180)) / 6 + 30) + 1
        return cls.projected((32600 if south + north >= 0 else 32700) + zone, **others)

    @classmethod
    def of_reports(cls, reports: Any, **others: Any) -> "Grid":
        """A grid in metres round the middle latitude, in whole degrees, of a DataFrame or of reports (object, time, longitude,
        latitude). Where an object of theirs is no number up to 2^32 - 1, all are numbered from 1 as they come. All reports are looked
        at once."""
        called, (west, south, east, north) = survey_of(reports)
        others.setdefault("names", named.names_of(called))
        grid = cls.metres(planes.middle_of(south, north), **others)
        grid.refuse_stretch("reports", west, south, east, north)
        return grid

    def with_names(self, names: Mapping[int, str]) -> "Grid":
        """The same grid with other names."""
        others = {"unit": self.unit, "epoch": self.epoch, "west": self.west, "stretch": self.stretch}
        return Grid(self.plane, cell=self.cell, tick=self.tick, names=names, **others)  # type: ignore[arg-type]

    # Times.

    def instant(self, time: times.Time, argument: str = "time") -> int:
        """The instant of a time: a text, a datetime (UTC, where it has no offset). Refuses what is no time."""
        try:
            return (times.seconds_of(time) - self.epoch) // (self.tick * self.unit)
        except (ValueError, ArithmeticError) as fault:
            raise ArgumentError(argument, str(fault)) from None

    def last_instant(self, date: str, argument: str = "until") -> int:
        """The last instant of a day, which is a text without a time of day. Refuses what is no date."""
        try:
            return (times.seconds_of(date) + DAY - 1 - self.epoch) // (self.tick * self.unit)
        except (ValueError, ArithmeticError) as fault:
            raise ArgumentError(argument, str(fault)) from None

    def instants(self, duration: times.Duration, argument: str = "duration") -> int:
        """How many instants a length of time has, rounded up so that none is lost. Refuses what is none."""
        try:
            return -(-times.duration_of(duration) // (self.tick * self.unit))
        except (ValueError, ArithmeticError) as fault:
            raise ArgumentError(argument, str(fault)) from None

    def seconds(self, instant: int) -> int:
        """Seconds since 1970 at which an instant begins."""
        return instant * self.tick * self.unit + self.epoch

    def time(self, instant: int) -> datetime.datetime:
        """When an instant begins, in UTC. Refuses instants outside the years 1 to 9999."""
        try:
            return times.EPOCH + datetime.timedelta(seconds=self.seconds(instant))
        except OverflowError:
            raise ArgumentError("instant", f"{instant} begins outside the years 1 to 9999") from None

    def time_text(self, instant: int) -> str:
        """When an instant begins, as an ISO time in UTC, with seconds where it does not begin with a minute. Refuses as `time`."""
        self.time(instant)
        seconds = self.seconds(instant)
        return times.time_text(seconds) + (f":{seconds % 60:02}" if seconds % 60 else "")

    # Places.

    def point(self, longitude: Degree, latitude: Degree) -> Tuple[int, int]:
        """The x and y of a place in units of the plane."""
        plane = self._plane()
        if isinstance(plane, Projected) or (isinstance(plane, Metres) and self.west <= longitude < self.west + 360):
            return plane.place(latitude, longitude)
        return plane.place(planes.exact(latitude), planes.turned(planes.exact(longitude), self.west))

    def cell_of(self, longitude: Degree, latitude: Degree) -> Tuple[int, int]:
        """The cell of a place. Refuses degrees that are off the globe."""
        x, y = self.point(self._longitude("longitude", longitude), self._latitude("latitude", latitude))
        return x // self.cell, y // self.cell

    def corner(self, x: int, y: int) -> Place:
        """The south-western corner of a cell."""
        latitude, longitude = self._plane().degrees(x * self.cell, y * self.cell)
        return Place(longitude, latitude)

    def place(self, x: int, y: int) -> Place:
        """The middle of a cell."""
        latitude, longitude = self._plane().degrees((2 * x + 1) * self.cell / 2, (2 * y + 1) * self.cell / 2)
        return Place(longitude, latitude)

    def box(self, west: Degree, south: Degree, east: Degree, north: Degree, argument: str = "box") -> Tuple[int, int, int, int]:
        """The cells X1, Y1, X2, Y2 that have every row of a box in degrees, its edges counted: rounded outwards. Refuses a box
        whose edges are the wrong way round, or that crosses the longitude at which the plane is cut."""
        south, north = self._latitude(f"{argument}: south", south), self._latitude(f"{argument}: north", north)
        if south > north:
            raise ArgumentError(argument, f"its south {south} is north of its north {north}")
        west, east = self._longitude(f"{argument}: west", west), self._longitude(f"{argument}: east", east)
        if isinstance(self.plane, Projected):
            return self._curved_box(self.plane, float(west), float(south), float(east), float(north))
        left, right = planes.turned(west, self.west), planes.turned(east, self.west)
        if planes.exact(east) - planes.exact(west) >= 360:
            left, right = self.west, self.west + 360
        elif east > west and right == self.west:
            # What ends at the cut ends there, and not where the plane begins.
            right = self.west + 360
        if left > right:
            raise ArgumentError(argument, f"it crosses longitude {self.west}, at which the plane is cut: ask on each side of it")
        (x1, y1), (x2, y2) = self._plane().place(south, left), self._plane().place(north, right)
        return x1 // self.cell, y1 // self.cell, x2 // self.cell, y2 // self.cell

    def _curved_box(self, plane: Projected, west: float, south: float, east: float, north: float) -> Tuple[int, int, int, int]:
        """The smallest rectangle of cells that has a box whose edges are curved."""
        x1, y1, x2, y2 = (math.floor(edge) // self.cell for edge in plane.bounds(west, south, east if east >= west else east + 360, north))
        return x1, y1, x2, y2

    @property
    def box_words(self) -> str:
        """What the cells are that a box in degrees is asked as."""
        if isinstance(self.plane, Projected):
            return f"the smallest rectangle of cells that contains its edges, which are curved in EPSG:{self.plane.epsg}"
        return "every cell that it touches"

    def degrees_of(self, x1: int, y1: int, x2: int, y2: int) -> Tuple[float, float, float, float]:
        """The least longitude and latitude and the greatest of the cells from x1 to x2 and from y1 to y2."""
        return self._plane().degree_bounds(x1 * self.cell, y1 * self.cell, (x2 + 1) * self.cell, (y2 + 1) * self.cell)

    def circle(self, longitude: Degree, latitude: Degree, metres: Degree, argument: str = "around") -> Circle:
        """The disc that has every row within so many metres of a place on the ground (a globe of the earth's mean radius), rounded
        outwards. Refuses a circle that has a pole in it, or crosses the longitude at which the plane is cut."""
        longitude, latitude = self._longitude(argument, longitude), self._latitude(argument, latitude)
        reach, east = self.reach(metres, latitude, latitude, argument, longitude, longitude), float(planes.turned(longitude, self.west))
        plane = self._plane()
        if not isinstance(plane, Projected):
            far = self._units(plane, metres, latitude, latitude, argument) / plane.east
            if not self.west <= east - far <= east + far < self.west + 360:
                raise ArgumentError(argument, f"the circle crosses longitude {self.west}, at which the plane is cut: ask for boxes")
        x, y = self.cell_of(longitude, latitude)
        return Circle(x, y, reach.cells, reach.metres, tuple(reach.notes))

    def reach(self, metres: Degree, south: Degree, north: Degree, argument: str = "metres", west: Degree = -180,
              east: Degree = 180) -> Reach:
        """The distance in cells for a distance on the ground (a globe of the earth's mean radius) of two rows, one of which is between
        two latitudes, and two longitudes: rounded up, so that no row is lost. Refuses what reaches a pole."""
        plane, box = self._plane(), (float(west), float(south), float(east), float(north))
        units = self._units(plane, metres, south, north, argument)
        if isinstance(plane, Projected):
            units = real("metres", metres, 0, planes.RADIUS) * plane.scales(*widened(box, float(metres)))[0]
        # Either end is anywhere in its cell, so that two cells are up to a diagonal further from each other than what is in them. What
        # is added besides is more than the rounding of all products, here and where rows were made.
        cells = math.ceil(units / self.cell * (1 + 1e-12) + math.sqrt(2) + 1e-6)
        within = (cells + math.sqrt(2)) * self.cell
        if isinstance(plane, Projected):
            far = within * plane.unit
            least_units = plane.scales(*widened(box, 2 * far))[1]
        else:
            least = 0.0 if south <= 0 <= north else min(abs(float(south)), abs(float(north)))
            least_units = planes.least_units(plane, max(0.0, least - within / plane.north))
        return Reach(cells, within / least_units, planes.stretch_of(plane, *widened(box, float(metres))))

    def _units(self, plane: Plane, metres: Degree, south: Degree, north: Degree, argument: str) -> float:
        """How many units of the plane a way of so many metres has at most that begins between two latitudes."""
        metres = real("metres", metres, 0, planes.RADIUS)
        furthest = max(abs(float(south)), abs(float(north))) + metres / planes.METRES_A_DEGREE
        if furthest >= 89.9:
            latitude = max(float(south), float(north), key=abs)
            raise ArgumentError(argument, f"{metres} metres from latitude {latitude} reach a pole")
        return 0.0 if isinstance(plane, Projected) else metres * planes.most_units(plane, furthest)

    def refuse_stretch(self, argument: str, west: float, south: float, east: float, north: float) -> None:
        """Refuses reports within a box in degrees where the plane is longer than the ground by more than `stretch`, or shorter."""
        plane = self._plane()
        # Degrees stretch everywhere, as they say.
        found = 0.0 if isinstance(plane, Degrees) else planes.stretch_of(plane, west, south, east, north)
        if found > self.stretch:
            raise ArgumentError(argument, (
                f"between the latitudes {south:.5g} and {north:.5g} a way in {plane.text} is up to {found:.0%} longer or shorter than on "
                f"the ground: take Grid.utm, Grid.projected or Grid.degrees, or say stretch={math.ceil(100 * found) / 100}"
            ))

    # Objects.

    def number(self, name: Union[int, str], argument: str = "object") -> int:
        """The number of an object by its name, or by its number as a text. Refuses a name that no object has, or several."""
        found = self._numbers.get(str(name), [])
        if len(found) == 1:
            return found[0]
        if found:
            raise ArgumentError(argument, f"{name} is the name of {len(found)} objects: {', '.join(map(str, found))}")
        if str(name).isascii() and str(name).isdigit() and len(str(name)) <= named.MOST_DIGITS:
            return int(name)
        raise ArgumentError(argument, f"no object is called {name}")

    def name(self, number: int) -> Optional[str]:
        """The name of an object, if it has one."""
        return self.names.get(number)

    # Rows and files.

    def rows(self, reports: Any) -> List[RawRow]:
        """The rows of a DataFrame, or of reports (object, time, longitude, latitude), for `gract.build`: by their time, since of an
        object's rows in one instant the last counts. A time that is a whole number is seconds since 1970. Refuses a report that has
        no row, by its place."""
        found = [self._place(what, *report) for what, report in numbered(reports)]
        if found:
            longitudes, latitudes = [report[2] for report in found], [report[3] for report in found]
            self.refuse_stretch("reports", *map(float, (min(longitudes), min(latitudes), max(longitudes), max(latitudes))))
        rows = [RawRow(number, time, *place) for (number, time, _, _), place in zip(found, self._points(found))]
        rows.sort(key=lambda row: row.time)
        return rows

    def _points(self, found: Sequence[Tuple[int, int, Degree, Degree]]) -> Iterator[Tuple[int, int]]:
        """The x and y of places in units of the plane."""
        if not isinstance(self.plane, Projected):
            return (self.point(longitude, latitude) for _, _, longitude, latitude in found)
        points = self.plane.points([float(report[2]) for report in found], [float(report[3]) for report in found])
        return ((math.floor(x), math.floor(y)) for x, y in points)

    def _place(self, what: str, item: Union[int, str], time: Union[int, times.Time], longitude: Degree,
               latitude: Degree) -> Tuple[int, int, Degree, Degree]:
        """The number of an object, the time in units, and the place."""
        number = item if isinstance(item, int) and not self._numbers else self.number(item, f"{what}: object")
        try:
            seconds = time if isinstance(time, int) else times.seconds_of(time)
        except (ValueError, ArithmeticError) as fault:
            raise ArgumentError(f"{what}: time", str(fault)) from None
        real(f"{what}: longitude", longitude, -360, 360)
        real(f"{what}: latitude", latitude, -90, 90)
        return number, (seconds - self.epoch) // self.unit, longitude, latitude

    def as_dict(self) -> Dict[str, Any]:
        """What `save` writes."""
        form = PROJECTED_FORM if isinstance(self.plane, Projected) else FORM
        told: Dict[str, Any] = {"grid": form, "cell": self.cell, "tick": self.tick, "unit": self.unit, "epoch": self.epoch}
        told["west"] = self.west
        if isinstance(self.plane, Metres):
            told["middle"] = self.plane.middle
        elif isinstance(self.plane, Projected):
            told["epsg"] = self.plane.epsg
        elif self.plane is not None:
            told["per_degree"] = self.plane.units
        if self.stretch != MOST_STRETCH:
            told["stretch"] = self.stretch
        told["names"] = {str(number): name for number, name in sorted(self.names.items())}
        return told

    @classmethod
    def from_dict(cls, told: Mapping[str, Any]) -> "Grid":
        """The grid that `as_dict` told. Refuses, by `GridError`, anything else."""
        try:
            if told["grid"] not in (FORM, PROJECTED_FORM):
                raise GridError(f"a grid of form {told['grid']}, and this package reads forms {FORM} and {PROJECTED_FORM}")
            plane: Optional[Plane] = None
            if "middle" in told:
                plane = Metres(real("middle", told["middle"], -89, 89))
            elif "per_degree" in told:
                plane = Degrees(whole("per_degree", told["per_degree"], 1, MOST_UNITS))
            elif "epsg" in told:
                plane = Projected(whole("epsg", told["epsg"], 1, MOST_UNITS))
            names = {int(number): str(name) for number, name in told["names"].items()}
            numbers = {key: told[key] for key in ("cell", "tick", "unit", "epoch", "west")}
            return cls(plane, names=names, stretch=told.get("stretch", MOST_STRETCH), **numbers)
        except GridError:
            raise
        except (KeyError, TypeError, AttributeError, ValueError) as fault:
            what = f"{fault} is missing" if isinstance(fault, KeyError) else str(fault)
            raise GridError(f"no grid: {what}") from None

    def save(self, index: Union[str, "os.PathLike[str]"]) -> Path:
        """Writes the grid beside an index, as NAME.grid.json, in place of the one that was there. Returns that name."""
        file = grid_file(index)
        part = file.with_name(f"{file.name}.{os.getpid()}.new")
        try:
            part.write_text(json.dumps(self.as_dict(), ensure_ascii=False, indent=1) + "\n", encoding="utf-8")
            os.replace(part, file)
        finally:
            if part.exists():
                part.unlink()
        return file

    @classmethod
    def load(cls, file: Union[str, "os.PathLike[str]"]) -> "Grid":
        """The grid of a file NAME.grid.json. Refuses, by `GridError`, what is none."""
        try:
            told = read_json(Path(file))
        except (OSError, ValueError) as fault:
            raise GridError(f"{file} could not be read as a grid: {fault}") from None
        if not isinstance(told, dict):
            raise GridError(f"{file} is no grid")
        try:
            return cls.from_dict(told)
        except GridError as fault:
            raise GridError(f"{file}: {fault}") from None

    def __eq__(self, other: object) -> bool:
        return isinstance(other, Grid) and self.as_dict() == other.as_dict()

    __hash__ = None  # type: ignore[assignment]

    def __repr__(self) -> str:
        plane = self.plane.text if self.plane else "no plane"
        return f"<Grid: {plane}; a cell is {self.cell}, an instant {self.tick} of {self.unit} s; {len(self.names)} names>"

    def _plane(self) -> Plane:
        if self.plane is None:
            raise ArgumentError("grid", "it has no plane, and so there are no degrees: make one by Grid.metres or Grid.degrees")
        return self.plane

    @staticmethod
    def _longitude(argument: str, degree: Degree) -> Degree:
        real(argument, degree, -360, 360)
        return planes.exact(degree)

    @staticmethod
    def _latitude(argument: str, degree: Degree) -> Degree:
        real(argument, degree, -90, 90)
        return planes.exact(degree)


def survey_of(reports: Any) -> Tuple[List[str], Tuple[float, float, float, float]]:
    """The names of the objects of reports, as they come, and the box in degrees that has them all. Refuses where there is no report."""
    called: Dict[str, None] = {}
    box = [math.inf, math.inf, -math.inf, -math.inf]
    for what, (item, _, longitude, latitude) in numbered(reports):
        called.setdefault(str(item).strip())
        east, north = real(f"{what}: longitude", longitude, -360, 360), real(f"{what}: latitude", latitude, -90, 90)
        box = [min(box[0], east), min(box[1], north), max(box[2], east), max(box[3], north)]
    if not called:
        raise ArgumentError("reports", "there are none")
    return list(called), (box[0], box[1], box[2], box[3])


def widened(box: Tuple[float, float, float, float], metres: float) -> Tuple[float, float, float, float]:
    """A box in degrees with all that is within so many metres of it."""
    west, south, east, north = box
    up = metres / planes.METRES_A_DEGREE
    right = up / max(0.001, math.cos(math.radians(min(89.9, max(abs(south), abs(north)) + up))))
    return west - right, max(-90.0, south - up), east + right, min(90.0, north + up)


def grid_file(index: Union[str, "os.PathLike[str]"]) -> Path:
    """Where the grid of an index is kept: beside it, as NAME.grid.json for NAME.idx and for NAME."""
    path = Path(index)
    return path.with_name(f"{path.stem if path.suffix == '.idx' else path.name}.grid.json")


def numbered(reports: Any) -> Iterator[Tuple[str, Report]]:
    """The reports of a DataFrame, a table or an iterable, each with what it is called where it is refused. Refuses what is none."""
    if is_frame(reports):
        reports = frame_table(reports, name="reports")
    if isinstance(reports, Table):
        yield from reports.degree_reports()
        return
    for nth, report in enumerate(reports, 1):
        if not isinstance(report, (tuple, list)) or len(report) != 4:
            raise ArgumentError(f"reports: report {nth}", f"{report!r} is not (object, time, longitude, latitude)")
        yield f"reports: report {nth}", (report[0], report[1], report[2], report[3])


def names_of_file(file: Any) -> Dict[int, str]:
    """The names of a CSV file `object,name`. Refuses, by the argument `names`, what is none."""
    try:
        return dict(named.read_names(os.fspath(file)))
    except (OSError, ValueError, TypeError) as fault:
        raise ArgumentError("names", f"{file!r} could not be read as lines object,name: {fault}") from None
