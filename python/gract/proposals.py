"""`propose`: which plane, CELL, TICK and PERIOD suit reports, and why."""

import argparse
import dataclasses
import functools
import itertools
import math
import os
from typing import Any, Callable, Dict, Iterable, Iterator, Mapping, Optional, Sequence, Tuple

from . import planes, times
from .errors import LIMITS, ArgumentError
from .fitting import TICKS, Fit, Fitting, Settings
from .frames import Given, Table, csv_table, frame_table, is_frame
from .grid import Grid
from .names import names_of
from .planes import Degrees, Metres, Plane
from .ranges import real, whole
from .survey import Sight, Survey

# The ranges of command words, as docs/QUESTIONS.md has them.
UNITS = (1, 2**30)
LONGEST_PERIOD = (1, 2**22)

# The ranges of the fields of rows.
TIME = COORDINATE = (-2**40, 2**40)

# Where metres would stretch by more than a quarter, degrees are proposed, in units of a metre or so.
MOST_STRETCH = 0.25
PER_DEGREE = 100_000

# Reports are looked at so many at a time.
PIECE = 1 << 16


@dataclasses.dataclass(frozen=True)
class Proposal:
    """What suits reports: `gract.build(grid.rows(reports), path, grid=proposal.grid, period=proposal.period)` takes it.

    `grid` has the plane, `cell`, `tick` and the names. `lost` is how many reports are not kept under that tick, since a later one of
    the same object is in the same instant; where `exact` is false, since reports came in no order, it may be more. `passed` is the
    limit of the program that is passed all the same, a key of `gract.errors.LIMITS`, or None; some are reckoned by a bound from above,
    so that none is passed where it is None. `gap` is the median time from a report of an object to its next, in seconds, and `noise`
    how far reports are, in the median, from the line between their neighbours, in metres; None where there are too few. `stretch`
    is by how much a way east or west is longer in the plane than on the ground, or shorter: 0.25 is a quarter. `left_out` are reports
    of a table without an object, a time or a place, by the reason. `why` are sentences. Of reports (object, time, x, y) all are in the
    units of x, y and time, and the stretch is 0.
    """

    grid: Grid
    period: int
    reports: int
    objects: int
    lost: int
    exact: bool
    passed: Optional[str]
    gap: Optional[int]
    noise: Optional[float]
    stretch: float
    left_out: Mapping[str, int]
    why: Tuple[str, ...]

    @property
    def cell(self) -> int:
        """CELL, in units of the plane."""
        return self.grid.cell

    @property
    def tick(self) -> int:
        """TICK, in seconds, or in units of the reports' time."""
        return self.grid.tick

    @property
    def text(self) -> str:
        """The sentences, a line each."""
        return "\n".join(self.why)

    def __str__(self) -> str:
        return self.text


def propose(reports: Any, *, id: Optional[str] = None, time: Optional[str] = None, lon: Optional[str] = None,
            lat: Optional[str] = None, x: Optional[str] = None, y: Optional[str] = None, degrees: bool = True,
            plane: Optional[Plane] = None, cell: Optional[int] = None, tick: Optional[int] = None, period: Optional[int] = None,
            west: int = -180, stretch: Optional[float] = None) -> Proposal:
    """Proposes a grid and a period for reports, and says why and what would be lost. What is given is taken, and the rest proposed.

    `reports` are (object, time, longitude, latitude), or with `degrees=False` (object, time, x, y), from any iterable, which is read
    once; memory is by the number of objects. An object is a whole number or a name, a time whole seconds since 1970 (a fraction is
    rounded down), a datetime or a text, and x, y and their times are whole numbers. Or they stand in a DataFrame, or in a CSV file
    with a heading, in the columns that `id`, `time`, `lon`, `lat`, `x` and `y` name, and else in those that are usually called so.

    The plane is whole metres round the middle latitude; or, where they stretch by more than `stretch` (a quarter), degrees. The
    cell is twice as wide as positions scatter, or less where a usual step has fewer than four of them. The tick is the longest that
    is no longer than the median time between an object's reports and loses at most 5 of 100 reports. Both are made greater, and the
    period is chosen, so that the limits of the program are kept. Reports of an object that come late, by more than 65,536 reports,
    are told by `exact`.

    Refuses, by `ArgumentError`, a report that is none, by its place from 1, and reports of which there is none.
    """
    given = Settings(
        None if cell is None else whole("cell", cell, *UNITS), None if tick is None else whole("tick", tick, *UNITS),
        None if period is None else whole("period", period, *LONGEST_PERIOD),
    )
    most = MOST_STRETCH if stretch is None else real("stretch", stretch, 0, math.inf)
    table = table_of(reports, {"id": id, "time": time, "lon": lon, "lat": lat, "x": x, "y": y})
    if table is not None:
        reports, degrees = table, table.degrees
    numbers: Dict[str, int] = {}
    survey = Survey(TICKS if given.tick is None else (given.tick,), degrees)
    sights = sights_of(reports, degrees, whole("west", west, -360, 180), numbers)
    for piece in iter(lambda: list(itertools.islice(sights, PIECE)), []):
        survey.take(piece)
    if not survey.count:
        raise ArgumentError("reports", "there are none")
    if plane is None and degrees:
        plane = plane_of(survey, most)
    fit = Fitting(survey, plane if degrees else None, given, list(numbers)).fit()
    grid = Grid(plane if degrees else None, cell=fit.cell, tick=fit.tick, west=west, names=names_of(numbers))
    return proposal(survey, grid, fit, degrees or (table is not None and table.dated), dict(table.left_out) if table is not None else {})


def proposal(survey: Survey, grid: Grid, fit: Fit, dated: bool, left_out: Dict[str, int]) -> Proposal:
    """What was chosen, with why; `dated` says whether times are seconds since 1970."""
    stretch = 0.0 if grid.plane is None else planes.stretch_of(grid.plane, *survey.bounds)
    told = Proposal(
        grid, fit.period, survey.count, len(survey.tracks), survey.lost(fit.tick), survey.in_order, fit.passed, survey.gap, survey.noise,
        stretch, left_out, (),
    )
    return dataclasses.replace(told, why=tuple(sentences(told, survey.ends, dated, fit.forced)))


def table_of(reports: Any, given: Given) -> Optional[Table]:
    """The table of a DataFrame or of a CSV file, or the one that is given; None of an iterable."""
    if isinstance(reports, Table):
        return reports
    if is_frame(reports):
        return frame_table(reports, given)
    return csv_table(reports, given) if isinstance(reports, (str, os.PathLike)) else None


def sights_of(reports: Iterable[Sequence[Any]], degrees: bool, west: int, numbers: Dict[str, int]) -> Iterator[Sight]:
    """Reports as plain numbers, where an object is numbered from 0 as it comes, in `numbers`, and longitudes begin at `west`."""
    if isinstance(reports, (str, bytes)) or not hasattr(reports, "__iter__"):
        raise ArgumentError("reports", f"{reports!r} is no iterable of reports")
    moment: Callable[[Any], int] = clock_time if degrees else plain_time
    place: Callable[[Any, Any], Tuple[float, float]] = plane_place
    if degrees:
        place = functools.partial(globe_place, west)
    known: Dict[Any, int] = {}
    for nth, report in enumerate(reports, 1):
        try:
            item, time, x, y = report
        except (TypeError, ValueError):
            wanted = "longitude, latitude" if degrees else "x, y"
            raise ArgumentError(f"reports: report {nth}", f"{report!r} is not (object, time, {wanted})") from None
        try:
            number = known.get(item) if type(item) is int or type(item) is str else None
            if number is None:
                number = known[item] = numbers.setdefault(name_of(item), len(numbers))
            sight = (number, moment(time), *place(x, y))
        except ArgumentError as fault:
            raise ArgumentError(f"reports: report {nth}: {fault.argument}", fault.problem) from None
        yield sight


def name_of(item: Any) -> str:
    """An object's name, or its number as a text."""
    name = item.strip() if isinstance(item, str) else str(whole("object", item, -2**63, 2**64))
    if not name:
        raise ArgumentError("object", "it has no name")
    return name


def clock_time(time: Any) -> int:
    """Seconds since 1970 of a time, rounded down."""
    if isinstance(time, (int, float)) or hasattr(time, "__index__"):
        return math.floor(real("time", time, *TIME))
    try:
        return times.seconds_of(time)
    except (ValueError, ArithmeticError) as fault:
        raise ArgumentError("time", str(fault)) from None


def plain_time(time: Any) -> int:
    """A time in units that nobody knows."""
    return whole("time", time, *TIME)


def globe_place(west: int, longitude: Any, latitude: Any) -> Tuple[float, float]:
    """Degrees, where longitudes begin at `west`."""
    if not (type(longitude) is type(latitude) is float and west <= longitude < west + 360 and -90 <= latitude <= 90):
        return float(planes.turned(real("longitude", longitude, -360, 360), west)), real("latitude", latitude, -90, 90)
    return longitude, latitude


def plane_place(x: Any, y: Any) -> Tuple[float, float]:
    """Units of a plane."""
    return float(whole("x", x, *COORDINATE)), float(whole("y", y, *COORDINATE))


def plane_of(survey: Survey, most: float) -> Plane:
    """Metres round the middle latitude, or degrees where these stretch by more than `most`."""
    metres = Metres(planes.middle_of(survey.bounds[1], survey.bounds[3]))
    return metres if planes.stretch_of(metres, *survey.bounds) <= most else Degrees(PER_DEGREE)


def sentences(told: Proposal, ends: Tuple[int, int], dated: bool, forced: Optional[str]) -> Iterator[str]:
    """Why a proposal is as it is, where a shorter tick would pass the limit `forced`."""
    grid, metres, seconds = told.grid, "metres" if told.grid.plane is not None else "units", "seconds" if dated else "units of time"
    first, last = (moment_text(end) if dated else str(end) for end in ends)
    left_out = "".join(f"; {count:,} left out: {why}" for why, count in told.left_out.items())
    yield f"{counted(told.reports, 'report')} of {counted(told.objects, 'object')}, {first} to {last}{' UTC' if dated else ''}{left_out}"
    if grid.plane is not None:
        yield f"the plane is {grid.plane.text}: a way east or west is at most {told.stretch:.0%} longer or shorter than on the ground"
    else:
        yield "x and y are taken as they are"
    yield f"cell {grid.cell}: {scatter_text(told.noise, metres)}"
    apart = f"an object's reports are {told.gap:,} {seconds} apart, in the median" if told.gap else "no object has reports at two times"
    longer = f", and a shorter tick passes the limit {forced}" if forced else ""
    yield f"tick {grid.tick}: {apart}{longer}; {lost_text(told)}"
    yield f"period {told.period}: it changes no answer"
    if told.passed:
        limit = LIMITS[told.passed]
        yield f"the limit {told.passed} is passed: {limit.most:,} {limit.what} is the most. What to do: {limit.advice}"
    else:
        yield "no limit is passed"


def moment_text(seconds: int) -> str:
    """A time as a date, where it has one."""
    try:
        return times.time_text(seconds)
    except (ValueError, OverflowError):
        return f"second {seconds:,} since 1970"


def scatter_text(noise: Optional[float], metres: str) -> str:
    """How positions scatter."""
    if noise is None:
        return "all positions are on the line between their neighbours"
    return f"positions are {noise:.3g} {metres} from the line between their neighbours, in the median"


def counted(number: int, thing: str) -> str:
    """A number of things."""
    return f"{number:,} {thing}{'' if number == 1 else 's'}"


def lost_text(told: Proposal) -> str:
    """What the tick loses."""
    if not told.lost and told.exact:
        return "no report is lost"
    least = "" if told.exact else "at least "
    return f"{least}{told.lost:,} of {told.reports:,} reports are lost, since a later one of the object is in the same instant"


def add_to(parser: argparse.ArgumentParser) -> None:
    """Gives the command `propose` its words."""
    parser.add_argument("file", metavar="FILE")
    for word in ("id", "time", "lon", "lat", "x", "y"):
        parser.add_argument(f"--{word}", metavar="COLUMN", help="a column, where it is not called as usual")
    for word in ("cell", "tick", "period"):
        parser.add_argument(f"--{word}", type=int, help="what is taken as it is")
    parser.add_argument("--stretch", type=float, help="how far metres may stretch before degrees are proposed (0.25)")


def run(given: argparse.Namespace) -> int:
    """Tells what suits a file."""
    settings = {name: value for name, value in vars(given).items() if name not in ("command", "program", "file")}
    print(propose(given.file, **settings).text)
    return 0
