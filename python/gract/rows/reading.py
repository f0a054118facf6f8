"""`read`: the rows of files of tracks, whatever their formats are."""

import contextlib
import itertools
from typing import Iterator, Optional, Sequence, Tuple

from .. import times
from ..errors import LIMITS, ArgumentError, SourceError
from ..fitting import TICKS, Fit, Fitting, Settings
from ..planes import Plane, RawRow, turned
from ..survey import Survey
from .collecting import Rows
from .detecting import format_of, usual_plane
from .ends import Ends
from .format import Format
from .options import Options
from .places import liner, placer
from .planing import plane_of, plane_text
from .sources import sources_of
from .spool import Spool

Report = Tuple[int, int, float, float]

# Rows are written so many at a time.
PIECE = 1 << 12


class Found:
    """What was read: rows by time, their plane, and what is to be told of them. To be closed, or used by `with`."""

    def __init__(self, rows: Rows, spool: Spool, formats: Sequence[Format]):
        self.options, self.causes, self.numbers, self.spool, self.formats = rows.options, rows.causes, rows.numbers, spool, formats
        self.ends, self.survey, self.is_turned = Ends(), Survey(TICKS, True), False
        self._look()
        _, south, _, north = self.survey.bounds
        self.bounds = south, north
        self.plane: Plane = plane_of(self.options, usual_plane(list(formats)), self.bounds)

    def __enter__(self) -> "Found":
        return self

    def __exit__(self, *_: object) -> None:
        self.close()

    def _look(self) -> None:
        """Looks at all rows once."""
        rows, west, east = self.spool.sorted(), self.options.west, self.options.west + 360
        for piece in iter(lambda: list(itertools.islice(rows, PIECE)), []):
            self.ends.see([row[0] for row in piece])
            sights = [(number, seconds, float(longitude), float(latitude)) for seconds, number, latitude, longitude in piece]
            longitudes = [sight[2] for sight in sights]
            if not west <= min(longitudes) <= max(longitudes) < east:
                self.is_turned = True
                sights = [(number, seconds, float(turned(east_of, west)), north) for number, seconds, east_of, north in sights]
            self.survey.take(sights)

    def rows(self) -> Iterator[RawRow]:
        """The rows by time, since gract counts the last of an instant: seconds since 1970, and a place in the plane."""
        place = placer(self.plane, self.options.west)
        for seconds, number, latitude, longitude in self.spool.sorted():
            yield RawRow(number, seconds, *place(latitude, longitude))

    def texts(self) -> Iterator[str]:
        """The text of a file of rows, a piece at a time."""
        lines, rows = liner(self.plane, self.options.west, self.is_turned), self.spool.sorted()
        yield "object,instant,x,y\n"
        for piece in iter(lambda: list(itertools.islice(rows, PIECE)), []):
            yield "".join(lines(piece))

    def reports(self) -> Iterator[Report]:
        """The rows by time, in degrees: object, seconds since 1970, longitude and latitude."""
        for seconds, number, latitude, longitude in self.spool.sorted():
            yield number, seconds, float(longitude), float(latitude)

    def fit(self) -> Fit:
        """Which CELL, TICK and PERIOD would suit the rows."""
        return Fitting(self.survey, self.plane, Settings(None, None, None), list(map(str, self.survey.tracks))).fit()

    def told(self) -> Iterator[str]:
        """What is told of the rows, a line each: how many they are, their plane, what was left out of them, and what to build them with."""
        first, last = times.time_text(self.ends.first), times.time_text(self.ends.last)
        kinds = ", ".join(dict.fromkeys(it.name for it in self.formats))
        yield f"{self.ends.count} rows of {len(self.survey.tracks)} objects, {first} to {last} UTC, from {kinds}"
        yield f"the plane is {plane_text(self.plane, self.bounds)}"
        yield from self.causes.told()
        yield from self.ends.told()
        yield from limits_told(self.fit())

    def close(self) -> None:
        """Gives temporary files up."""
        self.spool.close()


def limits_told(fit: Fit) -> Iterator[str]:
    """Which words suit rows, and the limit that they would pass all the same."""
    yield f"CELL {fit.cell}, TICK {fit.tick} and PERIOD {fit.period} would suit them"
    if fit.passed is not None:
        limit = LIMITS[fit.passed]
        yield f"the limit {fit.passed} would be passed: {limit.most:,} {limit.what} is the most. What to do: {limit.advice}"


def read(files: Sequence[str], options: Optional[Options] = None) -> Found:
    """Reads files, each of the format that its content says, or that the options say. Refuses, by SourceError, ArgumentError or OSError,
    what cannot be read, by its name and place, and files of which no row is left."""
    rows, formats = Rows(options or Options()), []
    with contextlib.ExitStack() as stack:
        stack.callback(rows.spool.close)
        for name in files:
            for source in sources_of(name, rows.options.most_bytes):
                form = format_of(source, rows.options)
                formats.append(form)
                form.read(source, rows)
        spool = shaped(rows)
        if not spool.count:
            raise SourceError("\n".join(["no row is left", *rows.causes.told()]))
        found = Found(rows, spool, formats)
        stack.pop_all()
    return found


def shaped(rows: Rows) -> Spool:
    """The rows without those that the options leave out by the rows around them."""
    options, spool, causes = rows.options, rows.spool, rows.causes
    if not spool.count or (options.max_speed, options.min_move, options.every) == (None, None, None):
        return spool
    from .moves import thinned, without_jumps, without_still

    if options.max_speed is not None:
        spool = spool.replace(without_jumps(spool, options.max_speed, causes))
    if options.min_move is not None and spool.count:
        spool = spool.replace(without_still(spool, options.min_move, causes))
    if options.every is not None and spool.count:
        spool = spool.replace(thinned(spool, length_of(options.every), causes))
    return spool


def length_of(text: str) -> int:
    """So many seconds of a length of time."""
    try:
        seconds = times.duration_of(text)
    except (ValueError, ArithmeticError) as fault:
        raise ArgumentError("--every", str(fault)) from None
    if seconds < 1:
        raise ArgumentError("--every", f"{text} is no time at all")
    return seconds
