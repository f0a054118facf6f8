"""`Table`: the reports that stand in the columns of a DataFrame or of a CSV file."""

import csv
import datetime
import itertools
import math
import os
import re
from collections import Counter
from contextlib import contextmanager
from types import MappingProxyType
from typing import IO, Any, Callable, Dict, Iterator, List, Mapping, NamedTuple, Optional, Sequence, Tuple, Union

from . import times
from .errors import ArgumentError, GractError, LoadError
from .libraries import library
from .ranges import real, whole
from .program import why_unread

# What tables call their columns, in small letters and without anything between them.
USUAL: Dict[str, Tuple[str, ...]] = {
    "id": ("id", "mmsi", "object", "individuallocalidentifier", "animalid", "vesselid", "shipid", "trackid", "trajectoryid"),
    "time": ("time", "timestamp", "basedatetime", "datetime", "dateandtime", "timeutc", "timestamputc", "datetimeutc", "instant"),
    "lon": ("lon", "long", "longitude", "locationlong", "lng", "decimallongitude"),
    "lat": ("lat", "latitude", "locationlat", "decimallatitude"),
    "x": ("x",),
    "y": ("y",),
}

# What a place is, by its columns.
DEGREES, PLANE = ("lon", "lat"), ("x", "y")

# The columns that are given by name, by the argument.
Given = Mapping[str, Optional[str]]

# The columns of rows as the program reads them. A table that has these has them, whatever else is there.
ROWS = ("object", "instant", "x", "y")

# What stands in a CSV file where there is nothing.
MISSING = ("", "na", "nan", "nat", "null", "none", "<na>")

WHOLE = re.compile(r"[+-]?\d+(?:\.0*)?")

# AIS's marks of a place that is not known.
NO_LONGITUDE, NO_LATITUDE = (181, "181", "181.0"), (91, "91", "91.0")

# What a report that is left out has not, by the place of what is missing.
LACKING = ("no object", "no time", "no place", "no place")

# The range of times and coordinates, as rows have them.
UNITS = (-2**40, 2**40)

# The heading of a CSV file has at most so many characters.
MOST_HEADING = 1 << 20

Report = Tuple[Union[int, str], int, float, float]


class Columns(NamedTuple):
    """The names of the columns that are the object, the time and the place; `degrees` says whether that is longitude and latitude."""

    id: str
    time: str
    x: str
    y: str
    degrees: bool


def found_columns(there: Sequence[str], given: Given) -> Columns:
    """The columns of a table: those that are given by name, as `lon="X"`, and else those that are usually called so. Refuses, by
    `ArgumentError`, one that is not there, and two that fit, by their names."""
    for argument, name in given.items():
        if name is not None and name not in there:
            raise ArgumentError(argument, f"there is no column {name!r}: there are {', '.join(map(str, there))}")
    if not any(given.values()) and set(ROWS) <= set(there):
        return Columns(*ROWS, degrees=False)
    fit = {argument: fitting(there, argument, given) for argument in USUAL}
    degrees, plane = (all(fit[argument] for argument in pair) for pair in (DEGREES, PLANE))
    if any(given.get(argument) for argument in DEGREES + PLANE):
        degrees = any(given.get(argument) for argument in DEGREES)
        plane = any(given.get(argument) for argument in PLANE)
    if degrees and plane:
        names = [" and ".join(fit[argument][0] for argument in pair if fit[argument]) for pair in (DEGREES, PLANE)]
        raise ArgumentError("rows", f"{' as well as '.join(names)} fit: say lon= and lat=, or x= and y=")
    item, time, x, y = (one_of(argument, fit[argument], there) for argument in ("id", "time", *(PLANE if plane else DEGREES)))
    return Columns(item, time, x, y, not plane)


def fitting(there: Sequence[str], argument: str, given: Optional[Given] = None) -> List[str]:
    """The column that is given, or those that are usually called so."""
    name = given.get(argument) if given else None
    return [column for column in there if (column == name if name is not None else bare(column) in USUAL[argument])]


def one_of(argument: str, fit: Sequence[str], there: Sequence[str]) -> str:
    """The one column that fits."""
    if len(fit) > 1:
        raise ArgumentError(argument, f"the columns {' and '.join(map(str, fit))} fit: say which by {argument}=")
    if not fit:
        raise ArgumentError(argument, f"no column is called as usual: say which by {argument}=. There are {', '.join(map(str, there))}")
    return fit[0]


def bare(name: Any) -> str:
    """A column's name in small letters, without signs and without what stands in brackets."""
    return re.sub(r"\(.*?\)|\[.*?\]|[^a-z0-9]", "", str(name).lower())


class Table:
    """Reports in columns, and how many were left out, by the reason, once they were drawn.

    They are drawn from the first each time. An object is a whole number or a name; a time is whole seconds since 1970 where times are
    dates (`dated`), else a whole number; a place is degrees, or whole units of a plane. Left out is a report without an object, a time
    or a place (None, NaN, NaT, AIS's 181 and 91). Refuses, by `ArgumentError`, what is none of these, by its row from 1 and its column.
    """

    def __init__(self, name: str, columns: Columns, values: Callable[[], Iterator[Sequence[Any]]], dated: bool):
        self.name, self.columns, self.dated, self._values = name, columns, dated or columns.degrees, values
        places = (longitude_of, latitude_of) if self.degrees else (units_of, units_of)
        self._readers: Tuple[Callable[[Any], Any], ...] = (object_of, seconds_of if self.dated else units_of, *places)
        self.left_out: "Counter[str]" = Counter()
        self.count = 0

    @property
    def degrees(self) -> bool:
        """Whether places are degrees."""
        return self.columns.degrees

    def __iter__(self) -> Iterator[Report]:
        return (report for _, report in self.numbered())

    def degree_reports(self) -> Iterator[Tuple[str, Report]]:
        """The reports, each with what it is called. Refuses a table without degrees."""
        if not self.degrees:
            raise ArgumentError(self.name, f"{self.columns.x} and {self.columns.y} are no degrees: say which columns are by lon= and lat=")
        return ((f"{self.name}: row {nth}", report) for nth, report in self.numbered())

    def numbered(self) -> Iterator[Tuple[int, Report]]:
        """The reports, each with its row from 1."""
        self.left_out, self.count = Counter(), 0
        for nth, values in enumerate(self._values(), 1):
            if None in values or self._is_nowhere(values):
                self.left_out[LACKING[values.index(None) if None in values else 2]] += 1
            else:
                self.count += 1
                yield nth, self._report(nth, values)

    def _is_nowhere(self, values: Sequence[Any]) -> bool:
        """Whether the place is AIS's mark of one that is not known."""
        return self.degrees and (values[2] in NO_LONGITUDE or values[3] in NO_LATITUDE)

    def _report(self, nth: int, values: Sequence[Any]) -> Report:
        report: List[Any] = []
        for name, read, value in zip(self.columns, self._readers, values):
            try:
                report.append(read(value))
            except (ValueError, ArithmeticError) as fault:
                raise ArgumentError(f"{self.name}: row {nth}: {name}", getattr(fault, "problem", str(fault))) from None
        return report[0], report[1], report[2], report[3]


def object_of(item: Any) -> Union[int, str]:
    """An object's number, or its name."""
    if isinstance(item, str):
        text = item.strip()
        return text.split(".")[0] if WHOLE.fullmatch(text) else text
    return whole("", number_of(item), -2**63, 2**64)


def units_of(value: Any) -> int:
    """A time or a coordinate as a whole number."""
    return whole("", number_of(value), *UNITS)


def number_of(value: Any) -> Any:
    """A whole number that is written as a float or as a text; anything else as it is."""
    if isinstance(value, str) and WHOLE.fullmatch(value.strip()):
        return int(value.split(".")[0])
    return int(value) if isinstance(value, float) and value.is_integer() else value


def seconds_of(time: Any) -> int:
    """Whole seconds since 1970, rounded down; a number from 10^11 on is in milliseconds, as in texts."""
    if isinstance(time, (str, datetime.datetime)):
        return times.seconds_of(time)
    number = math.floor(real("", time, -2**60, 2**60))
    return whole("", number // 1000 if abs(number) >= times.LEAST_MILLISECONDS else number, *UNITS)


def longitude_of(value: Any) -> float:
    """Degrees east."""
    return real("", float(value) if isinstance(value, str) else value, -360, 360)


def latitude_of(value: Any) -> float:
    """Degrees north."""
    return real("", float(value) if isinstance(value, str) else value, -90, 90)


# Tables of DataFrames.


def is_frame(rows: Any) -> bool:
    """Whether it is a DataFrame, of pandas or another one that can be exchanged."""
    return hasattr(rows, "__dataframe__") or (hasattr(rows, "columns") and hasattr(rows, "itertuples"))


def frame_table(frame: Any, given: Given = MappingProxyType({}), name: str = "rows") -> Table:
    """The table of a DataFrame. A named index counts as columns. Frames of others than pandas are exchanged by it; refuses those, by
    `PandasMissing`, where it is not there."""
    if not hasattr(frame, "itertuples"):
        frame = library("pandas.api.interchange").from_dataframe(frame)
    if any(level is not None and level not in frame.columns for level in frame.index.names):
        frame = frame.reset_index()
    columns = found_columns(list(frame.columns), given)
    series = [frame[name] for name in columns[:4]]
    dated = is_dated(series[1])
    return Table(name, columns, lambda: zip(*(list_of(column) for column in series)), dated)


def is_dated(column: Any) -> bool:
    """Whether times are dates: timestamps, or texts that are no whole numbers."""
    if column.dtype.kind in "iuf":
        return False
    first = next((value for value in column if value is not None and value == value), 0)
    return isinstance(first, datetime.datetime) or (isinstance(first, str) and not WHOLE.fullmatch(first.strip()))


def list_of(column: Any) -> List[Any]:
    """The values of a column, with None where there is none; of timestamps whole seconds since 1970 (UTC, where they have no zone)."""
    if hasattr(column, "dt") and column.dtype.kind == "M":
        begin = datetime.datetime(1970, 1, 1, tzinfo=datetime.timezone.utc if getattr(column.dtype, "tz", None) else None)
        column = (column - begin) // datetime.timedelta(seconds=1)
    values: List[Any] = column.astype(object).where(column.notna(), None).tolist()
    return values


# Tables of CSV files.


def csv_table(file: Any, given: Given = MappingProxyType({}), name: str = "rows") -> Table:
    """The table of a CSV file in UTF-8, with commas, semicolons or tabs, and with a heading unless it has the program's four columns.
    Refuses, by `LoadError`, one that cannot be read."""
    heading, mark = heading_of(file)
    bare_rows = len(heading) == len(ROWS) and all(map(WHOLE.fullmatch, heading))
    there = ROWS if bare_rows else heading
    columns = found_columns(there, given)
    places = [there.index(column) for column in columns[:4]]

    def values() -> Iterator[Sequence[Any]]:
        with opened(file) as lines:
            for record in itertools.islice(csv.reader(lines, delimiter=mark), 0 if bare_rows else 1, None):
                if record:
                    texts = [record[place].strip() if place < len(record) else "" for place in places]
                    yield [None if text.lower() in MISSING else text for text in texts]

    first = next((found[1] for found in values() if found[1] is not None), "0")
    return Table(name, columns, values, not WHOLE.fullmatch(first))


def heading_of(file: Any) -> Tuple[List[str], str]:
    """The first line of a CSV file, and what separates its fields."""
    with opened(file) as lines:
        line = lines.readline(MOST_HEADING)
        mark = max(",;\t", key=line.count)
        return [name.strip() for name in next(csv.reader([line], delimiter=mark), [])], mark


def has_degrees(file: Any) -> bool:
    """Whether it is a CSV file whose heading has a longitude and a latitude."""
    try:
        there, _ = heading_of(file) if os.path.isfile(file) else ([], "")
    except GractError:
        return False
    return all(fitting(there, argument) for argument in DEGREES)


@contextmanager
def opened(file: Any) -> Iterator[IO[str]]:
    """A text that is read; what goes wrong with it is a `LoadError`, or an `ArgumentError` where it is no CSV."""
    try:
        with open(file, newline="", encoding="utf-8-sig") as lines:
            yield lines
    except OSError:
        raise LoadError(os.fspath(file), why_unread(os.fspath(file))) from None
    except (csv.Error, UnicodeDecodeError) as fault:
        raise ArgumentError("rows", f"{os.fspath(file)} is no CSV file in UTF-8: {fault}") from None
