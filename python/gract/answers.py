"""What questions are answered: named tuples, and lists of them that know what was asked."""

import datetime
import os
from typing import (
    TYPE_CHECKING, Any, Dict, Iterator, List, NamedTuple, Optional, Sequence, SupportsIndex, Tuple, Type, TypeVar, Union, overload,
)

from .errors import ArgumentError
from .features import features_of
from .grid import Grid, Place
from .libraries import library
from .records import CELLS, INSTANTS, record_of
from .shown import csv_text, html_table, short_table, shortened, table_of

if TYPE_CHECKING:
    from .questions import Region


class Pair(NamedTuple):
    """An x and a y."""

    x: int
    y: int


class Cell(Pair):
    """Where an object was: a cell, equal to the pair (x, y). With a grid it has the `longitude` and `latitude` of its middle, and
    the `time` at which the instant begins; without one these are refused, by `ArgumentError`."""

    grid: Optional[Grid] = None
    instant: Optional[int] = None

    def told_by(self, grid: Optional[Grid], instant: int) -> "Cell":
        """The same cell, with a grid and an instant."""
        self.grid, self.instant = grid, instant
        return self

    @property
    def longitude(self) -> float:
        """Of the middle of the cell, in degrees east."""
        return self._place.longitude

    @property
    def latitude(self) -> float:
        """Of the middle of the cell, in degrees north."""
        return self._place.latitude

    @property
    def time(self) -> datetime.datetime:
        """When the instant begins, in UTC."""
        if self.grid is None or self.instant is None:
            raise ArgumentError("grid", "this cell is of an index without one, and so has no time")
        return self.grid.time(self.instant)

    @property
    def _place(self) -> Place:
        if self.grid is None:
            raise ArgumentError("grid", "this cell is of an index without one, and so has no degrees")
        return self.grid.place(self.x, self.y)

    def __repr__(self) -> str:
        if self.grid is None or self.instant is None:
            return f"Cell(x={self.x}, y={self.y})"
        told = record_of({"instant": self.instant, "x": self.x, "y": self.y}, self.grid)
        return f"Cell({', '.join(f'{name}={value!r}' for name, value in told.items())})"


class Stop(NamedTuple):
    """A row of an object's path."""

    instant: int
    x: int
    y: int


class Sighting(NamedTuple):
    """An object in a region at an instant."""

    object: int
    x: int
    y: int


class Hit(NamedTuple):
    """An object's first row in a region and a window."""

    object: int
    instant: int
    x: int
    y: int


class Near(NamedTuple):
    """An object near a cell. `squared` is the squared distance of the cells."""

    object: int
    x: int
    y: int
    squared: int


class Meeting(NamedTuple):
    """Two objects near each other at an instant, and the cell of each."""

    instant: int
    left_x: int
    left_y: int
    right_x: int
    right_y: int


class Facts(NamedTuple):
    """What `info` tells of an index; docs/QUESTIONS.md says what each is."""

    objects: int
    first: int
    last: int
    period: int
    cell: int
    tick: int
    height: int
    alphabet: int
    rules: int
    log: int
    depth: int


class Last(NamedTuple):
    """An object's last row at or before an instant; `age` is how many instants before."""

    object: int
    instant: int
    x: int
    y: int
    age: int


class Visit(NamedTuple):
    """A stay in a region: rows of an object that follow one another and all lie in it. `entry` and `exit` are the instants of the
    first and the last of them, with their cells; `rows` is how many there are."""

    object: int
    entry: int
    entry_x: int
    entry_y: int
    exit: int
    exit_x: int
    exit_y: int
    rows: int


class Life(NamedTuple):
    """The first and the last row of an object."""

    object: int
    first: int
    first_x: int
    first_y: int
    last: int
    last_x: int
    last_y: int


Row = TypeVar("Row", bound=Tuple[Any, ...])


class Answers(List[Row]):
    """The rows of an answer, in the order of the program, all of the kind `row`. `asked` is what they have in common, as the object of
    a path; `notes` are sentences on what was asked in place of what, as a distance in metres that was rounded outwards; `region` is
    the one that was asked for, in cells.

    At a prompt and in a notebook it shows as a table with dates, degrees and names, of its first and last rows where it is long. A slice
    of it is an answer too.
    """

    def __init__(self, rows: Sequence[Row], row: Type[Any], *, grid: Optional[Grid] = None, asked: Optional[Dict[str, int]] = None,
                 notes: Sequence[str] = (), region: Optional["Region"] = None):
        super().__init__(rows)
        self.row, self.grid, self.asked, self.notes, self.region = row, grid, dict(asked or {}), tuple(notes), region

    @overload
    def __getitem__(self, place: SupportsIndex) -> Row: ...

    @overload
    def __getitem__(self, place: slice) -> "Answers[Row]": ...

    def __getitem__(self, place: Union[SupportsIndex, slice]) -> Union[Row, "Answers[Row]"]:
        found = super().__getitem__(place)
        return self._like(found) if isinstance(place, slice) else found  # type: ignore[return-value]

    def copy(self) -> "Answers[Row]":
        """The same rows in another list."""
        return self._like(self)

    def _like(self, rows: Sequence[Row]) -> "Answers[Row]":
        return Answers(rows, self.row, grid=self.grid, asked=self.asked, notes=self.notes, region=self.region)

    # Records.

    @property
    def columns(self) -> List[str]:
        """The columns of the records, also where there is no row."""
        return list(record_of({**self.asked, **dict.fromkeys(self.row._fields, 0)}, self.grid))

    def records(self) -> Iterator[Dict[str, Any]]:
        """Each row as a dictionary: what was asked, the row, and where there is a grid what it makes of it: `name`, `time` (ISO,
        UTC), `longitude` and `latitude` of the middle of the cell. All rows have the same columns."""
        return self._records(self)

    def _records(self, rows: Sequence[Row]) -> Iterator[Dict[str, Any]]:
        return (record_of({**self.asked, **row._asdict()}, self.grid) for row in rows)  # type: ignore[attr-defined]

    def frame(self) -> Any:
        """The records as a DataFrame, with times as timestamps. Refuses, by `PandasMissing`, where pandas is not there."""
        pandas = library("pandas")
        frame = pandas.DataFrame(list(self.records()), columns=self.columns)
        for column in INSTANTS.values():
            if column in frame.columns:
                frame[column] = stamps(pandas, frame[column])
        return frame

    def geoframe(self) -> Any:
        """The records as a GeoDataFrame of geopandas (EPSG:4326), with a point for each row: of a stay where it began, of an object its
        first row, of a meeting where the left one was. Refuses, by `LibraryMissing`, where geopandas is not there, and an answer
        without degrees."""
        geopandas = library("geopandas")
        frame, (longitude, latitude) = self.frame(), degree_columns(self.columns)
        return geopandas.GeoDataFrame(frame, geometry=geopandas.points_from_xy(frame[longitude], frame[latitude]), crs="EPSG:4326")

    # Files and pictures.

    def geojson(self) -> Dict[str, Any]:
        """A collection of GeoJSON, as `json.dump` takes it: a line for a path, with its times, and a point for each row of any other
        answer. Refuses an answer without degrees."""
        degree_columns(self.columns)
        return {"type": "FeatureCollection", "features": features_of(list(self.records()), self.row is Stop)}

    def to_csv(self, path: Union[None, str, "os.PathLike[str]"] = None) -> Optional[str]:
        """The records as CSV with a heading, in a file, or as a text where none is named. A text that a spreadsheet would take for a
        formula, as a name that begins with `=`, has an apostrophe before it."""
        text = csv_text(self.columns, list(self.records()))
        if path is None:
            return text
        with open(path, "w", encoding="utf-8", newline="") as file:
            file.write(text)
        return None

    def plot(self, ax: Any = None, *, coast: Union[None, str, "os.PathLike[str]"] = None, **style: Any) -> Any:
        """Draws the answer by matplotlib, in degrees where there are some, else in cells: a path as a line, the rows of any other answer
        as points with their names where there are few, and the region that was asked for as an outline. `coast` is a GeoJSON file whose
        lines are drawn beneath; `style` goes to matplotlib's `plot`. Draws on `ax` where it is given, and answers with the axes.
        Refuses, by `LibraryMissing`, where matplotlib is not there."""
        from . import plots
        return plots.draw(self, ax, coast, style)

    # What is shown.

    def table(self) -> str:
        """The records as a text in columns, for people."""
        return table_of(list(self.records()))

    def __repr__(self) -> str:
        return short_table([list(self._records(part)) for part in shortened(self)], len(self), self.notes)

    def _repr_html_(self) -> str:
        return html_table(self.columns, [list(self._records(part)) for part in shortened(self)], len(self), self.notes)


def stamps(pandas: Any, times: Any) -> Any:
    """Times as timestamps of pandas, or where it has none of them, before 1677 and after 2262, as they are."""
    try:
        return pandas.to_datetime(times, utc=True)
    except ValueError:
        return times


def degree_columns(columns: Sequence[str]) -> Tuple[str, str]:
    """The first columns that are a longitude and a latitude. Refuses an answer without degrees."""
    found = next((pair for pair in CELLS.values() if pair[0] in columns), None)
    if found is None:
        raise ArgumentError("grid", "degrees are wanted: an answer with places, and an index with a grid that has a plane")
    return found
