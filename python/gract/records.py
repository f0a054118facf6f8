"""Rows of answers as records: what was asked, the row, and what the grid makes of it."""

from typing import Any, Dict, List, Optional, Sequence, Tuple

from .errors import ArgumentError
from .grid import Grid

# The columns of each kind of answer that are an instant or a cell, with the names of what the grid makes of them.
INSTANTS = {"instant": "time", "entry": "entry_time", "exit": "exit_time", "first": "first_time", "last": "last_time"}
CELLS = {
    "": ("longitude", "latitude"),
    "entry_": ("entry_longitude", "entry_latitude"),
    "exit_": ("exit_longitude", "exit_latitude"),
    "first_": ("first_longitude", "first_latitude"),
    "last_": ("last_longitude", "last_latitude"),
    "left_": ("left_longitude", "left_latitude"),
    "right_": ("right_longitude", "right_latitude"),
}

# The columns that are an object, with that of its name.
OBJECTS = {"object": "name", "left": "left_name", "right": "right_name"}

# Five digits are a metre.
DIGITS = 5


Record = Dict[str, Any]


def record_of(row: Record, grid: Optional[Grid]) -> Record:
    """A row with what the grid makes of it."""
    if grid is None:
        return row
    told: Record = {}
    for column, value in row.items():
        told[column] = value
        if column in OBJECTS and grid.names:
            told[OBJECTS[column]] = grid.name(value) or ""
        elif column in INSTANTS:
            told[INSTANTS[column]] = time_of(grid, value)
        elif column.endswith("y") and grid.plane is not None and column[:-1] in CELLS:
            place = grid.place(row[f"{column[:-1]}x"], value)
            longitude, latitude = CELLS[column[:-1]]
            told[longitude], told[latitude] = round(place.longitude, DIGITS), round(place.latitude, DIGITS)
    return told


def time_of(grid: Grid, instant: int) -> str:
    """When an instant begins; nothing outside the years 1 to 9999, which have no name."""
    try:
        return grid.time_text(instant)
    except ArgumentError:
        return ""


def place_of(record: Record) -> Tuple[Tuple[str, str], List[float]]:
    """The first columns of a record that are a place, and the place. Refuses a record without degrees."""
    columns = next((pair for pair in CELLS.values() if pair[0] in record), None)
    if columns is None:
        raise ArgumentError("format", "geojson wants degrees: an answer with places, and a grid with a plane")
    return columns, [record[columns[0]], record[columns[1]]]


def cell_columns(columns: Sequence[str]) -> Optional[Tuple[str, str]]:
    """The first two columns that are a cell."""
    return next(((f"{begin}x", f"{begin}y") for begin in CELLS if f"{begin}x" in columns), None)
