"""What can be asked of the readers: one table, from which the words of the command and their help are made."""

import argparse
import dataclasses
import math
from typing import Any, Dict, List, Optional, Sequence

from ..errors import ArgumentError
from .clocks import UNITS

# The most unpacked bytes of a file, unless it is said otherwise.
MOST_BYTES = 1 << 33

GROUPS = {
    "columns": "how a table is read",
    "logs": "how a receiver's log is read",
    "cuts": "what is left out",
    "plane": "the plane of the rows",
}


def option(usual: Any, help_text: str, group: Optional[str] = None, word: Optional[str] = None, **others: Any) -> Any:
    """A row of the table: a field with its help, its group and what argparse wants to know besides."""
    return dataclasses.field(default=usual, metadata={"help": help_text, "group": group, "word": word, **others})


@dataclasses.dataclass
class Options:
    """All options of the readers. Refuses, by `ArgumentError`, those that contradict each other or are out of range."""

    form: Optional[str] = option(None, "the format of the files (else it is found out by their content)", word="as", metavar="FORMAT")
    names: Optional[str] = option(None, "number the objects from 1, and keep their names in this CSV file", metavar="FILE")
    one_track: Optional[str] = option(None, "all rows are of one object, which goes by this name or number", metavar="NAME")
    most_bytes: int = option(MOST_BYTES, f"refuse a file of more bytes than this, unpacked ({MOST_BYTES})", metavar="BYTES", type=int)

    id: Optional[str] = option(None, "the column or variable of the object; several with commas are one", "columns", metavar="NAME")
    time: Optional[str] = option(None, "that of the time", "columns", metavar="NAME")
    lat: Optional[str] = option(None, "that of the latitude", "columns", metavar="NAME")
    lon: Optional[str] = option(None, "that of the longitude", "columns", metavar="NAME")
    separator: Optional[str] = option(None, "what separates columns (what the heading has most of , ; tab |)", "columns", metavar="SIGN")
    time_format: Optional[str] = option(
        None, "how times are written, as '%%d/%%m/%%Y %%H:%%M:%%S'; else ISO times, or seconds or less since 1970", "columns",
        metavar="FORM",
    )
    time_unit: Optional[str] = option(None, "times are numbers of these units", "columns", choices=list(UNITS))
    since: str = option("1970-01-01", "since when numbers count (1970-01-01), in UTC", "columns", metavar="DATE")

    own: Optional[str] = option(None, "the number, or with --names the name, of the receiver's own track", "logs", metavar="NUMBER")
    no_stations: bool = option(False, "leave out base stations and aids to navigation", "logs", action="store_true")

    first: Optional[str] = option(None, "leave out rows before this time, in UTC", "cuts", word="from", metavar="TIME")
    until: Optional[str] = option(None, "leave out rows from this time on", "cuts", metavar="TIME")
    box: Optional[str] = option(None, "leave out rows that are not in this box of degrees", "cuts", metavar="WEST,SOUTH,EAST,NORTH")
    only: Sequence[str] = option(
        (), "leave out other objects than these: a file with a name or a number on each line, or one, or several with commas between them",
        "cuts", metavar="FILE|ID", action="append",
    )
    every: Optional[str] = option(None, "keep of each object a row each so long, as '5 min'", "cuts", metavar="LENGTH")
    max_speed: Optional[float] = option(
        None, "leave out rows that an object could only reach faster than this", "cuts", metavar="KNOTS", type=float,
    )
    min_move: Optional[float] = option(
        None, "leave out objects that never are so far from where they were first", "cuts", metavar="METRES", type=float,
    )

    metres: bool = option(False, "metres round the middle latitude of the rows", "plane", action="store_true")
    middle: Optional[float] = option(None, "metres round this latitude", "plane", metavar="LATITUDE", type=float)
    per_degree: Optional[int] = option(None, "degrees, N units to each", "plane", metavar="N", type=int)
    west: int = option(
        -180, "where the plane is cut: longitudes go from here once round (-180; 0 for tracks across the Pacific)",
        metavar="LONGITUDE", type=int,
    )

    def __post_init__(self) -> None:
        for name, least, most in (("middle", -89, 89), ("per_degree", 1, 2**30), ("west", -360, 180), ("most_bytes", 1, 2**62)):
            value = getattr(self, name)
            if value is not None and not least <= value <= most:
                raise ArgumentError(spelt(name), f"{value} is not from {least} to {most}")
        for name in ("max_speed", "min_move"):
            value = getattr(self, name)
            if value is not None and not 0 <= value < math.inf:
                raise ArgumentError(spelt(name), f"{value} is not 0 or more")
        if self.metres + (self.middle is not None) + (self.per_degree is not None) > 1:
            raise ArgumentError("plane", "--metres, --middle and --per-degree exclude each other")
        if self.separator is not None and len(self.separator) != 1:
            raise ArgumentError("--separator", f"{self.separator!r} is not one sign")
        if self.one_track is not None and self.id is not None:
            raise ArgumentError("--one-track", "it and --id exclude each other")


def spelt(name: str) -> str:
    """An option as it is written in a command."""
    field = next(field for field in dataclasses.fields(Options) if field.name == name)
    return f"--{(field.metadata['word'] or name).replace('_', '-')}"


def add_options(parser: argparse.ArgumentParser, formats: Sequence[str]) -> None:
    """Gives a command all options; `formats` are the names that `--as` takes."""
    groups: Dict[Optional[str], Any] = {None: parser}
    for name, title in GROUPS.items():
        group = parser.add_argument_group(title)
        groups[name] = group.add_mutually_exclusive_group() if name == "plane" else group
    for field in dataclasses.fields(Options):
        others = {key: value for key, value in field.metadata.items() if key not in ("group", "word")}
        if field.name == "form":
            others["choices"] = list(formats)
        usual = field.default or None
        groups[field.metadata["group"]].add_argument(spelt(field.name), dest=field.name, default=usual, **others)


def options_of(given: argparse.Namespace) -> Options:
    """The options that a command line gives."""
    values = {field.name: getattr(given, field.name) for field in dataclasses.fields(Options)}
    return Options(**{name: value for name, value in values.items() if value is not None})


def words_in(texts: Sequence[str]) -> List[str]:
    """Words that are separated by commas."""
    return [word.strip() for text in texts for word in text.split(",") if word.strip()]
