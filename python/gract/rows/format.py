"""What a format is, and what the beginning of a file tells of it."""

import csv
import importlib
import re
from typing import Callable, List, NamedTuple, Optional, Sequence, Tuple

from .collecting import Rows
from .columns import SHIPS, Columns, plain
from .options import Options
from .records import separator_of
from .sources import Source

# So many lines are looked at.
MOST_LINES = 200
MOST_LINES_ABOVE = 40

# The first element of a document of XML: behind its declaration, comments and the like.
ROOT = re.compile(
    r"\s*(?:<\?.*?\?>\s*|<!--.*?-->\s*|<![A-Za-z][^<>\[]*(?:\[[^\]]*\])?>\s*)*<(?:[\w.-]{1,100}:)?([A-Za-z_][\w.-]{0,100})", re.DOTALL,
)

# Columns that only a table of ships has, and those that only one of animals has.
SHIP_NAMES = frozenset(SHIPS) - {"id"}
ANIMAL_NAMES = frozenset(("individuallocalidentifier", "taglocalidentifier", "animalid", "tagid", "deployid", "ptt"))


class Head:
    """The beginning of a file, and what it says of its format."""

    def __init__(self, source: Source, options: Options):
        self.start, self.options = source.head, options
        utf16 = self.start.startswith((b"\xff\xfe", b"\xfe\xff"))
        self.is_text = utf16 or b"\0" not in self.start
        self.text = self.start.decode("utf-16" if utf16 else "utf-8-sig", "replace") if self.is_text else ""
        self.lines = [line for line in self.text.splitlines()[:MOST_LINES] if line.strip() and not line.lstrip().startswith("#")]
        found = ROOT.match(self.text) if self.text.lstrip()[:1] == "<" else None
        self.root = found[1] if found else ""
        self.heading = self._heading()

    def _heading(self) -> List[str]:
        """The columns of the first line that has places among them; none where there is no such line."""
        for line in self.lines[:MOST_LINES_ABOVE]:
            fields = self.fields_of(line)
            if not Columns(fields, self.options, (), is_placed=False).missing[2:] and len(fields) > 2:
                return fields
        return []

    def fields_of(self, line: str) -> List[str]:
        """The fields of a line of a table."""
        try:
            return next(csv.reader([line], delimiter=self.options.separator or separator_of(line)), [])
        except csv.Error:
            return []

    @property
    def names(self) -> "frozenset[str]":
        """The columns of the heading, as they are compared."""
        return frozenset(map(plain, self.heading))

    @property
    def has_ships(self) -> bool:
        """Whether a column of the heading has ships."""
        return bool(self.names & SHIP_NAMES)

    @property
    def has_animals(self) -> bool:
        """Whether a column of the heading has animals."""
        return bool(self.names & ANIMAL_NAMES)

    def matches(self, pattern: "re.Pattern[str]") -> bool:
        """Whether a line begins so."""
        return any(pattern.match(line) for line in self.lines)


class Format(NamedTuple):
    """A format of files: its name, what it is, its usual plane (`metres` or `degrees`), whether a file begins as one, and what reads it:
    a function of a module that is loaded where a file is read. Those `alike` are formats whose files it may be told to read."""

    name: str
    what: str
    plane: str
    begins: Callable[[Head], bool]
    reader: str
    alike: Sequence[str] = ()

    def read(self, source: Source, rows: Rows) -> None:
        """Reads a file of it."""
        module, _, function = self.reader.partition(".")
        getattr(importlib.import_module(f"{__package__}.{module}"), function)(source, rows)


Known = Tuple[bytes, str]

# How files begin that no reader takes, and what to do about each.
OTHERS: Tuple[Known, ...] = (
    (b"%PDF", "a PDF"), (b"GRACT", "an index of gract: ./gract ask answers from it"), (b"\x89PNG", "a picture"),
    (b"\xff\xd8\xff", "a picture"), (b"<!doctype html", "a web page"), (b"<html", "a web page"),
    (b"SQLite format 3", "an SQLite database, and no GeoPackage: export a table of it as CSV"),
    (b"object,instant,x,y", "a file of rows already: ./gract build takes it as it is"), (b"7z\xbc\xaf", "a 7z archive: unpack it"),
    (b"\x28\xb5\x2f\xfd", "packed by zstd: unpack it (zstd -d)"), (b"Rar!", "a RAR archive: unpack it"),
    (b"PAR1", "a Parquet file: save the table as CSV"), (b"GRIB", "a GRIB file, which has no tracks"),
    (b"[", "a file of JSON, and none that is read"), (b"{", "a file of JSON, and none that is read"),
)


def other_kind(head: Head) -> Optional[str]:
    """What a file is that no reader takes, where that is known."""
    start = head.start.lstrip(b"\xef\xbb\xbf \t\r\n").lower()
    if not head.start:
        return "empty"
    if head.start[257:262] == b"ustar":
        return "a tar archive: unpack it (tar -x)"
    found = next((what for mark, what in OTHERS if start.startswith(mark.lower())), None)
    if found is None and head.root:
        return f"XML, and no GPX, KML or TCX: its root is {head.root}"
    return found if found or head.is_text else "no text: it has bytes 0"
