"""Tables with a heading, as spreadsheets, R and Movebank write them, and exports of AIS.

Columns are found by their names, in any order and among any others. Semicolons, tabs, bars, decimal commas, blank lines and notes above
the heading are read.
"""

import contextlib
import csv
from typing import List, Optional, Sequence, Tuple

from ..errors import SourceError
from .clocks import Clock, Unclear
from .collecting import Rows
from .columns import OBJECTS, Columns
from .fast import SECONDS, Line, Lines
from .options import Options
from .places import position_fault, position_of
from .records import Records, separator_of
from .sources import Source
from .spool import Row

# The heading is among the first so many lines; above it may stand notes.
MOST_LINES_ABOVE = 40


def degrees_text(text: str, signs: str) -> str:
    """A number of degrees with a point, from one with a comma or with a letter for its side."""
    text = text.strip()
    if text[-1:].isdigit() and "," not in text:
        return text
    text = text.replace("°", "").strip()
    side = text[-1:].upper()
    if side and side in signs:
        text = text[:-1].strip()
        text = f"-{text}" if side == signs[1] else text
    return text.replace(",", ".") if "," in text and "." not in text else text


class Swaps:
    """Whether latitudes and longitudes seem to stand in each other's columns."""

    def __init__(self) -> None:
        self.beyond, self.greatest = 0, 0.0

    def see(self, latitude: str, longitude: str) -> None:
        """Looks at a position that is none."""
        try:
            north, east = float(latitude), float(longitude)
        except ValueError:
            return
        if 91 < abs(north) <= 360 and abs(east) <= 90:
            self.beyond += 1
            self.greatest = max(self.greatest, abs(north))

    def check(self, name: str, found: int, lat: str, lon: str) -> None:
        """Refuses a file of which most positions are so."""
        if self.beyond > found:
            raise SourceError(
                f"{name}: {self.beyond} latitudes are beyond 90 degrees, up to {self.greatest:g}, and their longitudes are not: latitude "
                f"and longitude seem to be swapped; --lat '{lon}' --lon '{lat}' reads them the other way round"
            )


def heading_of(name: str, records: Records, options: Options, ids: Sequence[str]) -> Tuple[Columns, str]:
    """The columns and the separator: the first line among which all columns are."""
    seen: List[Columns] = []
    for text in records:
        separator = options.separator or separator_of(text)
        heading: List[str] = []
        with contextlib.suppress(csv.Error):
            heading = next(csv.reader([text], delimiter=separator), heading)
        columns = Columns(heading, options, ids)
        if not columns.missing:
            return columns, separator
        seen.append(columns)
        if len(seen) == MOST_LINES_ABOVE:
            break
    if not seen:
        raise SourceError(f"{name}: there are no lines")
    best = min(seen, key=lambda it: len(it.missing))
    if len(best.missing) > 2 and len(best.heading) < 4:
        raise SourceError(f"{name} is no table with a heading: it begins {', '.join(seen[0].heading)[:80]!r}")
    option, usual = best.missing[0]
    other = ", or --one-track NAME where all rows are of one object" if option == "id" else ""
    raise SourceError(f"{name}: no column {usual}: give its name by --{option}{other}; the heading is {', '.join(best.heading)[:200]}")


class Table:
    """A table as it is read. Its longitudes go up to 180, or up to 360 where they are counted eastwards."""

    def __init__(self, source: Source, rows: Rows, ids: Sequence[str], most_longitude: int):
        self.rows, self.most_longitude, self.name = rows, most_longitude, source.name
        self.records = Records(source.name, source.pieces(), rows)
        self.columns, self.separator = heading_of(source.name, self.records, rows.options, ids)
        self.clock, self.swaps, self.last = Clock(rows.options), Swaps(), 0

    def read(self) -> None:
        """Reads all records. Refuses a table whose times are not understood, or whose degrees are swapped."""
        before, wide = self.rows.read, len(self.columns.heading)
        lat, lon = (self.columns.heading[min(place[0], wide - 1)] for place in (self.columns.lat, self.columns.lon))
        self.rows.causes.not_used("columns", self.columns.unused)
        records = self.records.fields(self.separator)
        record = next(records, None)
        # R's write.table gives row names, and no heading to them.
        if record is not None and len(record) == wide + 1 and record[-1].strip():
            self.columns.shift(1)
        self.last, pattern = max(self.columns.used), Lines(self.columns, self.separator, self.clock, self.most_longitude)
        while record is not None:
            self.add(record)
            self.read_plain(pattern)
            record = next(records, None)
        self.clock.check(self.name)
        self.swaps.check(self.name, self.rows.read - before, lat, lon)

    def read_plain(self, pattern: Lines) -> None:
        """Reads lines up to one that is not as most are."""
        records = self.records
        while pattern.pattern is not None and not records.waiting and (records.at < records.count or records.next_piece()):
            found = pattern.found_in(records.piece)
            if not any(found[records.at]):
                # Before the lines behind it are copied, which would take long where none of many is plain.
                return
            lines = found[records.at:]
            count = self.add_plain(lines, pattern.order)
            records.at += count
            if count < len(lines):
                return

    def add_plain(self, lines: Sequence[Line], order: Sequence[int]) -> int:
        """Adds the rows of lines, up to one that is not as most are. Answers with how many were read."""
        rows, known, minutes, cuts = self.rows, self.rows.known, self.clock.minutes, self.rows.cuts
        item, minute, second, latitude, longitude = order
        found: List[Row] = []
        add = found.append
        with contextlib.suppress(KeyError):
            for line in lines:
                add((minutes[line[minute]] + SECONDS[line[second]], known[line[item]], line[latitude], line[longitude]))
        rows.read += len(found)
        self.clock.clear += len(found)
        if cuts.is_any:
            rows.spool.take([row for row, line in zip(found, lines) if not cuts.leaves(line[item], row[0], row[2], row[3])])
        else:
            rows.spool.take(found)
        return len(found)

    def add(self, record: Sequence[str]) -> None:
        """Adds the row of a record, or counts why it is none."""
        if len(record) <= self.last:
            self.leave_out("a line that is too short")
            return
        columns = self.columns
        latitude, longitude = degrees_text(record[columns.lat[0]], "NS"), degrees_text(record[columns.lon[0]], "EW")
        position = position_of(latitude, longitude, self.most_longitude)
        if position is None:
            self.swaps.see(latitude, longitude)
            self.leave_out(position_fault(latitude, longitude))
            return
        try:
            seconds = columns.seconds_in(record, self.clock)
        except Unclear as cause:
            self.leave_out(str(cause))
            return
        name = "" if self.rows.options.one_track is not None else columns.name_in(record)
        why = self.station(name)
        if why:
            self.leave_out(why)
        else:
            self.rows.add(name, seconds, *position, self.records.where, self.records.text)

    def leave_out(self, why: str) -> None:
        """Counts the record."""
        self.rows.leave_out(why, self.records.where, self.records.text)

    def station(self, name: str) -> Optional[str]:
        """Why an object of that name is left out."""
        return None


def read(source: Source, rows: Rows) -> None:
    """Reads a table."""
    Table(source, rows, OBJECTS, 360).read()
