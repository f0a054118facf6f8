"""Lines of a table that are written as most are, read by one pattern: a plain object, an ISO time, and plain degrees. It finds what the
columns and the clock find, and leaves every other line to them."""

import re
from typing import Dict, List, Optional, Tuple

from .clocks import Clock
from .columns import Columns
from .records import SEPARATORS

# In these patterns `(?:..|)` is what may be missing: it takes less time than `(?:..)?`, which could be there more than once.
ID = r"([0-9A-Za-z_.:-]{1,40})"

# Whether the sixteen signs are a minute is found out where one is met for the first time.
TIME = r"(.{16}):([0-5][0-9])(?:\.[0-9]+|)Z?"

# Degrees up to 90, 180 and 360.
LATITUDE = r"([+-]?(?:[0-8]?[0-9](?:\.[0-9]{1,12}|)|90(?:\.0{1,12}|)))"
LONGITUDES = {
    180: r"([+-]?(?:(?:1[0-7][0-9]|[0-9]?[0-9])(?:\.[0-9]{1,12}|)|180(?:\.0{1,12}|)))",
    360: r"(\+?(?:(?:3[0-5][0-9]|[12]?[0-9]?[0-9])(?:\.[0-9]{1,12}|)|360(?:\.0{1,12}|))"
         r"|-(?:(?:1[0-7][0-9]|[0-9]?[0-9])(?:\.[0-9]{1,12}|)|180(?:\.0{1,12}|)))",
}

# What follows the last column that is used: without a quote that is open. Most lines have none or two.
QUOTED = r'"[^"\n]*"[^"\n]*'
REST = rf'[^"\n]*(?:{QUOTED}(?:{QUOTED})*|)'

SECONDS = {f"{second:02}": second for second in range(60)}

# A line of the pattern, whose object, minute, second, latitude and longitude are in the places of `order`.
Line = Tuple[str, ...]


class Lines:
    """The pattern of a table whose object, time and place have a column each; None of any other. It finds something of every line, and of
    one that is not as most are five empty texts."""

    def __init__(self, columns: Columns, separator: str, clock: Clock, most_longitude: int):
        single = [columns.id, columns.time, columns.lat, columns.lon]
        self.pattern: Optional["re.Pattern[str]"] = None
        self.order: Tuple[int, ...] = ()
        self.piece = ""
        self.found: List[Line] = []
        if clock.form is None and not columns.parts and all(len(it) == 1 for it in single) and separator in SEPARATORS:
            named = {columns.id[0]: ID, columns.time[0]: TIME, columns.lat[0]: LATITUDE, columns.lon[0]: LONGITUDES[most_longitude]}
            if len(named) == 4:
                self.pattern = re.compile(self.pattern_of(named, re.escape(separator)))
                self.order = self.groups_of(named, columns)

    def found_in(self, piece: str) -> List[Line]:
        """What it finds of each line of a piece of a text, which is kept until another piece is asked for."""
        if self.pattern is not None and piece is not self.piece:
            self.piece, self.found = piece, self.pattern.findall(piece)
        return self.found

    def pattern_of(self, named: Dict[int, str], separator: str) -> str:
        """The pattern of a line whose columns at these places are so."""
        other = f'(?:[^"{separator}\\n]*|"[^"\\n]*")'
        fields = [named.get(place, other) for place in range(max(named) + 1)]
        return f"(?:{separator.join(fields)}(?:{separator}{REST}|)|.*)\\n"

    def groups_of(self, named: Dict[int, str], columns: Columns) -> Tuple[int, ...]:
        """The places of the object, of the minute and the second of its time, and of the latitude and the longitude."""
        first, nth = {}, 0
        for place in sorted(named):
            first[place] = nth
            nth += 2 if named[place] == TIME else 1
        time = first[columns.time[0]]
        return first[columns.id[0]], time, time + 1, first[columns.lat[0]], first[columns.lon[0]]
