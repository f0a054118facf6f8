"""The files of NOAA's Global Drifter Program (buoydata_*.dat, a position every six hours).

Their columns are fixed: number, month, day with its fraction, year, latitude, longitude from 0 to 360, and more that is not read; 999.999
means that nothing was measured.
"""

import datetime
import math
import re
from decimal import Decimal
from typing import Sequence

from .. import times
from .collecting import Rows
from .places import position_of
from .sources import Source

NUMBER = re.compile(r"\d{1,4}(?:\.\d{1,12})?").fullmatch


def seconds_of(month: str, day: str, year: str) -> int:
    """Seconds since 1970 of a day with its fraction, as 14.250 for six in the morning. Raises ValueError."""
    if not (NUMBER(month) and NUMBER(day) and NUMBER(year)):
        raise ValueError(f"not a day: {day}")
    whole = Decimal(day)
    days = datetime.date(int(year), int(month), math.floor(whole)).toordinal() - times.FIRST_DAY
    return 86400 * days + math.floor(whole % 1 * 86400)


def add_line(fields: Sequence[str], rows: Rows, where: str, line: str) -> None:
    """Adds the row of a line, or counts why it is none."""
    if len(fields) < 6:
        rows.leave_out("a line that is too short", where, line)
        return
    number, month, day, year, latitude, longitude = fields[:6]
    try:
        seconds = seconds_of(month, day, year)
    except ValueError:
        rows.leave_out("no month, day and year in the columns 2 to 4", where, line)
        return
    position = position_of(latitude, longitude, most_longitude=360)
    if position is None:
        rows.leave_out("no position (999.999)", where, line)
    else:
        rows.add(number, seconds, *position, where, line)


def read(source: Source, rows: Rows) -> None:
    """Reads a file."""
    for number, line in source.lines():
        fields = line.split()
        if fields:
            add_line(fields, rows, f"{source.name} line {number}", line)
