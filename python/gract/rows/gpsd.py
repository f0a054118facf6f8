"""What gpsd says, line by line in JSON (gpspipe -w, or gpsdecode): reports of AIS and of the receiver.

Objects of the class AIS are reports of ships; those of the class TPV are the receiver's own place and time. A report of AIS has no date,
so it gets the time that was last told before it.
"""

import json
from decimal import Decimal
from typing import Any, Dict

from .. import times
from .collecting import Rows
from .receivers import Log
from .sentences import PLACES, ROUGH_UNITS, UNITS, Broken
from .sources import Source


class Reader:
    """A log as it is read, line by line."""

    def __init__(self, log: Log):
        self.log = log
        self.unread: Dict[str, None] = {}

    def read(self, line: str, where: str) -> None:
        """Reads a line. Raises Broken, or ValueError for a time that is none."""
        try:
            said = json.loads(line, parse_float=Decimal)
        except (ValueError, ArithmeticError, RecursionError):
            said = None
        if not isinstance(said, dict):
            raise Broken("a line that is no object of JSON")
        kind = said.get("class")
        if kind == "AIS":
            self.read_ais(said, where, line)
        elif kind == "TPV":
            self.read_own(said, where, line)
        elif isinstance(kind, str) and len(self.unread) < 100:
            self.unread[kind] = None

    def read_ais(self, said: Dict[str, Any], where: str, line: str) -> None:
        """A report of AIS."""
        kind: Any = said.get("type")
        ship: Any = said.get("mmsi")
        if kind == 4 and isinstance(said.get("timestamp"), str):
            self.station_clock(said["timestamp"])
        if not is_whole(kind) or kind not in PLACES:
            return
        longitude: Any = said.get("lon")
        latitude: Any = said.get("lat")
        if not is_whole(ship) or not is_number(longitude) or not is_number(latitude):
            raise Broken("a report without a ship or a position")
        units = 1 if said.get("scaled", True) else ROUGH_UNITS if kind == 27 else UNITS
        self.log.report(kind, ship, (longitude, latitude), units, where, line)

    def station_clock(self, text: str) -> None:
        """The time of a base station."""
        try:
            self.log.clock(times.seconds_of(text), False)
        except ValueError:
            pass  # It says that it does not know the time.

    def read_own(self, said: Dict[str, Any], where: str, line: str) -> None:
        """The receiver's own time and place."""
        if not isinstance(said.get("time"), str):
            return
        seconds = times.seconds_of(said["time"])
        self.log.clock(seconds, True)
        if "lat" in said and "lon" in said:
            self.log.place_own(seconds, str(said["lat"]), str(said["lon"]), where, line)


def is_whole(value: object) -> bool:
    """Whether a value is a whole number, and not the word true or false."""
    return isinstance(value, int) and not isinstance(value, bool)


def is_number(value: object) -> bool:
    """Whether a value is a number of a size that a place can have, in the smallest units."""
    return (is_whole(value) or isinstance(value, Decimal)) and -10**9 < Decimal(str(value)) < 10**9


def read(source: Source, rows: Rows) -> None:
    """Reads a log."""
    reader = Reader(Log(rows))
    for number, line in source.lines():
        if not line.strip() or line.startswith("#"):
            continue
        where = f"{source.name} line {number}"
        try:
            reader.read(line, where)
        except Broken as cause:
            rows.leave_out(str(cause), where, line)
        except ValueError:
            rows.leave_out("a time that is none", where, line)
    rows.causes.not_used("classes", reader.unread)
    reader.log.end()
