"""What the readers of receivers' logs share: the clock of a log, the receiver's own place, and reports of AIS."""

from decimal import Decimal
from typing import Optional, Tuple, Union

from .ais import STATIONS, is_station
from .collecting import Rows
from .places import position_of
from .sentences import STATION_REPORTS
from .spool import Spool

NO_CLOCK = "a report before the first time in the log"
OWN = "the receiver's own position (--own NUMBER takes it)"

# The number of a ship has 30 bits.
MOST_SHIP = 2**30 - 1

Degrees = Union[int, Decimal]


class Log:
    """A log as it is read: reports of AIS get the time that was last told before them."""

    def __init__(self, rows: Rows):
        self.rows, self.options = rows, rows.options
        self.now: Optional[int] = None
        self.is_told_by_receiver = False
        self.own, self.first_own = Spool(), ("", "")
        self.reports = 0

    def clock(self, seconds: int, of_receiver: bool) -> None:
        """A time in the log. That of a base station counts only where the receiver itself has told none."""
        if of_receiver or not self.is_told_by_receiver:
            self.now = seconds
        self.is_told_by_receiver = self.is_told_by_receiver or of_receiver

    def place_own(self, seconds: int, latitude: str, longitude: str, where: str, line: str) -> None:
        """The receiver's own place."""
        position = position_of(latitude, longitude)
        if position is None:
            self.rows.leave_out("a position off the globe", where, line)
            return
        if not self.own.count:
            self.first_own = where, line
        self.own.add((seconds, 0, *position))

    def report(self, kind: int, ship: int, place: Tuple[Degrees, Degrees], units: int, where: str, line: str,
               seconds: Optional[int] = None) -> None:
        """A position report of AIS, its place as longitude and latitude in units of a degree."""
        self.reports += 1
        seconds = self.now if seconds is None else seconds
        longitude, latitude = (str(Decimal(part) / units) for part in place)
        position = position_of(latitude, longitude)
        if not 0 <= ship <= MOST_SHIP:
            self.rows.leave_out("a ship's number that has more than 30 bits, or is below 0", where, line)
        elif self.options.no_stations and (kind in STATION_REPORTS or is_station(str(ship))):
            self.rows.leave_out(STATIONS, where, line)
        elif position is None:
            self.rows.leave_out("no position (latitude 91 or longitude 181)", where, line)
        elif seconds is None:
            self.rows.leave_out(NO_CLOCK, where, line)
        else:
            self.rows.add(str(ship), seconds, *position, where, line)

    def end(self) -> None:
        """Adds the receiver's own track: under the number that the options give, or else as object 0 where it is all that there is."""
        where, line = self.first_own
        if self.options.own is None and self.reports:
            if self.own.count:
                self.rows.causes.leave_out(OWN, where, line, self.own.count)
        elif self.own.count:
            name = self.options.own or ("receiver" if self.options.names else "0")
            for seconds, _, latitude, longitude in self.own.sorted():
                self.rows.add(name, seconds, latitude, longitude, where, line)
        self.own.close()
