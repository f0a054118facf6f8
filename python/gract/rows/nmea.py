"""Logs of NMEA sentences: AIS receivers' (!AIVDM, !AIVDO) and GPS receivers' ($GPRMC and the like).

Of AIS the position reports are read: messages 1, 2, 3, 4, 9, 11, 18, 19, 21 and 27. They carry no date, so each gets the time of its tag
block (c:), of a number of seconds behind its checksum, of a time before it in its line, or else the last that the log told before it by
$--RMC or $--ZDA, or by a base station (message 4) where there is none of these. The receiver's own track is that of $--RMC.
"""

import re
from typing import Dict, List, Optional, Sequence, Tuple

from .. import times
from .collecting import Rows
from .receivers import Log
from .sentences import ROUGH_UNITS, UNITS, Bits, Broken, coordinate, report_of, sentence_of, time_parts
from .sources import Source

CLOCK = re.compile(r"(\d\d)(\d\d)(\d\d)(?:\.\d*)?")
SECONDS = re.compile(r"1\d{9}(?:\.\d+)?")
TAGGED = re.compile(r"(?:^|,)c:(\d{1,13})(?!\d)")

# A message has at most so many parts, and so many messages may be open at once.
MOST_PARTS, MOST_OPEN = 9, 1000


class Reader:
    """A log as it is read, line by line."""

    def __init__(self, log: Log):
        self.log = log
        self.waiting: Dict[Tuple[str, str], List[str]] = {}
        self.unread: Dict[str, None] = {}

    def read(self, line: str, where: str) -> None:
        """Reads a line. Raises Broken, or ValueError for a time that is none."""
        tags, before, name, fields, rest = sentence_of(line)
        if name[2:] in ("VDM", "VDO"):
            self.read_ais(fields, self.time_beside(tags, before, rest), where, line)
        elif name.endswith("RMC"):
            self.read_rmc(fields, where, line)
        elif name.endswith("ZDA"):
            self.read_zda(fields)
        elif len(self.unread) < 100:
            self.unread[name] = None

    def time_beside(self, tags: str, before: str, rest: str) -> Optional[int]:
        """The time in a sentence's own line, if there is one."""
        tagged = TAGGED.search(tags.partition("*")[0]) if tags else None
        behind = SECONDS.search(rest) if rest else None
        if tagged or behind:
            return times.seconds_of(tagged[1] if tagged else behind[0] if behind else "")
        found = (times.ISO_TIME.search(before) or SECONDS.search(before)) if before else None
        return times.seconds_of(found[0]) if found else None

    def read_ais(self, fields: Sequence[str], seconds: Optional[int], where: str, line: str) -> None:
        """A sentence of AIS, which may be a part of a message."""
        if len(fields) < 6 or not (fields[0].isdecimal() and fields[1].isdecimal() and len(fields[0]) == len(fields[1]) == 1):
            raise Broken("a sentence that is cut off")
        many, nth, channel = int(fields[0]), int(fields[1]), (fields[2], fields[3])
        payload = fields[4]
        if many > 1:
            begun = [] if nth == 1 else self.waiting.pop(channel, [])
            if len(begun) != nth - 1:
                raise Broken("a part of a message whose other parts are missing")
            if nth < many:
                if len(self.waiting) >= MOST_OPEN:
                    self.waiting.pop(next(iter(self.waiting)))
                self.waiting[channel] = [*begun, payload]
                return
            payload = "".join([*begun, payload])
        self.read_message(Bits(payload), seconds, where, line)

    def read_message(self, bits: Bits, seconds: Optional[int], where: str, line: str) -> None:
        """A message of AIS."""
        kind, ship, place = report_of(bits)
        if kind == 4:
            self.read_station_clock(bits)
        if place is not None:
            self.log.report(kind, ship, place, ROUGH_UNITS if kind == 27 else UNITS, where, line, seconds)

    def read_station_clock(self, bits: Bits) -> None:
        """The time of a base station."""
        year, month, day, hour, minute, second = time_parts(bits)
        try:
            self.log.clock(times.seconds_of(f"{year:04}-{month:02}-{day:02}T{hour:02}:{minute:02}:{second:02}"), False)
        except ValueError:
            pass  # It says that it does not know the time.

    def read_rmc(self, fields: Sequence[str], where: str, line: str) -> None:
        """The receiver's own time and place."""
        if len(fields) < 9:
            raise Broken("a sentence that is cut off")
        clock, status, latitude, north, longitude, east, _, _, date = fields[:9]
        found = CLOCK.fullmatch(clock)
        if status != "A" or not found or len(date) != 6 or not date.isdecimal():
            raise Broken("a position that the receiver calls void")
        # Two figures for the year: GPS began in 1980.
        year = int(date[4:]) + (1900 if int(date[4:]) >= 80 else 2000)
        seconds = times.seconds_of(f"{year}-{date[2:4]}-{date[:2]}T{':'.join(found.groups())}")
        self.log.clock(seconds, True)
        self.log.place_own(seconds, coordinate(latitude, north), coordinate(longitude, east), where, line)

    def read_zda(self, fields: Sequence[str]) -> None:
        """The receiver's own time."""
        found = CLOCK.fullmatch(fields[0])
        if found and len(fields) >= 4 and all(part.isdecimal() for part in fields[1:4]):
            day, month, year = fields[1:4]
            self.log.clock(times.seconds_of(f"{year:0>4}-{month:0>2}-{day:0>2}T{':'.join(found.groups())}"), True)


def read(source: Source, rows: Rows) -> None:
    """Reads a log."""
    reader = Reader(Log(rows))
    for number, line in source.lines():
        if not line.strip() or line.startswith("#"):
            continue
        where = f"{source.name} line {number}"
        try:
            reader.read(line, where)
        except Broken as cause:
            rows.leave_out(str(cause), where, line)
        except ValueError:
            rows.leave_out("a time that is none", where, line)
    rows.causes.not_used("sentences", reader.unread)
    reader.log.end()
