"""Headings: which column has the object, the time and the place."""

import re
from decimal import Decimal
from typing import Dict, List, Optional, Sequence, Tuple

from .. import times
from .clocks import MISSING, NOT_KNOWN, Clock, Unclear
from .options import Options
from .places import MISSING as NOTHING

# What files call their columns, in small letters and without anything between them.
TIMES = (
    "basedatetime", "timestamp", "timestamputc", "datetime", "datetimeutc", "timeutc", "utc", "dateandtime", "utctime", "gpstime",
    "fixtime", "obstime", "receivedtime", "msgtime", "time", "t",
)
PLACES = {
    "lat": ("lat", "latitude", "locationlat", "latdd", "latdeg", "ylat", "decimallatitude", "gpslat", "gpslatitude"),
    "lon": ("lon", "long", "longitude", "locationlong", "londd", "londeg", "lng", "xlon", "decimallongitude", "gpslon", "gpslongitude"),
}
SPLIT = {
    "date": ("date", "dateutc", "utcdate", "gpsdate", "day"),
    "clock": ("time", "timeofday", "clock", "timeutc", "utctime", "gpstime", "hour"),
}
PARTS = ("year", "month", "day", "hour", "minute", "second")
PART_NAMES = {"minute": ("minute", "min"), "second": ("second", "sec")}

# What files call their objects. Those of AIS tell an AIS export from another table. Of tables Movebank's names come first, then
# those that people write.
SHIPS = ("mmsi", "id", "vesselid", "shipid", "imo", "userid", "sourcemmsi")
OBJECTS = (
    "individuallocalidentifier", "taglocalidentifier", "animalid", "tagid", "deployid", "id", "object", "mmsi", "ptt", "name",
    "trackid", "burst",
)

# No name of a column has more signs.
MOST_SIGNS = 200


def plain(name: str) -> str:
    """A column's name in small letters, without signs and without what stands in brackets. Of a long one it is the beginning."""
    return re.sub(r"\([^)]*\)|\[[^\]]*\]|[^a-z0-9]", "", name[:MOST_SIGNS].lower())


class Columns:
    """Where the columns of a table are: of the object, the time (of one or several columns), and the place. Those that are not found
    are `missing`, each an option and what it is usually called."""

    def __init__(self, heading: Sequence[str], options: Options, ids: Sequence[str], is_placed: bool = False):
        self.heading = heading
        self.there: Dict[str, int] = {}
        for place, name in enumerate(heading):
            self.there.setdefault(plain(name), place)
        self.missing: List[Tuple[str, str]] = []
        self.id = [] if options.one_track is not None else self.places_of(options.id, "id", ids)
        self.lat = [] if is_placed else self.places_of(options.lat, "lat", PLACES["lat"])
        self.lon = [] if is_placed else self.places_of(options.lon, "lon", PLACES["lon"])
        self.time = self.find_time(options)
        self.parts: List[Optional[int]] = []
        if not self.time:
            self.parts = self.find_parts()
            if not self.parts:
                self.missing.append(("time", options.time or "time or timestamp, date and time, or year, month and day"))

    def places_of(self, given: Optional[str], option: str, usual: Sequence[str]) -> List[int]:
        """The columns that an option names, several with commas between them, or else the first that files use."""
        if given:
            found = self.named(given)
            if found:
                return found
        else:
            name = next((name for name in usual if name in self.there), None)
            if name:
                return [self.there[name]]
        self.missing.append((option, given or " or ".join(usual[:4])))
        return []

    def named(self, given: str) -> List[int]:
        """The columns of these names; none where one of them is not there."""
        names = [plain(name) for name in given.split(",")]
        return [self.there[name] for name in names] if all(name in self.there for name in names) else []

    def find_time(self, options: Options) -> List[int]:
        """The columns that are the time together; none where it is in parts, or is not there."""
        if options.time:
            return self.named(options.time)
        if "year" in self.there and "month" in self.there:
            return []
        date = next((name for name in SPLIT["date"] if name in self.there), None)
        clock = next((name for name in SPLIT["clock"] if name in self.there and name != date), None)
        whole = next((name for name in TIMES if name in self.there), None)
        if date and clock and whole in (None, clock):
            return [self.there[date], self.there[clock]]
        one = whole or date
        return [self.there[one]] if one else []

    def find_parts(self) -> List[Optional[int]]:
        """The columns of year, month and day, and of what there is of hour, minute and second."""
        names = [next((it for it in PART_NAMES.get(part, (part,)) if it in self.there), None) for part in PARTS]
        return [] if None in names[:3] else [None if name is None else self.there[name] for name in names]

    @property
    def used(self) -> List[int]:
        """All columns that a row is made of."""
        return [*self.id, *self.time, *(place for place in self.parts if place is not None), *self.lat, *self.lon]

    @property
    def unused(self) -> List[str]:
        """The names of the others."""
        used = set(self.used)
        return [name for place, name in enumerate(self.heading) if place not in used and name.strip()]

    def shift(self, by: int) -> None:
        """Moves all columns by so many."""
        self.id, self.lat, self.lon, self.time = ([place + by for place in part] for part in (self.id, self.lat, self.lon, self.time))
        self.parts = [None if place is None else place + by for place in self.parts]

    def name_in(self, record: Sequence[str]) -> str:
        """What a record's object is called; empty where it has none."""
        name = record[self.id[0]].strip() if len(self.id) == 1 else " ".join(record[place].strip() for place in self.id)
        return "" if name.lower() in NOTHING else name

    def seconds_in(self, record: Sequence[str], clock: Clock) -> int:
        """The time of a record. Raises Unclear with its cause."""
        if len(self.time) == 1:
            return clock.seconds(record[self.time[0]])
        if self.time:
            return clock.seconds(" ".join(record[place].strip() for place in self.time))
        texts = ["0" if place is None else record[place].strip() for place in self.parts]
        if any(text.lower() in NOTHING for text in texts[:3]):
            raise Unclear(MISSING)
        seconds = seconds_of_parts([text.replace(",", ".") or "0" for text in texts])
        clock.clear += 1
        return seconds


def seconds_of_parts(texts: Sequence[str]) -> int:
    """The time of a year, a month, a day, an hour, a minute and a second; one but the first two may have a fraction. Raises Unclear."""
    if not all(len(text) <= 20 and times.NUMBER.fullmatch(text) for text in texts):
        raise Unclear(NOT_KNOWN)
    year, month, day, hour, minute, second = map(Decimal, texts)
    try:
        days = times.seconds_of(f"{int(year):04}-{int(month):02}-{int(day):02}")
    except ValueError:
        raise Unclear(NOT_KNOWN) from None
    rest = (day % 1) * 86400 + hour * 3600 + minute * 60 + second
    return days + int(rest.to_integral_value("ROUND_FLOOR"))
