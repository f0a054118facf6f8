"""Times as files write them. What can be meant in two ways is not guessed: it is refused with the option that decides."""

import contextlib
import datetime
import re
from decimal import Decimal
from typing import TYPE_CHECKING, Dict, List, Optional

from .. import times
from ..errors import ArgumentError, SourceError

if TYPE_CHECKING:
    from .options import Options

# How many seconds a unit of time has, as a fraction.
UNITS = {
    "days": (86400, 1), "hours": (3600, 1), "minutes": (60, 1), "seconds": (1, 1),
    "milliseconds": (1, 1000), "microseconds": (1, 10**6), "nanoseconds": (1, 10**9),
}

# The least number of each unit that can be nothing else: the spring of 1973, and each is less than the spring of 1973 in the next.
CLEAR = (("seconds", 10**8), ("milliseconds", 10**11), ("microseconds", 10**14), ("nanoseconds", 10**17))

# Numbers of 12 and 14 digits that may be dates: 202206011200 and 20220601120000.
DATE_NUMBER = re.compile(r"(19|20)\d\d(0[1-9]|1[0-2])(0[1-9]|[12]\d|3[01])([01]\d|2[0-3])[0-5]\d([0-5]\d)?")

# What most files write, and a date with its year first and slashes, which is as clear.
MINUTE = re.compile(r"[0-9]{4}-[0-9]{2}-[0-9]{2}[T ](?:[01][0-9]|2[0-3]):[0-5][0-9]").fullmatch
USUAL = re.compile(r"(.{16}):([0-5][0-9])(?:\.[0-9]+)?Z?").fullmatch
SLASHES = re.compile(r"([0-9]{4})/([0-9]{1,2})/([0-9]{1,2})(?=$|[T ])").match

# What files write besides; a day and a month look alike, so which one it is is asked for.
FORMS = (
    "%d/%m/%Y %H:%M:%S", "%m/%d/%Y %H:%M:%S", "%d/%m/%Y %H:%M", "%m/%d/%Y %H:%M", "%d.%m.%Y %H:%M:%S", "%d.%m.%Y %H:%M",
    "%d-%m-%Y %H:%M:%S", "%m-%d-%Y %H:%M:%S", "%d-%b-%Y %H:%M:%S", "%d %b %Y %H:%M:%S",
    "%Y%m%d %H%M%S", "%Y%m%dT%H%M%S", "%Y%m%d%H%M%S", "%Y%m%d%H%M", "%Y%m%d", "%d/%m/%Y", "%m/%d/%Y", "%d.%m.%Y",
    "%m/%d/%Y %I:%M:%S %p", "%d/%m/%Y %I:%M:%S %p", "%a %b %d %H:%M:%S %Y",
)

NOT_CLEAR = "a time that can be meant in more than one way"
NOT_KNOWN = "a time that is not understood"
MISSING = "no time"

# No time has more signs; and so many minutes are kept, and texts that are not understood.
MOST_SIGNS, MOST_MINUTES, MOST_STRANGE = 64, 4096, 1000


class Unclear(Exception):
    """Why a text is no time: one of the three causes above."""


class Minutes(Dict[str, int]):
    """The seconds of minutes, as most files write them; some that were met are kept."""

    def __missing__(self, minute: str) -> int:
        if not MINUTE(minute):
            raise KeyError(minute)
        try:
            seconds = times.seconds_of(minute)
        except ValueError:
            raise KeyError(minute) from None
        if len(self) >= MOST_MINUTES:
            self.clear()
        self[minute] = seconds
        return seconds


class Clock:
    """Turns texts into seconds since 1970, and keeps a few that it could not turn."""

    def __init__(self, options: "Options"):
        self.form, self.unit = options.time_format, options.time_unit
        try:
            self.since = times.seconds_of(options.since)
        except (ValueError, ArithmeticError) as fault:
            raise ArgumentError("--since", str(fault)) from None
        self.clear = self.unclear = 0
        self.strange: List[str] = []
        self.first_unclear: Optional[str] = None
        self.minutes = Minutes()

    def seconds(self, text: str) -> int:
        """Raises Unclear with its cause."""
        found = None if self.form else USUAL(text)
        if found:
            with contextlib.suppress(KeyError):
                seconds = self.minutes[found[1]] + int(found[2])
                self.clear += 1
                return seconds
        return self._slowly(text)

    def _slowly(self, text: str) -> int:
        """The same of any text."""
        text = text.strip()
        if text.lower() in ("", "na", "nan", "nat", "null", "none", "-", "\\n"):
            raise Unclear(MISSING)
        try:
            seconds = self._seconds(text)
        except (ValueError, ArithmeticError):
            if len(self.strange) < MOST_STRANGE:
                self.strange.append(text[:MOST_SIGNS])
            raise Unclear(NOT_KNOWN) from None
        self.clear += 1
        return seconds

    def _seconds(self, text: str) -> int:
        if len(text) > MOST_SIGNS:
            raise ValueError(text[:MOST_SIGNS])
        if self.form:
            return times.seconds_of(text, self.form)
        number = text.replace(",", ".")
        if times.NUMBER.fullmatch(number):
            return self.of_number(number)
        slashes = SLASHES(text)
        if slashes:
            year, month, day = slashes.groups()
            text = f"{year}-{month:0>2}-{day:0>2}{text[slashes.end():]}"
        return times.seconds_of(text)

    def of_number(self, text: str) -> int:
        """Seconds since 1970 of a number of units since the day that is said."""
        number = Decimal(text)
        unit = self.unit or next((unit for unit, least in reversed(CLEAR) if abs(number) >= least), None)
        if unit is None or (not self.unit and DATE_NUMBER.fullmatch(text)):
            self.unclear += 1
            self.first_unclear = self.first_unclear or text
            raise Unclear(NOT_CLEAR)
        many, parts = UNITS[unit]
        return self.since + int((number * many / parts).to_integral_value("ROUND_FLOOR"))

    def check(self, name: str) -> None:
        """Refuses a file most of whose times can be meant in two ways, or none of whose times is understood."""
        if self.unclear > self.clear:
            raise SourceError(
                f"{name}: {self.first_unclear} as a time can be meant in more than one way: --time-unit hours (or days, minutes, seconds, "
                "milliseconds) since 1970, with --since DATE from another day on; or a date, which --time-format says, as %Y%m%d"
            )
        if self.strange and not self.clear:
            fitting = " or ".join(f"'{form}'" for form in FORMS if all(reads(text, form) for text in self.strange))
            may = f"it may be {fitting}" if fitting else "as '%d/%m/%Y %H:%M:%S'"
            raise SourceError(f"{name}: {self.strange[0]} is not understood as a time: --time-format says how times are written, {may}")


def reads(text: str, form: str) -> bool:
    """Whether a text is a time of that form."""
    try:
        datetime.datetime.strptime(text, form)
    except ValueError:
        return False
    return True
