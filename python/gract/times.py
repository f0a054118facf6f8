"""Times as texts and as whole seconds since 1970-01-01 00:00 UTC, rounded down, also before 1970."""

import datetime
import math
import re
from decimal import Decimal
from typing import Optional, Union

# A number of so many units or more, on either side of 0, is in milliseconds: as seconds it would lie after the year 5138.
LEAST_MILLISECONDS = 10**11

FIRST_DAY = datetime.date(1970, 1, 1).toordinal()
EPOCH = datetime.datetime(1970, 1, 1, tzinfo=datetime.timezone.utc)
ISO_TIME = re.compile(
    r"(\d{4})-(\d\d)-(\d\d)(?:[T ](\d\d):(\d\d)(?::(\d\d)(?:[.,]\d+)?)?)?\s*(?:Z|UTC|([+-])(\d\d):?(\d\d))?"
)
NUMBER = re.compile(r"[+-]?\d+(?:\.\d+)?")
DURATION = re.compile(r"(\d+(?:\.\d+)?) *(s|sec|seconds?|m|min|minutes?|h|hours?|d|days?)")
LENGTHS = {"s": 1, "m": 60, "h": 3600, "d": 86400}

Time = Union[str, datetime.datetime]
Duration = Union[str, datetime.timedelta]


def seconds_of(time: Time, form: Optional[str] = None) -> int:
    """Seconds since 1970 of a time: a datetime; or an ISO time, a number of seconds or milliseconds, or a text of the strptime form
    given. A time without an offset is in UTC. Raises ValueError."""
    if isinstance(time, datetime.datetime):
        return seconds_of_datetime(time)
    if not isinstance(time, str):
        raise ValueError(f"not a time: {time!r}")
    text = time.strip()
    if form:
        return seconds_of_datetime(datetime.datetime.strptime(text, form))
    if NUMBER.fullmatch(text):
        units = math.floor(Decimal(text))
        return units // 1000 if abs(units) >= LEAST_MILLISECONDS else units
    found = ISO_TIME.fullmatch(text)
    if not found:
        raise ValueError(f"not a time: {text}")
    year, month, day, hour, minute, second = (int(part or 0) for part in found.groups()[:6])
    if hour > 23 or minute > 59 or second > 60:
        raise ValueError(f"not a time: {text}")
    days = datetime.date(year, month, day).toordinal() - FIRST_DAY
    hours, minutes = int(found.group(8) or 0), int(found.group(9) or 0)
    if hours > 23 or minutes > 59:
        raise ValueError(f"not an offset from UTC: {text}")
    offset = 60 * (60 * hours + minutes)
    return 86400 * days + 3600 * hour + 60 * minute + second - (-offset if found.group(7) == "-" else offset)


def is_date(time: object) -> bool:
    """Whether it is a text that has a date and no time of day."""
    found = ISO_TIME.fullmatch(time.strip()) if isinstance(time, str) else None
    return found is not None and found.group(4) is None


def seconds_of_datetime(time: datetime.datetime) -> int:
    """Seconds since 1970 of a moment; one without an offset is in UTC."""
    passed = (time if time.tzinfo else time.replace(tzinfo=datetime.timezone.utc)) - EPOCH
    return passed.days * 86400 + passed.seconds


def time_text(seconds: int) -> str:
    """A number of seconds since 1970 as an ISO time, to the minute. Raises ValueError outside the years 1 to 9999."""
    day = datetime.date.fromordinal(FIRST_DAY + seconds // 86400)
    rest = seconds % 86400
    return f"{day} {rest // 3600:02}:{rest // 60 % 60:02}"


def duration_of(duration: Duration) -> int:
    """Whole seconds of a timedelta or of a text as `90 min`, `2 h` or `1.5 d`, rounded up. Raises ValueError."""
    if isinstance(duration, datetime.timedelta):
        return -((-duration) // datetime.timedelta(seconds=1))
    found = DURATION.fullmatch(duration.strip()) if isinstance(duration, str) else None
    if not found:
        raise ValueError(f"not a length of time, as 90 min or 2 h: {duration}")
    return math.ceil(Decimal(found.group(1)) * LENGTHS[found.group(2)[0]])
