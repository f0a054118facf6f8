"""Rows as they are found: their objects are numbered, what was not asked for is left out, and the others are kept by time."""

import csv
from typing import Dict, Optional

from ..errors import SourceError
from ..names import MOST_OBJECT, Numbers
from .causes import Causes
from .cuts import Cuts
from .options import Options
from .spool import Spool

# Seconds since 1970 of the years 1 to 9999.
FIRST_SECOND, LAST_SECOND = -62_135_596_800, 253_402_300_799

MOST_NAME = 1000

NO_NUMBER = f"an object that is no number up to {MOST_OBJECT} (--names FILE numbers all by their names)"
LONG_NAME = f"an object whose name has more than {MOST_NAME:,} characters"


class Rows:
    """The rows of some files, and why other lines were left out."""

    def __init__(self, options: Options):
        self.options, self.causes, self.spool = options, Causes(), Spool()
        self.numbers = numbers_of(options.names)
        self.cuts = Cuts(options, self.causes)
        self.known: Dict[str, int] = {}
        self.read = self.tracks = 0

    def add(self, name: str, seconds: int, latitude: str, longitude: str, where: str = "", line: str = "") -> None:
        """Adds a row of the object of that name, at a place of decimal degrees, or counts why it is none."""
        if self.options.one_track is not None:
            name = self.options.one_track
        if not FIRST_SECOND <= seconds <= LAST_SECOND:
            self.causes.leave_out("a time outside the years 1 to 9999", where, line)
            return
        self.read += 1
        if self.cuts.is_any and self.cuts.leaves(name, seconds, latitude, longitude):
            return
        number = self.known.get(name)
        if number is None:
            number = self._number(name)
        if number is None:
            self.causes.leave_out("no object" if not name else LONG_NAME if len(name) > MOST_NAME else NO_NUMBER, where, line)
        else:
            self.spool.add((seconds, number, latitude, longitude))

    def track_name(self, called: str) -> str:
        """The name of the track that `tracks` counts, for files whose tracks have no numbers of their own."""
        return called if self.options.names else str(self.tracks)

    def leave_out(self, why: str, where: str = "", line: str = "") -> None:
        """Counts a line that is no row."""
        self.causes.leave_out(why, where, line)

    def _number(self, name: str) -> Optional[int]:
        """The number of an object that is met for the first time; None where it can have none."""
        if not name or len(name) > MOST_NAME:
            return None
        try:
            number = self.numbers.number(name)
        except ValueError:
            return None
        self.known[name] = number
        return number


def numbers_of(file: Optional[str]) -> Numbers:
    """The numbers of a file of names, which may not be there yet."""
    try:
        return Numbers(file)
    except (ValueError, csv.Error):
        raise SourceError(f"{file} is no file of names: each line has a number, a comma and a name, after a heading") from None
