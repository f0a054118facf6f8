"""What is left out of rows as they are read, because it was not asked for."""

import os
from typing import Optional, Set, Tuple

from .. import times
from ..errors import ArgumentError, SourceError
from .causes import Causes
from .options import Options, spelt, words_in

OUTSIDE_TIME, OUTSIDE_BOX, OTHER_OBJECT = "before --from, or not before --until", "outside the --box", "an object that --only does not name"


class Cuts:
    """The times, the box and the objects that were asked for, and what was left out for them."""

    def __init__(self, options: Options, causes: Causes):
        self.causes = causes
        self.first, self.until = seconds_in(options, "first"), seconds_in(options, "until")
        self.box = box_of(options.box)
        self.only = names_of(options)
        self.is_any = not (self.first is None and self.until is None and self.box is None and self.only is None)

    def leaves(self, name: str, seconds: int, latitude: str, longitude: str) -> bool:
        """Whether a row is left out, which is counted."""
        why = None
        if (self.first is not None and seconds < self.first) or (self.until is not None and seconds >= self.until):
            why = OUTSIDE_TIME
        elif self.only is not None and name not in self.only:
            why = OTHER_OBJECT
        elif self.box is not None and not is_in(self.box, float(latitude), float(longitude)):
            why = OUTSIDE_BOX
        if why is None:
            return False
        self.causes.leave_out(why)
        return True


def seconds_in(options: Options, name: str) -> Optional[int]:
    """The time that an option says."""
    text = getattr(options, name)
    if text is None:
        return None
    try:
        return times.seconds_of(text)
    except (ValueError, ArithmeticError) as fault:
        raise ArgumentError(spelt(name), str(fault)) from None


def box_of(text: Optional[str]) -> Optional[Tuple[float, float, float, float]]:
    """West, south, east and north of a text."""
    if text is None:
        return None
    try:
        west, south, east, north = (float(word) for word in text.split(","))
    except ValueError:
        raise ArgumentError("--box", f"{text!r} is not WEST,SOUTH,EAST,NORTH in degrees") from None
    if not (-90 <= south <= north <= 90 and -360 <= west <= 360 and -360 <= east <= 360):
        raise ArgumentError("--box", f"{text!r} is no box of degrees")
    return west, south, east, north


def is_in(box: Tuple[float, float, float, float], latitude: float, longitude: float) -> bool:
    """Whether a place is in a box, its edge counted; from its western side eastwards, also across longitude 180."""
    west, south, east, north = box
    wide = east - west if east >= west else east - west + 360
    return south <= latitude <= north and (longitude - west) % 360 <= wide


def names_of(options: Options) -> Optional[Set[str]]:
    """The names and numbers that were asked for: those of files, and those that are given themselves."""
    found: Set[str] = set()
    for word in options.only:
        if os.path.exists(word):
            try:
                with open(word, encoding="utf-8") as lines:
                    found.update(line.strip() for line in lines if line.strip())
            except (OSError, UnicodeDecodeError) as fault:
                raise SourceError(f"--only: {word} could not be read: {fault}") from None
        else:
            found.update(words_in([word]))
    return found if options.only else None
