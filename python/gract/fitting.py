"""`Fitting`: which CELL, TICK and PERIOD suit reports that were looked at."""

import math
from typing import Iterator, List, NamedTuple, Optional, Sequence, Tuple

from .errors import LIMITS
from .names import names_of
from .planes import Plane
from .survey import Survey

# Lengths of an instant that are proposed, in seconds: each a multiple of the one before, up to a week.
TICKS = (1, 5, 10, 30, 60, 300, 600, 1800, 3600, 10800, 21600, 43200, 86400, 604800)

# Widths of a cell that are proposed, in units of the plane.
CELLS = tuple(digit * 10**power for power in range(8) for digit in (1, 2, 5))

# Periods that are proposed; the first that keeps the limits is taken.
PERIODS = (120, 240, 60, 480, 30, 720, 1440, 20, 10, 2880, 5760, 11520, 23040, 46080, 92160, 184320, 368640, 737280, 1474560, 2949120)

# A tick may lose so many of a hundred reports where no limit asks for more.
MOST_LOST = 5

# A cell is so many times as wide as positions scatter, and a usual step is so many cells.
CELL_OF_NOISE = 2
CELLS_A_STEP = 4


class Settings(NamedTuple):
    """CELL, TICK and PERIOD, where they are given."""

    cell: Optional[int]
    tick: Optional[int]
    period: Optional[int]


class Fit(NamedTuple):
    """What was chosen, the limit that is passed all the same, and the one that a shorter tick would pass."""

    cell: int
    tick: int
    period: int
    passed: Optional[str]
    forced: Optional[str]


class Fitting:
    """The choice of a cell, a tick and a period for reports that were looked at, so that the limits are kept where they can be."""

    def __init__(self, survey: Survey, plane: Optional[Plane], given: Settings, names: List[str]):
        self.survey, self.plane, self.given, self.names = survey, plane, given, names
        # How long a unit of the plane is in what distances are told in.
        self.unit = plane.unit if plane is not None else 1.0

    def fit(self) -> Fit:
        """All of it."""
        cell, (tick, period, passed, forced) = self.cell(), self.tick_and_period()
        passed = self.passed_by_all() or passed or (None if self.extent(cell) <= LIMITS["extent"].most else "extent")
        return Fit(cell, tick, period, passed, forced)

    # The cell.

    def cell(self) -> int:
        """CELL: by how positions scatter, and then as wide as the limit asks for."""
        if self.given.cell is not None:
            return self.given.cell
        noise, step = (self.survey.noise or 0.0) / self.unit, (self.survey.step or 0.0) / self.unit
        wanted = min(rounded_up(CELL_OF_NOISE * noise), max(rounded_up(noise), rounded_down(step / CELLS_A_STEP)))
        return next((cell for cell in CELLS if cell >= wanted and self.extent(cell) <= LIMITS["extent"].most), wanted)

    def corners(self) -> Tuple[int, int, int, int]:
        """The least x and y of rows, and the greatest."""
        found = self.survey.bounds if self.plane is None else self.plane.bounds(*self.survey.bounds)
        west, south, east, north = (math.floor(edge) for edge in found)
        return west, south, east, north

    def extent(self, cell: int) -> int:
        """Cells along x or y, whichever is more."""
        west, south, east, north = (number // cell for number in self.corners())
        return max(east - west, north - south) + 1

    # The tick and the period.

    def tick_and_period(self) -> Tuple[int, int, Optional[str], Optional[str]]:
        """TICK and PERIOD, the limit that they pass, and the one that the usual tick would pass: the shortest tick from the usual one
        on under which a period keeps them all."""
        survey = self.survey
        periods = PERIODS if self.given.period is None else (self.given.period,)
        fit = [tick for tick in survey.ticks if tick <= (survey.gap or 1) and 100 * survey.lost(tick) <= MOST_LOST * survey.count]
        usual = max(fit, default=survey.ticks[0])
        first: Optional[str] = None
        for tick in (tick for tick in survey.ticks if tick >= usual):
            for period, passed in self.passed_by(tick, periods):
                if passed is None:
                    return tick, period, None, first if tick > usual else None
                first = first or passed
        return usual, periods[0], first, None

    def passed_by(self, tick: int, periods: Sequence[int]) -> Iterator[Tuple[int, Optional[str]]]:
        """The first limit that each period passes under a tick."""
        first, last = (time // tick for time in self.survey.ends)
        span, objects = last - first + 1, len(self.survey.tracks)
        lives = list(self.survey.lives(tick)) if span <= LIMITS["span"].most else []
        for period in periods:
            if span > LIMITS["span"].most:
                yield period, "span"
            elif objects * -(-span // period) > LIMITS["blocks"].most:
                yield period, "blocks"
            else:
                # In each period with a row of it an object has at most the period after its first row there, and in all of them at
                # most what follows its first row up to the end of its last period.
                most = sum(min(count * (period - 1), min(end + period - 1, last) - begin) for count, begin, end in lives)
                yield period, "symbols" if most > LIMITS["symbols"].most else None

    # What no choice helps against.

    def passed_by_all(self) -> Optional[str]:
        """The limit that the rows pass whatever their cell, tick and period are."""
        survey = self.survey
        shortest = max(len(str(time)) for time in survey.ends) + sum(self.digits())
        numbers = range(1, len(self.names) + 1) if names_of(self.names) else self.names
        length = sum((len(str(number)) + shortest + 4) * track.count for number, track in zip(numbers, survey.tracks.values()))
        if length > LIMITS["csv"].most:
            return "csv"
        if survey.count > LIMITS["rows"].most:
            return "rows"
        return "objects" if len(survey.tracks) > LIMITS["objects"].most else None

    def digits(self) -> Tuple[int, int]:
        """How many characters x and y have at most."""
        west, south, east, north = (len(str(number)) for number in self.corners())
        return max(west, east), max(south, north)


def rounded_up(width: float) -> int:
    """The least cell that is at least so wide."""
    return next((cell for cell in CELLS if cell >= width), CELLS[-1])


def rounded_down(width: float) -> int:
    """The greatest cell that is at most so wide."""
    return max((cell for cell in CELLS if cell <= width), default=CELLS[0])
