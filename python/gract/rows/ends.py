"""Times that lie far from all others, as those of a clock that was set wrong."""

from typing import Iterator, List, NamedTuple, Sequence

from .. import times

YEAR = 31_556_952

# So many gaps are kept, the longest; and rows beyond one are few where they are at most one in so many of all.
MOST_GAPS, MANY = 64, 100


class Gap(NamedTuple):
    """A time without rows: its length, how many rows are before it, and the times on its sides."""

    length: int
    before: int
    start: int
    end: int


class Ends:
    """The rows of a run by time: how many there are, the first and the last time, and the gaps of a year or more between them."""

    def __init__(self) -> None:
        self.count = self.first = self.last = 0
        self.gaps: List[Gap] = []

    def see(self, seconds: Sequence[int]) -> None:
        """Sees the next rows, by their times. Those that are all within a year of the one before have no gap."""
        if not self.count:
            self.first = self.last = seconds[0]
        if seconds[-1] - self.last >= YEAR:
            for nth, (start, end) in enumerate(zip([self.last, *seconds], seconds), self.count):
                if end - start >= YEAR:
                    self.gaps.append(Gap(end - start, nth, start, end))
        while len(self.gaps) > MOST_GAPS:
            self.gaps.remove(min(self.gaps))
        self.count += len(seconds)
        self.last = seconds[-1]

    def told(self) -> Iterator[str]:
        """A line for the few rows that are years before all others, and one for those that are years after them."""
        few = max(1, self.count // MANY)
        for gap in [gap for gap in self.gaps if gap.before <= few < self.count - gap.before][-1:]:
            when = f"until {times.time_text(gap.start)}"
            yield f"{rows(gap.before)} {years(gap.length)} before all others, {when}: --from leaves out what is wrong"
        for gap in [gap for gap in self.gaps if self.count - gap.before <= few < gap.before][:1]:
            after, when = self.count - gap.before, f"from {times.time_text(gap.end)} on"
            yield f"{rows(after)} {years(gap.length)} after all others, {when}: --until leaves out what is wrong"


def rows(count: int) -> str:
    """So many rows."""
    return "one row is" if count == 1 else f"{count} rows are"


def years(seconds: int) -> str:
    """So many years, rounded down."""
    return "a year" if seconds < 2 * YEAR else f"{seconds // YEAR} years"
