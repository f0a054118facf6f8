"""`Overview`: what there is in an index: how many objects, which, when and where."""

import datetime
from typing import Any, Dict, List, NamedTuple, Optional, Tuple

from .answers import Facts, Hit
from .asking import Asked
from .errors import ArgumentError
from .grid import Grid
from .questions import COORDINATE, Interval, Meet, Rect

LEAST, MOST = COORDINATE


class Ends(NamedTuple):
    """A first and a last instant."""

    first: int
    last: int


class Span(Ends):
    """The first and the last instant of an index, equal to their pair; with a grid `since` and `until` are when these begin."""

    grid: Optional[Grid] = None

    @property
    def since(self) -> datetime.datetime:
        """When the first instant begins, in UTC."""
        return grid_of(self.grid, "times").time(self.first)

    @property
    def until(self) -> datetime.datetime:
        """When the last instant begins, in UTC."""
        return grid_of(self.grid, "times").time(self.last)


class Corners(NamedTuple):
    """The least x and y and the greatest, in cells."""

    x1: int
    y1: int
    x2: int
    y2: int


class Bounds(Corners):
    """The smallest rectangle of cells that has all rows, equal to its numbers; with a grid `degrees` are its outer edges."""

    grid: Optional[Grid] = None

    @property
    def degrees(self) -> Tuple[float, float, float, float]:
        """West, south, east and north."""
        return grid_of(self.grid, "degrees").degrees_of(*self)


def grid_of(grid: Optional[Grid], what: str) -> Grid:
    """The grid. Refuses where there is none."""
    if grid is None:
        raise ArgumentError("grid", f"the index has none, and so there are no {what}")
    return grid


class Overview(Asked):
    """What there is in an index. Its length is how many objects it has; it is true also where it has none."""

    facts: Facts
    _bounds: Optional[Bounds] = None

    def __len__(self) -> int:
        return self.facts.objects

    def __bool__(self) -> bool:
        return True

    def __contains__(self, item: Any) -> bool:
        """Whether an object, by its number or its name, has a row. One line."""
        try:
            number = self.number(item)
        except ArgumentError:
            return False
        return bool(self._answer(Meet(number, number, self.facts.first, self.facts.last, 0)))

    def _has(self, number: int) -> bool:
        return number in self

    def _cells(self) -> Optional[Tuple[int, int, int, int]]:
        return self.bounds

    @property
    def names(self) -> Dict[int, str]:
        """The names of objects by their numbers, as the grid has them."""
        return dict(self.grid.names) if self.grid is not None else {}

    @property
    def span(self) -> Span:
        """The first and the last instant. No line."""
        found = Span(self.facts.first, self.facts.last)
        found.grid = self.grid
        return found

    @property
    def bounds(self) -> Bounds:
        """The smallest rectangle of cells that has all rows. It is found by halving, the first time: one line `interval` over all, and
        for each of the four sides at most as many as the trees are high (`facts.height`, up to 24); with a tail up to 24."""
        if self._bounds is None:
            hits = self._hits(Rect(LEAST, LEAST, MOST, MOST))
            xs, ys = [hit.x for hit in hits], [hit.y for hit in hits]
            west, south = self._least(min(xs), max(xs), 2), self._least(min(ys), max(ys), 3)
            east, north = -self._least(-max(xs), -west, 2, -1), -self._least(-max(ys), -south, 3, -1)
            self._bounds = Bounds(west, south, east, north)
            self._bounds.grid = self.grid
        return self._bounds

    def _hits(self, region: Rect) -> List[Hit]:
        found: List[Hit] = self._answer(Interval(self.facts.first, self.facts.last, region))
        return found

    def _least(self, known: int, other: int, axis: int, sign: int = 1) -> int:
        """The least x or y of all rows, or the least of their negatives, where two that some row has are known."""
        low, high = self._lowest(other), known
        while low < high:
            middle = (low + high) // 2
            hits = self._hits(half(axis, sign * middle, sign))
            if hits:
                high = min(sign * hit[axis] for hit in hits)
            else:
                low = middle + 1
        return high

    def _lowest(self, other: int) -> int:
        """What no x or y is below, nor any negative of one, where one is known: no two are further apart than the trees are wide."""
        return other - (1 << self.facts.height) + 1


def half(axis: int, edge: int, sign: int) -> Rect:
    """The cells whose x or y (the third or the fourth field of a hit) is at most the edge, or at least."""
    span = (LEAST, edge) if sign > 0 else (edge, MOST)
    return Rect(span[0], LEAST, span[1], MOST) if axis == Hit._fields.index("x") else Rect(LEAST, span[0], MOST, span[1])
