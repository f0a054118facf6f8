"""An archive of days, each with an index of its own, that is asked as one, and that grows.

    from gract import days
    days.build("rows.csv", "archive", length=86400, tick=60)
    days.add("tomorrow.csv", "archive")
    with days.open("archive") as archive:
        archive.path(278, since=27568080, until=27571080)

A day is any length of time that is a multiple of TICK, so that none cuts an instant. docs/SHARDS.md says what is asked of which day.
"""

import datetime
from pathlib import Path
from typing import Any, Dict, List, Optional, Union

from ..answers import Answers
from ..building import of_grid
from ..errors import ArgumentError, GractError, RowError
from ..grid import Grid, whole
from ..index import Index
from ..program import Name
from ..questions import INSTANT, Info
from ..times import Duration, Time, duration_of
from .folders import WAIT
from .listing import Checked, Told, check_parts, list_parts
from .manifest import LENGTHS, ByTime, Manifest
from .parted import MOST_OPEN, Asker, Here, Parted, Span, View, load
from .parts import Added, Run, greatest_of, one_by_one
from .parts import add as add_parts
from .parts import build as build_parts
from .parts import drop as drop_parts
from .tails import Tail


class Days(Parted):
    """Days that are asked as one index: `position`, `slice` and `nearest` of the day that has the instant, a `path` of one day after the
    other, and of an `interval` the first hit of each object in the order of days. Each day is opened when it is first asked."""

    def __init__(self, folder: Path, manifest: Manifest, asker: Asker, program: str, partial: bool, grid: Optional[Grid],
                 tail: Optional[Tail] = None):
        self._tail = tail
        super().__init__(folder, manifest, asker, program, partial, grid)

    def _view_of(self, manifest: Manifest) -> View:
        view = super()._view_of(manifest)
        return view if self._tail is None else View(manifest, self._tail.joined(view.parts, manifest))

    def _take(self, view: View) -> None:
        super()._take(view)
        if self._tail is not None:
            self.grid = self._tail.grid_of(self.grid)

    def _span(self, view: View) -> Span:
        """The first and the last instant of days, of those too that the tail has rows of, which are opened."""
        first, last = super()._span(view)
        faults: Dict[int, GractError] = {}
        for number, listed in view.parts.items():
            if self._tail is not None and listed.tail is not None:
                try:
                    told = self._replies(view, {number: [b"info\n"]}).get(number)
                    facts = self._read(Info, told[0]) if told else Span(first, last)
                    first, last = min(first, facts.first), max(last, facts.last)
                except RowError as fault:
                    faults[number] = fault
        if self._tail is not None:
            self._tail.refuse(faults)
        return Span(first, last)

    def close(self) -> None:
        """Ends what was begun to ask, and takes the files of the tail away. A second time it does nothing."""
        super().close()
        if self._tail is not None:
            self._tail.let_go()

    def open_indices(self) -> List[Index]:
        """The days that are open."""
        return self._asker._opener.indices() if isinstance(self._asker, Here) else []


def build(rows: Any, path: Name, *, length: Union[int, Duration], cell: Optional[int] = None, tick: Optional[int] = None,
          period: int = 120, grid: Optional[Grid] = None, program: Optional[Name] = None, run: Run = one_by_one,
          replace: bool = False, wait: float = WAIT) -> None:
    """Builds an index for each day of rows in the folder `path`, with a list of them. `rows` are those of `gract.build`, or the names of
    several CSV files. A day has `length` units of time of the rows, a multiple of `tick`, or with a grid a length as `1 d`; day N begins
    with time N * length. The other arguments, and what is refused, are those of `gract.build`. A folder that has other things in it is not
    written into. One that has parts is refused too, by `OverwriteError`, since all of them would be lost: with `replace` these days take
    their place, and `add` adds to them. A folder that another process writes is waited for, so many seconds; then it is a `BusyError`."""
    size = whole("length", units_of(length, grid), *LENGTHS)
    if size % of_grid("tick", tick, grid):
        raise ArgumentError("length", f"{size} is no multiple of the tick {of_grid('tick', tick, grid)}: a day would cut an instant")
    build_parts(rows, path, ByTime(size), cell=cell, tick=tick, period=period, grid=grid, program=program, run=run,
                replace=replace, wait=wait)


def add(rows: Any, path: Name, *, grid: Optional[Grid] = None, program: Optional[Name] = None, run: Run = one_by_one,
        wait: float = WAIT) -> Added:
    """Adds rows to the days of the folder `path`: of a day that is not there an index is built, to one that is there rows are joined, and
    where both have a row of an object and an instant the new one counts. All other days stay as they are.

    `rows` are those of `build`. CELL, TICK, PERIOD, the length of a day and the grid are the folder's. A `grid` may bring names: a number
    that has two is refused, by `GridError`, and so is a grid that differs in anything else. Objects of reports that are texts keep their
    numbers, and new ones get the next. What was there stands until all is done; where rows are refused, and where this is killed, nothing
    is changed. `wait` is that of `build`."""
    return add_parts(rows, path, ByTime, grid=grid, program=program, run=run, wait=wait)


def drop(path: Name, *, before: Union[int, Time], wait: float = WAIT) -> List[int]:
    """Takes away the days that end before an instant, or with a grid before a time, and answers with their numbers. A day that has the
    instant stays. Refuses, by `ArgumentError`, to take away all. `wait` is that of `build`."""
    def wanted(there: Manifest) -> List[int]:
        if isinstance(before, (str, datetime.datetime)) and there.grid is None:
            raise ArgumentError("before", f"{before!r} wants a grid, and {path} was built without one: give an instant")
        known = there.grid.instant(before, "before") if there.grid and isinstance(before, (str, datetime.datetime)) else before
        instant = whole("before", known, *INSTANT)
        return [number for number in sorted(there.parts) if (number + 1) * there.cut.size <= instant * there.tick]

    return drop_parts(path, ByTime, wanted, wait)


def list(path: Name) -> "Answers[Told]":
    """What the list says of each day: the first and the last instant of its rows, and with a grid their times, how many rows, objects and
    bytes it has, and its file. No day is opened."""
    return list_parts(path, ByTime)


def check(path: Name, *, program: Optional[Name] = None) -> Checked:
    """Compares each day with the list, by its sum and its facts, and opens it; and names files that are not in the list."""
    return check_parts(path, ByTime, program)


def units_of(length: Union[int, Duration], grid: Optional[Grid]) -> int:
    """A length of time in units of the rows. Refuses one that is none, and one that has a part of a unit."""
    if not isinstance(length, (str, datetime.timedelta)):
        return length
    if grid is None:
        raise ArgumentError("length", f"{length!r} wants a grid, and there is none")
    try:
        seconds = duration_of(length)
    except (ValueError, ArithmeticError) as fault:
        raise ArgumentError("length", str(fault)) from None
    if seconds % grid.unit:
        raise ArgumentError("length", f"{length} is no multiple of the {grid.unit} seconds of a unit of time")
    return seconds // grid.unit


def open(path: Name, *, program: Optional[Name] = None, grid: Optional[Grid] = None, partial: bool = False,
         most: int = MOST_OPEN, tail: Any = None) -> Days:
    """Opens an archive. The grid is the one given, else that with which it was built. With `partial` days answer without those that are
    damaged. At most `most` days are open at once, each with a child. A `tail` is rows that came since, as those of `build`: each day is
    asked together with its own, and days that have no index get one in a folder that goes when the archive is closed. Refuses, by
    `ManifestError`, a folder that is no archive, and rows that are none."""
    folder, manifest, found = load(path, ByTime, program, grid)
    here = Here(f"the parts of {folder}", found, most)
    if tail is None:
        return Days(folder, manifest, here, found, partial, grid)
    rest = Tail(tail, manifest, manifest.grid if grid is None else grid, found, lambda: greatest_of(folder, manifest, found))
    try:
        return Days(folder, manifest, here, found, partial, grid, rest)
    except BaseException:
        here.close()
        rest.let_go()
        raise
