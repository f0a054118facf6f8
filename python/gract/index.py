"""`Index`: an index that is asked."""

import os
import stat
import weakref
from pathlib import Path
from types import TracebackType
from typing import Any, List, Optional, Sequence, Tuple, Type

from . import questions
from .answers import Facts, Hit
from .archive.given import given
from .asking import Instant, Object
from .child import Child, Reply
from .cursor import Cursor
from .errors import ArgumentError, ChangedError, ClosedError, GridError, SlotsError
from .grid import Grid, grid_file
from .held import Held
from .overview import Overview
from .program import Name, file_word, find_program
from .questions import SLOT
from .turns import Turn, in_turn

# How high trees are at most.
MOST_HEIGHT = 24

# What tells a file from another one, in front of the same of its tail.
FILE_STAMP = ("st_dev", "st_ino", "st_size", "st_mtime_ns")

INFO = questions.Info().line.encode() + b"\n"


class Index(Overview):
    """An index file that is asked, through one child `gract ask`. It is a context manager; `close` ends the child, and so does the
    end of the last reference to it. `Asked` says what arguments may be, and has its questions.

    After a refusal of the program, and after anything else that goes wrong within a question, the next one begins a new child; where
    the file was written meanwhile it is a `ChangedError`. Threads ask one after the other, and a copy of the process that was forked asks
    by a child of its own. A question that a signal handler asks within another one is refused, by `BusyError`.
    """

    facts: Facts

    def __init__(self, path: Name, *, program: Optional[Name] = None, grid: Optional[Grid] = None, tail: Any = None):
        self.file = file_word("path", path)
        if grid is not None and not isinstance(grid, Grid):
            raise ArgumentError("grid", f"{grid!r} is no gract.Grid")
        self.program = find_program(program)
        self._turn = Turn(f"the index {self.file}")
        self._child: Optional[Child] = None
        self._closed = False
        self._stamp: Optional[Tuple[int, ...]] = None
        self._known: Optional[Facts] = None
        # Who has each slot.
        self._holders: "List[Optional[weakref.ref[Cursor]]]" = [None] * (SLOT[1] + 1)
        beside = grid_file(self.file)
        self.grid = Grid.load(beside) if grid is None and beside.exists() else grid
        # The CSV file of the tail, and what keeps it where it was written for this.
        self.tail: Optional[str] = None
        self._held: Optional[Held] = None
        try:
            if tail is not None:
                self._take_tail(tail)
            self.facts = self._opened()
            self._match(self.grid)
        except BaseException:
            self._drop()
            self._let_go()
            raise

    def _take_tail(self, rows: Any) -> None:
        """Takes rows as the tail: the file that they are in, or one that they are written to. New names go into the grid."""
        if isinstance(rows, (list, tuple)) and rows and isinstance(rows[0], (str, os.PathLike)):
            raise ArgumentError("tail", "it is one CSV file, a DataFrame, or an iterable of rows")
        held = Held()
        try:
            found = given(rows, held.path, self.grid, self._greatest, "tail")
            self.tail, self.grid = found.files[0], found.grid
            if Path(self.tail).parent == held.path:
                self._held, held = held, Held()
        finally:
            held.let_go()

    def _greatest(self) -> int:
        """The greatest number of an object of the index."""
        with Index(self.file, program=self.program) as index:
            hits: List[Hit] = index._answer(questions.Interval(index.facts.first, index.facts.last, questions.EVERYWHERE))
            return hits[-1].object if hits else 0

    def _let_go(self) -> None:
        """Takes away the file that was written for the tail."""
        if self._held is not None:
            self._held.let_go()

    @in_turn
    def _opened(self) -> Facts:
        self._ready(0)
        assert self._known is not None
        return self._known

    def _match(self, grid: Optional[Grid]) -> None:
        if grid is not None and (grid.cell, grid.tick) != (self.facts.cell, self.facts.tick):
            raise GridError(
                f"the grid has cell {grid.cell} and tick {grid.tick}, and {self.file} was built with cell {self.facts.cell} and "
                f"tick {self.facts.tick}"
            )

    # The child. What follows up to `_first` is done in a turn.

    def _ready(self, size: int) -> Child:
        """A clean child that takes so many bytes more: a new one where there is none. Any other is ended first."""
        if self._closed:
            raise ClosedError(f"the index {self.file}")
        child = self._child
        if child is not None:
            if child.is_clean and child.has_room(size):
                return child
            child.kill()
        return self._begin()

    def _begin(self) -> Child:
        """A new child. Refuses, by `ChangedError`, where it may have opened another index than the first one did."""
        stamp = self.refuse_changed()
        child = Child(self.program, self.file, self.tail)
        try:
            child.begin()
            facts: Facts = self._read(questions.Info, child.exchange([INFO])[0])
            if stamp != stamp_of(self.file, self.tail) or self._known not in (None, facts):
                raise ChangedError(self.file)
        except BaseException:
            child.kill()
            raise
        self._stamp, self._known, self._child = stamp, facts, child
        return child

    def refuse_changed(self) -> Optional[Tuple[int, ...]]:
        """Refuses, by `ChangedError`, where the file was written since it was opened; what tells it from others."""
        stamp = stamp_of(self.file, self.tail)
        if self._stamp is not None and stamp is not None and stamp != self._stamp:
            raise ChangedError(self.file)
        return stamp

    def _asked(self, child: Child, lines: Sequence[bytes]) -> List[Reply]:
        """The replies of a child to the first of lines. Where anything goes wrong it is ended at once, and nobody waits for its replies."""
        try:
            return child.exchange(lines)
        except BaseException:
            child.kill()
            raise

    def _take_slot(self, cursor: Cursor) -> int:
        """A slot that no cursor has which draws from it; now that one has it."""
        if self._closed:
            raise ClosedError(f"the index {self.file}")
        for slot, holder in enumerate(self._holders):
            other = None if holder is None else holder()
            if other is None or not other.wants_slot:
                self._holders[slot] = weakref.ref(cursor)
                return slot
        raise SlotsError(len(self._holders))

    @in_turn
    def _first(self, lines: Sequence[bytes]) -> List[Reply]:
        return self._asked(self._ready(sum(map(len, lines))), lines)

    def _no_grid(self) -> str:
        return f"give grid=, or save one as {grid_file(self.file)}"

    def _distrust(self) -> None:
        child = self._child
        if child is not None:
            child.distrust()

    @in_turn
    def _drop(self) -> None:
        if self._child is not None:
            self._child.kill()

    @in_turn
    def close(self) -> None:
        """Ends the child. A second time it does nothing. Raises its outcome where it had not ended well by itself."""
        self._closed = True
        try:
            if self._child is not None:
                self._child.close()
        finally:
            self._let_go()

    def __enter__(self) -> "Index":
        return self

    def __exit__(self, kind: Optional[Type[BaseException]], fault: Optional[BaseException], trace: Optional[TracebackType]) -> None:
        if kind is not None:
            # What went wrong within is told, and not what then becomes of the child.
            self._closed = True
            self._drop()
            self._let_go()
        else:
            self.close()

    def __repr__(self) -> str:
        state = "closed" if self._closed else f"{self.facts.objects} objects, instants {self.facts.first} to {self.facts.last}"
        return f"<Index {self.file}: {state}>"

    def _lowest(self, other: int) -> int:
        # Rows of a tail are in no tree, but within the limit of all trees.
        return super()._lowest(other) if self.tail is None else other - (1 << MOST_HEIGHT) + 1

    def info(self) -> Facts:
        """Facts of the index. One line."""
        facts: Facts = self._answer(questions.Info())
        return facts

    def with_tail(self, rows: Any) -> "Index":
        """The same index with rows that came since, as those of today: another `Index`, which is closed by itself. `rows` are those of
        `gract.build`, in units of the index's CELL and TICK or as reports of its grid; where both have a row of an object and an instant
        that of the tail counts. Objects that are texts keep their numbers, and new ones get the next. Refuses, by `ChangedError`, where the
        file was written since it was opened."""
        found = Index(self.file, program=self.program, grid=self.grid, tail=rows)
        if self._stamp is not None and (found._stamp or ())[: len(FILE_STAMP)] != self._stamp[: len(FILE_STAMP)]:
            found._drop()
            found._let_go()
            raise ChangedError(self.file)
        return found

    @in_turn
    def held(self, object: Object, since: Optional[Instant] = None, until: Optional[Instant] = None) -> Cursor:
        """A cursor over an object's path in a window. It has one of sixteen slots until its last row was drawn, or until it is closed;
        refuses, by `SlotsError`, a seventeenth. Two lines to hold the path, and one for each 512 rows."""
        return Cursor(self, self.number(object), *self.window(since, until))


def stamp_of(file: str, tail: Optional[str] = None) -> Optional[Tuple[int, ...]]:
    """What tells a file on disk from one that was written in its place: its node, its length, and when it was written; of a tail too."""
    try:
        found = os.stat(file)
    except OSError:
        return None
    if not stat.S_ISREG(found.st_mode):
        return None
    return (*(getattr(found, name) for name in FILE_STAMP), *((stamp_of(tail) or ()) if tail is not None else ()))


def open(path: Name, *, program: Optional[Name] = None, grid: Optional[Grid] = None, tail: Any = None) -> Index:
    """Opens an index: begins `gract ask` and asks for its facts, so that a file that is no index is told at once. The grid is the one
    given, else that of NAME.grid.json beside it, else none. A tail is rows that came since, which are asked together with it: what
    `gract.build` takes, as the name of a CSV file, a DataFrame or an iterable of rows; `Index.with_tail` says how they are read. Refuses by
    `ProgramNotFound`, by the program's own refusals, and by `GridError` where the grid is not that of the index."""
    return Index(path, program=program, grid=grid, tail=tail)
