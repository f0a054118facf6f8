"""`extend`: an index and later rows become one index, by the program."""

import contextlib
import dataclasses
import os
import shutil
import tempfile
from typing import Any, Dict, Iterator, Mapping, NamedTuple, Optional, Tuple

from .archive.given import new_names_of
from .building import refuse_long_name, refuse_other_file, run_program, table_rows, table_to_build, written
from .errors import ArgumentError, LimitError, LoadError, ProgramError, SaveError
from .frames import Table
from .grid import Grid, grid_file
from .index import Index
from .program import Name, file_word, find_program, refusal_of


@dataclasses.dataclass(frozen=True)
class Extended:
    """What `extend` has done. `rows` is how many later rows were written, or None of a CSV file that the program read itself; `left_out`
    how many reports had no object, no time or no place. `grid` is the one that was saved beside the index, or None; `new_names` has
    those that it got from the later rows, by their numbers."""

    file: str
    rows: Optional[int]
    left_out: Mapping[str, int]
    grid: Optional[Grid]
    new_names: Mapping[int, str]

    @property
    def text(self) -> str:
        """What was done, in lines."""
        rows = "" if self.rows is None else f" by {self.rows:,} rows"
        left_out = (f"{count:,} left out: {why}" for why, count in self.left_out.items())
        return "\n".join([f"{self.file} is extended{rows}", *left_out])

    def __repr__(self) -> str:
        return self.text


def extend(index: Name, rows: Any, out: Optional[Name] = None, *, id: Optional[str] = None, time: Optional[str] = None,
           lon: Optional[str] = None, lat: Optional[str] = None, x: Optional[str] = None, y: Optional[str] = None,
           grid: Optional[Grid] = None, program: Optional[Name] = None) -> Extended:
    """Saves the index of the rows of an index and of later rows as `out`, or in place of `index` where that is not given. Where both
    have a row of an object and an instant, the later one counts. What is saved are the bytes that `build` would save of all rows.

    `rows` are those of `build`: a DataFrame, a CSV file, or an iterable of (object, instant, x, y). They are gridded as the rows of the
    index were, so there is no cell, tick or period to say. Degrees and dates want a grid: it is the one given, else that of
    NAME.grid.json beside the index, as for `open`. It goes along with what is saved. An object of a table that is new by its name
    gets the number after all that are taken, and the grid its name.

    What is saved takes its place at once, when it is whole: an index that was there is the old one after whatever refusal, and also
    where all is interrupted. Refuses as `build` does, by `GridError` a grid that is not that of the index, and by `LimitError` where both
    together pass a limit.
    """
    old, found = file_word("index", index), find_program(program)
    new = old if out is None else file_word("out", out)
    if grid is not None and not isinstance(grid, Grid):
        raise ArgumentError("grid", f"{grid!r} is no gract.Grid")
    refuse_other_file(new)
    table = table_to_build(rows, {"id": id, "time": time, "lon": lon, "lat": lat, "x": x, "y": y})
    known, new_names = grid_for(old, table, grid, found)
    refuse_long_name(new, known is not None, "index" if out is None else "out")
    with later(rows, table, known) as tail:
        save_extended(found, Files(old, tail.file, new, tail.called), known)
    return Extended(new, tail.written, {} if table is None else dict(table.left_out), known, new_names)


# Grids.


def grid_for(index: str, table: Optional[Table], grid: Optional[Grid], program: str) -> Tuple[Optional[Grid], Dict[int, str]]:
    """The grid of an index, with the new names of a table, and those; None where there is none and none is wanted. Refuses a grid that
    is not that of the index, and a table that wants one where there is none."""
    if table is None and grid is None and not grid_file(index).exists():
        return None, {}
    with Index(index, program=program, grid=grid) as there:
        known = there.grid
        if known is None and table is not None and (table.degrees or table.dated):
            raise ArgumentError("grid", f"degrees and dates want one: give it, or save one as {grid_file(index)}")
        names = {} if table is None else new_names_of(table, known, lambda: max((hit.object for hit in there.interval()), default=0))
        if names:
            known = known or Grid(cell=there.facts.cell, tick=there.facts.tick)
            known = known.with_names({**known.names, **names})
        return known, names


# Files.


class Later(NamedTuple):
    """A CSV file of later rows, what it is called to people, and how many there are where they were written here."""

    file: str
    called: str
    written: Optional[int]


@contextlib.contextmanager
def later(rows: Any, table: Optional[Table], grid: Optional[Grid]) -> Iterator[Later]:
    """The later rows as a CSV file, which goes in the end where it was written here."""
    if table is None and isinstance(rows, (str, os.PathLike)):
        name = file_word("rows", rows)
        yield Later(name, name, None)
        return
    with written(rows if table is None else table_rows(table, grid)) as (file, count):
        yield Later(file, "the rows", count)


# The limits that an index passes by itself.
OF_INDEX = ("index", "base")


class Files(NamedTuple):
    """The names of the files of a call, and what that of the rows is called to people."""

    old: str
    tail: str
    new: str
    called: str


def save_extended(program: str, files: Files, grid: Optional[Grid]) -> None:
    """Saves the index of both, with a grid. It is written in a folder beside the one that is there, whose place it takes once it is whole:
    the grid's first, which has all that the old one has."""
    # What a link leads to is taken the place of, and the link stays.
    target = os.path.realpath(files.new)
    with folder_beside(target, files.new) as folder:
        part = os.path.join(folder, "index")
        status, said = run_program(program, ["extend", files.old, files.tail, part])
        if status != 0:
            raise refusal(status, said, files)
        try:
            if os.path.exists(target):
                shutil.copymode(target, part)
            if grid is not None:
                grid.save(files.new)
            os.replace(part, target)
        except OSError:
            raise SaveError(files.new) from None


@contextlib.contextmanager
def folder_beside(target: str, called: str) -> Iterator[str]:
    """A new folder beside a file, which goes in the end with what is in it. Refuses, by `SaveError`, where none can be made."""
    try:
        folder = tempfile.TemporaryDirectory(prefix=".gract-", dir=os.path.dirname(target))
    except OSError:
        raise SaveError(called) from None
    with folder as name:
        yield name


def refusal(status: Optional[int], said: str, files: Files) -> ProgramError:
    """The exception of an outcome, by the file that it tells of: the index, the rows, or what was to be saved."""
    found = refusal_of(status, said, index=files.old, csv_file=files.called)
    if isinstance(found, SaveError):
        return refusal_of(status, said, index=files.new)
    if isinstance(found, LoadError) and not can_be_read(files.old):
        return refusal_of(status, said, index=files.old)
    if isinstance(found, LimitError) and found.kind in OF_INDEX:
        return refusal_of(status, said, index=files.old)
    return found


def can_be_read(file: str) -> bool:
    """Whether a file is there, and may be read."""
    return not os.path.isdir(file) and os.access(file, os.R_OK)
