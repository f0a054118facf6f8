"""`build`: an index of rows, by the program."""

import argparse
import dataclasses
import itertools
import operator
import os
import tempfile
from contextlib import contextmanager
from pathlib import Path
from typing import IO, Any, Dict, Iterable, Iterator, Mapping, NamedTuple, Optional, Sequence, Tuple, Union

from .errors import ArgumentError, OverwriteError
from .frames import Given, Table, csv_table, frame_table, has_degrees, is_frame
from .grid import Grid, grid_file
from .names import MOST_OBJECT, is_number, names_of
from .processes import Process
from .program import Name, beginning, file_word, find_program, refusal_of
from .proposals import Proposal, propose
from .ranges import whole

# The ranges of command words and of fields, as docs/QUESTIONS.md has them.
UNITS = (1, 2**30)
PERIODS = (1, 2**22)
FIELDS = (("object", (0, MOST_OBJECT)), ("instant", (-2**40, 2**40)), ("x", (-2**40, 2**40)), ("y", (-2**40, 2**40)))

# The period where none is given or proposed.
USUAL_PERIOD = 120

MAGIC = b"GRACT0"

# How many bytes a file's name has at most, and how many more it has while the index is written, or at most the grid.
MOST_NAME = 255
MORE_OF_INDEX, MOST_MORE_OF_GRID = 6, 12

# How many rows are written at once.
PIECE = 4096


@dataclasses.dataclass(frozen=True)
class Built:
    """What `build` has done. `rows` is how many rows were written, or None of a CSV file that the program read itself; `left_out`
    how many reports had no object, no time or no place; `proposal` what was proposed for reports, and why. `grid` is the one that was
    saved beside the index, or None."""

    file: str
    rows: Optional[int]
    left_out: Mapping[str, int]
    cell: int
    tick: int
    period: int
    grid: Optional[Grid]
    proposal: Optional[Proposal]

    @property
    def text(self) -> str:
        """What was done, in lines."""
        if self.proposal:
            return "\n".join([f"{self.file} is built", *self.proposal.why])
        rows = "" if self.rows is None else f", of {self.rows:,} rows"
        left_out = (f"{count:,} left out: {why}" for why, count in self.left_out.items())
        return "\n".join([f"{self.file} is built{rows}: cell {self.cell}, tick {self.tick}, period {self.period}", *left_out])

    def __repr__(self) -> str:
        return self.text


def build(rows: Any, path: Name, *, id: Optional[str] = None, time: Optional[str] = None, lon: Optional[str] = None,
          lat: Optional[str] = None, x: Optional[str] = None, y: Optional[str] = None, cell: Optional[int] = None,
          tick: Optional[int] = None, period: Optional[int] = None, grid: Optional[Grid] = None, stretch: Optional[float] = None,
          program: Optional[Name] = None) -> Built:
    """Builds an index and saves it as `path`, in place of the index that was there; a grid is saved beside it.

    `rows` is a DataFrame, or the name of a CSV file with a heading, whose columns are the objects, the times, and longitude and
    latitude, or x and y: those that `id`, `time`, `lon`, `lat`, `x` and `y` name, and else those that are usually called so. Reports
    without an object, a time or a place are left out and counted. For degrees, and for timestamps, the grid and the period are those
    of `gract.propose`, where they are not given, and objects that are no numbers are numbered from 1, and keep their names.

    Or `rows` are rows as the program has them: a CSV file as docs/QUESTIONS.md has it, or an iterable of four whole numbers (object,
    instant, x, y), as `Grid.rows` makes them, in units of the file: `cell` of them are a cell's width and `tick` of them an instant,
    from 1 to 2^30, 1 where they are not given, and those of the grid where there is one. `period`, in instants from 1 to 2^22,
    changes no answer; it is 120 where it is not given.

    Refuses, by `OverwriteError`, to write over a file that is no index; by `ArgumentError` a wrong argument or row, by its place;
    and with the program's own refusals. Then what stood under `path` still stands, but after a `SaveError`.
    """
    index, found = file_word("path", path), find_program(program)
    if grid is not None and not isinstance(grid, Grid):
        raise ArgumentError("grid", f"{grid!r} is no gract.Grid")
    chosen = Chosen.of(cell, tick, period, grid)
    refuse_other_file(index)
    table = table_to_build(rows, {"id": id, "time": time, "lon": lon, "lat": lat, "x": x, "y": y})
    refuse_long_name(index, grid is not None or table is not None)
    if table is not None:
        built = build_table(found, table, index, chosen, grid, stretch)
    elif isinstance(rows, (str, os.PathLike)):
        name = file_word("rows", rows)
        run_build(found, name, index, chosen.words, name)
        built = Built(index, None, {}, *chosen.words, grid, None)
    else:
        built = Built(index, build_rows(found, rows, index, chosen), {}, *chosen.words, grid, None)
    if built.grid is not None:
        built.grid.save(index)
    return built


class Chosen(NamedTuple):
    """CELL, TICK and PERIOD, where they are chosen."""

    cell: Optional[int]
    tick: Optional[int]
    period: Optional[int]

    @classmethod
    def of(cls, cell: Optional[int], tick: Optional[int], period: Optional[int], grid: Optional[Grid]) -> "Chosen":
        """Those given, or those of the grid. Refuses what is out of range, and two that differ."""
        if grid is not None:
            cell, tick = of_grid("cell", cell, grid), of_grid("tick", tick, grid)
        return cls(
            None if cell is None else whole("cell", cell, *UNITS), None if tick is None else whole("tick", tick, *UNITS),
            None if period is None else whole("period", period, *PERIODS),
        )

    @property
    def words(self) -> Tuple[int, int, int]:
        """The command words, with the usual ones where none is chosen."""
        return self.cell or 1, self.tick or 1, self.period or USUAL_PERIOD


def of_grid(argument: str, value: Optional[int], grid: Optional[Grid]) -> int:
    """CELL or TICK: that of the grid, or the one given, or 1. Refuses two that differ."""
    if grid is None:
        return 1 if value is None else value
    known = int(getattr(grid, argument))
    if value is not None and value != known:
        raise ArgumentError(argument, f"{value} is not that of the grid, {known}")
    return known


def refuse_long_name(path: str, may_have_grid: bool, argument: str = "path") -> None:
    """Refuses a name that is too long for what is written first, under a name that is longer: the index, and the grid beside it."""
    length = len(os.fsencode(os.path.basename(path)))
    beside = len(os.fsencode(grid_file(path).name)) + MOST_MORE_OF_GRID if may_have_grid else 0
    over = max(length + MORE_OF_INDEX, beside) - MOST_NAME
    if over > 0:
        raise ArgumentError(argument, f"the name of its file has {length} bytes, and {length - over} is the most")


def refuse_other_file(path: str) -> None:
    """Refuses, by `OverwriteError`, what is there and is no index: a file that begins otherwise, and anything but a file."""
    if not os.path.lexists(path):
        return
    try:
        # What is no file, as a pipe, is not opened: that could wait for ever.
        if os.path.isfile(path):
            with open(path, "rb") as file:
                if file.read(len(MAGIC)) == MAGIC:
                    return
    except OSError:
        pass
    raise OverwriteError(path)


def run_build(program: str, csv_file: str, index: str, numbers: Sequence[int], called: str) -> None:
    """Runs `gract build`, and raises its outcome, where the CSV file is called so."""
    status, said = run_program(program, ["build", csv_file, index, *map(str, numbers)])
    if status != 0:
        raise refusal_of(status, said, index=index, csv_file=called)


def run_program(program: str, words: Sequence[str]) -> Tuple[int, str]:
    """Runs the program with these words, and answers with what it ends with and what it said on standard error. An interrupt ends it."""
    process = Process([program, *words])
    try:
        with beginning(program):
            process.begin()
        return process.finish()
    finally:
        process.end()


# Tables.


def table_to_build(rows: Any, given: Given) -> Optional[Table]:
    """The table of a DataFrame, or of a CSV file whose columns are named, or that has a longitude and a latitude; None of what is rows
    already. Refuses names of columns for rows that have none."""
    if is_frame(rows):
        return frame_table(rows, given)
    if isinstance(rows, (str, os.PathLike)):
        file = file_word("rows", rows)
        return csv_table(file, given) if any(given.values()) or has_degrees(file) else None
    word = next((word for word, name in given.items() if name is not None), None)
    if word is not None:
        raise ArgumentError(word, "columns have names in a DataFrame and in a CSV file alone")
    return None


def build_table(program: str, table: Table, index: str, chosen: Chosen, grid: Optional[Grid], stretch: Optional[float]) -> Built:
    """Builds the index of a table."""
    proposal = None
    if grid is None and (table.degrees or table.dated):
        cell = chosen.cell if table.degrees else chosen.words[0]
        proposal = propose(table, cell=cell, tick=chosen.tick, period=chosen.period, stretch=stretch)
        grid, chosen = proposal.grid, Chosen(proposal.cell, proposal.tick, proposal.period)
    elif grid is None or not grid.names:
        grid = with_names(grid, table, chosen)
    count = build_rows(program, table_rows(table, grid), index, chosen)
    return Built(index, count, dict(table.left_out), *chosen.words, grid, proposal)


def with_names(grid: Optional[Grid], table: Table, chosen: Chosen) -> Optional[Grid]:
    """A grid with the names of a table, where its objects have some."""
    names = names_of(dict.fromkeys(str(item) for item, _, _, _ in table))
    if names is None:
        return grid
    return Grid(cell=chosen.words[0], tick=chosen.words[1], names=names) if grid is None else grid.with_names(names)


def table_rows(table: Table, grid: Optional[Grid] = None) -> Iterable[Sequence[int]]:
    """The rows of a table: by their time where times are dates, else as they come. Refuses degrees and dates without a grid, and
    objects that are no numbers, by their row."""
    if grid is not None and table.degrees:
        return grid.rows(table)
    if table.degrees or (grid is None and table.dated):
        raise ArgumentError(table.name, "degrees and dates are no rows: Grid.rows makes them, and gract.build")
    rows = (
        (numbered(f"{table.name}: row {nth}: {table.columns.id}", item, grid), time, int(x), int(y))
        for nth, (item, time, x, y) in table.numbered()
    )
    if grid is None or not table.dated:
        return rows
    return sorted(((item, (time - grid.epoch) // grid.unit, x, y) for item, time, x, y in rows), key=operator.itemgetter(1))


def numbered(argument: str, item: Union[int, str], grid: Optional[Grid]) -> int:
    """The number of an object."""
    if grid is not None:
        return grid.number(item, argument)
    return whole(argument, int(item) if is_number(str(item)) else item, 0, MOST_OBJECT)


# Rows.


def build_rows(program: str, rows: Any, index: str, chosen: Chosen) -> int:
    """Builds the index of rows, and answers with how many there were."""
    with written(rows) as (file, count):
        run_build(program, file, index, chosen.words, "the rows")
    return count


@contextmanager
def written(rows: Any) -> Iterator[Tuple[str, int]]:
    """A CSV file of rows, which goes in the end, and how many there are."""
    # The folder goes with what is in it, whatever happens.
    with tempfile.TemporaryDirectory(prefix="gract-") as folder:
        file = Path(folder) / "rows.csv"
        with file.open("w", encoding="ascii", newline="") as lines:
            count = write_rows(lines, rows)
        yield str(file), count


def write_rows(lines: IO[str], rows: Any) -> int:
    """Writes rows as a CSV file, and answers with how many there were. Refuses the first that is none, by its place from 1."""
    lines.write("object,instant,x,y\n")
    count = 0
    found = checked_rows(rows_of(rows))
    for piece in iter(lambda: list(itertools.islice(found, PIECE)), []):
        lines.writelines(piece)
        count += len(piece)
    return count


def rows_of(rows: Any) -> Iterable[Sequence[int]]:
    """The rows of a DataFrame, or of an iterable."""
    if is_frame(rows):
        return table_rows(frame_table(rows))
    if isinstance(rows, bytes) or not hasattr(rows, "__iter__"):
        raise ArgumentError("rows", f"{rows!r} is neither a file's name, nor a DataFrame, nor an iterable of rows")
    found: Iterable[Sequence[int]] = rows
    return found


def checked_rows(rows: Iterable[Sequence[int]]) -> Iterator[str]:
    """The lines of rows."""
    for nth, row in enumerate(rows, 1):
        if not isinstance(row, (tuple, list)) or len(row) != len(FIELDS):
            raise ArgumentError("rows", f"row {nth}, {row!r}, is not (object, instant, x, y)")
        yield ",".join(str(whole(f"rows: row {nth}: {name}", value, *span)) for value, (name, span) in zip(row, FIELDS)) + "\n"


def add_to(parser: argparse.ArgumentParser) -> None:
    """Gives the command `build` its words."""
    parser.add_argument("rows", metavar="CSV")
    parser.add_argument("index", metavar="INDEX")
    parser.add_argument("--cell", type=int, default=1, help="how many units of x and y a cell is wide (1)")
    parser.add_argument("--tick", type=int, default=1, help="how many units of time an instant lasts (1)")
    parser.add_argument("--period", type=int, default=USUAL_PERIOD, help=f"how many instants a period has ({USUAL_PERIOD})")
    plane = parser.add_mutually_exclusive_group()
    plane.add_argument("--middle", type=float, metavar="LATITUDE", help="the rows are metres round this latitude")
    plane.add_argument("--per-degree", type=int, metavar="N", help="the rows are in degrees, N units to each")
    parser.add_argument("--unit", type=int, default=1, metavar="SECONDS", help="of a unit of time of the rows (1)")
    parser.add_argument("--west", type=int, default=-180, metavar="LONGITUDE", help="where the plane is cut (-180)")
    parser.add_argument("--names", metavar="FILE", help="a CSV file object,name")


def run(given: argparse.Namespace) -> int:
    """Builds an index as the command line says."""
    others: Dict[str, Any] = {"cell": given.cell, "tick": given.tick, "unit": given.unit, "west": given.west}
    if given.names:
        others["names"] = given.names
    if given.middle is not None:
        grid = Grid.metres(given.middle, **others)
    elif given.per_degree is not None:
        grid = Grid.degrees(given.per_degree, **others)
    else:
        grid = Grid(**others)
    build(given.rows, given.index, period=given.period, grid=grid, program=given.program)
    return 0
