"""Rows as they are given to an archive: CSV files that they are read from or written to, and the names of objects that come with them."""

import dataclasses
import os
from pathlib import Path
from typing import Any, Callable, Dict, Iterable, Iterator, List, Mapping, Optional, Tuple

from ..building import rows_of, table_rows, table_to_build, write_rows
from ..errors import ArgumentError, GridError, SourceError
from ..frames import Table
from ..grid import Grid
from ..names import MOST_OBJECT, is_number, names_of
from ..program import file_word

# The file that rows are written to.
WRITTEN = "rows.csv"


@dataclasses.dataclass(frozen=True)
class Given:
    """CSV files of rows in their order, what reports were left out, by the reason, and the grid with the names of all objects."""

    files: List[str]
    left_out: Mapping[str, int]
    grid: Optional[Grid]


def given(rows: Any, within: Path, grid: Optional[Grid], greatest: Optional[Callable[[], int]] = None, argument: str = "rows") -> Given:
    """Rows as CSV files. `rows` are those of `gract.build`, or the names of several CSV files; what comes otherwise is written into a
    folder. Objects of reports that are texts have their numbers in the grid's names. Those that have none get the next ones, after the
    `greatest` that there is; where that is not given, and the grid has no names, all are numbered from 1."""
    if isinstance(rows, (list, tuple)) and rows and all(isinstance(name, (str, os.PathLike)) for name in rows):
        return Given([file_word(argument, name) for name in rows], {}, grid)
    if isinstance(rows, (str, os.PathLike)):
        file_word(argument, rows)
    table = table_to_build(rows, {})
    if table is None and isinstance(rows, (str, os.PathLike)):
        return Given([file_word(argument, rows)], {}, grid)
    if table is not None:
        grid = named(table, grid, greatest)
    file = within / WRITTEN
    with file.open("w", encoding="ascii", newline="") as lines:
        write_rows(lines, drawn(rows) if table is None else table_rows(table, grid))
    return Given([str(file)], {} if table is None else dict(table.left_out), grid)


def drawn(rows: Any) -> Iterable[Any]:
    """The rows of an iterable. A file of its own that fails is no fault of the archive's: it is a `SourceError`."""
    found = rows_of(rows)

    def each() -> Iterator[Any]:
        try:
            yield from found
        except OSError as fault:
            raise SourceError(f"the rows could not be drawn: {fault}") from fault

    return each()


# Names.


def named(table: Table, grid: Optional[Grid], greatest: Optional[Callable[[], int]]) -> Optional[Grid]:
    """The grid with a number for each object of a table that is a text: the ones it has, and the next ones after all that are taken; or
    where there is nothing that could be taken, and it has no names, the numbers from 1."""
    if grid is None:
        return None
    if greatest is None:
        names = None if grid.names else names_of(dict.fromkeys(str(item) for item, _, _, _ in table))
        return grid if names is None else grid.with_names(names)
    new = new_names_of(table, grid, greatest)
    return grid.with_names({**grid.names, **new}) if new else grid


def new_names_of(table: Table, grid: Optional[Grid], greatest: Callable[[], int]) -> Dict[int, str]:
    """The objects of a table that have no number yet, by new numbers, after the `greatest` that an object has. A whole number is an
    object's number, unless the grid has names that are other objects' numbers: then it is a name. Refuses, by `ArgumentError`, one that
    stands among texts and is the number of an object of another name."""
    known = {} if grid is None else grid.names
    has_numbered = any(is_number(name) and int(name) != number for number, name in known.items())
    taken, called = set(known.values()), list(dict.fromkeys(str(item) for item, _, _, _ in table))
    unnamed = [name for name in called if name not in taken]
    new = [name for name in unnamed if has_numbered or not is_number(name)]
    whole = [int(name) for name in unnamed if is_number(name) and not has_numbered]
    if not all(map(is_number, called)):
        for number in whole:
            if number in known:
                told = f"{number} stands among names, and object {number} is called {known[number]}"
                raise ArgumentError(table.name, f"{told}: where it is another one, give its number in the names of grid=")
    if not new:
        return {}
    last = max([*known, *whole, greatest()])
    if last + len(new) > MOST_OBJECT:
        raise GridError(f"no number up to {MOST_OBJECT} is free for {new[0]}: give numbers in the names of grid=")
    return dict(enumerate(new, last + 1))


def joined_grid(there: Optional[Grid], grid: Optional[Grid], called: str) -> Optional[Grid]:
    """The grid of an archive with the names of another one, which may differ in names alone. Refuses, by `GridError`, any other, and a
    number that has two names."""
    if grid is None:
        return there
    if not isinstance(grid, Grid):
        raise ArgumentError("grid", f"{grid!r} is no gract.Grid")
    if there is None:
        raise GridError(f"{called} was built without a grid, and is added to without one")
    for name, (found, wanted) in differences(there, grid).items():
        raise GridError(f"the grid has {name} {found}, and that of {called} {wanted}: they may differ in names alone")
    names = dict(there.names)
    for number, name in grid.names.items():
        if names.setdefault(number, name) != name:
            raise GridError(f"object {number} is called {names[number]} in {called}, and {name} in the grid: a number has one name")
    return there.with_names(names)


def differences(there: Grid, grid: Grid) -> Dict[str, Tuple[Any, Any]]:
    """In what a grid differs from that of an archive, but in names: what it has, and what that has."""
    one, other = grid.as_dict(), there.as_dict()
    keys = [key for key in {**other, **one} if key != "names" and one.get(key) != other.get(key)]
    return {key: (one.get(key), other.get(key)) for key in keys}
