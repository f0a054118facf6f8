"""Rows cut into parts, each with an index of its own: by object into shards, or by time into days.

A folder of parts has their index files and `parts.json`, which lists them. Whoever builds in a folder, or adds to it, writes other files
beside those that are there, and then puts another list in the place of theirs, so that what was there stands until all is done.
"""

import dataclasses
import os
from contextlib import suppress
from pathlib import Path
from typing import Any, Callable, Dict, Iterable, List, Mapping, NamedTuple, Optional, Sequence, Tuple, Type, Union

from ..answers import Hit
from ..building import PERIODS, UNITS, of_grid, run_build, run_program
from ..errors import ArgumentError, EmptyError, GractError, LimitError, RowError, SaveError
from ..grid import Grid, real, whole
from ..index import Index
from ..program import Name, file_word, find_program, find_record, refusal_of
from ..questions import EVERYWHERE, Interval
from ..questions import Path as PathQuestion
from .cutting import join_pieces, place_of, split
from .folders import WAIT, Written, folder_to_add_to, folder_to_build_in
from .given import Given, given, joined_grid
from .manifest import Cut, Listed, Manifest, Part, digest_of, name_of
from .parted import open_part

# Runs a function with each of several arguments, and has what it gave for each, in their order.
Run = Callable[[Callable[[Any], Any], Sequence[Any]], List[Any]]

# The longest time to wait for a folder, in seconds.
MOST_WAIT = 10.0**9


@dataclasses.dataclass(frozen=True)
class Order:
    """What a part's index is made of: pieces of rows in their order and the numbers of `gract build`, and the part that they are joined
    to, where it is there."""

    program: str
    pieces: Tuple[str, ...]
    index: str
    numbers: Tuple[int, int, int]
    before: Optional[Listed] = None


class Added(NamedTuple):
    """What was added: the numbers of the parts that are new, and of those that were there and had rows joined to them; and how many reports
    were left out, by the reason."""

    built: List[int]
    joined: List[int]
    left_out: Mapping[str, int]

    @property
    def text(self) -> str:
        """What was done, in lines."""
        told = [f"new: {', '.join(map(str, self.built)) or 'none'}", f"joined to: {', '.join(map(str, self.joined)) or 'none'}"]
        return "\n".join([*told, *(f"{count:,} left out: {why}" for why, count in self.left_out.items())])


def build_part(order: Order) -> Union[Part, GractError]:
    """Builds the index of a part, or joins rows to it. A refusal is given back, and not raised, so that of several the first may be told.
    It may be called again where a call was broken off."""
    rows = f"{order.index}.csv"
    try:
        join_pieces(order.pieces, rows)
        if order.before is None:
            run_build(order.program, rows, order.index, order.numbers, rows)
        else:
            # What has another sum, or is damaged, is joined to nothing.
            open_part(order.before, order.program).close()
            run_extend(order.program, order.before.file, rows, order.index)
        return measured(order.index, order.program)
    except GractError as refusal:
        return refusal
    except OSError:
        return SaveError(order.index)
    finally:
        with suppress(OSError):
            os.remove(rows)


def run_extend(program: str, index: str, rows: str, out: str) -> None:
    """Runs `gract extend`, and raises its outcome."""
    status, said = run_program(program, ["extend", index, rows, out])
    if status != 0:
        raise refusal_of(status, said, index=out, csv_file=rows)


class Counted(PathQuestion):
    """A path of which only the rows are counted."""

    @classmethod
    def read(cls, lines: List[bytes]) -> Any:
        """How many rows a reply has."""
        return len(lines)


def measured(file: str, program: str) -> Part:
    """The part that an index file is, with all that is counted of it."""
    with Index(file, program=program) as index:
        facts = index.facts
        hits: List[Hit] = next(index.ask([Interval(facts.first, facts.last, EVERYWHERE)]))
        rows = sum(index.ask(Counted(hit.object, hit.instant, facts.last) for hit in hits))
        return Part(file, digest_of(file), facts.first, facts.last, rows, facts.objects, hits[-1].object, os.path.getsize(file))


def one_by_one(function: Callable[[Any], Any], arguments: Sequence[Any]) -> List[Any]:
    """Runs a function here with each argument."""
    return [function(argument) for argument in arguments]


def build(rows: Any, path: Name, cut: Cut, *, cell: Optional[int], tick: Optional[int], period: int, grid: Optional[Grid],
          program: Optional[Name], run: Run, replace: bool = False, wait: float = WAIT) -> None:
    """Builds the parts of rows in the folder `path`. `rows` are those of `gract.build`, or the names of several CSV files, whose rows
    come one file after the other. Refuses what `gract.build` refuses, a row by its place in its own file; by `OverwriteError`, a
    folder that is there and has other things in it, or parts, unless `replace` says so; and by `BusyError` one that another process
    writes for longer than `wait` seconds. Then what was in the folder is still there."""
    folder, found = Path(file_word("path", path)), find_program(program)
    numbers = (
        whole("cell", of_grid("cell", cell, grid), *UNITS),
        whole("tick", of_grid("tick", tick, grid), *UNITS),
        whole("period", period, *PERIODS),
    )
    with folder_to_build_in(folder, replace, real("wait", wait, 0, MOST_WAIT)) as written:
        sources = given(rows, written.within, grid)
        built = build_within(written.within, sources, cut, found, numbers, run)
        if not built:
            raise EmptyError(sources.files[0] if len(sources.files) == 1 else "the rows")
        put(written, Manifest(cut, *numbers, {}, sources.grid), built)


def add(rows: Any, path: Name, kind: Type[Cut], *, grid: Optional[Grid], program: Optional[Name], run: Run,
        wait: float = WAIT) -> Added:
    """Adds rows to the parts in the folder `path`, which are cut so: parts that are not there are built, to those that are there rows are
    joined, and where both have a row of an object and an instant the new one counts. All others stay as they are. CELL, TICK and PERIOD
    are those of the folder. Refuses, by `ManifestError`, a folder that has no parts, by `GridError` a grid that is another one in more
    than names, and as `build` does. Then what was in the folder is still there."""
    folder, found = Path(file_word("path", path)), find_program(program)
    with folder_to_add_to(folder, real("wait", wait, 0, MOST_WAIT)) as written:
        there = of_kind(written, kind)
        numbers = (there.cell, there.tick, there.period)
        joined = joined_grid(there.grid, grid, str(folder))
        sources = given(rows, written.within, joined, lambda: greatest_of(folder, there, found))
        listed = there.listed(folder)
        built = build_within(written.within, sources, there.cut, found, numbers, run, listed)
        if built or sources.grid != there.grid:
            put(written, dataclasses.replace(there, grid=sources.grid), built)
    return Added([number for number in built if number not in listed], [number for number in built if number in listed], sources.left_out)


def drop(path: Name, kind: Type[Cut], wanted: Callable[[Manifest], List[int]], wait: float = WAIT) -> List[int]:
    """Takes parts away that are `wanted` of a list, and answers with their numbers. Refuses, by `ArgumentError`, to take all."""
    folder = Path(file_word("path", path))
    with folder_to_add_to(folder, real("wait", wait, 0, MOST_WAIT)) as written:
        there = of_kind(written, kind)
        numbers = wanted(there)
        if len(numbers) == len(there.parts):
            raise ArgumentError("before", f"all {len(numbers)} parts of {folder} lie before it: not all are dropped, remove the folder")
        parts = {number: part for number, part in there.parts.items() if number not in numbers}
        if numbers:
            dropped = {there.parts[number].file for number in numbers}
            replaced = written.replaced([part.file for part in parts.values()], dropped)
            written.put(dataclasses.replace(there, parts=parts, replaced=replaced), {})
    return numbers


def of_kind(written: Written, kind: Type[Cut]) -> Manifest:
    """The list of a folder that is written. Refuses, by `ArgumentError`, parts that are cut otherwise."""
    there = written.there
    assert there is not None
    if not isinstance(there.cut, kind):
        raise ArgumentError("path", f"the parts of {written.folder} are cut by {there.cut.name}, and not by {kind.name}")
    return there


def put(written: Written, manifest: Manifest, built: Mapping[int, Part]) -> None:
    """Puts parts that were built into a folder, beside those of the list, or in their place, and the list of all."""
    named = {number: dataclasses.replace(part, file=name_of(number, part.sha256)) for number, part in built.items()}
    parts = {**manifest.parts, **named}
    replaced = written.replaced([part.file for part in parts.values()])
    files = {number: part.file for number, part in built.items()}
    written.put(dataclasses.replace(manifest, parts=parts, replaced=replaced), files)


def greatest_of(folder: Path, there: Manifest, program: str) -> int:
    """The greatest number of an object of all parts."""
    known = [part.greatest for part in there.parts.values() if part.greatest is not None]
    uncounted: Iterable[Listed] = (listed for listed in there.listed(folder).values() if listed.part.greatest is None)
    for listed in uncounted:
        with open_part(listed, program) as index:
            hits: List[Hit] = next(index.ask([Interval(index.facts.first, index.facts.last, EVERYWHERE)]))
            known.append(hits[-1].object)
    return max(known)


def build_within(within: Path, sources: Given, cut: Cut, program: str, numbers: Tuple[int, int, int], run: Run,
                 there: Optional[Mapping[int, Listed]] = None) -> Dict[int, Part]:
    """Cuts rows into pieces in a folder, and builds the parts of them there, joined to those that are there."""
    pieces: Dict[int, List[str]] = {}
    for found in run(split, [(source, str(within), cut) for source in sources.files]):
        for part, piece in found.items():
            pieces.setdefault(part, []).append(piece)
    before = there or {}
    orders = [
        Order(program, tuple(pieces[part]), str(within / f"{part}.idx"), numbers, before.get(part)) for part in sorted(pieces)
    ]
    built = dict(zip(sorted(pieces), run(build_part, orders)))
    refuse_first(built, sources.files, cut)
    return built


def refuse_first(built: Mapping[int, Union[Part, GractError]], sources: Sequence[str], cut: Cut) -> None:
    """Raises the refusal of a part, if there is one: of rows that are none the first one of all, by its place in its own file."""
    refusals = {number: outcome for number, outcome in built.items() if isinstance(outcome, GractError)}
    faults = {number: refusal for number, refusal in refusals.items() if isinstance(refusal, RowError)}
    for number, refusal in refusals.items():
        if isinstance(refusal, LimitError):
            raise LimitError(refusal.kind, refusal.value, f"the rows of part {number}")
        if not isinstance(refusal, RowError):
            raise refusal
    if faults:
        # A piece of rows begins with a heading, which is its first record.
        places = [(place_of(sources, cut, number, fault.record - 1), fault) for number, fault in faults.items()]
        (source, record), fault = min(places, key=lambda place: place[0])
        raise RowError(sources[source], record, fault.field, fault.fault, *find_record(sources[source], record))
