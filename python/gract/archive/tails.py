"""`Tail`: rows that came since, cut into the days of an archive that they are asked with."""

import dataclasses
from typing import Any, Callable, Dict, List, Mapping, Optional

from ..errors import GractError, GridError
from ..grid import Grid
from ..held import Held
from .cutting import join_pieces, split
from .given import given
from .manifest import Listed, Manifest, Part
from .parts import Order, build_part, refuse_first


class Tail:
    """Rows beside an archive, a CSV file for each day in a folder of this process, which goes when it is let go. `new_names`
    are those of objects that the archive has not, by their numbers."""

    def __init__(self, rows: Any, manifest: Manifest, grid: Optional[Grid], program: str, greatest: Callable[[], int]):
        self.program, self._cut = program, manifest.cut
        self._held = Held()
        self._built: Dict[int, Listed] = {}
        try:
            found = given(rows, self._held.path, grid, greatest, "tail")
            self.sources = found.files
            self.new_names = new_names(grid, found.grid)
            self._pieces: Dict[int, List[str]] = {}
            for source in found.files:
                for number, piece in split((source, str(self._held.path), self._cut)).items():
                    self._pieces.setdefault(number, []).append(piece)
            self._files = {number: str(self._held.path / f"tail_{number}.csv") for number in sorted(self._pieces)}
            for number, file in self._files.items():
                join_pieces(self._pieces[number], file)
        except BaseException:
            self.let_go()
            raise

    def grid_of(self, grid: Optional[Grid]) -> Optional[Grid]:
        """A grid with the names that are new."""
        return grid.with_names({**grid.names, **self.new_names}) if grid is not None and self.new_names else grid

    def joined(self, parts: Mapping[int, Listed], manifest: Manifest) -> Dict[int, Listed]:
        """The parts of a list with the rows of each. A day that has none is an index of its own. Refuses rows that are none there, and by
        `GridError` a list that has given a new name's number to another one since."""
        if manifest.grid is not None:
            there = manifest.grid.names
            for number, name in self.new_names.items():
                if there.get(number, name) != name or (number not in there and name in there.values()):
                    raise GridError(f"{name} of the tail has number {number}, and the archive has given numbers since: open it again")
        alone = [number for number in self._files if number not in parts and number not in self._built]
        built = {number: build_part(self._order(number, manifest)) for number in alone}
        self.refuse(built)
        for number, part in built.items():
            assert isinstance(part, Part)
            self._built[number] = Listed(part.file, number, part, manifest.cut, manifest.cell, manifest.tick, manifest.period)
        tailed = {number: dataclasses.replace(parts[number], tail=file) for number, file in self._files.items() if number in parts}
        others = {number: self._built[number] for number in self._files if number not in parts}
        return {**parts, **tailed, **others}

    def _order(self, number: int, manifest: Manifest) -> Order:
        numbers = (manifest.cell, manifest.tick, manifest.period)
        return Order(self.program, tuple(self._pieces[number]), str(self._held.path / f"{number}.idx"), numbers)

    def refuse(self, outcomes: Mapping[int, Any]) -> None:
        """Raises the refusal of rows of a day, if there is one: of rows that are none the first one of all, by its place."""
        refuse_first({number: found for number, found in outcomes.items() if isinstance(found, GractError)}, self.sources, self._cut)

    def let_go(self) -> None:
        """Takes the files away."""
        self._held.let_go()


def new_names(grid: Optional[Grid], joined: Optional[Grid]) -> Dict[int, str]:
    """The names that a grid has more than another one."""
    if grid is None or joined is None:
        return {}
    return {number: name for number, name in joined.names.items() if number not in grid.names}
