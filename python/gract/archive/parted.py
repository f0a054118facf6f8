"""`Parted`: a folder of parts that is asked as one index."""

from collections import OrderedDict
from pathlib import Path
from types import TracebackType
from typing import (
    Any, ClassVar, Collection, Dict, Iterator, List, Mapping, NamedTuple, NoReturn, Optional, Protocol, Sequence, Tuple, Type, TypeVar,
    Union,
)

from ..answers import Facts, Hit
from ..asking import Asked
from ..child import Reply
from ..errors import (
    ArgumentError, ChangedError, ClosedError, FormatError, GractError, GridError, LimitError, LoadError, ManifestError, OtherFileError,
    PartsError,
)
from ..grid import Grid
from ..index import Index
from ..program import Name, file_word, find_program
from ..questions import EVERYWHERE, Info, Interval, Meet
from ..turns import Turn, in_turn
from .manifest import ByObject, Listed, Manifest, digest_of
from .routes import Route, Router

# What a part is refused by whose file is not what it was.
DAMAGE = (FormatError, LoadError, LimitError, ChangedError, OtherFileError)

# How many parts are open at once in a process, each with a child of its own.
MOST_OPEN = 64

Outcome = Union[List[Reply], GractError]
Self = TypeVar("Self", bound="Parted")


class Span(NamedTuple):
    """The first and the last instant of all parts."""

    first: int
    last: int


class Asker(Protocol):
    """Who asks parts: here, or by workers."""

    def ask(self, parts: Mapping[int, Listed], lines: Mapping[int, List[bytes]]) -> Dict[int, Outcome]:
        """The replies of each of these parts to the first of its lines, or that it is damaged. Raises any other refusal."""

    def keep(self, parts: Collection[Listed]) -> None:
        """Lets go of all parts but these."""

    def close(self) -> None:
        """Ends what was begun for it."""


class Opener:
    """Indices of parts that are open; of more than `most` those are closed that were asked longest ago."""

    def __init__(self, program: str, most: int):
        self.program, self.most = program, most
        self._open: "OrderedDict[Listed, Index]" = OrderedDict()

    def ask(self, listed: Listed, lines: List[bytes]) -> Outcome:
        """The replies of a part to the first of lines, or that it is damaged."""
        try:
            return self._index(listed)._first(lines)
        except DAMAGE as refusal:
            return refusal

    def _index(self, listed: Listed) -> Index:
        index = self._open.pop(listed, None) or open_part(listed, self.program)
        self._open[listed] = index
        while len(self._open) > self.most:
            self._open.popitem(last=False)[1]._drop()
        return index

    def indices(self) -> List[Index]:
        """Those that are open."""
        return list(self._open.values())

    def keep(self, parts: Collection[Listed]) -> None:
        """Closes all but these."""
        for listed in [listed for listed in self._open if listed not in parts]:
            self._open.pop(listed)._drop()

    def close(self) -> None:
        """Closes all."""
        while self._open:
            self._open.popitem()[1]._drop()


def open_part(listed: Listed, program: str) -> Index:
    """The index of a part, with its tail, if it has one. Refuses, by `OtherFileError`, one that is not what the list says: another file, or
    of other days, cells or objects."""
    index = Index(listed.file, program=program)
    try:
        digest = digest_of(listed.file)
        index.refuse_changed()
        if digest != listed.part.sha256:
            raise OtherFileError(listed.file, "it has another sha256")
        for why in (*listed.differences(index.facts), *strangers(listed, index)):
            raise OtherFileError(listed.file, why)
        return index if listed.tail is None else index.with_tail(listed.tail)
    except BaseException:
        index._drop()
        raise
    finally:
        if listed.tail is not None:
            index._drop()


def strangers(listed: Listed, index: Index) -> Iterator[str]:
    """What objects an index has that are not of its part, where parts are by object."""
    if isinstance(listed.cut, ByObject):
        hits: List[Hit] = next(index.ask([Interval(*index.window(None, None), EVERYWHERE)]))
        for hit in hits:
            if listed.cut.part(hit.object) != listed.number:
                yield f"it has object {hit.object}, which is of part {listed.cut.part(hit.object)}"


class Here:
    """Asks parts in this process, one after the other, and for one thread at a time."""

    def __init__(self, what: str, program: str, most: int = MOST_OPEN):
        self._opener = Opener(program, most)
        self._turn = Turn(what)

    @in_turn
    def ask(self, parts: Mapping[int, Listed], lines: Mapping[int, List[bytes]]) -> Dict[int, Outcome]:
        """The replies of each of these parts to the first of its lines, or that it is damaged."""
        return {number: self._opener.ask(parts[number], asked) for number, asked in lines.items()}

    @in_turn
    def keep(self, parts: Collection[Listed]) -> None:
        """Closes all indices but those of these parts."""
        self._opener.keep(parts)

    @in_turn
    def close(self) -> None:
        """Closes all indices."""
        self._opener.close()


class View:
    """The parts of a folder as they were when its list was read, and those of them that were found to be damaged since."""

    def __init__(self, manifest: Manifest, parts: Mapping[int, Listed]):
        self.manifest, self.parts = manifest, dict(parts)
        self.damaged: Dict[int, GractError] = {}
        self.router = Router(manifest.cut, manifest.tick, parts)

    def leave_out(self, refused: Mapping[int, GractError]) -> None:
        """Leaves parts out from now on."""
        self.damaged = {**self.damaged, **refused}
        self.router = Router(self.manifest.cut, self.manifest.tick, self.parts, list(self.damaged))


class Parted(Asked):
    """The parts of a folder, asked as one index: the answers are those of one index over all rows. It is a context manager. `Asked`
    says what arguments may be, and has its questions.

    Where a part is damaged the question is refused, by `PartsError`, with its name and flaw. With `partial` the other parts answer
    without it, and the answer's `notes` and `damaged` say so; a question that no other part can answer is refused all the same.

    The list is read when it is opened. Parts that were added since are asked after `refresh`; one that was replaced answers as it did, for
    a day, and is a `ChangedError` afterwards.
    """

    not_asked = {**Asked.not_asked, "info": "is told for each part, by the method info"}
    not_asked.update(dict.fromkeys(("hold", "more", "free"), "is asked of one index"))

    # Whether parts are asked by whole names, also from elsewhere.
    has_whole_names: ClassVar[bool] = False

    def __init__(self, folder: Path, manifest: Manifest, asker: Asker, program: str, partial: bool, grid: Optional[Grid]):
        self.folder, self.program, self.partial = folder, program, partial
        self._given_grid = grid
        self._asker: Optional[Asker] = asker
        self._take(self._view_of(manifest))

    def _view_of(self, manifest: Manifest) -> View:
        """The parts of a list."""
        return View(manifest, manifest.listed(self.folder.resolve() if self.has_whole_names else self.folder))

    def _take(self, view: View) -> None:
        """Asks these parts from now on."""
        # What is refused here changes nothing.
        facts = self._span(view)
        self.grid = self._given_grid if self._given_grid is not None else view.manifest.grid
        self.facts, self._view = facts, view

    def _span(self, view: View) -> Span:
        """The first and the last instant of parts."""
        parts = [listed.part for listed in view.parts.values()]
        return Span(min(part.first for part in parts), max(part.last for part in parts))

    @property
    def manifest(self) -> Manifest:
        """The list of the parts."""
        return self._view.manifest

    @property
    def damaged(self) -> Dict[int, GractError]:
        """The refusal of each part that is left out, by its number."""
        return self._view.damaged

    def refresh(self) -> bool:
        """Reads the list anew, and goes on with all parts that are unchanged; whether it is another list. Refuses as `open` does, and then
        goes on as before."""
        if self._asker is None:
            raise ClosedError(f"the parts of {self.folder}")
        _, manifest, _ = load(self.folder, type(self._view.manifest.cut), self.program, self._given_grid)
        is_other = manifest != self._view.manifest
        view = self._view_of(manifest)
        self._take(view)
        self._asker.keep(set(view.parts.values()))
        return is_other

    def _has(self, number: int) -> bool:
        # Days are not all opened for it.
        question = Meet(number, number, self.facts.first, self.facts.last, 0)
        return not isinstance(self.manifest.cut, ByObject) or bool(self._answer(question))

    def _no_grid(self) -> str:
        return "give grid= where the parts are built or opened"

    def info(self) -> Dict[int, Facts]:
        """The facts of each part that answers, by its number."""
        view = self._view
        replies = self._replies(view, {number: [b"info\n"] for number in view.parts if number not in view.damaged})
        return {number: self._read(Info, found[0]) for number, found in sorted(replies.items())}

    def _noted(self, notes: Sequence[str] = ()) -> Sequence[str]:
        return [*notes, *(f"without part {number}: {refusal.sentence}" for number, refusal in sorted(self.damaged.items()))]

    def _first(self, lines: Sequence[bytes]) -> List[Reply]:
        view = self._view
        while True:
            routes = [self._answered(view, view.router.route(line)) for line in lines]
            wanted: Dict[int, List[bytes]] = {}
            for route in routes:
                for part, line in route.asked:
                    wanted.setdefault(part, []).append(line)
            found = self._replies(view, wanted)
            if found.keys() == wanted.keys():
                return list(joined(routes, {part: iter(replies) for part, replies in found.items()}))

    def _answered(self, view: View, route: Route) -> Route:
        """A route without damaged parts. Of one that has no other any part is asked, for whether its line is bad."""
        damaged = view.damaged
        asked = [(part, line) for part, line in route.asked if part not in damaged]
        if asked and (len(asked) == len(route.asked) or not route.needs_all):
            return route._replace(asked=asked)
        lost = {part: damaged[part] for part, _ in route.asked if part in damaged}
        if len(damaged) == len(view.parts):
            refuse(view, lost)
        return Route([(view.router.any, route.asked[0][1])], lambda replies: refuse(view, lost))

    def _replies(self, view: View, lines: Mapping[int, List[bytes]]) -> Dict[int, List[Reply]]:
        """The replies to the first lines of parts that are not damaged. Those that are found to be are left out from now on, or refused;
        and where the folder's list has another file for one it is not damaged, but replaced."""
        asker = self._asker
        if asker is None:
            raise ClosedError(f"the parts of {self.folder}")
        outcomes = asker.ask({number: view.parts[number] for number in lines}, lines)
        refused = {part: outcome for part, outcome in outcomes.items() if isinstance(outcome, GractError)}
        if refused:
            self._refuse_replaced(view, refused)
            if not self.partial:
                refuse(view, refused)
            view.leave_out(refused)
        return {part: outcome for part, outcome in outcomes.items() if not isinstance(outcome, GractError)}

    def _refuse_replaced(self, view: View, refused: Mapping[int, GractError]) -> None:
        """Refuses, by `ChangedError`, where the folder's list has another file by now for one of these parts, or none."""
        try:
            there = Manifest.load(self.folder).parts
        except ManifestError:
            return
        for number in refused:
            known = view.manifest.parts.get(number)
            if known is not None and (number not in there or there[number].file != known.file):
                raise ChangedError(view.parts[number].file, ChangedError.REFRESH)

    def close(self) -> None:
        """Ends what was begun to ask. A second time it does nothing."""
        asker, self._asker = self._asker, None
        if asker is not None:
            asker.close()

    def __enter__(self: Self) -> Self:
        return self

    def __exit__(self, kind: Optional[Type[BaseException]], fault: Optional[BaseException], trace: Optional[TracebackType]) -> None:
        self.close()

    def __repr__(self) -> str:
        state = "closed" if self._asker is None else f"instants {self.facts.first} to {self.facts.last}"
        return f"<{type(self).__name__} {self.folder}: {len(self._view.parts)} parts, {state}>"


def refuse(view: View, lost: Mapping[int, GractError]) -> NoReturn:
    """Refuses what asks parts that are damaged."""
    raise PartsError(lost, len(view.parts))


def joined(routes: Sequence[Route], given: Mapping[int, Iterator[Reply]]) -> Iterator[Reply]:
    """The replies to the first lines, as far as the replies of all parts go that they were asked of."""
    for route in routes:
        replies = [next(given[part], None) for part, _ in route.asked]
        told = [reply for reply in replies if reply is not None]
        if len(told) < len(replies):
            return
        yield route.reply(told)


def load(path: Name, cut: Type[Any], program: Optional[Name], grid: Optional[Grid],
         needs_program: bool = True) -> Tuple[Path, Manifest, str]:
    """The list of a folder of parts that are cut so, and the program, where it is needed. Refuses, by `ManifestError`, a folder that has
    none, by `ArgumentError` parts that are cut otherwise, and by `GridError` a grid that is not that of the parts."""
    folder = Path(file_word("path", path))
    manifest, found = Manifest.load(folder), find_program(program) if needs_program else ""
    if not isinstance(manifest.cut, cut):
        raise ArgumentError("path", f"the parts of {folder} are cut by {manifest.cut.name}, and not by {cut.name}")
    if grid is not None and not isinstance(grid, Grid):
        raise ArgumentError("grid", f"{grid!r} is no gract.Grid")
    if grid is not None and (grid.cell, grid.tick) != (manifest.cell, manifest.tick):
        built = f"cell {manifest.cell} and tick {manifest.tick}"
        raise GridError(f"the grid has cell {grid.cell} and tick {grid.tick}, and the parts of {folder} were built with {built}")
    return folder, manifest, found
