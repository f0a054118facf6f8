"""`Manifest`: the list of the parts of a folder, and what it says of each.

Nothing of it is believed that can be looked at: a list that cannot be right is refused, and each part is compared with it when it is
opened. A list of form 2 has a sum of its own, so that a digit which a disk has changed is told. Form 1, which has none and counts no rows,
is read too.
"""

import dataclasses
import hashlib
import json
import re
from pathlib import Path
from typing import Any, ClassVar, Dict, Iterator, Mapping, Optional, Type, Union

from ..answers import Facts
from ..building import PERIODS, UNITS
from ..errors import LoadError, ManifestError
from ..grid import Grid, whole
from ..plain_json import read_json
from ..program import why_unread
from ..questions import INSTANT, OBJECT, Range

# The form that is written, and an older one that is read.
FORM, OLD_FORM = 2, 1
LIST = "parts.json"
NUMBER = re.compile(r"0|-?[1-9][0-9]{0,12}")
DIGEST = re.compile(r"[0-9a-f]{64}")

# The names of part files.
PART = re.compile(rf"part_({NUMBER.pattern})_[0-9a-f]{{12}}\.idx")

# How many bytes are read at once.
READ = 1 << 20

# How many parts there may be by object, and how many units of time a part may have.
COUNTS = (1, 4096)
LENGTHS = (1, 2**40)

# The range of a moment, in seconds since 1970.
MOMENTS = (0, 2**40)

# What is counted of a part, with its range.
COUNTED: Dict[str, Range] = {"rows": (1, 2**32), "objects": (1, 2**32), "greatest": OBJECT, "bytes": (1, 2**40)}


@dataclasses.dataclass(frozen=True)
class ByObject:
    """Parts by object: that of an object is its number modulo `size`."""

    size: int
    name: ClassVar[str] = "object"
    called: ClassVar[str] = "remainder"
    field: ClassVar[int] = 0
    sizes: ClassVar[Range] = COUNTS

    def part(self, number: int) -> int:
        """The part of rows with that number in their field."""
        return number % self.size


@dataclasses.dataclass(frozen=True)
class ByTime:
    """Parts by time: each has `size` units of time of the rows, which are whole instants, and part N begins with time N * size."""

    size: int
    name: ClassVar[str] = "time"
    called: ClassVar[str] = "day"
    field: ClassVar[int] = 1
    sizes: ClassVar[Range] = LENGTHS

    def part(self, number: int) -> int:
        """The part of rows with that number in their field."""
        return number // self.size


Cut = Union[ByObject, ByTime]
CUTS: Dict[str, Type[Cut]] = {ByObject.name: ByObject, ByTime.name: ByTime}


@dataclasses.dataclass(frozen=True)
class Part:
    """An index file of a folder of parts, its sha256, and the first and the last instant of its rows; and, but in a list of form 1, how
    many rows and objects it has, the greatest number of an object, and how many bytes."""

    file: str
    sha256: str
    first: int
    last: int
    rows: Optional[int] = dataclasses.field(default=None, compare=False)
    objects: Optional[int] = dataclasses.field(default=None, compare=False)
    greatest: Optional[int] = dataclasses.field(default=None, compare=False)
    bytes: Optional[int] = dataclasses.field(default=None, compare=False)

    @classmethod
    def of(cls, told: Dict[str, Any], number: int, called: str, form: int) -> "Part":
        """The part of that number in a list, where numbers are called so. Raises ValueError, TypeError or KeyError for what is none, a file
        of another folder for example."""
        sha256, first = told["sha256"], whole("first", told["first"], *INSTANT)
        if not DIGEST.fullmatch(sha256):
            raise ValueError(f"{sha256!r} is no sha256")
        if told["file"] != name_of(number, sha256):
            raise ValueError(f"{told['file']!r} is no name of part {number} with sha256 {sha256}")
        counts: Dict[str, Optional[int]] = {}
        if form == FORM:
            if whole(called, told[called], -2**62, 2**62) != number:
                raise ValueError(f"part {number} has {called} {told[called]}")
            counts = {name: None if told[name] is None else whole(name, told[name], *span) for name, span in COUNTED.items()}
        return cls(told["file"], sha256, first, whole("last", told["last"], first, INSTANT[1]), **counts)


def name_of(number: int, sha256: str) -> str:
    """The name of a part's file, which tells its bytes from others."""
    return f"part_{number}_{sha256[:12]}.idx"


@dataclasses.dataclass(frozen=True)
class Listed:
    """All that a list says of one of its parts, with the file's whole name, and that of a CSV file of rows that are asked with it."""

    file: str
    number: int
    part: Part
    cut: Cut
    cell: int
    tick: int
    period: int
    tail: Optional[str] = None

    def differences(self, facts: Facts) -> Iterator[str]:
        """In what the facts of an index differ from the list."""
        for name in ("cell", "tick", "period"):
            found, said = getattr(facts, name), getattr(self, name)
            if found != said:
                yield f"it has {name} {found}, and the list says {said}"
        if (facts.first, facts.last) != (self.part.first, self.part.last):
            yield f"it has instants {facts.first} to {facts.last}, and the list says {self.part.first} to {self.part.last}"
        if self.part.objects not in (None, facts.objects):
            yield f"it has {facts.objects} objects, and the list says {self.part.objects}"


@dataclasses.dataclass(frozen=True)
class Manifest:
    """The parts of a folder by their numbers, and what all have in common. A part that has no row is not there. `replaced` are files that
    were parts before, each with the moment (seconds since 1970) from which on it is none: who opened the list before may still ask them."""

    cut: Cut
    cell: int
    tick: int
    period: int
    parts: Dict[int, Part]
    grid: Optional[Grid] = None
    replaced: Mapping[str, int] = dataclasses.field(default_factory=dict)

    @property
    def text(self) -> str:
        """What there is, in a few words."""
        first, last = min(part.first for part in self.parts.values()), max(part.last for part in self.parts.values())
        count = "1 part" if len(self.parts) == 1 else f"{len(self.parts)} parts"
        return f"{count} by {self.cut.name}, with instants {first} to {last}"

    @property
    def files(self) -> Dict[str, int]:
        """The names of all files that it has, each with the number of its part, or of the part that it was."""
        there = {part.file: number for number, part in self.parts.items()}
        return {**{name: number_of_file(name) for name in self.replaced}, **there}

    def listed(self, folder: Path) -> Dict[int, Listed]:
        """The parts of a folder by their numbers, each with all that this list says of it."""
        common = (self.cut, self.cell, self.tick, self.period)
        return {number: Listed(str(folder / part.file), number, part, *common) for number, part in sorted(self.parts.items())}

    def as_dict(self) -> Dict[str, Any]:
        """What a list says, with its sum."""
        told: Dict[str, Any] = {"form": FORM, "by": self.cut.name, "size": self.cut.size}
        told.update(cell=self.cell, tick=self.tick, period=self.period)
        told["parts"] = {
            str(number): {self.cut.called: number, **dataclasses.asdict(part)} for number, part in sorted(self.parts.items())
        }
        told["replaced"] = dict(sorted(self.replaced.items()))
        told["grid"] = None if self.grid is None else self.grid.as_dict()
        return {**told, "sum": sum_of(told)}

    def save(self, file: Path) -> None:
        """Writes the list into a file."""
        file.write_text(json.dumps(self.as_dict(), ensure_ascii=False, indent=1) + "\n", encoding="utf-8")

    @classmethod
    def load(cls, folder: Path, name: str = LIST) -> "Manifest":
        """The list of a folder. Refuses, by `ManifestError`, what is none, and what cannot be right."""
        file = folder / name
        try:
            return cls.of(read_json(file))
        except OSError:
            raise ManifestError(str(file), why_unread(str(file))) from None
        except KeyError as fault:
            raise ManifestError(str(file), f"{fault} is missing") from None
        except (ValueError, TypeError, AttributeError) as fault:
            raise ManifestError(str(file), str(fault)) from None

    @classmethod
    def of(cls, told: Dict[str, Any]) -> "Manifest":
        """What a list says. Raises ValueError, KeyError, TypeError or AttributeError for what is none."""
        form = whole("form", told["form"], 0, 2**30)
        if form not in (FORM, OLD_FORM):
            raise ValueError(f"it has form {form}, and this package reads forms {OLD_FORM} and {FORM}")
        if form == FORM and told["sum"] != sum_of(told):
            raise ValueError("its sum is another one than it says: it was changed since it was written")
        kind = CUTS[told["by"]]
        cut = kind(whole("size", told["size"], *kind.sizes))
        cell, tick = (whole(name, told[name], *UNITS) for name in ("cell", "tick"))
        parts = {number_of(text): Part.of(part, number_of(text), kind.called, form) for text, part in told["parts"].items()}
        replaced = {name: whole("replaced", moment, *MOMENTS) for name, moment in (told["replaced"].items() if form == FORM else ())}
        period, grid = whole("period", told["period"], *PERIODS), grid_of(told["grid"], cell, tick)
        found = cls(cut, cell, tick, period, parts, grid, replaced)
        found.check()
        return found

    def check(self) -> None:
        """Raises ValueError where the parts cannot be those of rows that were cut so."""
        if not self.parts:
            raise ValueError("it has no part")
        if len({part.sha256 for part in self.parts.values()}) < len(self.parts):
            raise ValueError("it has a part twice")
        if isinstance(self.cut, ByTime) and self.cut.size % self.tick:
            raise ValueError(f"its size {self.cut.size} is no multiple of its tick {self.tick}")
        for number, part in self.parts.items():
            ends = (part.first, part.last) if isinstance(self.cut, ByTime) else ()
            if isinstance(self.cut, ByObject) and not 0 <= number < self.cut.size:
                raise ValueError(f"it has part {number}, and there are {self.cut.size}")
            if any(self.cut.part(instant * self.tick) != number for instant in ends):
                raise ValueError(f"the instants {part.first} to {part.last} are not all of part {number}")
            if isinstance(self.cut, ByObject) and part.greatest is not None and self.cut.part(part.greatest) != number:
                raise ValueError(f"the object {part.greatest} is not of part {number}")
        for name in self.replaced:
            number_of_file(name)


def number_of(text: str) -> int:
    """The number of a part. Raises ValueError for a text that is none, or that is written otherwise."""
    if not NUMBER.fullmatch(text):
        raise ValueError(f"{text!r} is no number of a part")
    return int(text)


def number_of_file(name: str) -> int:
    """The number of the part of which a file's name is one. Raises ValueError for a name that is none."""
    found = PART.fullmatch(name)
    if not found:
        raise ValueError(f"{name!r} is no name of a part")
    return int(found.group(1))


def sum_of(told: Mapping[str, Any]) -> str:
    """The sum of all that a list says but its sum: the sha256 of its JSON in one line, with names in order and no blanks."""
    rest = {name: value for name, value in told.items() if name != "sum"}
    return hashlib.sha256(json.dumps(rest, sort_keys=True, separators=(",", ":")).encode("ascii")).hexdigest()


def grid_of(told: Any, cell: int, tick: int) -> Optional[Grid]:
    """The grid of parts that were built with that cell and that tick. Raises ValueError for what is none."""
    grid = None if told is None else Grid.from_dict(told)
    if grid is not None and (grid.cell, grid.tick) != (cell, tick):
        raise ValueError(f"its grid has cell {grid.cell} and tick {grid.tick}, and its parts cell {cell} and tick {tick}")
    return grid


def digest_of(file: str) -> str:
    """The sha256 of a file. Refuses, by `LoadError`, one that cannot be read."""
    digest = hashlib.sha256()
    try:
        with open(file, "rb") as data:
            for piece in iter(lambda: data.read(READ), b""):
                digest.update(piece)
    except OSError:
        raise LoadError(file, why_unread(file)) from None
    return digest.hexdigest()
