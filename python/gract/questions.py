"""The kinds of questions, in one table: `KINDS`. A new kind of the program is a class here and a line there.

A question is made with whole numbers alone, of cells and instants, and is refused at once, by `ArgumentError`, where the
program would call its line bad. So no question of these is ever a bad line.
"""

import dataclasses
import operator
from typing import Any, Callable, ClassVar, Dict, List, NamedTuple, Optional, Tuple, Type, Union

from . import answers
from .errors import ArgumentError
from .grid import whole

# The ranges of words, as docs/QUESTIONS.md has them.
OBJECT = COUNT = (0, 2**32 - 1)
INSTANT = COORDINATE = (-2**41, 2**41)
RADIUS = (0, 2**42)
SLOT = (0, 15)

# How many shapes a region has at most, and how many bytes a line.
MOST_SHAPES, MOST_BYTES = 16, 1024

Range = Tuple[int, int]


class Rect(NamedTuple):
    """The cells from X1 to X2 and from Y1 to Y2, both counted; none where they are the wrong way round."""

    x1: int
    y1: int
    x2: int
    y2: int

    def contains(self, x: int, y: int) -> bool:
        """Whether the region has that cell."""
        return self.x1 <= x <= self.x2 and self.y1 <= y <= self.y2


class Disc(NamedTuple):
    """The cells whose squared distance from (X, Y) is at most R times R."""

    x: int
    y: int
    r: int

    def contains(self, x: int, y: int) -> bool:
        """Whether the region has that cell."""
        return (x - self.x) ** 2 + (y - self.y) ** 2 <= self.r**2


Shape = Union[Rect, Disc]

# Each kind of shape: its word, and the ranges of its numbers.
SHAPES: Dict[Type[Any], Tuple[str, Tuple[Range, ...]]] = {
    Rect: ("rect", (COORDINATE,) * 4),
    Disc: ("disc", (COORDINATE, COORDINATE, RADIUS)),
}


class Zone(NamedTuple):
    """The cells that are in at least one of up to sixteen rectangles and discs."""

    shapes: Tuple[Shape, ...]

    def contains(self, x: int, y: int) -> bool:
        """Whether the region has that cell."""
        return any(shape.contains(x, y) for shape in self.shapes)


Region = Union[Rect, Disc, Zone]

EVERYWHERE = Rect(COORDINATE[0], COORDINATE[0], COORDINATE[1], COORDINATE[1])


def rect(x1: int, y1: int, x2: int, y2: int) -> Rect:
    """The cells from x1 to x2 and from y1 to y2, both counted. Refuses what are no coordinates of cells."""
    found: Rect = checked_region("rect", Rect(x1, y1, x2, y2))
    return found


def disc(x: int, y: int, r: int) -> Disc:
    """The cells whose distance from (x, y) is at most r. Refuses what are no coordinates, and a radius outside 0 to 2^42."""
    found: Disc = checked_region("disc", Disc(x, y, r))
    return found


def zone(*shapes: Shape) -> Zone:
    """The cells that are in at least one of 1 to 16 shapes, each a `rect` or a `disc`. Refuses another number of shapes, and what is no
    shape. A question line has 1,024 bytes, which hold sixteen shapes of usual numbers; the question refuses those that it does not."""
    found: Zone = checked_region("zone", Zone(shapes))
    return found


def checked_region(argument: str, region: Any) -> Any:
    """The region with plain whole numbers; refuses what is no region, by the name of the argument and of the number."""
    if type(region) is not Zone:
        return checked_shape(argument, region, "region: make one by rect(x1, y1, x2, y2), disc(x, y, r) or zone(shape, ..)")
    shapes = tuple(region.shapes) if isinstance(region.shapes, (tuple, list)) else ()
    if not 1 <= len(shapes) <= MOST_SHAPES:
        raise ArgumentError(argument, f"a zone has 1 to {MOST_SHAPES} shapes, and not {len(shapes)}")
    return Zone(tuple(
        checked_shape(f"{argument}: shape {nth}", shape, "rect or disc") for nth, shape in enumerate(shapes, 1)
    ))


def checked_shape(argument: str, shape: Any, wanted: str) -> Any:
    """The shape with plain whole numbers; refuses what is none, and says what is wanted."""
    if type(shape) not in SHAPES:
        raise ArgumentError(argument, f"{shape!r} is no {wanted}")
    numbers = zip(shape._fields, shape, SHAPES[type(shape)][1])
    return type(shape)(*(whole(f"{argument}: {name}", value, *span) for name, value, span in numbers))


def region_words(region: Region) -> str:
    """The words of a region in a question line."""
    if isinstance(region, Zone):
        return " ".join(["any", str(len(region.shapes)), *map(region_words, region.shapes)])
    return " ".join([SHAPES[type(region)][0], *map(str, region)])


def number(span: Range) -> Any:
    """A field that is a whole number in a range."""
    return dataclasses.field(metadata={"span": span})


def shaped() -> Any:
    """A field that is a region."""
    return dataclasses.field()


class Form:
    """The fields of a kind of question, each with its range, where a region has none, and the form of its line: how its fields become
    words. It is found once for each kind, since there may be very many questions."""

    def __init__(self, kind: Any):
        self.fields: Tuple[Tuple[str, Optional[Range]], ...] = tuple(
            (field.name, field.metadata.get("span")) for field in dataclasses.fields(kind)
        )
        names = [name for name, _ in self.fields]
        self.has_region = any(span is None for _, span in self.fields)
        self.line = " ".join([kind.word, *["%s" if span is None else "%d" for _, span in self.fields]])
        self._values: Callable[[Any], Any] = operator.attrgetter(*(names or ["word"]))

    def line_of(self, question: Any) -> str:
        """The line of a question of this kind, without its end."""
        if not self.fields:
            return self.line
        values = self._values(question)
        if self.has_region:
            values = tuple(value if type(value) is int else region_words(value) for value in values)
        line: str = self.line % values
        return line


FORMS: Dict[Any, Form] = {}


def form_of(kind: Any) -> Form:
    """The form of a kind of question."""
    found = FORMS.get(kind)
    if found is None:
        found = FORMS[kind] = Form(kind)
    return found


@dataclasses.dataclass(frozen=True)
class Question:
    """A question: its fields are the words of its line, in their order, and `row` is what a line of its reply is."""

    word: ClassVar[str]
    row: ClassVar[Type[Any]]
    # The fields that every row of the answer has in common.
    common: ClassVar[Tuple[str, ...]] = ()

    def __post_init__(self) -> None:
        for name, span in form_of(type(self)).fields:
            value = getattr(self, name)
            if span and type(value) is int and span[0] <= value <= span[1]:
                continue
            object.__setattr__(self, name, whole(name, value, *span) if span else checked_region(name, value))
            if type(value) is Zone and len(self.line) > MOST_BYTES:
                size = f"{len(value.shapes)} shapes make a line of {len(self.line)} bytes"
                raise ArgumentError(name, f"its {size}, and {MOST_BYTES} is the most")

    @classmethod
    def read(cls, lines: List[bytes]) -> Any:
        """The answer of the lines of a reply before its last. Raises ValueError or TypeError where they are others."""
        return [cls.row._make(map(int, line.split())) for line in lines]

    @property
    def line(self) -> str:
        """The question's line, without its end."""
        return form_of(type(self)).line_of(self)

    @property
    def asked(self) -> Dict[str, int]:
        """What every row of the answer has in common."""
        return {name: getattr(self, name) for name in self.common}


@dataclasses.dataclass(frozen=True)
class Position(Question):
    """Where an object was at an instant."""

    word = "position"
    row = answers.Cell
    common = ("object", "instant")
    object: int = number(OBJECT)
    instant: int = number(INSTANT)

    @classmethod
    def read(cls, lines: List[bytes]) -> Optional[answers.Cell]:
        """A cell, or None."""
        if not lines:
            return None
        line, = lines
        x, y = line.split()
        return answers.Cell(int(x), int(y))


@dataclasses.dataclass(frozen=True)
class Path(Question):
    """All rows of an object from one instant to another, both counted."""

    word = "path"
    row = answers.Stop
    common = ("object",)
    object: int = number(OBJECT)
    since: int = number(INSTANT)
    until: int = number(INSTANT)


@dataclasses.dataclass(frozen=True)
class Slice(Question):
    """Who was in a region at an instant."""

    word = "slice"
    row = answers.Sighting
    common = ("instant",)
    instant: int = number(INSTANT)
    region: Region = shaped()


@dataclasses.dataclass(frozen=True)
class Interval(Question):
    """Who was in a region at some instant of a window, and where first."""

    word = "interval"
    row = answers.Hit
    since: int = number(INSTANT)
    until: int = number(INSTANT)
    region: Region = shaped()


@dataclasses.dataclass(frozen=True)
class Nearest(Question):
    """Who was nearest to a cell at an instant."""

    word = "nearest"
    row = answers.Near
    common = ("instant",)
    count: int = number(COUNT)
    instant: int = number(INSTANT)
    x: int = number(COORDINATE)
    y: int = number(COORDINATE)


@dataclasses.dataclass(frozen=True)
class Meet(Question):
    """At which instant of a window two objects were first within a distance of each other, in cells, and where: one row or none."""

    word = "meet"
    row = answers.Meeting
    common = ("left", "right")
    left: int = number(OBJECT)
    right: int = number(OBJECT)
    since: int = number(INSTANT)
    until: int = number(INSTANT)
    reach: int = number(RADIUS)


@dataclasses.dataclass(frozen=True)
class Info(Question):
    """Facts of the index."""

    word = "info"
    row = answers.Facts

    @classmethod
    def read(cls, lines: List[bytes]) -> answers.Facts:
        """The facts, each line a name and a number."""
        told = {name.decode(): int(value) for name, value in (line.split() for line in lines)}
        if tuple(told) != cls.row._fields:
            raise ValueError("other facts")
        return answers.Facts(**told)


@dataclasses.dataclass(frozen=True)
class Hold(Question):
    """A slot is to hold a cursor over a path. `Index.held` asks it."""

    word = "hold"
    row = answers.Stop
    slot: int = number(SLOT)
    object: int = number(OBJECT)
    since: int = number(INSTANT)
    until: int = number(INSTANT)


@dataclasses.dataclass(frozen=True)
class More(Question):
    """The next rows of a slot's path. `Index.held` asks it."""

    word = "more"
    row = answers.Stop
    slot: int = number(SLOT)
    count: int = number(COUNT)


@dataclasses.dataclass(frozen=True)
class Free(Question):
    """A slot is to be empty. `Index.held` asks it."""

    word = "free"
    row = answers.Stop
    slot: int = number(SLOT)


class Other(Question):
    """A question that a later program answers and this package does not know: each line of its reply is a tuple of whole numbers."""

    @classmethod
    def read(cls, lines: List[bytes]) -> Any:
        """Tuples of whole numbers."""
        return [tuple(map(int, line.split())) for line in lines]


ALL: Tuple[Type[Question], ...] = (Position, Path, Slice, Interval, Nearest, Meet, Info, Hold, More, Free)
KINDS: Dict[str, Type[Question]] = {kind.word: kind for kind in ALL}

# The kinds of which a slot is a part: `Index.held` keeps the slots, and so nobody else may ask them.
SLOT_KINDS = ("hold", "more", "free")
