"""Questions with their replies, as what they say: tracks, regions, and rows that were found."""

import argparse
import csv
from dataclasses import dataclass
from typing import Dict, Iterable, Iterator, List, Optional, Sequence, Tuple, Type, TypeVar, Union

from ..errors import ArgumentError, SourceError
from ..names import read_names, shown
from ..planes import Degrees, Metres, Plane

# How many numbers a line of the reply to each kind of question has.
WIDTHS = {"position": 2, "path": 3, "more": 3, "slice": 3, "interval": 4, "nearest": 4, "meet": 5}
KINDS = (*WIDTHS, "info", "hold", "free")

# The most bytes of a file of questions or of replies that is drawn.
MOST_BYTES = 1 << 30

# How many numbers follow the word of a shape.
SHAPES = {"rect": 4, "disc": 3}

# An instant and a cell, x and y.
Stop = Tuple[int, int, int]
Asked = Tuple[List[str], Optional[List[str]]]


@dataclass
class Track:
    """Rows of one object by their instants, each an instant and a cell."""

    number: int
    stops: List[Stop]

    def pieces(self) -> Iterator[List[Stop]]:
        """The rows cut where an instant has none."""
        piece: List[Stop] = []
        for stop in self.stops:
            if piece and stop[0] > piece[-1][0] + 1:
                yield piece
                piece = []
            piece.append(stop)
        yield piece


@dataclass
class Region:
    """A rect or a disc in cells, and the instants that were asked for."""

    kind: str
    numbers: List[int]
    first: int
    last: int

    @property
    def text(self) -> str:
        """The words of a question that ask for it."""
        return " ".join([self.kind, *map(str, self.numbers)])


@dataclass
class Hit:
    """A row that was found: by any question but a path. It tells its own instant where `dated`."""

    kind: str
    number: int
    instant: int
    x: int
    y: int
    dated: bool = False


@dataclass
class Target:
    """The cell to which the nearest were asked for."""

    x: int
    y: int
    instant: int


Told = Union[Track, Region, Hit, Target]
Kind = TypeVar("Kind", Track, Region, Hit, Target)


def lines_of(name: str) -> List[str]:
    """The lines of a file of questions or of replies."""
    try:
        with open(name, encoding="utf-8") as lines:
            text = lines.read(MOST_BYTES + 1)
    except UnicodeDecodeError:
        raise SourceError(f"{name} is no text") from None
    if len(text) > MOST_BYTES:
        raise SourceError(f"{name} has more than {MOST_BYTES:,} characters")
    return text.split("\n")


def numbers_in(line: str, width: int, question: str) -> List[int]:
    """The numbers of a line of a reply; refuses what is none of that question."""
    try:
        numbers = [int(word) for word in line.split()]
    except ValueError:
        numbers = []
    if len(numbers) != width:
        raise SourceError(f"the replies are not those to the questions: {line!r} stands for {question!r}")
    return numbers


def regions_in(words: Sequence[str], first: int, last: int) -> List[Region]:
    """The shapes of a region, each as a region of its own: one shape, or those that follow `any N`."""
    rest, shapes = words[2:] if words[0] == "any" else words, []
    while rest:
        past = 1 + SHAPES.get(rest[0], 0)
        if past == 1 or len(rest) < past:
            raise SourceError(f"the replies are not those to the questions: {' '.join(words)[:60]!r} is no region")
        shapes.append(Region(rest[0], [int(word) for word in rest[1:past]], first, last))
        rest = rest[past:]
    return shapes


def pairs(questions: Iterable[str], replies: Iterable[str]) -> Iterator[Asked]:
    """Each question as words, with the lines of its reply but the last; None for a bad line."""
    lines = iter(replies)
    for question in questions:
        words = question.split()
        if not words or words[0].startswith("#"):
            continue
        reply: Optional[List[str]] = []
        for line in lines:
            first = line.split()[:1]
            if first == ["bad"]:
                reply = None
            if first in (["bad"], ["ok"]):
                break
            if reply is not None:
                reply.append(line)
        else:
            raise SourceError(f"there is no reply to: {question.strip()}")
        yield words, reply


class Answers:
    """What questions and their replies say, and the cell and the tick that an `info` among them tells, or else 1."""

    def __init__(self, questions: str, replies: str):
        self.told: List[Told] = []
        self.cell = self.tick = 1
        self.held: Dict[int, int] = {}
        for words, reply in pairs(lines_of(questions), lines_of(replies)):
            if reply is not None:
                if words[0] not in KINDS:
                    raise SourceError(f"{questions} is no file of questions: {' '.join(words)[:60]!r}")
                self.add(words, reply)

    def add(self, words: List[str], reply: List[str]) -> None:
        """Adds what a reply says."""
        kind, question = words[0], " ".join(words)
        if kind == "info":
            facts = dict(line.split() for line in reply if len(line.split()) == 2)
            if not (facts.get("cell", "").isdigit() and facts.get("tick", "").isdigit()):
                raise SourceError("the replies are not those to the questions: an info tells no cell and tick")
            self.cell, self.tick = int(facts["cell"]), int(facts["tick"])
        elif kind == "hold":
            self.held[int(words[1])] = int(words[2])
        elif kind in WIDTHS:
            self.add_rows(kind, words, [numbers_in(line, WIDTHS[kind], question) for line in reply])

    def add_rows(self, kind: str, words: List[str], rows: List[List[int]]) -> None:
        """Adds the rows of a reply."""
        if kind in ("path", "more"):
            number = int(words[1])
            if rows:
                self.told.append(Track(number if kind == "path" else self.held[number], [(instant, x, y) for instant, x, y in rows]))
        elif kind == "position":
            self.told += [Hit(kind, int(words[1]), int(words[2]), x, y, True) for x, y in rows]
        elif kind == "slice":
            instant = int(words[1])
            self.told += regions_in(words[2:], instant, instant)
            self.told += [Hit(kind, number, instant, x, y) for number, x, y in rows]
        elif kind == "interval":
            self.told += regions_in(words[3:], int(words[1]), int(words[2]))
            self.told += [Hit(kind, number, instant, x, y, True) for number, instant, x, y in rows]
        elif kind == "meet":
            for instant, *cells in rows:
                both = (words[1], cells[:2]), (words[2], cells[2:])
                self.told += [Hit(kind, int(number), instant, x, y, True) for number, (x, y) in both]
        else:
            instant = int(words[2])
            self.told.append(Target(int(words[3]), int(words[4]), instant))
            self.told += [Hit(kind, number, instant, x, y) for number, x, y, _ in rows]

    def of(self, kind: Type[Kind]) -> List[Kind]:
        """What is told of one kind."""
        return [it for it in self.told if isinstance(it, kind)]


def names_in(file: Optional[str]) -> Dict[int, str]:
    """What objects are called, by a CSV file object,name."""
    if not file:
        return {}
    try:
        return {number: shown(name) for number, name in read_names(file)}
    except (ValueError, csv.Error):
        raise SourceError(f"{file} is no file of names: each line has a number, a comma and a name, after a heading") from None


def add_plane(parser: argparse.ArgumentParser) -> None:
    """The words that say what the rows' plane and units are."""
    parser.add_argument("--unit", type=int, default=1, metavar="SECONDS", help="of a unit of time of the rows (1)")
    choice = parser.add_mutually_exclusive_group()
    choice.add_argument("--middle", type=float, metavar="LATITUDE", help="the rows are metres round this latitude")
    choice.add_argument("--per-degree", type=int, metavar="N", help="the rows are in degrees, N units to each")
    parser.add_argument("--names", metavar="FILE", help="a CSV file object,name with what to call the objects")


def plane_of(words: argparse.Namespace) -> Optional[Plane]:
    """The plane that the words say; None where they say none."""
    if words.middle is not None:
        if not -89 <= words.middle <= 89:
            raise ArgumentError("--middle", f"{words.middle} is not from -89 to 89")
        return Metres(words.middle)
    if words.per_degree is not None and words.per_degree < 1:
        raise ArgumentError("--per-degree", f"{words.per_degree} is not 1 or more")
    return None if words.per_degree is None else Degrees(words.per_degree)
