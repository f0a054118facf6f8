"""Questions as people type them: a word and arguments NAME=VALUE, on a command line or at a prompt."""

import inspect
import re
import shlex
import warnings
from typing import Any, Callable, Dict, Iterator, List, NamedTuple, Sequence, Tuple

from .answers import Answers, Cell
from .errors import ArgumentError, OutsideWarning
from .index import Index
from .questions import Zone, disc, rect, zone

WHOLE = re.compile(r"[+-]?\d+")
REAL = re.compile(r"[+-]?(\d+(\.\d*)?|\.\d+)")

REGION = ("box", "around", "metres", "rect", "disc", "zone")

# How many numbers follow the word of a shape, and what makes the shape of them.
SHAPES: Dict[str, Tuple[Callable[..., Any], int]] = {"rect": (rect, 4), "disc": (disc, 3)}

# The arguments of each question that can be typed. A method of that name answers it.
ASKED: Dict[str, Tuple[str, ...]] = {
    "position": ("object", "at"),
    "path": ("object", "since", "until"),
    "slice": ("at", *REGION),
    "interval": ("since", "until", *REGION),
    "nearest": ("count", "at", "place", "cell"),
    "meet": ("left", "right", "since", "until", "reach", "metres"),
    "last_known": ("at", "within", *REGION),
    "visits": ("since", "until", "gap", *REGION),
    "objects": (),
    "info": (),
}


def whole_or_text(argument: str, text: str) -> Any:
    """A whole number is an instant, an object's number or a number of instants; anything else is a time, a name or a length of time."""
    return int(text) if WHOLE.fullmatch(text) else text


def whole_number(argument: str, text: str) -> int:
    """A whole number."""
    if not WHOLE.fullmatch(text):
        raise ArgumentError(argument, f"{text} is no whole number")
    return int(text)


def real_number(argument: str, text: str) -> float:
    """A number, as 12.5."""
    if not REAL.fullmatch(text):
        raise ArgumentError(argument, f"{text} is no number")
    return float(text)


def listed(read: Callable[[str, str], Any]) -> Callable[[str, str], List[Any]]:
    """Numbers with commas or spaces between them."""
    return lambda argument, text: [read(argument, part) for part in re.split(r"[,\s]+", text.strip())]


def region(make: Callable[..., Any], count: int) -> Callable[[str, str], Any]:
    """A region of that many whole numbers."""

    def read(argument: str, text: str) -> Any:
        numbers = listed(whole_number)(argument, text)
        if len(numbers) != count:
            raise ArgumentError(argument, f"{text} has {len(numbers)} numbers, and {count} are wanted")
        return make(*numbers)

    return read


def shapes(argument: str, text: str) -> Zone:
    """A zone, of shapes as `rect 0 0 9 9 disc 20 5 3`."""
    words, found = re.split(r"[,\s]+", text.strip()), []
    while words:
        if words[0] not in SHAPES:
            raise ArgumentError(argument, f"{words[0]!r} is no shape: there are {' and '.join(SHAPES)}")
        make, count = SHAPES[words[0]]
        found.append(region(make, count)(argument, " ".join(words[1:1 + count])))
        words = words[1 + count:]
    return zone(*found)


class Argument(NamedTuple):
    """How an argument is read, what it is, and which argument of the method it becomes."""

    read: Callable[[str, str], Any]
    what: str
    name: str = ""


ARGUMENTS: Dict[str, Argument] = {
    "object": Argument(whole_or_text, "a number or a name"),
    "left": Argument(whole_or_text, "a number or a name"),
    "right": Argument(whole_or_text, "a number or a name"),
    "at": Argument(whole_or_text, "a time, as '2022-06-01 12:00' (UTC), or an instant"),
    "since": Argument(whole_or_text, "a time or an instant (the first)"),
    "until": Argument(whole_or_text, "a time or an instant (the last)"),
    "count": Argument(whole_number, "how many"),
    "place": Argument(listed(real_number), "LONGITUDE,LATITUDE"),
    "cell": Argument(listed(whole_number), "X,Y"),
    "within": Argument(whole_or_text, "a length of time, as '90 min', or of instants"),
    "gap": Argument(whole_or_text, "a length of time, as '90 min', or of instants"),
    "box": Argument(listed(real_number), "WEST,SOUTH,EAST,NORTH"),
    "around": Argument(listed(real_number), "LONGITUDE,LATITUDE, with metres="),
    "metres": Argument(real_number, "a distance on the ground, from around= or of two objects"),
    "reach": Argument(whole_number, "a distance in cells"),
    "rect": Argument(region(rect, 4), "X1,Y1,X2,Y2 in cells", "region"),
    "disc": Argument(region(disc, 3), "X,Y,R in cells", "region"),
    "zone": Argument(shapes, "shapes in cells, as 'rect 0,0,9,9 disc 20,5,3'", "region"),
}


class Told(NamedTuple):
    """An answer as records with their columns, and notes on how it was asked."""

    kind: str
    columns: Sequence[str]
    records: List[Dict[str, Any]]
    notes: Sequence[str] = ()


def split(line: str) -> List[str]:
    """The words of a line, where quotes hold blanks. Refuses an open quote."""
    try:
        return shlex.split(line)
    except ValueError as fault:
        raise ArgumentError("question", str(fault).lower()) from None


def arguments_of(kind: str, words: Sequence[str]) -> Dict[str, Any]:
    """The arguments of the method that answers a question. Refuses an unknown question, an argument that it has not, one that is given
    twice, and one that is missing."""
    if kind not in ASKED:
        raise ArgumentError("question", f"{kind} is none: there are {', '.join(ASKED)}")
    found: Dict[str, Any] = {}
    for word in words:
        name, sign, text = word.partition("=")
        if not sign or name not in ASKED[kind]:
            there = ", ".join(f"{known}=" for known in ASKED[kind]) or "none"
            raise ArgumentError(name or "question", f"{kind} has no such argument: there are {there}")
        target = ARGUMENTS[name].name or name
        if target in found:
            raise ArgumentError(name, "it is there twice")
        found[target] = ARGUMENTS[name].read(name, text)
    parameters = inspect.signature(getattr(Index, kind)).parameters.values()
    for parameter in parameters:
        if parameter.name != "self" and parameter.default is parameter.empty and parameter.name not in found:
            raise ArgumentError(parameter.name, f"it is missing: {ARGUMENTS[parameter.name].what}")
    return found


def told(index: Index, words: Sequence[str]) -> Told:
    """Asks a question as it is typed."""
    if not words:
        raise ArgumentError("question", f"there is none: there are {', '.join(ASKED)}")
    arguments = arguments_of(words[0], words[1:])
    # What a position warns of is told as notes are.
    with warnings.catch_warnings(record=True) as warned:
        warnings.simplefilter("always", OutsideWarning)
        answer = getattr(index, words[0])(**arguments)
    if words[0] == "info":
        return Told("info", answer._fields, [answer._asdict()])
    if words[0] == "position":
        asked = {"object": index.number(arguments["object"]), "instant": index.instant(arguments["at"])}
        notes = [str(warning.message) for warning in warned]
        answer = Answers([answer] if answer else [], Cell, grid=index.grid, asked=asked, notes=notes)
    return Told(words[0], answer.columns, list(answer.records()), answer.notes)


def help_lines() -> Iterator[str]:
    """What can be typed."""
    for kind, names in ASKED.items():
        yield f"{kind:<11} {' '.join(f'{name}=' for name in names)}".rstrip()
    yield ""
    for name, argument in ARGUMENTS.items():
        yield f"{name + '=':<11} {argument.what}"
