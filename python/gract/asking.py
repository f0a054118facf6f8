"""`Asked`: what can be asked of an index, and of many that are asked as one."""

import datetime
import itertools
from typing import Any, ClassVar, Iterable, Iterator, List, Mapping, Optional, Protocol, Sequence, Tuple, Type, Union

from . import derived, outside, questions
from .answers import Answers, Cell, Hit, Last, Life, Meeting, Near, Sighting, Stop, Visit
from .child import Reply
from .errors import ArgumentError, BadQuestion, ReplyError
from .grid import Grid, whole
from .planes import Degree
from .questions import INSTANT, KINDS, OBJECT, SLOT_KINDS, Disc, Question, Rect, Region
from .times import Duration, Time

Instant = Union[int, Time]
Object = Union[int, str]

# A batch of questions is doubled up to so many while their replies have fewer than `MOST_ROWS` rows together, and halved above.
MOST_BATCH = 1 << 15
MOST_ROWS = 1 << 16

# The last lines of most replies.
OKS = tuple(b"ok %d" % count for count in range(64))


class Ends(Protocol):
    """Facts that have the first and the last instant."""

    @property
    def first(self) -> int:
        """The first instant."""

    @property
    def last(self) -> int:
        """The last instant."""


class Asked:
    """What is asked by lines, and answers with named tuples. It has `program`, `grid` and `facts`, and `_first` answers lines.

    Instants are whole numbers; with a grid also times, as texts or datetimes (UTC, where they have no offset). Objects are numbers;
    with a grid that has names also names. A region is `rect(..)`, `disc(..)` or `zone(..)` in cells, or with a grid `box=(west, south,
    east, north)` in degrees, or `around=(longitude, latitude)` with `metres=`; without one it is everywhere. Degrees and metres are
    rounded outwards, so that no row is lost, and the answer's `notes` say how.

    Each method refuses a wrong argument by `ArgumentError` before the program is asked, and raises the program's own refusals.
    """

    program: str
    grid: Optional[Grid]
    facts: Ends

    # How many questions are asked first: more where an exchange takes long, and fewer where many long replies would be too much.
    first_batch: ClassVar[int] = 1

    # Words of questions that `ask` does not take, each with the reason.
    not_asked: ClassVar[Mapping[str, str]] = dict.fromkeys(SLOT_KINDS, "is asked by Index.held alone, which keeps the slots")

    def _first(self, lines: Sequence[bytes]) -> List[Reply]:
        """The replies to the first of lines, each with its end and at least one word: to all, but where they would have more bytes than are
        to be held at once to some, at least to one."""
        raise NotImplementedError

    def _exchange(self, lines: Sequence[bytes]) -> List[Reply]:
        """The replies to lines."""
        replies: List[Reply] = []
        most = len(lines)
        while len(replies) < len(lines):
            found = self._first(lines[len(replies) : len(replies) + most])
            replies += found
            most = 2 * len(found)
        return replies

    def _distrust(self) -> None:
        """What is done where a reply is none."""

    def _no_grid(self) -> str:
        """What to do where there is no grid."""
        raise NotImplementedError

    def _noted(self, notes: Sequence[str] = ()) -> Sequence[str]:
        """The notes on an answer, where there are these on what was asked."""
        return notes

    def _answer(self, question: Question) -> Any:
        return self._read(type(question), self._first([question.line.encode() + b"\n"])[0])

    def _read(self, kind: Type[Question], reply: Reply) -> Any:
        """The answer of a reply. Refuses one whose count of lines or whose lines are not those of a question of that kind."""
        lines, last = reply
        try:
            if last == (OKS[len(lines)] if len(lines) < len(OKS) else b"ok %d" % len(lines)):
                return kind.read(lines)
        except (ValueError, TypeError):
            pass
        self._distrust()
        raise ReplyError(self.program, (lines[0] if lines else last).decode(errors="replace"))

    # Arguments.

    def _needs_grid(self, argument: str, value: Any) -> Grid:
        if self.grid is None:
            raise ArgumentError(argument, f"{value!r} wants a grid, and there is none: {self._no_grid()}")
        return self.grid

    def instant(self, value: Instant, argument: str = "at") -> int:
        """The instant that an argument means."""
        if isinstance(value, (str, datetime.datetime)):
            value = self._needs_grid(argument, value).instant(value, argument)
        return whole(argument, value, *INSTANT)

    def number(self, value: Object, argument: str = "object") -> int:
        """The object's number that an argument means."""
        if isinstance(value, str):
            value = self._needs_grid(argument, value).number(value, argument)
        return whole(argument, value, *OBJECT)

    def window(self, since: Optional[Instant], until: Optional[Instant]) -> Tuple[int, int]:
        """The first and the last instant of a window; those of the chart where none is given. A date without a time of day is as `until`
        the end of that day."""
        return self._window(since, until)[0]

    def _window(self, since: Optional[Instant], until: Optional[Instant]) -> Tuple[Tuple[int, int], List[str]]:
        """The same, with a note where it is the end of a day."""
        first = self.facts.first if since is None else self.instant(since, "since")
        last, notes = (self.facts.last, []) if until is None else outside.until_of(self, until)
        return (first, last), notes

    def _has(self, number: int) -> bool:
        """Whether an object has a row; also where that is not looked for."""
        return True

    def _cells(self) -> Optional[Tuple[int, int, int, int]]:
        """The cells that rows are within, or None where that is not looked for."""
        return None

    def instants(self, value: Union[int, Duration], argument: str = "within") -> int:
        """The length of time that an argument means, in instants."""
        if isinstance(value, (str, datetime.timedelta)):
            value = self._needs_grid(argument, value).instants(value, argument)
        return whole(argument, value, 0, 2 * INSTANT[1])

    def region(self, region: Optional[Region] = None, box: Optional[Sequence[Degree]] = None,
               around: Optional[Sequence[Degree]] = None, metres: Optional[Degree] = None) -> Tuple[Region, List[str]]:
        """The region that arguments mean, and notes on how it was rounded. Refuses more than one, and metres without a place."""
        given = [name for name, value in (("region", region), ("box", box), ("around", around)) if value is not None]
        if len(given) > 1:
            raise ArgumentError(given[1], f"there is {given[0]} already, and one region is asked for")
        if (around is None) != (metres is None):
            raise ArgumentError("metres" if around is not None else "around", "around=(longitude, latitude) and metres= go together")
        if box is not None:
            grid, edges = self._needs_grid("box", box), numbers_of("box", box, ("west", "south", "east", "north"))
            found: Region = questions.checked_region("box", Rect(*grid.box(*edges)))
            return found, [f"the box {box_text(box)} is asked as {questions.region_words(found)}, {grid.box_words}"]
        if around is not None and metres is not None:
            grid = self._needs_grid("around", around)
            longitude, latitude = numbers_of("around", around, ("longitude", "latitude"))
            circle = grid.circle(longitude, latitude, metres)
            found = questions.checked_region("around", Disc(circle.x, circle.y, circle.radius))
            return found, [
                f"{metres} metres around {box_text(around)} are asked as {questions.region_words(found)}, a radius in cells that "
                f"leaves no row out; rows up to {int(circle.reach) + 1} metres away may be among those found", *circle.notes,
            ]
        return (questions.EVERYWHERE if region is None else questions.checked_region("region", region)), []

    def _rows(self, question: Question, notes: Sequence[str], window: Tuple[int, int], objects: Sequence[int] = (),
              cells: Optional[Region] = None) -> "Answers[Any]":
        """The answer to a question of a window, with notes; where it is empty also on objects that have no row, and on cells that are given
        as such and may be degrees."""
        rows = self._answer(question)
        told = self._noted([*notes, *outside.notes(self, not rows, window, objects, cells)])
        return Answers(rows, question.row, grid=self.grid, asked=question.asked, notes=told, region=getattr(question, "region", None))

    # One question each.

    def position(self, object: Object, at: Instant) -> Optional[Cell]:
        """The cell of an object at an instant, or None where it has no row there. One line; where it is None a second one, for whether the
        object has a row at all. Where it has none, and where the instant is outside the index, warns by `OutsideWarning`."""
        question = questions.Position(self.number(object), self.instant(at))
        found: Optional[Cell] = self._answer(question)
        if found is None:
            outside.warn(self, (question.instant, question.instant), question.object)
            return None
        return found.told_by(self.grid, question.instant)

    def path(self, object: Object, since: Optional[Instant] = None, until: Optional[Instant] = None) -> "Answers[Stop]":
        """All rows of an object in a window, by time. One line."""
        number, (window, notes) = self.number(object), self._window(since, until)
        return self._rows(questions.Path(number, *window), notes, window, [number])

    def slice(self, at: Instant, region: Optional[Region] = None, *, box: Optional[Sequence[Degree]] = None,
              around: Optional[Sequence[Degree]] = None, metres: Optional[Degree] = None) -> "Answers[Sighting]":
        """Who was in a region at an instant, by object. One line."""
        found, notes = self.region(region, box, around, metres)
        instant = self.instant(at)
        return self._rows(questions.Slice(instant, found), notes, (instant, instant), cells=region)

    def interval(self, since: Optional[Instant] = None, until: Optional[Instant] = None, region: Optional[Region] = None, *,
                 box: Optional[Sequence[Degree]] = None, around: Optional[Sequence[Degree]] = None,
                 metres: Optional[Degree] = None) -> "Answers[Hit]":
        """Who was in a region at some instant of a window, each with its first row there, by object. One line."""
        found, notes = self.region(region, box, around, metres)
        window, more = self._window(since, until)
        return self._rows(questions.Interval(*window, found), [*notes, *more], window, cells=region)

    def nearest(self, count: int, at: Instant, cell: Optional[Sequence[int]] = None, *,
                place: Optional[Sequence[Degree]] = None) -> "Answers[Near]":
        """The `count` objects nearest to a cell (x, y), or to the cell of a place (longitude, latitude), at an instant, by the squared
        distance of the cells, then by object. One line."""
        if (cell is None) == (place is None):
            raise ArgumentError("cell" if cell is None else "place", "either cell=(x, y) or place=(longitude, latitude) is needed")
        if place is not None:
            cell = self._needs_grid("place", place).cell_of(*numbers_of("place", place, ("longitude", "latitude")))
        x, y = numbers_of("cell", cell, ("x", "y"))
        question = questions.Nearest(count, self.instant(at), x, y)
        cells = Rect(question.x, question.y, question.x, question.y) if place is None else None
        return self._rows(question, [], (question.instant, question.instant), cells=cells)

    def meet(self, left: Object, right: Object, since: Optional[Instant] = None, until: Optional[Instant] = None, *,
             reach: Optional[int] = None, metres: Optional[Degree] = None) -> "Answers[Meeting]":
        """The first instant of a window at which two objects were within a distance of each other, with the cell of each: one row, or
        none. The distance is `reach`, in cells, or with a grid `metres` on the ground, rounded up so that no meeting is missed. One
        line, and with `metres` one line `path` of the left one before it, which tells how wide metres are where it was."""
        numbers, (window, notes) = (self.number(left, "left"), self.number(right, "right")), self._window(since, until)
        if (reach is None) == (metres is None):
            raise ArgumentError("reach" if reach is None else "metres", "either reach=, in cells, or metres= is needed")
        cells: Any = reach
        if metres is not None:
            found = derived.reach_of(self, self._needs_grid("metres", metres), metres, numbers[0], *window)
            cells, far = found.cells, int(found.metres) + 1
            asked = f"{metres} metres are asked as {cells} cells, so that no meeting is missed"
            notes += [f"{asked}; the two may be up to {far} metres apart", *found.notes]
        return self._rows(questions.Meet(*numbers, *window, cells), notes, window, numbers)

    # Many questions at once.

    def ask(self, asked: Iterable[Union[Question, str]]) -> Iterator[Any]:
        """The answer to each question, in their order, as they are drawn: of `gract.questions`, or lines as docs/QUESTIONS.md has
        them. Rows are lists of named tuples here; `position` has a cell or None, and `info` has facts. Writing and reading go on
        at the same time. Refuses, by `ArgumentError`, a line with no word, with an end of line in it, or of a slot; a line that
        the program calls bad is a `BadQuestion`, in its turn."""
        if isinstance(asked, (str, Question)) or not hasattr(asked, "__iter__"):
            raise ArgumentError("asked", f"{asked!r} is not a list of questions, nor anything else that gives them one by one")
        return self._ask(iter(asked))

    def _ask(self, waiting: Iterator[Union[Question, str]]) -> Iterator[Any]:
        batch, nth = self.first_batch, itertools.count(1)
        taken: List[Tuple[Union[Question, str], bytes]] = []
        while True:
            more = itertools.islice(waiting, max(0, batch - len(taken)))
            taken += [(question, line_of(question, next(nth), self.not_asked)) for question in more]
            if not taken:
                return
            asked = taken[:batch]
            replies = self._first([line for _, line in asked])
            del taken[: len(replies)]
            rows = sum(len(lines) for lines, _ in replies)
            for (question, _), reply in zip(asked, replies):
                yield self._read(type(question), reply) if isinstance(question, Question) else self._read_line(question, reply)
            if len(replies) < len(asked):
                batch = len(replies)
            else:
                batch = min(2 * batch, MOST_BATCH) if rows < MOST_ROWS else max(batch // 2, 1)

    def _read_line(self, line: str, reply: Reply) -> Any:
        if reply[1].startswith(b"bad "):
            cause, *place = reply[1][4:].decode(errors="replace").split()
            raise BadQuestion(line, cause, int(place[0]) if place and place[0].isdigit() else None)
        return self._read(KINDS.get(line.split(None, 1)[0], questions.Other), reply)

    # Questions of several lines; derived.py says what each is and what it costs.

    def last_known(self, at: Instant, within: Union[int, Duration], region: Optional[Region] = None, *,
                   box: Optional[Sequence[Degree]] = None, around: Optional[Sequence[Degree]] = None,
                   metres: Optional[Degree] = None) -> "Answers[Last]":
        """Of each object its last row at or before an instant that is not older than `within` (instants, a timedelta, or a text as
        `90 min`), where that row is in the region, by object. It is what 'who is in port now' means where reports come at mixed
        rates. One line `interval`, and one line `path` for each object that was in the region in that time."""
        found, notes = self.region(region, box, around, metres)
        instant, length = self.instant(at), self.instants(within)
        rows = derived.last_known(self, instant, length, found)
        notes += outside.notes(self, not rows, (instant - length, instant), region=region)
        return Answers(rows, Last, grid=self.grid, notes=self._noted(notes), region=found)

    def visits(self, region: Optional[Region] = None, since: Optional[Instant] = None, until: Optional[Instant] = None, *,
               gap: Union[None, int, Duration] = None, box: Optional[Sequence[Degree]] = None,
               around: Optional[Sequence[Degree]] = None, metres: Optional[Degree] = None) -> "Answers[Visit]":
        """All stays in a region within a window, by object, then by time: each is as many rows of an object as follow one another
        in the region. With `gap` (as `within` above) a stay also ends where no row follows for longer than that. One line
        `interval`, and one line `path` for each object that was there."""
        found, notes = self.region(region, box, around, metres)
        most = None if gap is None else self.instants(gap, "gap")
        window, more = self._window(since, until)
        rows = derived.visits(self, found, *window, most)
        notes += [*more, *outside.notes(self, not rows, window, region=region)]
        return Answers(rows, Visit, grid=self.grid, notes=self._noted(notes), region=found)

    def objects(self) -> "Answers[Life]":
        """The first and the last row of each object, by object. One line `interval`, and for each object one to six lines `path`,
        whose replies together are at most its rows: windows that reach back 16, 256, 4,096 .. instants from the last."""
        rows = derived.objects(self)
        return Answers(rows, Life, grid=self.grid, notes=self._noted())


def line_of(question: Union[Question, str], nth: int, not_asked: Mapping[str, str]) -> bytes:
    """The line of a question with its end. Refuses what is none, and words that are not asked so, by its place among the questions."""
    argument = f"asked: question {nth}"
    if isinstance(question, Question):
        word, line = question.word, question.line
    elif isinstance(question, str):
        words = question.split(None, 1)
        if not words or "\n" in question:
            raise ArgumentError(argument, f"{question!r} is no line with a word")
        word, line = words[0], question
    else:
        raise ArgumentError(argument, f"{question!r} is neither a question of gract.questions nor a line")
    if word in not_asked:
        raise ArgumentError(argument, f"{word} {not_asked[word]}")
    try:
        return line.encode("utf-8", "surrogateescape") + b"\n"
    except UnicodeEncodeError:
        raise ArgumentError(argument, f"{line!r} is no text in Unicode") from None


def numbers_of(argument: str, value: Any, names: Sequence[str]) -> List[Any]:
    """The numbers of a sequence that has one for each name. Refuses anything else, by the name of the argument."""
    numbers = list(value) if isinstance(value, (tuple, list)) or hasattr(value, "__array__") else None
    if numbers is None or len(numbers) != len(names):
        raise ArgumentError(argument, f"{value!r} is not ({', '.join(names)})")
    return numbers


def box_text(numbers: Sequence[Degree]) -> str:
    """Degrees as they are written."""
    return f"({', '.join(str(number) for number in numbers)})"
