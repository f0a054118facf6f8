"""Which parts a question line is asked of, and the reply to it that their replies make.

A line goes to the parts as it stands, so that a bad line is told by the program, which says the same of it everywhere. A line that no
part has to answer is asked of one all the same: it has no such row, and says so.
"""

import functools
import itertools
import re
from bisect import bisect_left, bisect_right
from typing import Callable, Dict, Iterable, List, NamedTuple, Optional, Sequence, Tuple

from ..child import Reply
from ..errors import ArgumentError
from ..questions import INSTANT, OBJECT, RADIUS, Range
from .manifest import ByObject, Cut

NUMERAL = re.compile(rb"([+-]?)0*([0-9]{1,20})")
BLANKS = re.compile(rb"[ \t\r]+")
MOST_LINE = 1024

# The words of a line `meet` after its first one.
MEET = (OBJECT, OBJECT, INSTANT, INSTANT, RADIUS)

Join = Callable[[Sequence[Reply]], Reply]


class Route(NamedTuple):
    """The lines that parts are asked in place of a line, and what makes one reply of theirs; or of what is left of them where some are left
    out, unless it needs all."""

    asked: List[Tuple[int, bytes]]
    join: Join
    needs_all: bool = False

    def reply(self, replies: Sequence[Reply]) -> Reply:
        """The reply to the line."""
        bad = [reply for reply in replies if is_bad(reply)]
        return bad[0] if bad else self.join(replies)


def is_bad(reply: Reply) -> bool:
    """Whether a reply calls its line bad."""
    return reply[1].startswith(b"bad ")


# Joins of replies.

def of(lines: List[bytes]) -> Reply:
    """The reply that has these lines."""
    return lines, b"ok %d" % len(lines)


def only(replies: Sequence[Reply]) -> Reply:
    """That of the one part that was asked."""
    return replies[0]


def one_after_the_other(replies: Sequence[Reply]) -> Reply:
    """All lines of the first, then all of the second .."""
    return of([line for lines, _ in replies for line in lines])


def first_number(line: bytes) -> int:
    """The first number of a line of a reply, which is an object where there are several."""
    return int(line[: line.index(b" ")])


def by_object(replies: Sequence[Reply]) -> Reply:
    """All lines, by object."""
    return of(sorted(itertools.chain.from_iterable(lines for lines, _ in replies), key=first_number))


def first_hits(replies: Sequence[Reply]) -> Reply:
    """Of each object its line in the first reply that has one, by object."""
    found: Dict[int, bytes] = {}
    for lines, _ in replies:
        for line in lines:
            found.setdefault(first_number(line), line)
    return of([found[number] for number in sorted(found)])


def distance_and_object(line: bytes) -> Tuple[int, int]:
    """What lines of `nearest` go by."""
    words = line.split(b" ")
    return int(words[3]), int(words[0])


def nearest(count: int, replies: Sequence[Reply]) -> Reply:
    """So many lines of `nearest`, by squared distance, then by object."""
    lines = itertools.chain.from_iterable(lines for lines, _ in replies)
    return of(sorted(lines, key=distance_and_object)[:count])


def first_of_all(replies: Sequence[Reply]) -> Reply:
    """The first reply that has a line."""
    return next((reply for reply in replies if reply[0]), replies[0])


def meeting(reach: int, replies: Sequence[Reply]) -> Reply:
    """The reply to `meet` of the paths of two objects: the first instant of both at which they are within `reach` of each other."""
    paths = [{instant: (int(x), int(y)) for instant, x, y in (line.split(b" ") for line in lines)} for lines, _ in replies]
    for instant, (x, y) in paths[0].items():
        other = paths[1].get(instant)
        if other is not None and (x - other[0]) ** 2 + (y - other[1]) ** 2 <= reach * reach:
            return of([b"%b %d %d %d %d" % (instant, x, y, *other)])
    return of([])


def refused(word: bytes, replies: Sequence[Reply]) -> Reply:
    """Refuses a question that the program answers, and of whose replies nobody here knows how to make one."""
    raise ArgumentError("asked", f"{word.decode(errors='replace')} is not asked of parts")


# Routes.

class Router:
    """The routes of lines to parts by their numbers, of which some may be left out."""

    def __init__(self, cut: Cut, tick: int, parts: Iterable[int], left_out: Sequence[int] = ()):
        self.cut, self.tick = cut, tick
        self.all = sorted(parts)
        # Any part that answers, of which a line is asked that no part has to answer.
        self.any = next((number for number in self.all if number not in left_out), self.all[0])

    def route(self, line: bytes) -> Route:
        """The route of a line, with its end."""
        words = [word for word in BLANKS.split(line[:-1]) if word]
        if len(line) - 1 > MOST_LINE:
            return self._to([], line, only)
        return self._by_object(words, line) if isinstance(self.cut, ByObject) else self._by_time(words, line)

    def _to(self, parts: Sequence[int], line: bytes, join: Join) -> Route:
        return Route([(part, line) for part in parts or [self.any]], join)

    def _by_object(self, words: List[bytes], line: bytes) -> Route:
        word = words[0]
        if word in (b"position", b"path"):
            return self._to(self._of_object(words, 1), line, only)
        if word in (b"slice", b"interval"):
            return self._to(self.all, line, by_object)
        if word == b"nearest":
            return self._to(self.all, line, functools.partial(nearest, number_at(words, 1, OBJECT) or 0))
        if word == b"meet":
            return self._meet(words, line)
        return self._to([], line, functools.partial(refused, word))

    def _of_object(self, words: List[bytes], place: int) -> List[int]:
        """The part of the object that a word is; none where it is no object, and where that part has no row."""
        number = number_at(words, place, OBJECT)
        return [] if number is None or self.cut.part(number) not in self.all else [self.cut.part(number)]

    def _meet(self, words: List[bytes], line: bytes) -> Route:
        """Within one part its own line; between two, two paths."""
        numbers = [number_at(words, place, span) for place, span in enumerate(MEET, 1)]
        parts = [self._of_object(words, place) for place in (1, 2)]
        if len(words) != 1 + len(MEET) or None in numbers or parts[0] == parts[1]:
            return self._to(parts[0], line, only)
        paths = [b"path %b %b %b\n" % (words[place], words[3], words[4]) for place in (1, 2)]
        asked = [pair for part, path in zip(parts, paths) for pair in self._to(part, path, only).asked]
        return Route(asked, functools.partial(meeting, numbers[4] or 0), needs_all=True)

    def _by_time(self, words: List[bytes], line: bytes) -> Route:
        word = words[0]
        if word == b"position":
            return self._to(self._at(words, 2, 2), line, only)
        if word == b"path":
            return self._to(self._at(words, 2, 3), line, one_after_the_other)
        if word == b"slice":
            return self._to(self._at(words, 1, 1), line, only)
        if word == b"interval":
            return self._to(self._at(words, 1, 2), line, first_hits)
        if word == b"nearest":
            return self._to(self._at(words, 2, 2), line, only)
        if word == b"meet":
            return self._to(self._at(words, 3, 4), line, first_of_all)
        return self._to([], line, functools.partial(refused, word))

    def _at(self, words: List[bytes], since: int, until: int) -> List[int]:
        """The parts of the window between two words, in the order of time. What the list says of their instants is not asked: a part that
        has none there says so."""
        first, last = number_at(words, since, INSTANT), number_at(words, until, INSTANT)
        if first is None or last is None:
            return []
        since_part, until_part = (self.cut.part(instant * self.tick) for instant in (first, last))
        return self.all[bisect_left(self.all, since_part) : bisect_right(self.all, until_part)]


def number_at(words: Sequence[bytes], place: int, span: Range) -> Optional[int]:
    """The number that a word is; None where it is not there, no numeral, or out of its range."""
    found = NUMERAL.fullmatch(words[place]) if place < len(words) else None
    if found is None:
        return None
    number = int(found.group(1) + found.group(2))
    return number if span[0] <= number <= span[1] else None
