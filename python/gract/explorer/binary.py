"""Positions as arrays of bytes, as the page keeps them: made of the lines of a reply, without a tuple for each row.

All numbers are little-endian, and each array begins at a multiple of 8 bytes. A block of a slice is

    instant: float64, count: uint32, width: uint32, objects: count * uint32, x: count * int32 or float64, y: likewise

and one of a path is

    first instant: float64, count: uint32, width: uint32, object: uint32, nothing: uint32, instants after the first: count * uint32, x, y

where `width` is 4 for int32 and 8 for float64, which is taken where a cell is beyond 2^31. A response is blocks, one after the other.
"""

import struct
import sys
from array import array
from typing import Any, Iterable, List, Sequence, Tuple

from ..child import Reply
from ..errors import GractError

HEAD = struct.Struct("<dII")
OBJECT = struct.Struct("<II")


class NotAnswered(GractError):
    """A reply that is no answer. `said` is its last line."""

    def __init__(self, said: str):
        super().__init__(f"the program answers {said!r}")
        self.said = said


def words_of(reply: Reply) -> List[bytes]:
    """The words of all rows of a reply. Refuses, by `NotAnswered`, one that is no answer."""
    lines, last = reply
    if last != b"ok %d" % len(lines):
        raise NotAnswered(last.decode(errors="replace"))
    return b" ".join(lines).split()


def bytes_of(numbers: "array[Any]") -> bytes:
    """The bytes of an array, filled up to a multiple of 8."""
    if sys.byteorder != "little":
        numbers = array(numbers.typecode, numbers)
        numbers.byteswap()
    data = numbers.tobytes()
    return data + bytes(-len(data) % 8)


def whole(words: Sequence[bytes]) -> "array[int]":
    """Numbers from 0 to 2^32 - 1."""
    return array("I", map(int, words))


def cells(xs: Sequence[bytes], ys: Sequence[bytes]) -> Tuple[int, bytes]:
    """The width of coordinates, and their bytes."""
    try:
        return 4, bytes_of(array("i", map(int, xs))) + bytes_of(array("i", map(int, ys)))
    except OverflowError:
        return 8, bytes_of(array("d", map(int, xs))) + bytes_of(array("d", map(int, ys)))


def slice_block(instant: int, reply: Reply) -> bytes:
    """The block of a reply to `slice`."""
    words = words_of(reply)
    width, places = cells(words[1::3], words[2::3])
    return HEAD.pack(instant, len(words) // 3, width) + bytes_of(whole(words[0::3])) + places


def path_block(number: int, reply: Reply) -> bytes:
    """The block of a reply to `path`."""
    words = words_of(reply)
    instants = list(map(int, words[0::3]))
    first = instants[0] if instants else 0
    width, places = cells(words[1::3], words[2::3])
    after = bytes_of(array("I", [instant - first for instant in instants]))
    return HEAD.pack(first, len(instants), width) + OBJECT.pack(number, 0) + after + places


def hits_block(reply: Reply) -> bytes:
    """The first rows of a reply to `interval`, as a path of many objects: the least instant, the count, the width, the objects, the
    instants after the least, x and y."""
    words = words_of(reply)
    instants = list(map(int, words[1::4]))
    first = min(instants, default=0)
    width, places = cells(words[2::4], words[3::4])
    after = bytes_of(array("I", [instant - first for instant in instants]))
    return HEAD.pack(first, len(instants), width) + bytes_of(whole(words[0::4])) + after + places


def rings_block(rings: Iterable[Tuple[int, Sequence[float]]]) -> bytes:
    """Rings, each with its kind: kind, how many numbers, and the numbers x, y, x, y .. as float32."""
    parts: List[bytes] = []
    for kind, numbers in rings:
        parts.append(OBJECT.pack(kind, len(numbers)))
        parts.append(bytes_of(array("f", numbers)))
    return b"".join(parts)
