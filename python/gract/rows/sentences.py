"""Sentences of NMEA 0183 and the position reports of AIS in them.

The bit fields are those of ITU-R M.1371-5, as Eric S. Raymond's page on AIVDM, which stands in gpsd's sources, gives them too.
"""

import functools
import operator
import re
from typing import List, Optional, Tuple

# A tag block may come before a sentence, with the time of its receiver: \\s:station,c:1241827197*hh\\.
SENTENCE = re.compile(r"(?:\\([^\\]*)\\)?([!$])([A-Z0-9]{5,6}),([^*]*)(?:\*([0-9A-Fa-f]{2}))?(.*)")

# What a sentence or its tag block begins with.
BEGIN = re.compile(r"[!$\\]")

# Where the longitude and the latitude begin in each kind of report, and how many bits each has.
PLACES = {
    **dict.fromkeys((1, 2, 3, 9), (61, 28, 89, 27)),
    **dict.fromkeys((4, 11), (79, 28, 107, 27)),
    **dict.fromkeys((18, 19), (57, 28, 85, 27)),
    21: (164, 28, 192, 27),
    27: (44, 18, 62, 17),
}
STATION_REPORTS = (4, 21)

# Units of a degree: ten-thousandths of a minute, and in report 27 tenths.
UNITS, ROUGH_UNITS = 600_000, 600

# The six bits of each character of a payload.
SIX_BITS = {chr(value + (48 if value < 40 else 56)): f"{value:06b}" for value in range(64)}


class Broken(Exception):
    """Why a line is no sentence."""


def checksum_of(text: str) -> int:
    """The checksum of a sentence: the exclusive or of all its characters. Those of a usual sentence are folded as one number."""
    signs = text.encode("ascii", "replace")
    if len(signs) > 128:
        return functools.reduce(operator.xor, signs)
    found = int.from_bytes(signs, "big")
    for shift in (512, 256, 128, 64, 32, 16, 8):
        found ^= found >> shift
    return found & 255


def sentence_of(line: str) -> Tuple[str, str, str, List[str], str]:
    """The tag block, what comes before it, the name, the fields and what follows the checksum. Raises Broken."""
    begin = None if line[:1] in ("!", "$") else BEGIN.search(line)
    start = begin.start() if begin else 0
    found = SENTENCE.match(line, start)
    if not found:
        raise Broken("a line that is no sentence")
    tags, _, name, fields, wanted, rest = found.groups()
    if wanted and checksum_of(f"{name},{fields}") != int(wanted, 16):
        raise Broken("a checksum that is wrong")
    return tags or "", line[:start], name, fields.split(","), rest


class Bits:
    """The bits of a message, six of which are in each character of its payload. Raises Broken."""

    def __init__(self, payload: str):
        try:
            self.text = "".join([SIX_BITS[sign] for sign in payload])
        except KeyError:
            raise Broken("a payload of other characters") from None

    def number(self, start: int, length: int) -> int:
        """A field as a number."""
        if start + length > len(self.text):
            raise Broken("a message that is too short")
        return int(self.text[start:start + length], 2)

    def signed(self, start: int, length: int) -> int:
        """A field as a number that may be below 0."""
        value = self.number(start, length)
        return value - (1 << length) if value >> (length - 1) else value


def report_of(bits: Bits) -> Tuple[int, int, Optional[Tuple[int, int]]]:
    """The kind of a message, its ship, and longitude and latitude in units; None for the latter where it is no position report."""
    kind, ship = bits.number(0, 6), bits.number(8, 30)
    if kind not in PLACES:
        return kind, ship, None
    east, wide, north, high = PLACES[kind]
    return kind, ship, (bits.signed(east, wide), bits.signed(north, high))


def time_parts(bits: Bits) -> List[int]:
    """Year, month, day, hour, minute and second of a base station's report."""
    return [bits.number(*field) for field in ((38, 14), (52, 4), (56, 5), (61, 5), (66, 6), (72, 6))]


def coordinate(text: str, side: str) -> str:
    """Degrees, as a text, of 5250.53669 and N: two figures of minutes before the point, and degrees before them."""
    whole, _, part = text.partition(".")
    if not (len(text) <= 20 and whole.isdecimal() and len(whole) > 2 and (part.isdecimal() or not part) and side in ("N", "S", "E", "W")):
        raise Broken("a position that is no number")
    degrees = int(whole[:-2]) + float(f"{whole[-2:]}.{part or 0}") / 60
    return f"{-degrees if side in 'SW' else degrees:.7f}"
