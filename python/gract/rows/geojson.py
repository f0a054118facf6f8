"""GeoJSON (RFC 7946): points with an object and a time among their properties, in a FeatureCollection or a feature on each line.

A collection is read feature by feature, so that memory is not by its size. Properties are those of the first feature.
"""

import json
import re
from typing import Any, Dict, Iterator, Optional, Tuple

from ..errors import SourceError
from .collecting import Rows
from .features import Points
from .sources import MOST_LINE, Source


SPACE = re.compile(r"[\s\x1e]*")

# At one of these a number may go on.
NUMBERS = frozenset("0123456789+-.eE")


class Reader:
    """The text of a document of JSON, of which a piece is kept."""

    def __init__(self, source: Source):
        self.name, self.texts = source.name, source.texts()
        self.text, self.place, self.is_over = "", 0, False
        self.decoder = json.JSONDecoder(parse_constant=float)

    def more(self) -> bool:
        """Reads on, and forgets what was read. False at the end. Refuses a value that is too long."""
        if self.is_over:
            return False
        if len(self.text) - self.place > MOST_LINE:
            raise SourceError(f"{self.name}: a value of more than {MOST_LINE:,} characters: {self.text[self.place:self.place + 60]}")
        text = next(self.texts, None)
        if text is None:
            self.is_over = True
            return False
        self.text = self.text[self.place:] + text
        self.place = 0
        return True

    def next_sign(self) -> str:
        """The next sign that is no space, which is not taken; empty at the end."""
        while True:
            found = SPACE.match(self.text, self.place)
            self.place = found.end() if found else self.place
            if self.place < len(self.text):
                return self.text[self.place]
            if not self.more():
                return ""

    def take(self, signs: str) -> str:
        """Takes the next sign, which must be one of these."""
        found = self.next_sign()
        if not found or found not in signs:
            raise SourceError(f"{self.name} is no GeoJSON: {self.text[self.place:self.place + 40]!r} stands where one of {signs} was to be")
        self.place += 1
        return found

    def value(self) -> Any:
        """Takes the next value."""
        while True:
            self.next_sign()
            try:
                value, end = self.decoder.raw_decode(self.text, self.place)
            except RecursionError:
                raise SourceError(f"{self.name} is no GeoJSON: a value is nested too deep") from None
            except ValueError as fault:
                if not self.more():
                    raise SourceError(f"{self.name} is no GeoJSON: {fault}") from None
                continue
            if end == len(self.text) and self.text[end - 1] in NUMBERS and self.more():
                continue
            self.place = end
            return value


def features_in(reader: Reader) -> Iterator[Dict[str, Any]]:
    """The features of a collection, or of documents that follow one another."""
    while reader.next_sign():
        reader.take("{")
        members: Dict[str, Any] = {}
        while reader.next_sign() != "}":
            name = reader.value()
            reader.take(":")
            if name == "features" and reader.next_sign() == "[":
                yield from values_in(reader)
            else:
                value = reader.value()
                if name in ("type", "geometry", "properties", "crs"):
                    members[name] = value
            if reader.next_sign() == ",":
                reader.take(",")
        reader.take("}")
        if "crs" in members and not re.search("CRS84|4326", str(members["crs"])):
            raise SourceError(f"{reader.name} is in another reference system: {str(members['crs'])[:80]}")
        if members.get("type") == "Feature":
            yield members


def values_in(reader: Reader) -> Iterator[Any]:
    """The values of a list."""
    reader.take("[")
    while reader.next_sign() != "]":
        yield reader.value()
        if reader.next_sign() == ",":
            reader.take(",")
    reader.take("]")


def point_of(feature: Any) -> Optional[Tuple[Dict[str, Any], Any, Any]]:
    """The properties, the longitude and the latitude of a point; None for what is none."""
    geometry = feature.get("geometry") if isinstance(feature, dict) else None
    if not (isinstance(geometry, dict) and geometry.get("type") == "Point"):
        return None
    place, properties = geometry.get("coordinates"), feature.get("properties")
    if not (isinstance(place, list) and len(place) >= 2 and isinstance(properties, dict)):
        return None
    return properties, place[0], place[1]


def read(source: Source, rows: Rows) -> None:
    """Reads a document."""
    points: Optional[Points] = None
    for nth, feature in enumerate(features_in(Reader(source)), 1):
        where, found = f"{source.name} feature {nth}", point_of(feature)
        if found is None:
            rows.leave_out("a feature that is no point with properties", where, str(feature)[:100])
        else:
            points = points or Points(source.name, rows, list(found[0]))
            points.add_named(*found, where)
    if points is not None:
        points.end()
