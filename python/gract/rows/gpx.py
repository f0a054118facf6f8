"""GPX files, as receivers for hiking, sailing and cycling write them.

Each track of each file is an object, numbered from 1 in the order of the files; with a file of names it is called by its file, its place
in it and its name. Points without a time are left out.
"""

import os
from typing import Dict, Iterable

from .. import times
from .collecting import Rows
from .markup import Event, Reader
from .places import position_of
from .sources import Source

# Elements that say nothing of a track's points, and those whose text is read.
FRAMES = frozenset((
    "gpx", "metadata", "trk", "trkseg", "trkpt", "name", "time", "link", "text", "type", "author", "copyright", "bounds", "extensions",
))


class Tracks:
    """The tracks of a document as they are read."""

    def __init__(self, rows: Rows, name: str):
        self.rows, self.file = rows, name
        self.path: Dict[int, str] = {}
        self.depth = self.nth = self.place = 0
        self.called = self.latitude = self.longitude = self.time = ""
        self.unused: Dict[str, None] = {}

    def read(self, events: Iterable[Event]) -> None:
        """Reads all elements."""
        for event in events:
            if event.begins:
                self.depth += 1
                self.path[self.depth] = event.name
                self.begin(event)
            else:
                self.end(event)
                self.depth -= 1
        self.rows.causes.not_used("elements", self.unused)

    def begin(self, event: Event) -> None:
        """An element begins."""
        if event.name == "trk":
            self.nth += 1
            self.place, self.called = 0, ""
            self.rows.tracks += 1
        elif event.name == "trkpt":
            self.place += 1
            self.latitude, self.longitude, self.time = event.attributes.get("lat", ""), event.attributes.get("lon", ""), ""
        elif event.name not in FRAMES and len(self.unused) < 100:
            self.unused[event.name] = None

    def end(self, event: Event) -> None:
        """An element ends."""
        above = self.path.get(self.depth - 1)
        if event.name == "name" and above == "trk":
            self.called = event.text
        elif event.name == "time" and above == "trkpt":
            self.time = event.text
        elif event.name == "trkpt":
            self.add_point()

    def add_point(self) -> None:
        """A point has ended."""
        where = f"{self.file} track {self.nth} point {self.place}"
        line = f"latitude {self.latitude or 'missing'}, longitude {self.longitude or 'missing'}, time {self.time or 'missing'}"
        position = position_of(self.latitude, self.longitude)
        if not self.time:
            self.rows.leave_out("a point without a time", where, line)
        elif position is None:
            self.rows.leave_out("a point without a position", where, line)
        else:
            try:
                seconds = times.seconds_of(self.time[:100])
            except (ValueError, ArithmeticError):
                self.rows.leave_out("a time that is not understood", where, line)
                return
            self.rows.add(self.name, seconds, *position, where, line)

    @property
    def name(self) -> str:
        """What the track is called."""
        return self.rows.track_name(f"{os.path.basename(self.file)} {self.nth} {self.called}".strip())


def read(source: Source, rows: Rows) -> None:
    """Reads a document."""
    Tracks(rows, source.name).read(Reader(source).read())
