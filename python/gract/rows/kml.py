"""Tracks with times in KML, as Google Earth and gpsbabel write them: gx:Track, whose `when`s and `gx:coord`s belong together by their
order.

Each Placemark with tracks is an object, numbered from 1 in the order of the files; with a file of names it is called by its file, its
place in it and its name.
"""

import contextlib
import os
import struct
import tempfile
from typing import Dict, Iterable, Optional

from .. import times
from .collecting import Rows
from .markup import Event, Reader
from .places import position_of
from .sources import Source

SECONDS = struct.Struct("<q?")

# So many bytes of times are kept in memory.
MOST_BYTES = 1 << 20

# What has places without a time each.
UNTIMED = frozenset(("Point", "LineString", "Polygon", "Model", "GroundOverlay"))


class Times:
    """The times of a track, in the order in which they are put in and taken out."""

    def __init__(self) -> None:
        self.file = tempfile.SpooledTemporaryFile(MOST_BYTES)
        self.put = self.taken = 0

    def add(self, seconds: Optional[int]) -> None:
        """Puts one in."""
        self.file.seek(self.put * SECONDS.size)
        self.file.write(SECONDS.pack(seconds or 0, seconds is not None))
        self.put += 1

    def close(self) -> None:
        """Gives the file up."""
        self.file.close()

    def next(self) -> Optional[int]:
        """Takes one out; None where it is not understood, or there is none."""
        if self.taken == self.put:
            return None
        self.file.seek(self.taken * SECONDS.size)
        seconds, is_known = SECONDS.unpack(self.file.read(SECONDS.size))
        self.taken += 1
        return int(seconds) if is_known else None


class Tracks:
    """The tracks of a document as they are read."""

    def __init__(self, rows: Rows, name: str):
        self.rows, self.file = rows, name
        self.nth = self.place = 0
        self.called, self.is_counted = "", False
        self.times = Times()
        self.unused: Dict[str, None] = {}

    def read(self, events: Iterable[Event]) -> None:
        """Reads all elements."""
        for event in events:
            if event.begins:
                self.begin(event.name)
            else:
                self.end(event)
        self.rows.causes.not_used("elements", self.unused)

    def close(self) -> None:
        """Gives the file of times up."""
        self.times.close()

    def begin(self, name: str) -> None:
        """An element begins."""
        if name == "Placemark":
            self.called, self.place, self.is_counted = "", 0, False
        elif name == "Track":
            self.times.close()
            self.times = Times()
            if not self.is_counted:
                self.nth += 1
                self.rows.tracks += 1
            self.is_counted = True
        elif name in UNTIMED:
            self.unused[name] = None

    def end(self, event: Event) -> None:
        """An element ends."""
        if event.name == "name" and not self.is_counted:
            self.called = event.text
        elif event.name == "when":
            try:
                self.times.add(times.seconds_of(event.text[:100]))
            except (ValueError, ArithmeticError):
                self.times.add(None)
        elif event.name == "coord":
            self.place += 1
            self.add_point(event.text)

    def add_point(self, text: str) -> None:
        """A place of a track."""
        where, line = f"{self.file} track {self.nth} point {self.place}", f"coord {text}"
        seconds, parts = self.times.next(), text.split()
        position = position_of(parts[1], parts[0]) if len(parts) in (2, 3) else None
        if position is None:
            self.rows.leave_out("a point without a position", where, line)
        elif seconds is None:
            self.rows.leave_out("a point without a time that is understood", where, line)
        else:
            name = self.rows.track_name(f"{os.path.basename(self.file)} {self.nth} {self.called}".strip())
            self.rows.add(name, seconds, *position, where, line)


def read(source: Source, rows: Rows) -> None:
    """Reads a document."""
    with contextlib.closing(Tracks(rows, source.name)) as tracks:
        tracks.read(Reader(source).read())
