"""netCDF files of trajectories, as the CF conventions, OpenDrift, NOAA and Argo lay them out; layouts.py says how.

Time, latitude and longitude are known by their standard_name or names, and the object by cf_role = "trajectory_id" or its name. What is
masked as missing is left out. Debian's package python3-netcdf4 has the module netCDF4, which has to be there.
"""

import importlib
import itertools
import math
from typing import Any, Iterator, List, Optional, Sequence

from .. import times
from ..errors import SourceError
from .collecting import Rows
from .layouts import Block, Layout
from .places import position_of
from .sources import Source

SIZES = (
    (("days", "day", "d"), 86400), (("hours", "hour", "h", "hr", "hrs"), 3600), (("minutes", "minute", "min", "mins"), 60),
    (("seconds", "second", "s", "sec", "secs"), 1), (("milliseconds", "millisecond", "ms", "msec"), 0.001),
    (("microseconds", "microsecond"), 1e-6), (("nanoseconds", "nanosecond", "ns"), 1e-9),
)
CALENDARS = ("standard", "gregorian", "proleptic_gregorian")

# What the library raises for a file that is damaged, or that is laid out to do harm.
FAULTS = (OSError, RuntimeError, ValueError, TypeError, IndexError, KeyError, AttributeError, ArithmeticError, MemoryError)


def module(name: str) -> Any:
    """A module that is loaded where it is needed, since it may not be there."""
    return importlib.import_module(name)


class Clock:
    """How the numbers of a variable are seconds since 1970."""

    def __init__(self, variable: Any, name: str):
        units = str(getattr(variable, "units", ""))
        calendar = str(getattr(variable, "calendar", "standard")).lower()
        unit, since, _ = units.partition(" since ")
        if not since:
            raise SourceError(f"{name}: the units of {variable.name} are {units[:80]!r}, and not so many since a date")
        if calendar not in CALENDARS:
            raise SourceError(f"{name}: the calendar of {variable.name} is {calendar[:40]!r}, whose days are not those of the world")
        start = module("cftime").num2date(0, units, calendar)
        self.zero = times.seconds_of(f"{start.year:04}-{start.month:02}-{start.day:02}T{start.hour:02}:{start.minute:02}:{start.second:02}")
        size = next((size for names, size in SIZES if unit.strip().lower() in names), None)
        if size is None:
            raise SourceError(f"{name}: times in {unit[:40]} are not read")
        self.size = size

    def seconds(self, values: Any) -> List[Optional[int]]:
        """The times, rounded down; None where one is missing."""
        numpy = module("numpy")
        # A time of a fraction of a day is off by some microseconds, and would be rounded down to the second before.
        found = numpy.ma.masked_invalid(numpy.ma.asarray(values).astype("float64")).reshape(-1)
        scaled = numpy.floor(numpy.ma.round(found * self.size, 3))
        return [None if value is None or not math.isfinite(value) else self.zero + int(value) for value in scaled.tolist()]


def degrees_in(values: Any) -> List[str]:
    """Degrees as texts, with the figures that the file's own kind of number has; empty where one is missing."""
    found = module("numpy").ma.asarray(values).reshape(-1)
    figures = ".7g" if found.dtype == "float32" else ".15g"
    return ["" if value is None else format(value, figures) for value in found.tolist()]


def names_in(values: Any, letters: bool) -> List[str]:
    """What objects are called; empty where that is missing."""
    if letters:
        values = module("netCDF4").chartostring(module("numpy").ma.filled(values, b"\0"))
    return [name_text(value) for value in module("numpy").ma.asarray(values).reshape(-1).tolist()]


def name_text(value: object) -> str:
    """A name, or a number as one; empty for what is none."""
    if isinstance(value, bytes):
        value = value.decode("utf-8", "replace")
    if isinstance(value, str):
        return value.strip("\0 ")
    if isinstance(value, float):
        return "" if not math.isfinite(value) else str(int(value)) if value == int(value) else str(value)
    return "" if value is None else str(value)


class Objects:
    """Of each observation which object it is of."""

    def __init__(self, layout: Layout):
        self.layout = layout
        self.called: Optional[List[str]] = None
        if layout.ids is not None and not layout.names_observations:
            layout.objects()
            self.called = names_in(layout.ids[:], layout.ids.dtype == "S1")
        self.counted = self.by_counts() if layout.counts is not None else None

    def by_counts(self) -> Iterator[int]:
        """The places of all observations' objects, by their counts, which are checked."""
        layout = self.layout
        sizes = [int(size) for size in layout.counts[:].reshape(-1).tolist() if size is not None]
        count = layout.shape[0] if layout.shape else 1
        if any(size < 0 for size in sizes) or sum(sizes) != count:
            layout.refuse(f"the counts of {layout.counts.name} are {sum(sizes)} together, and observations {count}")
        return itertools.chain.from_iterable(itertools.repeat(place, size) for place, size in enumerate(sizes))

    def names(self, block: Block) -> Iterator[str]:
        """The names of a block's objects, which are asked for in order; empty for an object without one."""
        layout = self.layout
        if layout.names_observations:
            key = (*block.slices, slice(None)) if layout.ids.dtype == "S1" else block.slices
            return iter(names_in(layout.ids[key], layout.ids.dtype == "S1"))
        return map(self.name, self.places(block))

    def places(self, block: Block) -> Iterator[Optional[int]]:
        """The places of a block's objects among all."""
        layout, count = self.layout, math.prod(block.shape)
        if layout.object_axis == 0:
            return (place for place in range(block.slices[0].start, block.slices[0].stop) for _ in range(block.shape[1]))
        if layout.object_axis == 1:
            return (place for _ in range(block.shape[0]) for place in range(block.slices[1].start, block.slices[1].stop))
        if self.counted is not None:
            return itertools.islice(self.counted, count)
        if layout.places is not None:
            return (None if place is None else int(place) for place in layout.places[block.slices].reshape(-1).tolist())
        return itertools.repeat(0, count)

    def name(self, place: Optional[int]) -> str:
        """What the object at a place is called: by its name, or else by its place from 1."""
        if self.called is None:
            return "" if place is None or place < 0 else str(place + 1)
        return self.called[place] if place is not None and 0 <= place < len(self.called) else ""


def times_in(layout: Layout, clock: Clock, block: Block) -> Sequence[Optional[int]]:
    """The times of a block, in the order of its observations."""
    if layout.common is None:
        return clock.seconds(layout.time[block.slices] if block.slices else layout.time[...])
    once = clock.seconds(layout.time[block.slices[layout.common]])
    return once * block.shape[0] if layout.common == 1 else [second for second in once for _ in range(block.shape[1])]


def read_block(layout: Layout, clock: Clock, objects: Objects, block: Block, rows: Rows) -> None:
    """Adds the rows of a block, or counts why they are none."""
    key = block.slices or (...,)
    latitudes, longitudes = degrees_in(layout.latitude[key]), degrees_in(layout.longitude[key])
    observations = zip(times_in(layout, clock, block), latitudes, longitudes, objects.names(block))
    for nth, (second, latitude, longitude, name) in enumerate(observations, block.first + 1):
        where = f"{layout.name} observation {nth}"
        if second is None and not latitude:
            rows.leave_out("an observation that the file masks", where, "time and place are missing")
            continue
        line = f"time {second}, latitude {latitude or 'missing'}, longitude {longitude or 'missing'}"
        position = position_of(latitude, longitude, most_longitude=360)
        if second is None:
            rows.leave_out("no time", where, line)
        elif position is None:
            rows.leave_out("no position", where, line)
        else:
            rows.add(name, second, *position, where, line)


def read_file(file: Any, name: str, rows: Rows) -> None:
    """Reads an open file."""
    layout = Layout(file, name, rows.options)
    clock, objects = Clock(layout.time, name), Objects(layout)
    rows.causes.not_used("variables", layout.unused)
    for block in layout.blocks():
        read_block(layout, clock, objects, block, rows)


def read(source: Source, rows: Rows) -> None:
    """Reads a file. Refuses it where the module is not there, or what the library cannot read."""
    try:
        dataset = module("netCDF4").Dataset
    except ImportError:
        raise SourceError(
            f"{source.name} is a netCDF file, and the Python module netCDF4 is not there: Debian's package python3-netcdf4 has it, for "
            "/usr/bin/python3"
        ) from None
    with source.on_disk() as path:
        try:
            with dataset(path) as file:
                read_file(file, source.name, rows)
        except SourceError:
            raise
        except FAULTS as fault:
            raise SourceError(f"{source.name} could not be read as a netCDF file: {type(fault).__name__}: {str(fault)[:200]}") from None
