"""How a netCDF file lays out trajectories (CF conventions, chapter 9 and H.4): where its times, places and objects are.

Read are tables with an object in each row, whose times may be common to all rows, as OpenDrift writes them; observations one after the
other, with a count for each object (contiguous ragged arrays), with an object's place for each observation (indexed ones) or with its
name for each, as Argo's files have them; and files of one object.
"""

from typing import Any, Iterator, List, NamedTuple, NoReturn, Optional, Sequence, Tuple

from ..errors import SourceError
from .options import Options

NAMES = {
    "time": ("time", "juld", "obs_time"),
    "latitude": ("lat", "latitude"),
    "longitude": ("lon", "long", "longitude"),
}
GIVEN = {"time": "time", "latitude": "lat", "longitude": "lon"}
IDS = (
    "trajectory", "id", "drifter_id", "platform", "platform_code", "platform_number", "station_name", "wmo", "ids", "buoy_id",
    "float_id", "mmsi", "trajectory_id", "traj_id",
)
COUNTS = ("rowsize", "row_size")

# The most values of an array, and so many are read at a time.
MOST_VALUES = 1 << 26
PIECE = 1 << 16


class Block(NamedTuple):
    """A part of the observations: the slices of each dimension, the number of the first, and how many there are along each."""

    slices: Tuple[slice, ...]
    first: int
    shape: Tuple[int, ...]


class Layout:
    """Where a file has its times, places and objects. Refuses what is no trajectory, and arrays that are too great."""

    def __init__(self, file: Any, name: str, options: Options):
        self.file, self.name, self.options = file, name, options
        self.time = self.find("time")
        self.latitude, self.longitude = self.find("latitude"), self.find("longitude")
        self.dimensions: Sequence[str] = self.latitude.dimensions
        self.shape: Tuple[int, ...] = tuple(self.latitude.shape)
        # The axis along which time goes alone, where times are common to all objects.
        self.common: Optional[int] = None
        self.check_shapes()
        self.ids: Any = None if options.one_track is not None else self.find_ids()
        self.counts, self.places = self.find_counts()
        used = [self.time, self.latitude, self.longitude, self.ids, self.counts, self.places]
        self.used = [it for it in used if it is not None]
        for variable in self.used:
            self.check_size(variable)

    def refuse(self, why: str) -> NoReturn:
        """Refuses the file."""
        raise SourceError(f"{self.name}: {why}")

    def find(self, what: str) -> Any:
        """The variable that the options name, or else the one of that standard name, or of a usual name."""
        variables = self.file.variables
        given = getattr(self.options, GIVEN[what])
        if given:
            return self.named(given)
        for found in variables.values():
            if getattr(found, "standard_name", "") == what:
                return found
        for found in variables:
            if found.lower() in NAMES[what]:
                return variables[found]
        there = ", ".join(variables)[:300]
        self.refuse(f"it has no variable of {what} (--{GIVEN[what]} NAME says which it is): its variables are {there}")

    def named(self, given: str) -> Any:
        """The variable of that name."""
        if given not in self.file.variables:
            self.refuse(f"it has no variable {given}: its variables are {', '.join(self.file.variables)[:300]}")
        return self.file.variables[given]

    def check_shapes(self) -> None:
        """Refuses variables that are not of one shape."""
        times, places = tuple(self.time.dimensions), tuple(self.dimensions)
        if tuple(self.longitude.dimensions) == places and len(places) <= 2:
            if times == places:
                return
            if len(times) == 1 and len(places) == 2 and times[0] in places:
                self.common = places.index(times[0])
                return
        shapes = (f"{what} has the dimensions ({', '.join(it.dimensions)})" for what, it in (
            ("time", self.time), ("latitude", self.latitude), ("longitude", self.longitude),
        ))
        self.refuse(f"{', '.join(shapes)}: these are no trajectories")

    def check_size(self, variable: Any) -> None:
        """Refuses an array that is too great."""
        size = 1
        for length in variable.shape:
            size *= int(length)
        if size > MOST_VALUES:
            self.refuse(f"the variable {variable.name} has {size:,} values, and {MOST_VALUES:,} are the most that are read")

    def find_ids(self) -> Any:
        """The variable that says which object it is, if there is one."""
        if self.options.id:
            return self.named(self.options.id)
        variables = self.file.variables
        found = next((it for it in variables.values() if getattr(it, "cf_role", "") == "trajectory_id"), None)
        return found if found is not None else next((variables[it] for it in variables if it.lower() in IDS), None)

    def find_counts(self) -> Tuple[Any, Any]:
        """The variable that counts the observations of each object, or that has the object's place for each; None where there is none."""
        if len(self.dimensions) != 1:
            return None, None
        for found in self.file.variables.values():
            is_count = found.name.lower() in COUNTS and found.dimensions != self.dimensions
            if getattr(found, "sample_dimension", "") in self.dimensions or is_count:
                return found, None
            if hasattr(found, "instance_dimension") and found.dimensions == self.dimensions:
                return None, found
        return None, None

    @property
    def id_dimensions(self) -> Tuple[str, ...]:
        """The dimensions of the objects' names, without that of their letters."""
        found: Tuple[str, ...] = tuple(self.ids.dimensions)
        return found[:-1] if self.ids.dtype == "S1" and found else found

    @property
    def names_observations(self) -> bool:
        """Whether each observation has its object's name."""
        return self.ids is not None and len(self.dimensions) == 1 and self.id_dimensions == tuple(self.dimensions) and not (
            self.counts is not None or self.places is not None
        )

    @property
    def object_axis(self) -> Optional[int]:
        """The axis of a table along which the objects are; None where it is no table."""
        if len(self.dimensions) != 2:
            return None
        return 0 if self.common is None else 1 - self.common

    def objects(self) -> int:
        """How many objects have a name each, where their names are not those of observations. Refuses names that are of none."""
        found = self.id_dimensions
        axis = self.object_axis
        instance = self.counts.dimensions[:1] if self.counts is not None else None
        if axis is not None:
            fits = found == (self.dimensions[axis],)
        elif instance is not None:
            fits = found == tuple(instance)
        else:
            fits = found == () or (self.places is not None and len(found) == 1) or (len(found) == 1 and self.ids.shape[0] == 1)
        if not fits:
            self.refuse(
                f"the names in {self.ids.name} have the dimensions ({', '.join(self.ids.dimensions)}), and are those of no object: "
                "--id NAME says which variable it is, or --one-track NAME that there is one object"
            )
        return int(self.ids.shape[0]) if found else 1

    def blocks(self) -> Iterator[Block]:
        """The observations in their order, some at a time."""
        if len(self.shape) == 2:
            yield from table_blocks(*self.shape)
        else:
            count = self.shape[0] if self.shape else 1
            for start in range(0, count, PIECE):
                end = min(count, start + PIECE)
                yield Block((slice(start, end),) if self.shape else (), start, (end - start,))

    @property
    def unused(self) -> List[str]:
        """The names of all other variables."""
        used = {it.name for it in self.used}
        return [name for name in self.file.variables if name not in used]


def table_blocks(high: int, wide: int) -> Iterator[Block]:
    """The parts of a table: rows together where they are short, and parts of a row where it is long."""
    rows = max(1, PIECE // max(1, wide))
    for top in range(0, high, rows):
        low = min(high, top + rows)
        for left in range(0, wide, PIECE):
            right = min(wide, left + PIECE)
            yield Block((slice(top, low), slice(left, right)), top * wide + left, (low - top, right - left))
