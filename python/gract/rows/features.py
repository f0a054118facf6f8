"""Points with properties, as maps have them: which property has the object and which the time."""

from typing import Any, Mapping, Sequence

from ..errors import SourceError
from .clocks import Clock, Unclear
from .collecting import Rows
from .columns import OBJECTS, SHIPS, Columns
from .places import position_fault, position_of

# Properties are looked for by the names that tables have for their columns.
IDS = (*OBJECTS, *(name for name in SHIPS if name not in OBJECTS))


class Points:
    """The points of a layer as they are read. Refuses one whose properties have no object or no time."""

    def __init__(self, name: str, rows: Rows, properties: Sequence[str]):
        self.name, self.rows = name, rows
        self.properties = list(properties)
        self.columns = Columns(self.properties, rows.options, IDS, is_placed=True)
        if self.columns.missing:
            option, usual = self.columns.missing[0]
            raise SourceError(f"{name}: no property {usual}: give its name by --{option}; there are {', '.join(self.properties)[:200]}")
        rows.causes.not_used("properties", self.columns.unused)
        self.clock = Clock(rows.options)

    def add(self, values: Sequence[Any], longitude: object, latitude: object, where: str) -> None:
        """Adds a point whose properties have these values, or counts why it is no row."""
        record = list(map(text_of, values))
        texts = text_of(latitude), text_of(longitude)
        line = f"longitude {texts[1]}, latitude {texts[0]}, {', '.join(record)[:80]}"
        position = position_of(*texts, most_longitude=360)
        if position is None:
            self.rows.leave_out(position_fault(*texts), where, line)
            return
        try:
            seconds = self.columns.seconds_in(record, self.clock)
        except Unclear as cause:
            self.rows.leave_out(str(cause), where, line)
            return
        self.rows.add("" if self.rows.options.one_track is not None else self.columns.name_in(record), seconds, *position, where, line)

    def add_named(self, properties: Mapping[str, Any], longitude: object, latitude: object, where: str) -> None:
        """The same of properties with their names."""
        self.add([properties.get(name) for name in self.properties], longitude, latitude, where)

    def end(self) -> None:
        """Refuses points whose times are not understood."""
        self.clock.check(self.name)


def text_of(value: object) -> str:
    """A property as a text; empty where it is none."""
    if value is None or isinstance(value, (bool, bytes, dict, list)):
        return ""
    return value if isinstance(value, str) else repr(value) if isinstance(value, float) else str(value)
