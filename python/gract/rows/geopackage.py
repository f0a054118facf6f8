"""GeoPackage (OGC 12-128): layers of points with an object and a time among their columns, by SQLite.

The file is opened to be read alone, and its own SQL is not trusted: views and virtual tables are not read.
"""

import contextlib
import sqlite3
import struct
import urllib.parse
from typing import Iterator, List, Optional, Tuple

from ..errors import SourceError
from .collecting import Rows
from .features import Points
from .sources import MOST_LINE, Source

# Bytes of the rectangle around a geometry, by the flags of its head.
ENVELOPES = (0, 32, 48, 48, 64)

# Well-known binary: a point in the plane, and with a height, a measure or both, as OGC and as others number them.
POINTS = frozenset((1, 1001, 2001, 3001, 0x80000001, 0x40000001, 0xC0000001))

WGS84 = 4326
LAYERS = "SELECT table_name, column_name, geometry_type_name, srs_id FROM gpkg_geometry_columns"


def point_of(blob: object) -> Optional[Tuple[float, float]]:
    """Longitude and latitude of a geometry; None for what is no point, or an empty one."""
    if not isinstance(blob, bytes) or len(blob) < 8 or blob[:2] != b"GP" or blob[3] & 0x30:
        return None
    kind = blob[3] >> 1 & 7
    start = 8 + ENVELOPES[kind] if kind < len(ENVELOPES) else len(blob)
    if len(blob) < start + 21:
        return None
    order = "<" if blob[start] == 1 else ">"
    number, east, north = struct.unpack_from(f"{order}Idd", blob, start + 1)
    return (east, north) if number in POINTS else None


def quoted(name: str) -> str:
    """A name as SQL has it."""
    return '"' + name.replace('"', '""') + '"'


@contextlib.contextmanager
def opened(path: str, name: str) -> Iterator[sqlite3.Connection]:
    """A file of SQLite, within bounds. Refuses what is damaged."""
    try:
        with contextlib.closing(sqlite3.connect(f"file:{urllib.parse.quote(path)}?mode=ro", uri=True)) as base:
            base.execute("PRAGMA trusted_schema = OFF")
            base.execute("PRAGMA query_only = ON")
            base.execute("PRAGMA cell_size_check = ON")
            base.text_factory = lambda data: data.decode("utf-8", "replace")
            if hasattr(base, "setlimit"):
                base.setlimit(sqlite3.SQLITE_LIMIT_LENGTH, MOST_LINE)
            yield base
    except sqlite3.Error as fault:
        raise SourceError(f"{name} is a damaged GeoPackage, or has a field of more than {MOST_LINE:,} bytes: {fault}") from None


def layers_of(base: sqlite3.Connection, name: str, rows: Rows) -> Iterator[Tuple[str, str]]:
    """The table and the column of each layer of points. Refuses one in another reference system."""
    tables = {row[0]: row[1] or "" for row in base.execute("SELECT name, sql FROM sqlite_master WHERE type = 'table'")}
    for table, column, kind, system in base.execute(LAYERS):
        if str(kind).upper() not in ("POINT", "GEOMETRY"):
            rows.causes.not_used("layers", [f"{table} ({kind})"])
        elif table not in tables or tables[table].upper().startswith("CREATE VIRTUAL"):
            rows.causes.not_used("layers", [f"{table} (no table)"])
        elif system != WGS84:
            raise SourceError(f"{name}: the layer {table} is in the reference system {system}, and not in degrees (4326)")
        else:
            yield str(table), str(column)


def read_layer(base: sqlite3.Connection, name: str, table: str, column: str, rows: Rows) -> None:
    """Reads a layer."""
    columns = [str(row[1]) for row in base.execute(f"PRAGMA table_info({quoted(table)})")]
    others = [it for it in columns if it != column]
    points = Points(f"{name} layer {table}", rows, others)
    for nth, record in enumerate(base.execute(f"SELECT {', '.join(map(quoted, [column, *others]))} FROM {quoted(table)}"), 1):
        where, place = f"{name} layer {table} row {nth}", point_of(record[0])
        if place is None:
            rows.leave_out("a row without a point", where, "")
        else:
            points.add(record[1:], *place, where)
    points.end()


def read(source: Source, rows: Rows) -> None:
    """Reads all layers of points. Refuses a file without one."""
    with source.on_disk() as path, opened(path, source.name) as base:
        layers: List[Tuple[str, str]] = list(layers_of(base, source.name, rows))
        if not layers:
            raise SourceError(f"{source.name} has no layer of points")
        for table, column in layers:
            read_layer(base, source.name, table, column, rows)
