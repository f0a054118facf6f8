"""Records as features of GeoJSON (RFC 7946)."""

from typing import Any, Dict, List, Sequence

from .names import shown
from .records import Record, place_of

Feature = Dict[str, Any]


def features_of(records: Sequence[Record], is_path: bool) -> List[Feature]:
    """A line for a path, with its times; and a point for each row of any other answer, in the middle of its cell: of a stay where it
    began, of an object its first row, of a meeting where the left one was. Refuses records without degrees."""
    return path_features(records) if is_path else [feature_of(record) for record in records]


def feature_of(record: Record) -> Feature:
    """A row as a point, with its other columns."""
    columns, place = place_of(record)
    properties = {name: shown(value) if isinstance(value, str) else value for name, value in record.items() if name not in columns}
    return {"type": "Feature", "geometry": {"type": "Point", "coordinates": place}, "properties": properties}


def path_features(records: Sequence[Record]) -> List[Feature]:
    """A path as a line; one row alone is a point."""
    if len(records) < 2:
        return [feature_of(record) for record in records]
    line = {"type": "LineString", "coordinates": [place_of(record)[1] for record in records]}
    first = feature_of(records[0])["properties"]
    properties: Record = {name: first[name] for name in ("object", "name") if name in first}
    properties["instants"] = [record["instant"] for record in records]
    properties["times"] = [record["time"] for record in records]
    return [{"type": "Feature", "geometry": line, "properties": properties}]
