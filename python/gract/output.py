"""Answers as text: in columns, as CSV, as JSON, or as GeoJSON."""

import json
from typing import Callable, Dict

from .features import features_of
from .shown import csv_text, table_of
from .wording import Told


def as_table(told: Told) -> str:
    """Columns, for people."""
    return table_of(told.records) + "\n"


def as_csv(told: Told) -> str:
    """CSV with a heading, without formulas."""
    return csv_text(told.columns, told.records)


def as_json(told: Told) -> str:
    """A list with an object for each row, a line each."""
    rows = ",\n ".join(json.dumps(record, ensure_ascii=False) for record in told.records)
    return f"[{rows}]\n"


def as_geojson(told: Told) -> str:
    """A collection of features, a line each. Refuses an answer without degrees."""
    rows = ",\n ".join(json.dumps(feature, ensure_ascii=False) for feature in features_of(told.records, told.kind == "path"))
    return f'{{"type": "FeatureCollection", "features": [{rows}]}}\n'


FORMATS: Dict[str, Callable[[Told], str]] = {"table": as_table, "csv": as_csv, "json": as_json, "geojson": as_geojson}
