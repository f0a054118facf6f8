"""Rows for gract from files of tracks: exports of AIS, tables, logs of receivers, GPX, KML, FIT, TCX, GeoJSON, GeoPackage, netCDF.

    from gract import rows
    with rows.read(["export.csv.gz"], rows.Options(middle=55)) as found:
        for row in found.rows(): ...

A module for each format reads it; `detecting` has all formats, and finds out which one a file is of; and `options` has all options in one
table. What is read is untrusted: it is refused or left out by its name and place, within bounded memory, which is by the number of objects.
"""

from .detecting import FORMATS
from .options import Options
from .reading import Found, read

__all__ = ["FORMATS", "Found", "Options", "read"]
