"""Which format a file is of, by its content."""

import re
from typing import Dict, Optional, Tuple

from ..errors import SourceError
from .format import Format, Head, other_kind
from .options import Options
from .sources import Source

# How lines of logs, a document of GeoJSON, and a file of drifters begin.
SENTENCES = re.compile(r".{0,80}[!$](?:[A-Z]{2}(?:VDM|VDO|RMC|ZDA|GGA|GSA|GSV|GLL|VTG|TXT)|PUBX),")
REPORTS = re.compile(r'\s*\{\s*"class"\s*:\s*"')
FEATURES = re.compile(r'\s*\x1e?\{.{0,4096}?"type"\s*:\s*"(?:FeatureCollection|Feature)"', re.DOTALL)
DRIFTERS = re.compile(r"\s*\d{1,10}\s+(?:[1-9]|1[0-2])\s+\d{1,2}\.\d+\s+(?:19|20)\d\d\s+-?\d{1,3}\.\d+\s+-?\d{1,3}\.\d+(?:\s|$)")


def is_ais(head: Head) -> bool:
    """Whether there is a heading with ships."""
    return bool(head.heading) and head.has_ships


def is_table(head: Head) -> bool:
    """Whether there is a heading, and not one of ships alone."""
    return bool(head.heading) and (head.has_animals or not head.has_ships)


def is_nmea(head: Head) -> bool:
    """Whether a line is a sentence."""
    return head.matches(SENTENCES)


def is_gpsd(head: Head) -> bool:
    """Whether a line is an object of JSON with a class."""
    return head.matches(REPORTS)


def is_gpx(head: Head) -> bool:
    """Whether the first element is that of GPX."""
    return head.root == "gpx"


def is_kml(head: Head) -> bool:
    """Whether the first element is that of KML."""
    return head.root == "kml"


def is_fit(head: Head) -> bool:
    """Whether there is the head of a FIT file."""
    return head.start[8:12] == b".FIT"


def is_tcx(head: Head) -> bool:
    """Whether the first element is that of a training centre's database."""
    return head.root == "TrainingCenterDatabase"


def is_geojson(head: Head) -> bool:
    """Whether there is an object with the type of a feature or of features."""
    return FEATURES.match(head.text) is not None


def is_geopackage(head: Head) -> bool:
    """Whether there is the head of a GeoPackage: one of SQLite with its mark, or with its tables named in the first pages."""
    has_mark = head.start[68:72] in (b"GPKG", b"GP10", b"GP11") or b"gpkg_geometry_columns" in head.start
    return head.start.startswith(b"SQLite format 3\0") and has_mark


def is_netcdf(head: Head) -> bool:
    """Whether there is the head of a netCDF file, of version 3 or of HDF5."""
    return head.start[:3] == b"CDF" or head.start[:4] == b"\x89HDF"


def are_drifters(head: Head) -> bool:
    """Whether the first lines all have such columns."""
    return bool(head.lines) and all(DRIFTERS.match(line) for line in head.lines[:5])


# All formats there are.
TABLE = Format("table", "a table with a heading", "degrees", is_table, "table.read", ("ais",))
FORMATS: Tuple[Format, ...] = (
    Format("ais", "an AIS export with a heading", "metres", is_ais, "ais.read", ("table",)),
    TABLE,
    Format("nmea", "a log of NMEA sentences", "metres", is_nmea, "nmea.read"),
    Format("gpsd", "what gpsd says in JSON", "metres", is_gpsd, "gpsd.read"),
    Format("gpx", "a GPX file", "metres", is_gpx, "gpx.read"),
    Format("kml", "a KML file with gx:Track", "metres", is_kml, "kml.read"),
    Format("fit", "a FIT file, by gpsbabel", "metres", is_fit, "babel.read_fit"),
    Format("tcx", "a TCX file, by gpsbabel", "metres", is_tcx, "babel.read_tcx"),
    Format("geojson", "GeoJSON", "degrees", is_geojson, "geojson.read"),
    Format("geopackage", "a GeoPackage", "degrees", is_geopackage, "geopackage.read"),
    Format("netcdf", "a netCDF file of trajectories", "degrees", is_netcdf, "netcdf.read"),
    Format("drifters", "a file of NOAA's drifters", "degrees", are_drifters, "drifters.read"),
)
BY_NAME: Dict[str, Format] = {it.name: it for it in FORMATS}


def format_of(source: Source, options: Options) -> Format:
    """The format of a file. Refuses content that is of none, or could be of two, or is of another than the options say."""
    head = Head(source, options)
    found = [it for it in FORMATS if it.begins(head)]
    if options.form is not None:
        return told(source.name, head, BY_NAME[options.form], found)
    kind = None if found else other_kind(head)
    if kind is not None or head.start.lstrip(b"\xef\xbb\xbf").startswith(b"object,instant,x,y"):
        raise SourceError(f"{source.name} is {kind or other_kind(head)}")
    if len(found) > 1:
        names = " or ".join(f"{it.what} (--as {it.name})" for it in found)
        raise SourceError(f"{source.name} could be {names}: say which by --as")
    # What is text and nothing else may be a table, which says what it lacks.
    return found[0] if found else TABLE


def told(name: str, head: Head, wanted: Format, found: "list[Format]") -> Format:
    """The format that the options say. Refuses a file that is clearly of another one."""
    if wanted in found or any(it.name in wanted.alike for it in found):
        return wanted
    kind = None if found else other_kind(head)
    if found:
        raise SourceError(f"{name} is {found[0].what} (--as {found[0].name}), and not {wanted.what}")
    if kind is not None:
        raise SourceError(f"{name} is {kind}")
    return wanted


def usual_plane(formats: "list[Format]") -> Optional[str]:
    """The usual plane of files of these formats; None where they have different ones."""
    planes = {it.plane for it in formats}
    return planes.pop() if len(planes) == 1 else None
