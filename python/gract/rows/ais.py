"""Exports of AIS: tables with a ship's number, a time and decimal degrees."""

from typing import Optional

from .collecting import Rows
from .columns import SHIPS
from .sources import Source
from .table import Table

# The numbers of base stations begin with 00, those of aids to navigation with 99 (ITU-R M.585).
STATIONS = "a base station or an aid to navigation"


def is_station(ship: str) -> bool:
    """Whether a ship's number is that of a base station or of an aid to navigation."""
    return ship.isascii() and ship.isdigit() and len(ship) <= 9 and (int(ship) < 10_000_000 or int(ship) >= 990_000_000)


class Export(Table):
    """An export of AIS, whose longitudes go up to 180."""

    def station(self, name: str) -> Optional[str]:
        """Why an object of that name is left out."""
        return STATIONS if self.rows.options.no_stations and is_station(name) else None


def read(source: Source, rows: Rows) -> None:
    """Reads an export."""
    Export(source, rows, SHIPS, 180).read()
