"""Projections of the EPSG registry: boxes and circles that lose no row, and that are no wider than they say."""

import json
import math
import pickle
import sys
import tempfile
import unittest
from decimal import Decimal
from pathlib import Path
from unittest import mock

import gract
from gract import planes, zones
from gract.rows import places

from . import plain
from .test_grid import ground, moved

try:
    import pyproj
except ImportError:
    pyproj = None

# A projection, the box in degrees that it is tried in, and a grid's cell.
PLACES = [
    ("EPSG:3035", (-5, 36, 35, 70), 100), (32633, (12, 50, 18, 60), 20), ("EPSG:32719", (-75, -50, -66, -20), 500),
    ("EPSG:3031", (-179, -85, 179, -65), 1000), (2263, (-75, 40, -72, 41.5), 300), (3857, (-170, -60, 170, 60), 5000),
]


@unittest.skipUnless(pyproj, "pyproj is not there, projections were not tried")
class Projected(unittest.TestCase):
    @classmethod
    def setUpClass(cls):
        cls.grids = [(gract.Grid.projected(crs, cell=cell, tick=60, stretch=3), box) for crs, box, cell in PLACES] if pyproj else []

    def test_cells(self):
        """Places are where pyproj has them, and the middle of a cell is in the cell."""
        draw = plain.randomness(1)
        for (grid, (west, south, east, north)), (crs, _, cell) in zip(self.grids, PLACES):
            there = pyproj.Transformer.from_crs(4326, crs, always_xy=True)
            places = [(draw.uniform(west, east), draw.uniform(south, north)) for _ in range(50)]
            for place, row in zip(places, grid.rows([(nth, 0, *place) for nth, place in enumerate(places)])):
                wanted = tuple(map(math.floor, there.transform(*place)))
                self.assertEqual((row[2:], grid.point(*place), grid.cell_of(*place)), (wanted, wanted, tuple(part // cell for part in wanted)))
                self.assertEqual(grid.cell_of(*grid.place(*grid.cell_of(*place))), grid.cell_of(*place))

    def test_boxes(self):
        """The cells of a box have every point of it, and without any of their four edges they would not."""
        draw = plain.randomness(2)
        for grid, (west, south, east, north) in self.grids:
            for _ in range(10):
                wide, high = draw.choice([0.01, 1, 0.5 * (east - west)]), draw.choice([0.01, 1, 0.5 * (north - south)])
                left, low = draw.uniform(west, east - wide), draw.uniform(south, north - high)
                box = left, low, left + wide, low + high
                x1, y1, x2, y2 = grid.box(*box)
                line = [point for edge in planes.edges(*box) for point in edge]
                line += [(draw.uniform(box[0], box[2]), draw.choice([box[1], box[3], draw.uniform(box[1], box[3])])) for _ in range(200)]
                cells = [tuple(math.floor(part) // grid.cell for part in point) for point in grid.plane.points(*zip(*line))]
                xs, ys = zip(*cells)
                self.assertTrue(x1 <= min(xs) and y1 <= min(ys) and max(xs) <= x2 and max(ys) <= y2)
                # Where an edge ends within what it may bend of a cell's edge, the next cell may count too.
                self.assertLessEqual(max(min(xs) - x1, min(ys) - y1, x2 - max(xs), y2 - max(ys)), 1)
                self.assertLessEqual((min(xs) - x1) + (min(ys) - y1) + (x2 - max(xs)) + (y2 - max(ys)), 1)

    def test_curved(self):
        """A box whose edge bends has rows in cells that none of its corners tells."""
        grid = gract.Grid.projected("EPSG:3035", cell=1000)
        x1, y1, x2, y2 = grid.box(0, 50, 20, 60)
        corners = [grid.cell_of(longitude, latitude) for longitude in (0, 20) for latitude in (50, 60)]
        self.assertLess(y1, min(y for _, y in corners))
        self.assertLessEqual(y1, grid.cell_of(10, 50)[1])
        self.assertIn("curved in EPSG:3035", grid.box_words)

    def test_circles(self):
        """Every row within so many metres, on the globe and on the ellipsoid, is in the disc; no row of the disc is further than it says."""
        draw, earth = plain.randomness(3), pyproj.Geod(ellps="WGS84")
        for grid, (west, south, east, north) in self.grids:
            for _ in range(25):
                place = draw.uniform(west, east), draw.uniform(south + 1, north - 1)
                metres = draw.choice([0, 10, 300, 5000, 50000])
                circle = grid.circle(*place, metres)
                for _ in range(6):
                    turn, part = draw.uniform(0, 2 * math.pi), draw.choice([1 - 1e-9, draw.random()])
                    for point in (moved(place, metres * part, turn), earth.fwd(*place, math.degrees(turn), metres * part)[:2]):
                        x, y = grid.cell_of(*point)
                        self.assertLessEqual((x - circle.x) ** 2 + (y - circle.y) ** 2, circle.radius**2)
                    x, y = circle.x + math.floor(circle.radius * math.cos(turn)), circle.y + math.floor(circle.radius * math.sin(turn))
                    if (x - circle.x) ** 2 + (y - circle.y) ** 2 <= circle.radius**2:
                        corner = grid.corner(x + (math.cos(turn) > 0), y + (math.sin(turn) > 0))
                        self.assertLessEqual(ground(place, corner), circle.reach)

    def test_tight(self):
        """In a zone of UTM a circle is asked hardly wider than it is."""
        circle = gract.Grid.utm([(1, 0, 15.0, 55.0)], cell=10).circle(15, 55, 10000)
        self.assertLess(circle.radius * 10, 10000 * 1.02)
        self.assertEqual(circle.notes, ())

    def test_meetings(self):
        """Two that are within so many metres of each other at an instant have met by then, and are no further apart than the note says."""
        draw = plain.randomness(4)
        with tempfile.TemporaryDirectory() as folder:
            for nth in range(12):
                grid, (west, south, east, north) = self.grids[nth % 3]
                begin, metres = (draw.uniform(west + 1, east - 1), draw.uniform(south + 2, north - 2)), draw.choice([100, 2000, 50000])
                reports = [
                    (item, 60 * instant, *moved(begin, draw.uniform(0, 3 * metres), draw.uniform(0, 2 * math.pi))) for instant in range(8) for item in (1, 2)
                ]
                file = Path(folder) / f"{nth}.idx"
                gract.build(grid.rows(reports), file, grid=grid)
                near = [instant for instant in range(8) if ground(reports[2 * instant][2:], reports[2 * instant + 1][2:]) <= metres]
                with gract.open(file) as ships:
                    self.assertEqual(ships.grid, grid)
                    found = ships.meet(1, 2, metres=metres)
                    self.assertTrue(not near or (found and found[0].instant <= near[0]))
                    for row in found:
                        apart = ground(reports[2 * row.instant][2:], reports[2 * row.instant + 1][2:])
                        self.assertLess(apart, int(found.notes[0].split()[-3]))
                    box = (begin[0] - 0.5, begin[1] - 0.5, begin[0] + 0.5, begin[1] + 0.5)
                    there = ships.interval(box=box)
                    inside = {item for item, _, lon, lat in reports if box[0] <= lon <= box[2] and box[1] <= lat <= box[3]}
                    self.assertLessEqual(inside, {hit.object for hit in there})
                    self.assertIn("curved in EPSG", there.notes[0])
                    west_edge, south_edge, east_edge, north_edge = ships.bounds.degrees
                    for _, _, lon, lat in reports:
                        self.assertTrue(west_edge <= lon <= east_edge and south_edge <= lat <= north_edge)

    def test_saved(self):
        with tempfile.TemporaryDirectory() as folder:
            for nth, (grid, _) in enumerate(self.grids):
                file = grid.save(Path(folder) / f"{nth}.idx")
                told = json.loads(file.read_text(encoding="utf-8"))
                self.assertEqual((told["grid"], told["epsg"]), (2, grid.plane.epsg))
                self.assertEqual((gract.Grid.load(file), pickle.loads(pickle.dumps(grid))), (grid, grid))
                with mock.patch.dict(sys.modules, pyproj=None), self.assertRaises(gract.LibraryMissing):
                    gract.Grid.load(file)

    def test_utm(self):
        for place, epsg in [((15, 55), 32633), ((-70.5, -33), 32719), ((179.9, 1), 32660), ((-180, 1), 32601), ((0, -1), 32731)]:
            self.assertEqual(gract.Grid.utm([("a", 0, *place)]).plane.epsg, epsg)
        grid = gract.Grid.utm([("Freja", 0, 12.6, 55.7), ("Alma", 0, 12.7, 55.6)], cell=10, tick=60)
        self.assertEqual((grid.names, grid.cell, grid.tick), ({1: "Freja", 2: "Alma"}, 10, 60))

    def test_proposed(self):
        reports = [(1, 60 * nth, 12.6 + nth / 1000, 55.7) for nth in range(50)]
        told = gract.propose(reports, plane=gract.Projected(3035))
        self.assertEqual((told.grid.plane.epsg, told.passed, told.reports), (3035, None, 50))
        self.assertLess(told.stretch, 0.02)

    def test_refused(self):
        for crs in ("EPSG:4326", "EPSG:0", "none", None, 7, "+proj=laea"):
            with self.assertRaises(gract.ArgumentError) as refused:
                gract.Grid.projected(crs)
            self.assertEqual(refused.exception.argument, "crs")
        utm = gract.Grid.projected(32633)
        with self.assertRaisesRegex(gract.ArgumentError, "longer or shorter"):
            utm.rows([(1, 0, 70.0, 10.0)])
        with self.assertRaises(gract.ArgumentError):
            utm.circle(15, 89.95, 10000)
        with mock.patch.dict(sys.modules, pyproj=None), self.assertRaises(gract.LibraryMissing) as missing:
            gract.Grid.projected(3035)
        self.assertEqual(missing.exception.library, "pyproj")

    def test_polygons(self):
        """A polygon in degrees has curved edges in a projection, and is refused; one in cells is taken."""
        grid = gract.Grid.projected(32633, cell=20)
        ring = [(Decimal(15), Decimal(50)), (Decimal(16), Decimal(50)), (Decimal(16), Decimal(51))]
        with self.assertRaisesRegex(gract.SourceError, "EPSG:32633.* in cells"):
            zones.Squares(10, grid).places(ring)
        self.assertEqual(len(zones.Squares(10).places(ring)), 3)

    def test_texts(self):
        """Degrees as texts are placed as numbers are."""
        plane = gract.Projected(3035)
        self.assertEqual(places.placer(plane, -180)("55.5", "12.25"), plane.place(Decimal("55.5"), Decimal("12.25")))
