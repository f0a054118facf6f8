"""`Grid`: times, degrees and names, there and back; boxes and circles that lose no row."""

import datetime
import itertools
import math
import tempfile
import unittest
from decimal import Decimal
from pathlib import Path

import gract
from gract import planes

from . import plain

UTC = datetime.timezone.utc


def ground(one, other):
    """Metres between two places (longitude, latitude) on the globe, by the haversine formula."""
    (a, b), (c, d) = (tuple(map(math.radians, place)) for place in (one, other))
    half = math.sin((d - b) / 2) ** 2 + math.cos(b) * math.cos(d) * math.sin((c - a) / 2) ** 2
    return 2 * planes.RADIUS * math.asin(math.sqrt(half))


def moved(place, metres, bearing):
    """The place so far from another on the globe, in that direction (radians)."""
    longitude, latitude = map(math.radians, place)
    far = metres / planes.RADIUS
    north = math.asin(math.sin(latitude) * math.cos(far) + math.cos(latitude) * math.sin(far) * math.cos(bearing))
    east = longitude + math.atan2(
        math.sin(bearing) * math.sin(far) * math.cos(latitude), math.cos(far) - math.sin(latitude) * math.sin(north)
    )
    return math.degrees(east), math.degrees(north)


class Times(unittest.TestCase):
    def test_instants(self):
        grid = gract.Grid(tick=60)
        for text, instant in [
            ("1970-01-01 00:00", 0), ("1970-01-01T00:00:59.9Z", 0), ("1969-12-31 23:59:59", -1), ("1969-12-31 23:59:00", -1),
            ("1969-12-31 23:58:59", -2), ("2022-06-01 12:00", 27568080), ("2022-06-01T14:00+02:00", 27568080), ("2022-06-01", 27567360),
            ("59", 0), ("-1", -1), ("1654084800", 27568080), ("1654084800000", 27568080), ("0001-01-01", -1035593280),
        ]:
            self.assertEqual(grid.instant(text), instant, text)
        self.assertEqual(grid.instant(datetime.datetime(2022, 6, 1, 12)), 27568080)
        self.assertEqual(grid.instant(datetime.datetime(1969, 12, 31, 23, 59, 59, 999999)), -1)
        self.assertEqual(grid.instant(datetime.datetime(2022, 6, 1, 12, tzinfo=datetime.timezone(datetime.timedelta(hours=2)))), 27567960)
        for text in (5, None, datetime.date(2022, 6, 1), "", "noon", "2022-02-30", "2022-06-01 24:00", "2022-06-01 1:00", "1e9", "2022-06-01 12:00 +99"):
            with self.assertRaises(gract.ArgumentError):
                grid.instant(text)

    def test_back(self):
        """An instant's begin is in that instant, and the second before it is in the one before, also with an epoch and a unit."""
        draw = plain.randomness(3)
        for _ in range(500):
            grid = gract.Grid(tick=draw.choice([1, 6, 7, 60]), unit=draw.choice([1, 60, 3600]), epoch=draw.choice([0, 946684800, -77]))
            instant = draw.randrange(-10**5, 10**5)
            begin = grid.time(instant)
            self.assertEqual((grid.instant(begin), grid.instant(begin - datetime.timedelta(microseconds=1))), (instant, instant - 1))
            self.assertEqual(grid.instant(grid.time_text(instant)), instant)
        self.assertEqual(gract.Grid(tick=7).time_text(1), "1970-01-01 00:00:07")
        with self.assertRaises(gract.ArgumentError):
            gract.Grid().time(2**41)

    def test_lengths(self):
        """A length of time is rounded up."""
        grid = gract.Grid(tick=60)
        for length, instants in [("90 min", 90), ("1 h", 60), ("61 s", 2), ("0 s", 0), ("1.5 d", 2160), (datetime.timedelta(seconds=60.1), 2)]:
            self.assertEqual(grid.instants(length), instants)
        for length in (5, None, "", "1 week", "-1 h"):
            with self.assertRaises(gract.ArgumentError):
                grid.instants(length)


class Places(unittest.TestCase):
    grids = [
        gract.Grid.metres(55, cell=100, tick=60, stretch=1), gract.Grid.metres(-33.5, cell=7, stretch=2), gract.Grid.degrees(10), gract.Grid.degrees(1000, cell=30, west=0),
        gract.Grid.metres(0, cell=1), gract.Grid.metres(55, cell=50000),
    ]

    def test_cells(self):
        """A place is in the cell whose corners are around it, and the middle of a cell is in the cell."""
        draw = plain.randomness(4)
        for grid in self.grids:
            for _ in range(300):
                place = draw.uniform(-179, 179), draw.uniform(-80, 80)
                x, y = grid.cell_of(*place)
                low, high, middle = grid.corner(x, y), grid.corner(x + 1, y + 1), grid.place(x, y)
                east = place[0] + 360 * (place[0] < grid.west)
                self.assertTrue(low.longitude - 1e-9 <= east <= high.longitude + 1e-9 and low.latitude - 1e-9 <= place[1] <= high.latitude + 1e-9)
                self.assertEqual(grid.cell_of(*middle), (x, y))

    def test_boxes(self):
        """Every row in a box in degrees is in its cells, and no cell of them is without a point of the box."""
        draw = plain.randomness(5)
        for grid in self.grids:
            for _ in range(200):
                west, south = round(draw.uniform(-170, 100), 3), round(draw.uniform(-80, 60), 3)
                east, north = west + round(draw.uniform(0, 5), 3), south + round(draw.uniform(0, 5), 3)
                if west < grid.west <= east:
                    continue
                x1, y1, x2, y2 = grid.box(west, south, east, north)
                for longitude, latitude in [(west, south), (east, north), (draw.uniform(west, east), draw.uniform(south, north))]:
                    x, y = grid.cell_of(longitude, latitude)
                    self.assertTrue(x1 <= x <= x2 and y1 <= y <= y2)
                self.assertEqual((grid.cell_of(west, south), grid.cell_of(east, north)), ((x1, y1), (x2, y2)))
        tenth = gract.Grid.degrees(10)
        self.assertEqual(tenth.box(10.2, 54.1, 11.0, 55.0), (102, 541, 110, 550))
        self.assertEqual(tenth.box(-180, -90, 180, 90), (-1800, -900, 1800, 900))
        self.assertEqual(tenth.box(170, 0, 180, 1), (1700, 0, 1800, 10))
        self.assertEqual(gract.Grid.degrees(10, west=0).box(170, 0, -170, 1), (1700, 0, 1900, 10))
        self.assertEqual(gract.Grid.degrees(10, west=0).box(-180, 0, 180, 1), (0, 0, 3600, 10))
        self.assertEqual(gract.Grid.degrees(10, west=0).cell_of(-89.6, 29.3), (2704, 293))
        for grid, box in itertools.product(self.grids, [(0, 1, 1, 0), (0, 0, 1, 91), (0, 0, 361, 1)]):
            with self.assertRaises(gract.ArgumentError):
                grid.box(*box)
        for box in [(170, 0, -170, 1), (1, 0, 0, 1), (170, 0, 190, 1)]:
            with self.assertRaises(gract.ArgumentError):
                tenth.box(*box)

    def test_circles(self):
        """Every row within so many metres on the ground is in the disc, and no row of the disc is further than it says."""
        draw = plain.randomness(6)
        for grid in self.grids:
            for _ in range(400):
                place = draw.uniform(85, 95), draw.uniform(-65, 65)
                metres = draw.choice([0, 10, 300, 5000, 200000, 900000])
                circle = grid.circle(*place, metres)
                for _ in range(4):
                    point = moved(place, metres * draw.choice([1 - 1e-9, draw.random()]), draw.uniform(0, 2 * math.pi))
                    x, y = grid.cell_of(*point)
                    self.assertLessEqual((x - circle.x) ** 2 + (y - circle.y) ** 2, circle.radius**2)
                turn = draw.uniform(0, 2 * math.pi)
                x, y = circle.x + math.floor(circle.radius * math.cos(turn)), circle.y + math.floor(circle.radius * math.sin(turn))
                if (x - circle.x) ** 2 + (y - circle.y) ** 2 <= circle.radius**2:
                    corner = grid.corner(x + (math.cos(turn) > 0), y + (math.sin(turn) > 0))
                    if abs(corner.latitude) <= 90:
                        self.assertLessEqual(ground(place, corner), circle.reach)

    def test_reaches(self):
        """Any two rows within so many metres on the ground have cells within the reach, and none within it is further than it says."""
        draw = plain.randomness(9)
        for grid in self.grids:
            for _ in range(300):
                south = draw.uniform(-65, 60)
                north, metres = south + draw.choice([0, 0.1, 5]), draw.choice([0, 10, 300, 5000, 200000])
                reach = grid.reach(metres, south, north)
                here = draw.uniform(85, 95), draw.uniform(south, north)
                there = moved(here, metres * draw.choice([1 - 1e-9, draw.random()]), draw.uniform(0, 2 * math.pi))
                (x, y), (u, v) = grid.cell_of(*here), grid.cell_of(*there)
                self.assertLessEqual((x - u) ** 2 + (y - v) ** 2, reach.cells**2)
                turn = draw.uniform(0, 2 * math.pi)
                u, v = x + math.floor(reach.cells * math.cos(turn)), y + math.floor(reach.cells * math.sin(turn))
                if (x - u) ** 2 + (y - v) ** 2 <= reach.cells**2:
                    corner = grid.corner(u + (math.cos(turn) > 0), v + (math.sin(turn) > 0))
                    if abs(corner.latitude) <= 90:
                        self.assertLessEqual(ground(here, corner), reach.metres)

    def test_meetings(self):
        """Two that are within so many metres of each other at an instant have met by then, and are no further apart than the note says."""
        draw = plain.randomness(10)
        with tempfile.TemporaryDirectory() as folder:
            for nth in range(30):
                grid, metres = draw.choice(self.grids[:4]), draw.choice([100, 2000, 50000])
                begin = draw.uniform(20, 25), draw.uniform(40, 60)
                reports = [
                    (item, grid.tick * grid.unit * instant, *moved(begin, draw.uniform(0, 3 * metres), draw.uniform(0, 2 * math.pi)))
                    for instant in range(8) for item in (1, 2)
                ]
                file = Path(folder) / f"{nth}.idx"
                gract.build(grid.rows(reports), file, grid=grid)
                near = [instant for instant in range(8) if ground(reports[2 * instant][2:], reports[2 * instant + 1][2:]) <= metres]
                with gract.open(file) as ships:
                    found = ships.meet(1, 2, metres=metres)
                    note = found.notes[0]
                self.assertTrue(not near or (found and found[0].instant <= near[0]))
                for row in found:
                    apart = ground(reports[2 * row.instant][2:], reports[2 * row.instant + 1][2:])
                    self.assertLess(apart, int(note.split()[-3]))
        with gract.open(plain.STORMS_INDEX, grid=gract.Grid.degrees(10, cell=1, tick=6, unit=3600)) as storms:
            self.assertEqual(storms.meet(9999, 1, metres=5), [])
            with self.assertRaises(gract.ArgumentError):
                storms.meet(1, 2, metres=6000000)

    def test_what_an_answer_says(self):
        grid = gract.Grid.degrees(10, cell=1, tick=6, unit=3600, names=plain.NAMES)
        with gract.open(plain.STORMS_INDEX, grid=grid) as storms:
            answers = storms.slice(at="2005-08-29 06:00", around=(-90, 29.9), metres=70000)
            self.assertEqual(answers, [(278, -896, 293)])
            self.assertEqual(answers.notes, (
                "70000 metres around (-90, 29.9) are asked as disc -900 299 9, a radius in cells that leaves no row out; "
                f"rows up to {int(grid.circle(-90, 29.9, 70000).reach) + 1} metres away may be among those found",
                "here a way in the plane is up to 16% longer or shorter than on the ground: Grid.utm and Grid.projected stretch less",
            ))
            self.assertEqual(list(answers.records()), [{
                "instant": 52097, "time": "2005-08-29 06:00", "object": 278, "name": "Katrina", "x": -896, "y": 293, "longitude": -89.55,
                "latitude": 29.35,
            }])
            box = storms.slice(at="2005-08-29 06:00", box=(-98, 18, -81, 31))
            self.assertEqual((box, box.notes), ([(278, -896, 293)], (
                "the box (-98, 18, -81, 31) is asked as rect -980 180 -810 310, every cell that it touches",
            )))
            self.assertEqual(storms.nearest(1, "2020-09-14 06:00", place=(-80.2, 25.8)), [(502, -865, 282, 4545)])
            self.assertEqual(storms.last_known("2005-08-29 11:00", "12 h", box=(-98, 18, -81, 31)), [(278, 52097, -896, 293, 0)])
            self.assertEqual(storms.position("Katrina", datetime.datetime(2005, 8, 29, 6)), storms.position("278", 52097))
            self.assertEqual(answers.table().split("\n")[0].split(), ["instant", "time", "object", "name", "x", "y", "longitude", "latitude"])


class Files(unittest.TestCase):
    def test_saved(self):
        with tempfile.TemporaryDirectory() as folder:
            for nth, grid in enumerate([*Places.grids, gract.Grid(), gract.Grid.degrees(3, epoch=-5, unit=60, names={7: "Å, \"B\""})]):
                file = grid.save(Path(folder) / f"{nth}.idx")
                self.assertEqual(file.name, f"{nth}.grid.json")
                read = gract.Grid.load(file)
                self.assertEqual(read, grid)
                self.assertEqual((read.plane and vars(read.plane), read.names), (grid.plane and vars(grid.plane), grid.names))
            self.assertEqual(gract.grid.grid_file("a/ships"), Path("a/ships.grid.json"))
            self.assertEqual(len(list(Path(folder).iterdir())), nth + 1)

    def test_reports(self):
        """Reports in dates and degrees become an index that is asked in them, and its grid stands beside it."""
        reports = [
            ("Freja", "2022-06-01 12:00:30", 12.64, 55.71), ("Freja", "2022-06-01 12:00", 12.0, 55.0), ("Alma", "2022-06-01 12:01", Decimal("12.7"), 55.7),
            ("Alma", datetime.datetime(2022, 6, 1, 12, 2), 12.71, 55.7), ("Freja", 1654085100, 10, 54.0),
        ]
        grid = gract.Grid.of_reports(reports, cell=100, tick=60)
        self.assertEqual((grid.plane.middle, grid.names), (55, {1: "Freja", 2: "Alma"}))
        with tempfile.TemporaryDirectory() as folder:
            file = Path(folder) / "ships.idx"
            gract.build(grid.rows(reports), file, grid=grid)
            with gract.open(file) as ships:
                self.assertEqual(ships.grid, grid)
                # Of two reports in a minute the later in time counts, though it comes first.
                self.assertEqual(ships.position("Freja", "2022-06-01 12:00"), grid.cell_of(12.64, 55.71))
                near = ships.interval(around=(12.7, 55.7), metres=4500)
                self.assertEqual([row["name"] for row in near.records()], ["Freja", "Alma"])
                self.assertEqual(len(ships.path("Alma", "2022-06-01", "2022-06-02")), 2)
        self.assertEqual(gract.Grid.of_reports([(5, "0", 1, 2), ("7", "0", 1, 2)]).names, {})
        for wrong, argument in [
            ([], "reports"), ([("A", "0", 0, 91)], "reports: report 1: latitude"), ([("A", "0", 0, "x")], "reports: report 1: latitude"),
        ]:
            with self.assertRaises(gract.ArgumentError) as refused:
                gract.Grid.of_reports(wrong)
            self.assertEqual(refused.exception.argument, argument)
        for wrong, argument in [(("A", "0", 0, 1), "object"), ((1, "x", 0, 1), "time"), ((1, "0", 361, 1), "longitude"), ((1, "0", 0, None), "latitude")]:
            with self.assertRaises(gract.ArgumentError) as refused:
                gract.Grid.metres(50).rows([(1, "0", 0, 0), wrong])
            self.assertEqual(refused.exception.argument, f"reports: report 2: {argument}")

    def test_stretch(self):
        """Reports where metres are wrong by more than a quarter are refused, unless that is allowed; answers in metres say it from 5 % on."""
        wide = [(1, 0, 10.0, -45.0), (1, 60, 10.0, 54.0)]
        for ask in (lambda: gract.Grid.of_reports(wide), lambda: gract.Grid.metres(5).rows(wide), lambda: gract.Grid.metres(5, stretch=0.69).rows(wide)):
            with self.assertRaisesRegex(gract.ArgumentError, "between the latitudes -45 and 54 .* up to (70|69)% longer .* say stretch=0.7"):
                ask()
        grid = gract.Grid.of_reports(wide, stretch=0.7)
        self.assertEqual((grid.plane.middle, len(grid.rows(wide)), len(gract.Grid.degrees(10).rows(wide))), (4, 2, 2))
        # 1.25 times is the most: cos(50) = 0.643 and cos(59) = 0.515 are that far from each other.
        self.assertEqual(len(gract.Grid.metres(50).rows([(1, 0, 0, 59.0)])), 1)
        for latitude in (59.1, 36.4):
            with self.assertRaises(gract.ArgumentError):
                gract.Grid.metres(50).rows([(1, 0, 0, latitude)])
        with tempfile.TemporaryDirectory() as folder:
            grid = gract.Grid.metres(50, cell=100)
            gract.build(grid.rows([(item, 0, 0.0, latitude) for item, latitude in enumerate((50.0, 52.0, 57.0))]), Path(folder) / "a.idx", grid=grid)
            with gract.open(Path(folder) / "a.idx") as index:
                notes = [index.slice(0, around=(0, latitude), metres=1000).notes for latitude in (50, 52, 57)]
                self.assertEqual([len(told) for told in notes], [1, 1, 2])
                self.assertIn("up to 18% longer", notes[2][1])
                self.assertEqual([len(index.meet(item, item, metres=1000).notes) for item in range(3)], [1, 1, 2])

    def test_wrong_grids(self):
        for argument, make in [
            ("cell", lambda: gract.Grid(cell=0)), ("tick", lambda: gract.Grid(tick=1.5)), ("unit", lambda: gract.Grid(unit=-1)),
            ("epoch", lambda: gract.Grid(epoch="2000")), ("west", lambda: gract.Grid(west=181)), ("middle", lambda: gract.Grid.metres(90)),
            ("per_degree", lambda: gract.Grid.degrees(0.5)), ("names", lambda: gract.Grid(names={-1: "A"})),
            ("names", lambda: gract.Grid(names=7)), ("names", lambda: gract.Grid(names="/none/names.csv")), ("names", lambda: gract.Grid(names=plain.STORMS)),
            ("reports: report 2", lambda: gract.Grid.of_reports([(1, "0", 0, 0), (1, "0", 0)])), ("reports: report 1", lambda: gract.Grid().rows([7])),
            ("grid", lambda: gract.Grid().cell_of(0, 0)), ("longitude", lambda: gract.Grid.degrees(1).cell_of(400, 0)),
        ]:
            with self.assertRaises(gract.ArgumentError) as refused:
                make()
            self.assertEqual(refused.exception.argument, argument)
