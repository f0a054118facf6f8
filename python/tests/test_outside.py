"""What an answer leaves out is told: in its notes, or by a warning where it is no list."""

import tempfile
import unittest
import warnings
from pathlib import Path
from unittest import mock

import gract
from gract.archive import days

from . import plain
from .test_parts import build_here, shards_here

GRID = gract.Grid.degrees(10, tick=6, unit=3600, names=plain.NAMES)


class Outside(unittest.TestCase):
    def setUp(self):
        self.storms = gract.open(plain.STORMS_INDEX, grid=GRID)
        self.addCleanup(self.storms.close)

    def lines(self, question):
        """The answer of a question, and how many lines it takes."""
        asked, lines = self.storms, []
        exchange = type(asked._ready(0)).exchange
        with mock.patch("gract.child.Child.exchange", lambda child, given: lines.extend(given) or exchange(child, given)):
            found = question(asked)
        return found, len(lines)

    def test_instants_and_windows(self):
        for question, told in (
            (lambda s: s.slice(5), "at instant 5"), (lambda s: s.slice("1700-01-01"), "(1700-01-01 00:00)"), (lambda s: s.nearest(3, 99999, (0, 0)), "99999"),
            (lambda s: s.path("Katrina", until=3), "the first instant is 8012"), (lambda s: s.interval(since=80000), "the last 74338"),
            (lambda s: s.visits(since=80000, until=80001), "from 80000"), (lambda s: s.last_known(5, 2), "from 3"), (lambda s: s.meet(1, 2, 0, 1, reach=5), "from 0"),
            (lambda s: s.path(278, 52100, 52000), "since, 52100"), (lambda s: s.interval(9000, 8500, gract.rect(0, 0, 9, 9)), "is after until, 8500"),
        ):
            with self.subTest(told=told):
                found, count = self.lines(question)
                self.assertEqual(list(found), [])
                self.assertEqual((len(found.notes), count), (1, 1))
                self.assertIn(told, found.notes[0])

    def test_objects(self):
        """They are looked for where an answer is empty, and nowhere else; an object that is there, but not then, is no object outside."""
        for question, notes, count in (
            (lambda s: s.path(4000), ["object 4000 has no row at all"], 2), (lambda s: s.path(278, 74000), [], 2), (lambda s: s.path(278), [], 1),
            (lambda s: s.meet(278, 4000, reach=5), ["object 4000 has no row at all"], 3), (lambda s: s.slice(74077, gract.rect(5000, 0, 5001, 1)), [], 1),
        ):
            found, lines = self.lines(question)
            self.assertEqual((list(found.notes), lines), (notes, count))

    def test_positions(self):
        for item, at, told in ((278, 5, "at instant 5"), (4000, 52097, "object 4000 has no row at all"), (278, 52000, None), (278, 52097, None)):
            with warnings.catch_warnings(record=True) as warned:
                warnings.simplefilter("always")
                self.storms.position(item, at)
            self.assertEqual([(warning.category, warning.filename) for warning in warned], [(gract.OutsideWarning, __file__)] * (told is not None))
            self.assertTrue(told is None or told in str(warned[0].message))

    def test_degrees_for_cells(self):
        """Where cells lie outside those of the index, and the numbers inside as degrees; nothing else is told."""
        for region, is_told in ((gract.rect(-98, 18, -81, 31), True), (gract.disc(-90, 29, 1), True), (gract.rect(-980, 180, -810, 310), False),
                                (gract.rect(120, 10, 130, 20), False), (gract.zone(gract.disc(-90, 29, 1)), False), (gract.rect(5000, 100, 5001, 101), False)):
            for question in (lambda s: s.slice(52097, region), lambda s: s.interval(52097, 52098, region), lambda s: s.visits(region, 52097, 52098)):
                found = question(self.storms)
                self.assertEqual(bool(found.notes), is_told and not found and not self.is_within(region), region)

    def is_within(self, region):
        """Whether the bounds have a cell of a rectangle or a disc."""
        x1, y1, x2, y2 = self.storms.bounds
        left, low, right, high = region if len(region) == 4 else (region.x - region.r, region.y - region.r, region.x + region.r, region.y + region.r)
        return x1 <= right and left <= x2 and y1 <= high and low <= y2

    def test_degrees_far_from_cells(self):
        with tempfile.TemporaryDirectory() as folder:
            grid = gract.Grid.metres(55, cell=100, tick=60)
            gract.build([(1, 60 * at, 800000 + at, 6100000) for at in range(9)], Path(folder) / "one.idx", grid=grid)
            with gract.open(Path(folder) / "one.idx") as index:
                place = grid.place(*index.path(1)[0][1:])
                east, north = int(place.longitude), int(place.latitude)
                wanted = "degrees are asked by box="
                self.assertEqual(index.slice(5, gract.rect(east, north, east + 1, north + 1)).notes, ())
                degrees = gract.Grid.metres(55, cell=10, tick=60)
                x, y = degrees.cell_of(12.5, 54.5)
                gract.build([(1, 60, 10 * (x + a), 10 * (y + b)) for a, b in ((-9000, -9000),)] + [(2, 60, 10 * (x + 9000), 10 * (y + 9000))],
                            Path(folder) / "two.idx", grid=degrees)
            with gract.open(Path(folder) / "two.idx") as index:
                found = index.slice(1, gract.rect(12, 54, 13, 55))
                self.assertIn(wanted, found.notes[0])
                self.assertEqual(index.nearest(1, 2, (12, 54)).notes[0].count("no row"), 1)

    def test_ends_of_days(self):
        """A date without a time of day is as `until` the end of that day, with a note; with a time, and as `since`, it is what it says."""
        table = plain.storms()
        for until, last in (("2005-08-29", 52099), ("2005-08-29 00:00", 52096), ("2005-08-29Z", 52099), ("2005-08-29 +02:00", 52099)):
            found = self.storms.path("Katrina", "2005-08-28", until)
            self.assertEqual(found, table.path(278, 52092, last))
            self.assertEqual(len(found.notes), ":00" not in until or "+" in until)
        self.assertIn("instant 52099 (2005-08-29 18:00)", self.storms.interval("2005-08-29", "2005-08-29").notes[0])
        self.assertEqual(self.storms.interval("2005-08-29", "2005-08-29"), table.interval(52096, 52099, lambda x, y: True))
        self.assertEqual(list(self.storms.held("Katrina", "2005-08-29", "2005-08-29")), table.path(278, 52096, 52099))
        self.assertEqual(self.storms.visits(since="2005-08-29", until="2005-08-29"), table.visits(52096, 52099, lambda x, y: True))

    def test_parts(self):
        """Of days objects are not looked for, which would open all; of shards they are."""
        with tempfile.TemporaryDirectory() as folder:
            days.build(plain.STORMS, Path(folder) / "days", length="3650 d", period=1461, grid=GRID)
            build_here(plain.STORMS, Path(folder) / "shards", 3, period=1461, grid=GRID)
            with days.open(Path(folder) / "days") as by_time, shards_here(Path(folder) / "shards") as by_object:
                for asked in (by_time, by_object):
                    self.assertIn("at instant 5", asked.slice(5).notes[0])
                    self.assertIn("end of that day", asked.interval("2005-08-29", "2005-08-29").notes[0])
                self.assertEqual((by_time.path(4000, 8012, 8013).notes, len(by_object.path(4000).notes)), ((), 1))
                self.assertEqual(len(by_time.open_indices()), 2)


if __name__ == "__main__":
    unittest.main()
