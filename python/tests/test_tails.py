"""Rows that came since, asked together with an index or with an archive of days, beside one index of all."""

import os
import tempfile
import unittest
from pathlib import Path
from unittest import mock

import gract
from gract.archive import days

from .parted import Charts, reply_bytes
from .test_forks import copy, status_of
from .test_growing import LINES, NEW, OLD

CHARTS = 15


class Tails(unittest.TestCase):
    def setUp(self):
        folder = tempfile.TemporaryDirectory()
        self.addCleanup(folder.cleanup)
        self.folder = Path(folder.name)
        self.parts = self.folder / "parts"
        # What is held for a tail is looked for here.
        self.held = self.folder / "held"
        self.held.mkdir()
        patch = mock.patch("tempfile.tempdir", str(self.held))
        patch.start()
        self.addCleanup(patch.stop)

    def cut(self, chart):
        """The rows of a chart in two, the later ones as they may be given."""
        place = chart.draw.randrange(1, len(chart.rows) + 1)
        rows = chart.rows[place:]
        file = self.folder / "tail.csv"
        file.write_text("".join(",".join(map(str, row)) + "\n" for row in rows))
        return chart.rows[:place], chart.draw.choice([rows, iter(rows), file, str(file)])

    def test_random_charts(self):
        """The replies are the bytes of one index of all rows: of an index, and of days, of which some are of the tail alone."""
        for seed in range(CHARTS):
            with self.subTest(seed=seed):
                chart = Charts(self, self.folder, seed)
                first, rest = self.cut(chart)
                gract.build(first, self.folder / "first.idx", **chart.words)
                with gract.open(self.folder / "first.idx") as index, index.with_tail(rest) as asked:
                    chart.compared(asked)
                first, rest = self.cut(chart)
                length = chart.tick * chart.draw.choice([5, 30, 1000])
                days.build(first, self.parts, length=length, replace=True, **chart.words)
                before = sorted(os.listdir(self.parts))
                with days.open(self.parts, tail=rest) as asked:
                    chart.compared(asked)
                    self.assertEqual(sorted(os.listdir(self.parts)), before)
                self.assertEqual(os.listdir(self.held), [])

    def test_names_and_dates(self):
        """A tail of reports: dates, degrees and names are those of the grid, and new names get the next numbers, which are not saved."""
        grid = gract.Grid.degrees(10, cell=1, tick=60)
        one, two = self.folder / "1.csv", self.folder / "2.csv"
        one.write_text("id,time,lon,lat\nBerta,1970-01-01 00:10,1,2\nAnna,1970-01-01 00:11,3,4\n")
        two.write_text("id,time,lon,lat\nAnna,1970-01-02 00:11,3,5\nDora,1970-01-01 00:12,7,8\n")
        gract.build(one, self.folder / "one.idx", grid=grid)
        days.build(one, self.parts, length="1 d", grid=grid)
        saved = (self.folder / "one.grid.json").read_bytes()
        with gract.open(self.folder / "one.idx") as index:
            self.assertEqual(index.names, {1: "Berta", 2: "Anna"})
            with index.with_tail(two) as tailed, gract.open(self.folder / "one.idx", tail=two) as opened, days.open(self.parts, tail=two) as asked:
                for found in (tailed, opened, asked):
                    self.assertEqual(found.grid.names, {1: "Berta", 2: "Anna", 3: "Dora"})
                    self.assertEqual(found.path("Anna"), [(11, 30, 40), (1451, 30, 50)])
                    cell = found.position("Dora", "1970-01-01 00:12")
                    self.assertEqual((cell, cell.longitude, cell.time.minute), ((70, 80), 7.05, 12))
                    self.assertEqual([row["name"] for row in found.interval().records()], ["Berta", "Anna", "Dora"])
            self.assertEqual(index.path("Anna"), [(11, 30, 40)])
        self.assertEqual((self.folder / "one.grid.json").read_bytes(), saved)
        self.assertEqual(os.listdir(self.held), [])

    def test_what_is_held(self):
        """The file is there until it is closed, or the last reference is gone; a copy of the process leaves it alone."""
        gract.build(OLD, self.folder / "one.idx")
        index = gract.open(self.folder / "one.idx", tail=NEW)
        self.assertEqual(len(os.listdir(self.held)), 1)
        self.assertEqual(status_of(copy(lambda: index.position(11, 36) == (12, 36) and index.close() is None)), 0)
        index._drop()
        self.assertEqual(index.position(11, 36), (12, 36))
        index.close()
        self.assertEqual(os.listdir(self.held), [])
        gract.open(self.folder / "one.idx", tail=NEW).position(1, 1)
        self.assertEqual(os.listdir(self.held), [])
        with self.assertRaises(gract.ArgumentError):
            gract.open(self.folder / "one.idx", tail=[(1, 2, 3)])
        for wrong in (["a.csv", "b.csv"], 7):
            with self.assertRaises(gract.ArgumentError):
                gract.open(self.folder / "one.idx", tail=wrong)
        with self.assertRaises(gract.LoadError):
            gract.open(self.folder / "none.idx", tail=NEW)
        self.assertEqual(os.listdir(self.held), [])
        with gract.open(self.folder / "one.idx") as index:
            gract.build(NEW, self.folder / "one.idx")
            with self.assertRaises(gract.ChangedError):
                index.with_tail(NEW)
        self.assertEqual(os.listdir(self.held), [])

    def test_days(self):
        """Rows that are none are refused when it is opened, by their place; a refreshed archive goes on with its tail."""
        days.build(OLD, self.parts, length=10)
        bad = self.folder / "bad.csv"
        bad.write_text("1,45,0,0\n1,16,0,0\n1,55,0,y\n1,17,0,x\n")
        with self.assertRaises(gract.RowError) as refused:
            days.open(self.parts, tail=bad)
        self.assertEqual((refused.exception.file, refused.exception.record), (str(bad), 3))
        bad.write_text("1,16,0,0\n1,17,0,x\n1,15,z,0\n1,25,z,0\n")
        with self.assertRaises(gract.RowError) as refused:
            days.open(self.parts, tail=bad)
        self.assertEqual((refused.exception.file, refused.exception.record, refused.exception.field), (str(bad), 2, 4))
        self.assertEqual(os.listdir(self.held), [])
        gract.build([*OLD, *NEW], self.folder / "all.idx")
        with gract.open(self.folder / "all.idx") as index, days.open(self.parts, tail=NEW) as asked:
            wanted = reply_bytes(index, LINES)
            self.assertEqual(reply_bytes(asked, LINES), wanted)
            self.assertEqual(asked.facts, (0, 36))
            days.add([row for row in NEW if row[1] > 19], self.parts)
            self.assertEqual(reply_bytes(asked, LINES), wanted)
            asked.refresh()
            self.assertEqual(reply_bytes(asked, LINES), wanted)
        self.assertEqual(os.listdir(self.held), [])

    def test_a_damaged_day(self):
        days.build(OLD, self.parts, length=10)
        (self.parts / days.list(self.parts)[1].file).write_bytes(b"")
        with self.assertRaises(gract.PartsError):
            days.open(self.parts, tail=NEW)
        with days.open(self.parts, tail=NEW, partial=True) as asked:
            self.assertEqual(set(asked.damaged), {1})
            self.assertEqual(asked.position(11, 36), (12, 36))
            with self.assertRaises(gract.PartsError):
                asked.position(11, 16)


if __name__ == "__main__":
    unittest.main()
