"""Rows in parts, asked in this process: each reply beside that of one index, and what is refused. test_shards.py asks by workers."""

import itertools
import os
import tempfile
import unittest
from pathlib import Path

import gract
from gract.archive import cutting, days, manifest, parted, parts, shards

from . import plain
from .parted import Charts, reply_bytes

CHARTS = 20


def shards_here(folder, partial=False):
    """Shards without workers."""
    path, listed, program = parted.load(folder, manifest.ByObject, None, None)
    return shards.Shards(path, listed, parted.Here("shards", program), program, partial, None)


def build_here(rows, folder, count, **words):
    known = {"cell": None, "tick": None, "period": 30, "grid": None, "program": None, "run": parts.one_by_one}
    parts.build(rows, folder, manifest.ByObject(count), **{**known, **words})


class Parts(unittest.TestCase):
    def setUp(self):
        folder = tempfile.TemporaryDirectory()
        self.addCleanup(folder.cleanup)
        self.folder = Path(folder.name)

    def test_shards_of_random_charts(self):
        """The bytes of all replies of three shards are those of one index."""
        for seed in range(CHARTS):
            with self.subTest(seed=seed):
                chart = Charts(self, self.folder, seed)
                build_here(chart.sources(), self.folder / "parts", 3, replace=True, **chart.words)
                with shards_here(self.folder / "parts") as asked:
                    chart.compared(asked)
                    self.assertEqual(sum(facts.objects for facts in asked.info().values()), len(chart.table.objects))

    def test_days_of_random_charts(self):
        """So are those of days."""
        for seed in range(CHARTS):
            with self.subTest(seed=seed):
                chart = Charts(self, self.folder, seed)
                length = chart.tick * chart.draw.choice([1, 5, 30, 1000])
                days.build(chart.sources(), self.folder / "parts", length=length, replace=True, **chart.words)
                with days.open(self.folder / "parts") as asked:
                    chart.compared(asked)
                    for number, part in asked.manifest.parts.items():
                        self.assertLessEqual(number * length, part.first * chart.tick)
                        self.assertLess(part.last * chart.tick, (number + 1) * length)

    def test_many_days(self):
        """More days than are open at once, and questions over all of them; a grid goes with its archive."""
        grid = gract.Grid.degrees(10, tick=6, unit=3600, names=plain.NAMES)
        days.build(plain.STORMS, self.folder / "parts", length="100 d", period=1461, grid=grid)
        table = plain.storms()
        with days.open(self.folder / "parts") as asked:
            self.assertGreater(len(asked.manifest.parts), parted.MOST_OPEN)
            self.assertEqual(asked.interval(), table.interval(table.first, table.last, lambda x, y: True))
            self.assertLessEqual(len(asked._asker._opener._open), parted.MOST_OPEN)
            self.assertEqual(asked.path("Katrina"), table.path(278, table.first, table.last))
            self.assertEqual(asked.position("Katrina", "2005-08-29 06:00"), (-896, 293))
            self.assertEqual(asked.nearest(1, 74077, (-802, 258)), [(502, -865, 282, 4545)])
            self.assertEqual(asked.objects(), table.lives())

    def test_zones_and_meetings(self):
        """A zone, and the meetings of two of one shard and of two, in cells and in metres, as of one index, with its notes."""
        grid = gract.Grid.degrees(10, tick=6, unit=3600, names=plain.NAMES)
        gulf = gract.zone(gract.rect(-980, 180, -900, 310), gract.disc(-860, 280, 40))
        build_here(plain.STORMS, self.folder / "shards", 3, period=1461, grid=grid)
        days.build(plain.STORMS, self.folder / "days", length="3650 d", period=1461, grid=grid)
        with shards_here(self.folder / "shards") as by_object, days.open(self.folder / "days") as by_time:
            with gract.open(plain.STORMS_INDEX, grid=grid) as index:
                for asked in (by_object, by_time):
                    self.assertEqual(asked.interval(region=gulf), index.interval(region=gulf))
                    self.assertEqual(asked.slice(52097, gulf), [(278, -896, 293)])
                    for right, distance in itertools.product((502, 503), ({"reach": 400}, {"metres": 3000000}, {"metres": 1})):
                        found, wanted = asked.meet(500, right, **distance), index.meet(500, right, **distance)
                        self.assertEqual((found, found.asked, found.notes), (wanted, wanted.asked, wanted.notes))
                self.assertEqual(by_object.meet(500, 502, reach=400), [gract.Meeting(74067, -531, 243, -786, 254)])

    # Rows.

    def test_rows_in_their_order(self):
        """Of an object's rows in an instant the last of the last file counts."""
        files = [self.folder / f"{nth}.csv" for nth in range(3)]
        for nth, file in enumerate(files):
            file.write_text("".join(f"{item},0,{nth},{row}\n" for row in range(3) for item in range(5)))
        build_here([str(file) for file in files], self.folder / "parts", 2)
        with shards_here(self.folder / "parts") as asked:
            self.assertEqual(asked.slice(0), [(item, 2, 2) for item in range(5)])

    def test_rows_that_are_none(self):
        """The first of all is told, by its place in its own file, whatever part finds it."""
        good, bad = self.folder / "good.csv", self.folder / "bad.csv"
        good.write_text("object,instant,x,y\n1,0,0,0\n2,0,0,0\n")
        faults = [
            ("5,0,x,0\n4,0,0,0\n4,x,0,0\n", (2, 1, "number", 3)), ("4,0,0,0\n\n\n6,0,0\n5,0,x,0\n", (2, 4, "count", 3)),
            ("x,0,0,0\n5,0,x,0\n", (1, 1, "number", 1)), ("1,0,0,0\n-5,0,0,0\n", (2, 2, "range", 1)), ("7\n", (1, 1, "count", 1)),
            ('1,0,0,0\r"1,2",0,0,0\r', (2, 2, "number", 1)), ("1,0,0,0\nobject,instant,x,y\n", (2, 2, "number", 1)),
        ]
        for text, wanted in faults:
            for before in ([], [str(good)]):
                bad.write_text("object,instant,x,y\n1,0,0,0\n" * (text[0] == "5") + text, newline="")
                with self.assertRaises(gract.RowError) as refused:
                    build_here([*before, str(bad)], self.folder / "parts", 3)
                told = refused.exception
                record, line, fault, field = wanted
                more = 2 if text[0] == "5" else 0
                where = (str(bad), record + more - (more > 0), line + more, fault, field)
                self.assertEqual((told.file, told.record, told.line, told.fault, told.field), where)
        self.assertEqual(os.listdir(self.folder / "parts"), ["lock"])

    def test_other_refusals(self):
        """What one build refuses, of parts."""
        with self.assertRaises(gract.EmptyError):
            build_here([], self.folder / "parts", 3)
        with self.assertRaises(gract.LoadError):
            build_here(str(self.folder / "none.csv"), self.folder / "parts", 3)
        with self.assertRaises(gract.LimitError) as refused:
            build_here([(1, 0, 0, 0), (3, 0, 0, 0), (3, 0, 2**24, 0)], self.folder / "parts", 2)
        self.assertEqual((refused.exception.kind, refused.exception.file), ("extent", "the rows of part 1"))
        for length in (0, 7, "1 d", 1.5):
            with self.assertRaises(gract.ArgumentError) as refused:
                days.build([(1, 0, 0, 0)], self.folder / "parts", length=length, tick=6)
            self.assertEqual(refused.exception.argument, "length")
        grid = gract.Grid.degrees(10, unit=3600)
        for length in ("90 min", "x"):
            with self.assertRaises(gract.ArgumentError):
                days.build([(1, 0, 0, 0)], self.folder / "parts", length=length, grid=grid)
        self.assertEqual(os.listdir(self.folder / "parts"), ["lock"])

    def test_a_folder_that_is_there(self):
        """Parts are built in the place of others, and of nothing else; a build that is refused leaves what was there."""
        folder = self.folder / "parts"
        build_here([(item, 0, 0, 0) for item in range(9)], folder, 3)
        before = sorted(os.listdir(folder))
        with self.assertRaises(gract.RowError):
            bad = self.folder / "bad.csv"
            bad.write_text("1,0,0,0\n2,0,0,x\n")
            build_here(str(bad), folder, 3, replace=True)
        self.assertEqual(sorted(os.listdir(folder)), before)
        days.build([(item, item, 0, 0) for item in range(9)], folder, length=3, replace=True)
        self.assertEqual([row.part for row in days.list(folder)], [0, 1, 2])
        with self.assertRaises(gract.ArgumentError):
            shards_here(folder)
        (self.folder / "other").mkdir()
        (self.folder / "other/kept").touch()
        for other in (self.folder / "other", self.folder / "other/kept"):
            with self.assertRaises(gract.OverwriteError):
                build_here([(1, 0, 0, 0)], other, 3)
        self.assertEqual(os.listdir(self.folder / "other"), ["kept"])

    # Questions.

    def test_damaged_parts(self):
        """A damaged part is told with its name and flaw; the others answer only where that is said."""
        folder = self.folder / "parts"
        build_here([(item, at, item, at) for item in range(9) for at in range(3)], folder, 3)
        with shards_here(folder) as asked:
            files = {number: folder / part.file for number, part in asked.manifest.parts.items()}
        whole = files[1].read_bytes()
        for damage, kind in ((whole[:-1], gract.FormatError), (b"other", gract.FormatError), (files[2].read_bytes(), gract.OtherFileError)):
            files[1].write_bytes(damage)
            with shards_here(folder) as asked, self.assertRaises(gract.PartsError) as refused:
                asked.slice(0)
            self.assertIs(type(refused.exception.parts[1]), kind)
            self.assertIn(str(files[1]), str(refused.exception))
            self.without_part_1(folder)
        files[1].unlink()
        self.without_part_1(folder)
        files[1].write_bytes(whole)
        with shards_here(folder) as asked:
            self.assertEqual(len(asked.slice(0)), 9)

    def without_part_1(self, folder):
        with shards_here(folder, partial=True) as asked:
            found = asked.slice(0)
            self.assertEqual([row.object for row in found], [0, 2, 3, 5, 6, 8])
            self.assertIn("part 1", found.notes[0])
            self.assertEqual(asked.objects().notes, found.notes)
            self.assertEqual(set(asked.damaged), {1})
            self.assertEqual(set(asked.info()), {0, 2})
            self.assertEqual(asked.position(5, 1), (5, 1))
            self.assertEqual(asked.meet(2, 3, reach=1), [(0, 2, 0, 3, 0)])
            for question in (lambda: asked.position(4, 1), lambda: asked.path(7), lambda: asked.meet(2, 4, reach=9)):
                with self.assertRaises(gract.PartsError):
                    question()
            self.assertEqual(reply_bytes(asked, ["position 1", "x"]), [b"bad count\n", b"bad word\n"])

    def test_a_damaged_day(self):
        days.build([(1, at, 0, at) for at in range(30)], self.folder / "parts", length=10)
        with days.open(self.folder / "parts", partial=True) as asked:
            (self.folder / "parts" / asked.manifest.parts[1].file).write_bytes(b"")
            found = asked.path(1)
            self.assertEqual([stop.instant for stop in found], [*range(10), *range(20, 30)])
            self.assertEqual(len(found.notes), 1)
            self.assertEqual(asked.position(1, 25), (0, 25))
            with self.assertRaises(gract.PartsError):
                asked.position(1, 15)

    def test_what_is_not_asked(self):
        build_here([(1, 0, 0, 0), (2, 0, 0, 0)], self.folder / "parts", 2)
        with shards_here(self.folder / "parts") as asked:
            for line in ("info", "hold 0 1 0 1", "more 0 1", "free 0", "", "slice 0\n"):
                with self.assertRaises(gract.ArgumentError):
                    list(asked.ask([line]))
            with self.assertRaises(gract.BadQuestion):
                list(asked.ask(["nothing 1"]))
            self.assertEqual(asked.interval(region=gract.rect(5, 5, 6, 6)), [])
        with self.assertRaises(gract.ClosedError):
            asked.slice(0)
        asked.close()
        self.assertIn("closed", repr(asked))

    def test_a_list_that_is_none(self):
        folder = self.folder / "parts"
        build_here([(1, 0, 0, 0)], folder, 2)
        told = (folder / manifest.LIST).read_text()
        wrong = [('"form": 2', '"form": 3'), ("object", "colour"), ("sha256", "md5"), ("part_", "../part_"), ('"first": 0', '"first": "x"')]
        for text in ("", "[]", '{"form": 1}', *(told.replace(*pair) for pair in wrong)):
            (folder / manifest.LIST).write_text(text)
            with self.assertRaises(gract.ManifestError):
                shards_here(folder)

    def test_quotes(self):
        """A record is written with the fields that it has."""
        file = self.folder / "rows.csv"
        file.write_bytes(b'\xef\xbb\xbf"object",instant,x,y\r"1"2,"3","a""b, ",\r\n""\n"4\n",5\n\n\r6')
        lines = [line for _, line in cutting.records(str(file))]
        self.assertEqual(lines, [b'12,3,"a""b, ",""\n', b'""\n', b'"4\n",5\n', b"6\n"])


if __name__ == "__main__":
    unittest.main()
