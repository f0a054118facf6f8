"""`extend`: what is saved is what `build` saves of all rows, the grid and its names go along, and a failure leaves the old index."""

import datetime
import json
import os
import stat
import sys
import unittest
from pathlib import Path

import gract

from . import plain
from .test_frames import Folder, reports_of

try:
    import pandas
except ImportError:
    pandas = None

# A program that builds and asks as the real one does, and ends `extend` as EXTENDS says, after it has written some bytes.
FAILING = """#!{python}
import os, sys
if sys.argv[1] != "extend":
    os.execv({program!r}, [{program!r}, *sys.argv[1:]])
with open(sys.argv[4], "wb") as part:
    part.write(b"GRACT0 and no more")
status, text = os.environ["EXTENDS"].split(" ", 1)
sys.stderr.write(text + chr(10))
sys.exit(int(status))
"""


class Extending(Folder):
    def setUp(self):
        super().setUp()
        self.file = str(self.folder / "it.idx")

    def write(self, name, rows):
        file = self.folder / name
        file.write_text("".join(",".join(map(str, row)) + "\n" for row in rows), encoding="ascii")
        return file

    def bytes_of(self, rows, **others):
        gract.build(rows, self.folder / "all.idx", **others)
        return (self.folder / "all.idx").read_bytes()

    def left(self):
        """What is in the folder, but for what this test wrote."""
        return sorted(file.name for file in self.folder.iterdir())

    def test_rows(self):
        """Rows and CSV files, under another name and in place of the old index."""
        for seed in range(12):
            draw = plain.randomness(seed)
            rows = plain.random_rows(draw)
            rows += [(item, time, x + 1, y) for item, time, x, y in rows if draw.random() < 0.3]
            cut = draw.randrange(1, len(rows) + 1)
            settings = {"cell": draw.choice([1, 3]), "tick": draw.choice([1, 7]), "period": draw.choice([1, 7, 1000])}
            whole = self.bytes_of(rows, **settings)
            gract.build(rows[:cut], self.file, **settings)
            front = Path(self.file).read_bytes()
            done = gract.extend(self.file, rows[cut:], self.folder / "out.idx")
            self.assertEqual((done.file, done.rows, done.grid, done.new_names), (str(self.folder / "out.idx"), len(rows) - cut, None, {}))
            self.assertEqual((self.folder / "out.idx").read_bytes(), whole)
            self.assertEqual(Path(self.file).read_bytes(), front)
            done = gract.extend(self.file, self.write("later.csv", rows[cut:]))
            self.assertEqual((done.file, done.rows, done.text), (self.file, None, f"{self.file} is extended"))
            self.assertEqual(Path(self.file).read_bytes(), whole)
        self.assertEqual(self.left(), ["all.idx", "it.idx", "later.csv", "out.idx"])

    def test_one_name(self):
        """OUT may be there, as an index, and may be the old one's name; a link stays one; the mode of what was there stays."""
        rows = [(1, 0, 0, 0), (1, 5, 1, 1)]
        whole = self.bytes_of(rows)
        gract.build(rows[:1], self.file)
        os.chmod(self.file, 0o640)
        link = self.folder / "link.idx"
        link.symlink_to("it.idx")
        gract.extend(link, rows[1:], self.folder / "all.idx")
        gract.extend(link, rows[1:])
        self.assertTrue(link.is_symlink())
        self.assertEqual((Path(self.file).read_bytes(), (self.folder / "all.idx").read_bytes()), (whole, whole))
        self.assertEqual(stat.S_IMODE(os.stat(self.file).st_mode), 0o640)
        gract.extend(self.file, [], self.file)
        self.assertEqual(Path(self.file).read_bytes(), whole)

    def test_grid(self):
        """The grid goes along, and times and places are those of it."""
        grid = gract.Grid.degrees(10, tick=6, unit=3600, names={1: "Alma", 2: "Freja"})
        first = [("Alma", "2022-06-01 12:00", 12.7, 55.7), ("Freja", "2022-06-01 12:00", 12.6, 55.7)]
        later = [("Freja", "2022-06-01 18:00", 12.5, 55.6), ("Alma", "2022-06-01 12:00", 12.3, 55.7)]
        gract.build(grid.rows(first), self.file, grid=grid)
        done = gract.extend(self.file, grid.rows(later), self.folder / "out.idx")
        self.assertEqual((done.grid, done.new_names, done.text), (grid, {}, f"{self.folder / 'out.idx'} is extended by 2 rows"))
        self.assertEqual((self.folder / "out.idx").read_bytes(), self.bytes_of(grid.rows(first) + grid.rows(later), grid=grid))
        with gract.open(self.folder / "out.idx") as index:
            self.assertEqual(index.position("Alma", "2022-06-01 12:00"), grid.cell_of(12.3, 55.7))
        with self.assertRaises(gract.GridError):
            gract.extend(self.file, [], self.folder / "no.idx", grid=gract.Grid(tick=5))
        self.assertFalse((self.folder / "no.idx").exists())
        (self.folder / "it.grid.json").write_text("{}")
        with self.assertRaises(gract.GridError):
            gract.extend(self.file, [])

    def test_names(self):
        """Objects that are new by their names get the numbers after all that are taken."""
        grid = gract.Grid.degrees(10, tick=60, names={1: "Alma", 7: "Freja"})
        gract.build([(1, 0, 0, 0), (7, 0, 0, 0), (9, 0, 0, 0)], self.file, grid=grid)
        self.table("later.csv", [("Freja", 60, 1, 1), ("Runa", 60, 2, 2), (8, 60, 3, 3), ("Ylva", 60, 4, 4)])
        done = gract.extend(self.file, self.folder / "later.csv")
        self.assertEqual((done.rows, done.new_names), (4, {10: "Runa", 11: "Ylva"}))
        with gract.open(self.file) as index:
            self.assertEqual(index.grid, grid.with_names({1: "Alma", 7: "Freja", 10: "Runa", 11: "Ylva"}))
            self.assertEqual([sighting.object for sighting in index.slice(at=1)], [7, 8, 10, 11])
            self.assertEqual(index.position("Runa", 1), (20, 20))

    def test_numbered_names(self):
        """Where numbers were names of other objects they are names."""
        grid = gract.Grid.degrees(10, tick=60, names={1: "Alma", 2: "17"})
        gract.build([(1, 0, 0, 0), (2, 0, 0, 0)], self.file, grid=grid)
        self.table("later.csv", [("17", 60, 1, 1), ("1", 60, 2, 2), ("Alma", 60, 3, 3)])
        self.assertEqual(gract.extend(self.file, self.folder / "later.csv").new_names, {3: "1"})
        with gract.open(self.file) as index:
            self.assertEqual([(row.object, row.x) for row in index.slice(at=1)], [(1, 30), (2, 10), (3, 20)])

    def table(self, name, reports):
        lines = ["id,time,lon,lat", *(",".join(map(str, report)) for report in reports)]
        (self.folder / name).write_text("\n".join(lines) + "\n", encoding="utf-8")

    def test_no_grid(self):
        """Without a grid degrees are refused, and names begin one."""
        gract.build([(3, 0, 0, 0)], self.file, cell=2, tick=5)
        self.table("later.csv", [("a", 1, 1, 1)])
        with self.refused("grid", "it.grid.json"):
            gract.extend(self.file, self.folder / "later.csv")
        (self.folder / "later.csv").write_text("id,time,x,y\nRuna,5,4,4\n3,5,6,6\n")
        done = gract.extend(self.file, self.folder / "later.csv", id="id")
        self.assertEqual((done.new_names, done.grid.names, done.grid.cell, done.grid.tick), ({4: "Runa"}, {4: "Runa"}, 2, 5))
        with gract.open(self.file) as index:
            self.assertEqual(index.slice(at=1), [(3, 3, 3), (4, 2, 2)])

    def test_refused(self):
        """Nothing that is refused touches the old index, and what is told is of the file that is at fault."""
        gract.build([(1, 0, 0, 0)], self.file)
        old = Path(self.file).read_bytes()
        damaged = self.folder / "damaged.idx"
        damaged.write_bytes(old[:-1])
        text = self.folder / "notes.txt"
        text.write_text("notes")
        rows = self.write("rows.csv", [(1, 1, 1, 1), (1, 2)])
        wide = self.write("wide.csv", [(1, 2**30, 0, 0)])
        for kind, file, words in [
            (gract.OverwriteError, None, (self.file, [], text)), (gract.OverwriteError, None, (text, [])), (gract.OverwriteError, None, (self.file, [], self.folder)),
            (gract.LoadError, self.folder / "no.idx", (self.folder / "no.idx", [])), (gract.LoadError, self.folder / "no.csv", (self.file, self.folder / "no.csv")),
            (gract.FormatError, damaged, (damaged, [])), (gract.RowError, rows, (self.file, rows)), (gract.LimitError, wide, (self.file, wide)),
            (gract.SaveError, self.folder / "none" / "a.idx", (self.file, [], self.folder / "none" / "a.idx")),
            (gract.ArgumentError, None, (self.file, [(1, 2, 3)])), (gract.ArgumentError, None, (self.file, 7)), (gract.ArgumentError, None, ("", [])),
            (gract.ArgumentError, None, (self.file, [], "")), (gract.ArgumentError, None, (self.file, [], self.folder / ("a" * 250))),
        ]:
            with self.subTest(kind=kind, words=words), self.assertRaises(kind) as refused:
                gract.extend(*words)
            if file is not None:
                self.assertEqual(refused.exception.file, str(file))
        for argument, others in [("grid", {"grid": 5}), ("lon", {"lon": "x"})]:
            with self.refused(argument):
                gract.extend(self.file, [], **others)
        self.assertEqual(Path(self.file).read_bytes(), old)
        self.assertEqual(self.left(), ["damaged.idx", "it.idx", "notes.txt", "rows.csv", "wide.csv"])

    def failing(self):
        program = self.folder / "failing"
        program.write_text(FAILING.format(python=sys.executable, program=gract.find_program()))
        program.chmod(0o755)
        return program

    def test_failing(self):
        """A program that fails once it has begun to write leaves the old index and its grid, and nothing beside it."""
        gract.build([(1, 0, 0, 0)], self.file, grid=gract.Grid(names={1: "Alma"}))
        old, grid = Path(self.file).read_bytes(), (self.folder / "it.grid.json").read_bytes()
        program, rows = self.failing(), self.write("rows.csv", [(1, 1, 1, 1)])
        before = self.left()
        for told, kind, file in [
            ("6 gract: the index could not be saved", gract.SaveError, self.file), ("4 gract: limit base passed at 5", gract.LimitError, self.file),
            ("4 gract: limit index passed at 5", gract.LimitError, self.file), ("4 gract: limit span passed at 5", gract.LimitError, str(rows)),
            ("7 gract: no memory", gract.MemoryRefused, None), ("3 gract: no rows", gract.EmptyError, str(rows)), ("9 what", gract.ChildDied, None),
        ]:
            os.environ["EXTENDS"] = told
            for out in (None, self.folder / "out.idx"):
                with self.subTest(told=told, out=out), self.assertRaises(kind) as refused:
                    gract.extend(self.file, rows, out, program=program)
                if file is not None:
                    want = str(out) if kind is gract.SaveError and out else file
                    self.assertEqual(refused.exception.file, want)
                self.assertEqual((Path(self.file).read_bytes(), (self.folder / "it.grid.json").read_bytes()), (old, grid))
                self.assertEqual(self.left(), before)

    @unittest.skipUnless(os.geteuid(), "root may write everywhere, a folder that may not be written was not tried")
    def test_closed_folder(self):
        gract.build([(1, 0, 0, 0)], self.file)
        self.folder.chmod(0o500)
        try:
            with self.assertRaises(gract.SaveError):
                gract.extend(self.file, [(1, 1, 0, 0)])
        finally:
            self.folder.chmod(0o700)


@unittest.skipUnless(pandas, "pandas is not there, DataFrames were not tried")
class Frames(Folder):
    def test_frame(self):
        """Reports that come by days, each in a frame with names, are the index of them all."""
        reports = reports_of(plain.randomness(5), names=True)
        frame = pandas.DataFrame(reports, columns=["id", "time", "lon", "lat"])
        frame["time"] = pandas.to_datetime(frame["time"], unit="s")
        grid = gract.Grid.of_reports(frame, cell=50, tick=10)
        first, later = frame.iloc[:100], frame.iloc[100:]
        gract.build(first, self.folder / "it.idx", grid=grid.with_names({}))
        holes = pandas.concat([later, pandas.DataFrame([[None, datetime.datetime(2022, 6, 1), 1.0, 2.0]], columns=list(frame.columns))])
        done = gract.extend(self.folder / "it.idx", holes)
        self.assertEqual((done.rows, done.left_out), (len(later), {"no object": 1}))
        numbers = {name: number for number, name in done.grid.names.items()}
        self.assertEqual(sorted(numbers), sorted(set(frame["id"])))
        gract.build(grid.with_names(done.grid.names).rows(frame), self.folder / "all.idx", grid=done.grid)
        self.assertEqual((self.folder / "it.idx").read_bytes(), (self.folder / "all.idx").read_bytes())
        self.assertEqual(json.loads((self.folder / "it.grid.json").read_text()), done.grid.as_dict())
