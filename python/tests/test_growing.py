"""Archives that grow: their replies beside those of one index of all rows, whatever becomes of who adds to them."""

import contextlib
import io
import json
import os
import shutil
import tempfile
import time
import unittest
from pathlib import Path
from unittest import mock

import gract
from gract import command
from gract.archive import days, manifest, parts

from . import plain
from .parted import Charts, reply_bytes
from .test_parts import build_here, shards_here

CHARTS = 15

# How long, in seconds, what was begun by one that was killed may go on.
PATIENCE = 30.0

# Three days of ten instants, and rows of two of them and of one that is new, a part of them in the place of others.
OLD = [(item, at, item, at) for item in range(9) for at in range(30)]
NEW = [(item, at, item + 1, at) for item in range(5, 12) for at in range(15, 37)]
LINES = [
    "position 4 15", "path 5 0 40", "path 11 8 32", "slice 20 rect 0 0 20 99", "interval 0 39 rect 0 0 20 99", "interval 5 25 disc 4 20 3",
    "nearest 3 19 4 19", "meet 2 4 0 29 2", "meet 5 6 9 36 3", "position 8 29", "position 11 36", "slice 36 rect 0 0 20 99",
]


def contents(folder):
    """The names and bytes of all files of a folder."""
    return {file.name: file.read_bytes() for file in Path(folder).iterdir() if file.is_file()}


class Archive(unittest.TestCase):
    def setUp(self):
        folder = tempfile.TemporaryDirectory()
        self.addCleanup(folder.cleanup)
        self.folder = Path(folder.name)
        self.parts = self.folder / "parts"

    def replies(self):
        with days.open(self.parts) as asked:
            return reply_bytes(asked, LINES)

    def wanted(self, *batches):
        gract.build([row for rows in batches for row in rows], self.folder / "all.idx")
        with gract.open(self.folder / "all.idx") as index:
            return reply_bytes(index, LINES)

    def is_clean(self, rows=NEW):
        """That nothing but what is listed is in the folder, once rows were added. What one that was killed had begun may go on writing for
        a moment, and is then taken away by the next."""
        until = time.monotonic() + PATIENCE
        while True:
            days.add(rows, self.parts)
            found = days.check(self.parts)
            if found.is_whole or time.monotonic() > until:
                break
            time.sleep(0.1)
        self.assertTrue(found.is_whole, found.text)


class Growing(Archive):
    # Answers.

    def test_random_charts(self):
        """Rows that come in several calls: the replies are the bytes of one index of all, and each part is the file of one build."""
        for seed in range(CHARTS):
            with self.subTest(seed=seed):
                chart = Charts(self, self.folder, seed)
                length = chart.tick * chart.draw.choice([5, 30, 1000])
                cuts = sorted(chart.draw.randrange(1, len(chart.rows) + 1) for _ in range(3))
                batches = [chart.rows[since:until] for since, until in zip([0, *cuts], [*cuts, len(chart.rows)])]
                for by in ("time", "object"):
                    shutil.rmtree(self.parts, ignore_errors=True)
                    shutil.rmtree(self.folder / "once", ignore_errors=True)
                    if by == "time":
                        days.build(batches[0], self.parts, length=length, **chart.words)
                        days.build(chart.rows, self.folder / "once", length=length, **chart.words)
                    else:
                        build_here(batches[0], self.parts, 3, **chart.words)
                        build_here(chart.rows, self.folder / "once", 3, **chart.words)
                    for rows in batches[1:]:
                        if by == "time":
                            days.add(rows, self.parts)
                        else:
                            parts.add(rows, self.parts, manifest.ByObject, grid=None, program=None, run=parts.one_by_one)
                    with days.open(self.parts) if by == "time" else shards_here(self.parts) as asked:
                        chart.compared(asked)
                    there, once = manifest.Manifest.load(self.parts), manifest.Manifest.load(self.folder / "once")
                    self.assertEqual(there.parts, once.parts)
                    for number, part in there.parts.items():
                        self.assertEqual(vars(part), vars(once.parts[number]))
                    count = len([key for key in chart.table.chart])
                    self.assertEqual(sum(part.rows for part in there.parts.values()), count)

    def test_what_is_told(self):
        days.build(OLD, self.parts, length=10)
        self.assertEqual(self.replies(), self.wanted(OLD))
        before = contents(self.parts)
        added = days.add(NEW, self.parts)
        self.assertEqual((added.built, added.joined), ([3], [1, 2]))
        self.assertEqual(self.replies(), self.wanted(OLD, NEW))
        told = days.list(self.parts)
        self.assertEqual([row[:5] for row in told], [(0, 0, 9, 90, 9), (1, 10, 19, 105, 12), (2, 20, 29, 120, 12), (3, 30, 36, 49, 7)])
        self.assertEqual([row.bytes for row in told], [os.path.getsize(self.parts / row.file) for row in told])
        self.assertEqual({name: before[name] for name in before if name.startswith("part_0")}, {told[0].file: before[told[0].file]})
        self.assertEqual(days.add([], self.parts), ([], [], {}))
        self.assertEqual(days.add(NEW, self.parts)[:2], ([], [1, 2, 3]))
        self.assertEqual(self.replies(), self.wanted(OLD, NEW))

    def test_a_list_of_form_1(self):
        """It is read and added to; what it does not count is not told."""
        days.build(OLD, self.parts, length=10)
        told = json.loads((self.parts / manifest.LIST).read_text())
        parts_told = {number: {name: part[name] for name in ("file", "sha256", "first", "last")} for number, part in told["parts"].items()}
        old = {**{name: told[name] for name in told if name not in ("sum", "replaced")}, "form": 1, "parts": parts_told}
        (self.parts / manifest.LIST).write_text(json.dumps(old))
        self.assertEqual(self.replies(), self.wanted(OLD))
        days.add(NEW, self.parts)
        self.assertEqual(self.replies(), self.wanted(OLD, NEW))
        self.assertEqual([row.rows for row in days.list(self.parts)], [None, 105, 120, 49])
        self.assertTrue(days.check(self.parts).is_whole)

    # Refusals.

    def test_what_is_refused(self):
        """Then nothing is changed, nor left."""
        days.build(OLD, self.parts, length=10)
        before, bad = contents(self.parts), self.folder / "bad.csv"
        bad.write_text("object,instant,x,y\n1,16,0,0\n1,45,0,0\n1,17,0,x\n2,18,y,0\n")
        with self.assertRaises(gract.RowError) as refused:
            days.add(str(bad), self.parts)
        self.assertEqual((refused.exception.file, refused.exception.line, refused.exception.field), (str(bad), 4, 4))
        grid = gract.Grid.degrees(10)
        for rows, others, kind in (
            ([(1, 16, 0, 0), (1, 17, 0, 2**24)], {}, gract.LimitError), ([(1, 16, 0, "x")], {}, gract.ArgumentError),
            (self.folder / "none.csv", {}, gract.LoadError), (NEW, {"grid": grid}, gract.GridError), (NEW, {"grid": 7}, gract.ArgumentError),
            (NEW, {"wait": -1}, gract.ArgumentError), (self.raising(), {}, gract.SourceError),
        ):
            with self.subTest(kind=kind), self.assertRaises(kind):
                days.add(rows, self.parts, **others)
            self.assertEqual(contents(self.parts), before)
            self.assertEqual(len(os.listdir(self.parts)), 5)
        for folder in (self.folder, self.folder / "none", bad):
            with self.assertRaises(gract.ManifestError):
                days.add(NEW, folder)
        self.assertFalse((self.folder / "lock").exists())
        with self.assertRaises(gract.ArgumentError):
            parts.add(NEW, self.parts, manifest.ByObject, grid=None, program=None, run=parts.one_by_one)
        self.is_clean()

    @staticmethod
    def raising():
        yield 1, 16, 0, 0
        raise OSError("it was torn out")

    def test_a_damaged_day(self):
        """What is damaged is joined to nothing, and is told by check; other days go on growing."""
        days.build(OLD, self.parts, length=10)
        file = self.parts / days.list(self.parts)[1].file
        whole = file.read_bytes()
        for damage in (whole[:-1], b"", (self.parts / days.list(self.parts)[2].file).read_bytes()):
            file.write_bytes(damage)
            before = contents(self.parts)
            with self.assertRaises((gract.FormatError, gract.OtherFileError)):
                days.add(NEW, self.parts)
            self.assertEqual(contents(self.parts), before)
            self.assertEqual(set(days.check(self.parts).damaged), {1})
        days.add([row for row in NEW if row[1] >= 20], self.parts)
        file.write_bytes(whole)
        self.is_clean()
        self.assertEqual(self.replies(), self.wanted(OLD, NEW))

    # Names.

    def test_names(self):
        """A text keeps its number, a new one gets the next; a number with two names, and any other grid, is refused."""
        grid = gract.Grid.degrees(10, cell=1, tick=60)
        one, two = self.folder / "1.csv", self.folder / "2.csv"
        one.write_text("id,time,lon,lat\nBerta,1970-01-01 00:10,1,2\nAnna,1970-01-01 00:11,3,4\n")
        two.write_text("id,time,lon,lat\nCara,1970-01-02 00:10,5,6\nAnna,1970-01-02 00:11,3,5\nDora,1970-01-01 00:12,7,8\n")
        days.build(one, self.parts, length="1 d", grid=grid)
        days.add(two, self.parts)
        with days.open(self.parts) as asked:
            self.assertEqual(asked.grid.names, {1: "Berta", 2: "Anna", 3: "Cara", 4: "Dora"})
            self.assertEqual(asked.path("Anna"), [(11, 30, 40), (1451, 30, 50)])
            self.assertEqual(asked.position("Dora", "1970-01-01 00:12"), (70, 80))
        days.add([(9, 90000, 1, 1)], self.parts, grid=grid.with_names({9: "Emma"}))
        two.write_text("id,time,lon,lat\nFrida,1970-01-02 00:20,5,6\n")
        days.add(two, self.parts)
        names = {1: "Berta", 2: "Anna", 3: "Cara", 4: "Dora", 9: "Emma", 10: "Frida"}
        self.assertEqual(manifest.Manifest.load(self.parts).grid.names, names)
        before = contents(self.parts)
        for other in (grid.with_names({2: "Cara"}), gract.Grid.degrees(10, tick=60, west=0), gract.Grid.degrees(10, tick=120)):
            with self.assertRaises(gract.GridError):
                days.add([(9, 90000, 1, 1)], self.parts, grid=other)
        two.write_text("id,time,lon,lat\nGerda,1970-01-02 00:20,5,6\n2,1970-01-02 00:20,5,6\n")
        with self.assertRaises(gract.ArgumentError):
            days.add(two, self.parts)
        self.assertEqual(contents(self.parts), before)

    # Readers.

    def test_readers(self):
        """One that opened the list before answers as it did, for a day; then it is told to refresh, which keeps the children of all that is
        unchanged."""
        days.build(OLD, self.parts, length=10)
        with days.open(self.parts) as asked, days.open(self.parts) as late:
            wanted = reply_bytes(asked, LINES)
            pids = [index._child.pid for index in asked.open_indices()]
            days.add(NEW, self.parts)
            self.assertEqual((reply_bytes(asked, LINES), reply_bytes(late, LINES)), (wanted, wanted))
            self.assertTrue(asked.refresh())
            self.assertFalse(asked.refresh())
            self.assertEqual(reply_bytes(asked, LINES), self.wanted(OLD, NEW))
            self.assertEqual(len({index._child.pid for index in asked.open_indices()} & set(pids)), 1)
            for index in late.open_indices():
                index._drop()
            with mock.patch("time.time", lambda now=time.time: now() + 86500):
                days.add([(1, 5, 0, 0)], self.parts)
            self.assertEqual(len(manifest.Manifest.load(self.parts).replaced), 1)
            with self.assertRaises(gract.ChangedError) as refused:
                late.path(5)
            self.assertIn("refresh()", str(refused.exception))
            self.assertEqual(late.path(0, 0, 9), [(at, 0, at) for at in range(10)])
            late.refresh()
            self.assertEqual(reply_bytes(late, LINES), self.wanted(OLD, NEW, [(1, 5, 0, 0)]))
        with self.assertRaises(gract.ClosedError):
            late.refresh()
        self.assertTrue(days.check(self.parts).is_whole)

    def test_drop(self):
        """Days that end before: a day that has the instant stays, and all are never taken."""
        days.build(OLD, self.parts, length=10, tick=2)
        with days.open(self.parts) as asked:
            self.assertEqual(len(asked.path(1)), 15)
            for before in (0, 4, -5):
                self.assertEqual(days.drop(self.parts, before=before), [])
            self.assertEqual(days.drop(self.parts, before=14), [0, 1][:1 + (14 * 2 >= 20)])
            with self.assertRaises(gract.ArgumentError):
                days.drop(self.parts, before=15)
            for wrong in ("1970-01-01", 1.5, None):
                with self.assertRaises(gract.ArgumentError):
                    days.drop(self.parts, before=wrong)
            for index in asked.open_indices():
                index._drop()
            with self.assertRaises(gract.ChangedError):
                asked.path(1)
            asked.refresh()
            self.assertEqual(asked.path(1), [(at // 2, 1, at) for at in range(21, 30, 2)])
        self.assertEqual(len(os.listdir(self.parts)), 3)
        days.add(OLD, self.parts)
        with days.open(self.parts) as asked:
            self.assertEqual(len(asked.path(1)), 15)

    # The command.

    def test_command(self):
        """An archive from a shell."""
        def run(*words):
            out, err = io.StringIO(), io.StringIO()
            with contextlib.redirect_stdout(out), contextlib.redirect_stderr(err):
                status = command.run(["days", *map(str, words)])
            return status, out.getvalue(), err.getvalue()

        files = []
        for nth, rows in enumerate((OLD, NEW)):
            files.append(self.folder / f"{nth}.csv")
            files[-1].write_text("".join(",".join(map(str, row)) + "\n" for row in rows))
        self.assertEqual(run("build", self.parts, files[0], "--length", 10), (0, "", ""))
        self.assertEqual(run("add", self.parts, files[1]), (0, "new: 3\njoined to: 1, 2\n", ""))
        self.assertEqual(self.replies(), self.wanted(OLD, NEW))
        self.assertEqual(run("drop", self.parts, "--before", 10), (0, "dropped: 0\n", ""))
        status, out, _ = run("list", self.parts)
        self.assertEqual((status, out.split()[:8]), (0, ["part", "first", "last", "rows", "objects", "bytes", "file", "1"]))
        self.assertEqual(run("check", self.parts), (0, "3 parts, 0 damaged, 0 files that are not in the list\n", ""))
        (self.parts / "other").touch()
        self.assertEqual(run("check", self.parts)[0], 1)
        status, _, err = run("add", self.folder / "none", files[1])
        self.assertEqual((status, "no such file" in err), (1, True))
        self.assertEqual(run("add", self.parts, files[1], "--names", plain.NAMES)[0], 1)


if __name__ == "__main__":
    unittest.main()
