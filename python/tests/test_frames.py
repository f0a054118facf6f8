"""DataFrames and CSV files in: which columns are taken, what is left out and refused, and that what is built answers as a plain filter."""

import datetime
import math
import tempfile
import unittest
from pathlib import Path

import gract
from gract import frames, times
from gract.archive import days

from . import plain

try:
    import pandas
except ImportError:
    pandas = None

HEADINGS = [
    ("id", "time", "lon", "lat"), ("MMSI", "BaseDateTime", "LON", "LAT"), ("mmsi", "# Timestamp", "Longitude", "Latitude"),
    ("individual-local-identifier", "timestamp", "location-long", "location-lat"), ("object", "time", "long", "lat"),
]


def reports_of(draw, objects=7, count=400, names=False):
    """Reports of objects that wander, by their time."""
    found = []
    places = [(draw.uniform(10, 11), draw.uniform(54, 55)) for _ in range(objects)]
    for nth in range(count):
        item = draw.randrange(objects)
        lon, lat = places[item] = places[item][0] + draw.gauss(0, 1e-3), places[item][1] + draw.gauss(0, 1e-3)
        found.append((f"Ship {item}" if names else 219000000 + item, 1654084800 + 7 * nth + draw.randrange(5), round(lon, 5), round(lat, 5)))
    return found


def charted(reports, grid):
    """Reports as a chart, by the definition of the plane and of instants: of an object's reports in an instant the last in time counts."""
    east, north = grid.plane.east, grid.plane.north
    numbers = {name: number for number, name in grid.names.items()}
    chart = {}
    for item, seconds, lon, lat in sorted(reports, key=lambda report: report[1]):
        cell = math.floor(math.floor(lon * east) / grid.cell), math.floor(math.floor(lat * north) / grid.cell)
        chart[numbers.get(item, item), seconds // grid.tick] = cell
    return plain.Plain(chart)


class Folder(unittest.TestCase):
    def setUp(self):
        self.kept = tempfile.TemporaryDirectory()
        self.folder = Path(self.kept.name)

    def tearDown(self):
        self.kept.cleanup()

    def refused(self, argument, text=""):
        return self.assertRaisesRegex(gract.ArgumentError, f"^{argument}: .*{text}")

    def same(self, file, table):
        """An index answers as a chart."""
        with gract.open(file) as index:
            self.assertEqual([row[0] for row in index.objects()], table.objects)
            for item in table.objects:
                self.assertEqual(index.path(item), table.path(item, table.first, table.last))
            self.assertEqual(index.interval(), table.interval(table.first, table.last, lambda x, y: True))


class Columns(unittest.TestCase):
    def test_usual(self):
        for heading in HEADINGS:
            self.assertEqual(frames.found_columns(("SOG", *heading, "Status"), {}), (*heading, True))
        self.assertEqual(frames.found_columns(("y", "x", "instant", "object", "time", "longitude", "latitude"), {}), ("object", "instant", "x", "y", False))
        self.assertEqual(frames.found_columns(("mmsi", "time", "x", "y"), {}), ("mmsi", "time", "x", "y", False))

    def test_given(self):
        there = ("boat", "when", "east", "north", "lon", "lat", "x", "y")
        given = {"id": "boat", "time": "when", "lon": "east", "lat": "north"}
        self.assertEqual(frames.found_columns(there, given), ("boat", "when", "east", "north", True))
        self.assertEqual(frames.found_columns(there, {"id": "boat", "time": "when", "x": "x"}), ("boat", "when", "x", "y", False))
        for argument, there, given, text in [
            ("id", ("id", "mmsi", "time", "lon", "lat"), {}, "id and mmsi fit"), ("lon", ("id", "time", "lon", "LONGITUDE", "lat"), {}, "lon and LONGITUDE fit"),
            ("time", ("id", "lon", "lat"), {}, "no column"), ("lon", ("id", "time"), {}, "no column"), ("lat", ("id", "time", "lon"), {}, "no column"),
            ("rows", ("id", "time", "lon", "lat", "x", "y"), {}, "lon and lat as well as x and y"), ("id", ("id",), {"id": "ID"}, "no column 'ID'"),
            ("time", ("id", "t", "t", "lon", "lat"), {"time": "t"}, "t and t fit"),
        ]:
            with self.subTest(there=there), self.assertRaises(gract.ArgumentError) as refused:
                frames.found_columns(there, given)
            self.assertEqual(refused.exception.argument, argument)
            self.assertIn(text, refused.exception.problem)


class Files(Folder):
    def write(self, lines):
        file = self.folder / "in.csv"
        file.write_text("\n".join(lines) + "\n", encoding="utf-8")
        return file

    def test_build(self):
        """A CSV file of reports becomes an index that answers as a plain filter, whatever its columns are called and separated by."""
        for nth, heading in enumerate(HEADINGS):
            reports = reports_of(plain.randomness(nth), names=nth % 2 == 0)
            mark = ",;\t"[nth % 3]
            lines = [mark.join(map(str, (item, times.time_text(seconds) + f":{seconds % 60:02}Z", "", lat, lon))) for item, seconds, lon, lat in reports]
            file = self.write([mark.join((heading[0], heading[1], "more", heading[3], heading[2])), *lines, mark.join(("", "", "", "1", "2"))])
            built = gract.build(file, self.folder / "out.idx")
            self.assertEqual((built.rows, built.left_out, built.proposal.passed), (len(reports), {"no object": 1}, None))
            self.same(self.folder / "out.idx", charted(reports, built.grid))
            self.assertEqual(gract.propose(file), built.proposal)

    def test_rows(self):
        """A file of rows goes to the program as it is."""
        built = gract.build(plain.STORMS, self.folder / "storms.idx", tick=6, period=1461)
        self.assertEqual((built.rows, built.grid, built.cell, built.tick, built.period), (None, None, 1, 6, 1461))
        self.assertEqual((self.folder / "storms.idx").read_bytes(), plain.STORMS_INDEX.read_bytes())
        self.assertEqual(gract.propose(plain.STORMS).reports, 11859)
        bare = self.write(plain.STORMS.read_text().splitlines()[1:])
        self.assertEqual(gract.propose(bare), gract.propose(plain.STORMS))

    def test_refused(self):
        with self.refused("rows: row 3: LAT", "91.5"):
            gract.build(self.write(["MMSI,time,LON,LAT", "1,0,2,3", "2,,4,91", "3,5,6,91.5"]), self.folder / "out.idx")
        with self.refused("rows: row 1: time", "not a time: noon"):
            gract.propose(self.write(["MMSI,time,LON,LAT", "1,noon,2,3"]))
        with self.refused("reports", "there are none"):
            gract.propose(self.write(["MMSI,time,LON,LAT", "1,0,181,91"]))
        with self.assertRaises(gract.LoadError):
            gract.propose(self.folder / "none.csv")
        with self.refused("rows", "no CSV file in UTF-8"):
            (self.folder / "in.csv").write_bytes(b"id,time,lon,lat\n\xff,1,2,3\n")
            gract.propose(self.folder / "in.csv")
        with self.refused("lon", "in a DataFrame and in a CSV file"):
            gract.build([(1, 2, 3, 4)], self.folder / "out.idx", lon="x")
        self.assertFalse((self.folder / "out.idx").exists())


@unittest.skipUnless(pandas, "pandas is not there, DataFrames were not tried")
class Frames(Folder):
    def frame(self, reports, heading=HEADINGS[0], time=None):
        frame = pandas.DataFrame(reports, columns=list(heading))
        frame[heading[1]] = (time or (lambda times: pandas.to_datetime(times, unit="s")))(frame[heading[1]])
        return frame

    def test_build(self):
        """A DataFrame of reports becomes an index that answers as a plain filter, whatever its times are."""
        kinds = [
            None, lambda times: pandas.to_datetime(times, unit="s", utc=True), lambda times: pandas.to_datetime(times, unit="s", utc=True).dt.tz_convert("Asia/Tokyo"),
            lambda times: times, lambda times: times.astype(float), lambda times: times * 1000, lambda times: pandas.to_datetime(times, unit="s").astype(str),
            lambda times: pandas.to_datetime(times + 0.75, unit="s").astype(object),
        ]
        for nth, kind in enumerate(kinds):
            with self.subTest(nth=nth):
                reports = reports_of(plain.randomness(nth), names=nth % 2 == 0)
                frame = self.frame(reports, HEADINGS[nth % len(HEADINGS)], kind)
                built = gract.build(frame, self.folder / "out.idx")
                self.assertEqual((built.rows, built.left_out, built.period), (len(reports), {}, built.proposal.period))
                table = charted(reports, built.grid)
                self.same(self.folder / "out.idx", table)
                self.assertEqual(built.proposal.lost, len(reports) - len(table.chart))
                self.assertEqual(gract.propose(frame), built.proposal)

    def test_left_out(self):
        """Reports that lack something are left out and counted; the numbers of the others stay what they are, though they become floats."""
        frame = self.frame(reports_of(plain.randomness(1)), ("mmsi", "time", "lon", "lat"))
        whole = gract.build(frame, self.folder / "whole.idx", cell=50, tick=10)
        holes = frame.astype({"mmsi": float})
        holes.loc[17, "lon"], holes.loc[3, "mmsi"], holes.loc[5, "time"], holes.loc[6, "lat"] = math.nan, math.nan, pandas.NaT, 91
        built = gract.build(holes, self.folder / "out.idx", cell=50, tick=10)
        self.assertEqual((built.left_out, built.rows), ({"no object": 1, "no time": 1, "no place": 2}, whole.rows - 4))
        self.assertIn("2 left out: no place", built.text)
        kept = [report for nth, report in enumerate(reports_of(plain.randomness(1))) if nth not in (3, 5, 6, 17)]
        self.same(self.folder / "out.idx", charted(kept, built.grid))

    def test_refused(self):
        """The row that is at fault is named, also after rows that are left out."""
        def wrong(column, value):
            frame = self.frame(reports_of(plain.randomness(1))).astype({"id": object, "lon": object, "lat": object})
            frame.loc[2, "lon"] = None
            frame[column] = frame[column].astype(object)
            frame.loc[17, column] = value
            return frame

        for column, value in [("id", 7.5), ("id", math.inf), ("lon", math.inf), ("lat", -math.inf), ("lon", 361.0), ("lat", 90.5), ("lat", "north"),
                              ("time", "noon"), ("time", datetime.date(2022, 6, 1)), ("id", (1,))]:
            with self.subTest(value=value), self.refused(f"rows: row 18: {column}"):
                gract.build(wrong(column, value), self.folder / "out.idx")
        rows = pandas.DataFrame(plain.read_rows(plain.STORMS), columns=list(frames.ROWS)).astype({"x": float})
        for value in (0.5, math.inf):
            rows.loc[17, "x"] = value
            with self.refused("rows: row 18: x"):
                gract.build(rows, self.folder / "out.idx")
        with self.refused("id", "id and mmsi fit"):
            gract.build(self.frame(reports_of(plain.randomness(1))).assign(mmsi=1), self.folder / "out.idx")
        with self.assertRaises(gract.EmptyError):
            gract.build(rows.iloc[:0], self.folder / "out.idx")
        self.assertFalse((self.folder / "out.idx").exists())

    def test_rows(self):
        """Whole x, y and instants are rows as they are: cell and tick are 1, no grid is made, and NaN is left out."""
        rows = pandas.DataFrame(plain.read_rows(plain.STORMS), columns=list(frames.ROWS))
        built = gract.build(rows, self.folder / "storms.idx", tick=6, period=1461)
        self.assertEqual((self.folder / "storms.idx").read_bytes(), plain.STORMS_INDEX.read_bytes())
        self.assertEqual((built.cell, built.grid, built.proposal), (1, None, None))
        renamed = rows.rename(columns={"instant": "time", "object": "id"}).astype({"x": float, "id": float})
        renamed.loc[len(renamed)] = [math.nan, 0, 0, 0]
        built = gract.build(renamed, self.folder / "other.idx", tick=6, period=1461)
        self.assertEqual((built.left_out, (self.folder / "other.idx").read_bytes()), ({"no object": 1}, plain.STORMS_INDEX.read_bytes()))
        self.assertEqual(list(self.folder.glob("*.json")), [])

    def test_dated_plane(self):
        """Whole x and y at timestamps: the cell stays 1, and the tick and the period are proposed."""
        frame = pandas.DataFrame({"id": ["a", "b"] * 50, "time": pandas.to_datetime(range(0, 6000, 60), unit="s"), "x": range(100), "y": 0})
        built = gract.build(frame, self.folder / "out.idx")
        self.assertEqual((built.cell, built.tick, built.grid.plane, built.grid.names), (1, 60, None, {1: "a", 2: "b"}))
        with gract.open(self.folder / "out.idx") as index:
            self.assertEqual(index.position("b", "1970-01-01 00:01"), (1, 0))

    def test_grid(self):
        """A grid that is given is kept, and has the names of the objects if it has none."""
        frame = self.frame(reports_of(plain.randomness(2), names=True))
        grid = gract.Grid.metres(50, cell=20, tick=30)
        built = gract.build(frame, self.folder / "out.idx", grid=grid)
        self.assertEqual((built.cell, built.tick, built.period, built.proposal), (20, 30, 120, None))
        self.assertEqual((built.grid.plane.middle, grid.names, len(built.grid.names)), (50, {}, 7))
        self.same(self.folder / "out.idx", charted(reports_of(plain.randomness(2), names=True), built.grid))
        with self.refused("rows: row 2: object", "no object is called"):
            gract.build(frame, self.folder / "out.idx", grid=grid.with_names({1: frame["id"][0]}))
        of_reports = gract.Grid.of_reports(frame, cell=20, tick=30)
        self.assertEqual(of_reports, gract.Grid.of_reports(frame.itertuples(index=False, name=None), cell=20, tick=30))
        self.assertEqual(of_reports.rows(frame), of_reports.rows(frame.itertuples(index=False, name=None)))

    def test_index(self):
        """Columns may stand in a named index."""
        frame = self.frame(reports_of(plain.randomness(3)))
        self.assertEqual(gract.propose(frame.set_index("time")), gract.propose(frame))
        self.assertEqual(gract.propose(frame.set_index(["id", "time"])), gract.propose(frame))

    def test_later_rows(self):
        """A DataFrame of later reports as a tail, and added to an archive: as all reports in one index, with the names that it gives."""
        reports = reports_of(plain.randomness(5), names=True)
        first, rest = self.frame(reports[:300]), self.frame([*reports[300:], ("Ship 9", 1654084800 + 9000, 10.5, 54.5)])
        grid = gract.Grid.metres(55, cell=20, tick=30, unit=1)
        built = gract.build(first, self.folder / "first.idx", grid=grid)
        whole = gract.build(self.frame([*reports, ("Ship 9", 1654084800 + 9000, 10.5, 54.5)]), self.folder / "all.idx", grid=grid)
        days.build(first, self.folder / "parts", length="30 min", grid=grid)
        self.assertEqual(days.list(self.folder / "parts").columns[:3], ["part", "first", "first_time"])
        with gract.open(self.folder / "all.idx") as index, gract.open(self.folder / "first.idx") as early:
            self.assertEqual((len(built.grid.names), len(whole.grid.names)), (7, 8))
            with early.with_tail(rest) as tailed, days.open(self.folder / "parts", tail=rest) as asked:
                days.add(rest, self.folder / "parts")
                with days.open(self.folder / "parts") as grown:
                    for found in (tailed, asked, grown):
                        self.assertEqual(found.grid, index.grid)
                        self.assertEqual(found.interval(), index.interval())
                        self.assertEqual([found.path(name) for name in whole.grid.names.values()], [index.path(name) for name in whole.grid.names.values()])

    def test_exchanged(self):
        """Another frame comes by __dataframe__."""
        frame = self.frame(reports_of(plain.randomness(4), names=True))
        frame.loc[3, "lon"] = math.nan

        class Other:
            def __dataframe__(self, nan_as_null=False, allow_copy=True):
                return frame.__dataframe__(nan_as_null, allow_copy)

        built = gract.build(Other(), self.folder / "out.idx")
        self.assertEqual((built.left_out, built.proposal), ({"no place": 1}, gract.propose(frame)))
        kept = [report for nth, report in enumerate(reports_of(plain.randomness(4), names=True)) if nth != 3]
        self.same(self.folder / "out.idx", charted(kept, built.grid))
