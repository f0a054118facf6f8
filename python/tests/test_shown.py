"""Answers out: tables, HTML, CSV, GeoJSON, frames and pictures; and what there is in an index."""

import copy
import csv
import datetime
import io
import json
import pickle
import sys
import tempfile
import unittest
from html.parser import HTMLParser
from pathlib import Path
from unittest import mock

import gract
from gract import names, plots, shown

from . import plain

try:
    import pandas
except ImportError:
    pandas = None
try:
    import geopandas
except ImportError:
    geopandas = None
try:
    import matplotlib
    matplotlib.use("Agg")
except ImportError:
    matplotlib = None

COAST = plain.TOP / "examples" / "samples" / "coast-gulf.json"
HOSTILE = ["<script>alert(1)</script>", "=1+1", "+2", "-3", "@x", "\tcell", "a\rb", "\x1b[31mred", "</td>&amp;", "\u202eback", "Å, \"B\"", "x" * 500]


class Tags(HTMLParser):
    """The tags of a page, and its cells' texts."""

    def __init__(self, text):
        super().__init__()
        self.tags, self.cells, self.inside = set(), [], False
        self.feed(text)

    def handle_starttag(self, tag, attrs):
        self.tags.add(tag)
        self.inside = tag in ("td", "th")
        if self.inside:
            self.cells.append("")

    def handle_data(self, data):
        if self.inside:
            self.cells[-1] += data

    def handle_endtag(self, tag):
        self.inside = False


class Shown(unittest.TestCase):
    @classmethod
    def setUpClass(cls):
        grid = gract.Grid.degrees(10, cell=1, tick=6, unit=3600, names=plain.NAMES)
        cls.storms, cls.bare = gract.open(plain.STORMS_INDEX, grid=grid), gract.open(plain.STORMS_INDEX)
        cls.path = cls.storms.path("Katrina")

    @classmethod
    def tearDownClass(cls):
        cls.storms.close()
        cls.bare.close()

    def test_text(self):
        """A short answer is shown whole, a long one by its ends, and what is left out is said."""
        lines = repr(self.path).split("\n")
        self.assertEqual((len(self.path), len(lines)), (29, 1 + 10 + 1 + 10 + 1))
        table = self.path.table().split("\n")
        self.assertEqual(lines[:11] + lines[12:22], table[:11] + table[20:])
        self.assertEqual((lines[11], lines[22]), ("...", "(29 rows, of which 9 are left out here)"))
        self.assertEqual(repr(self.path[:20]).split("\n"), [*self.path[:20].table().split("\n"), "(20 rows)"])
        self.assertEqual(repr(self.bare.slice(8013, gract.rect(5000, 0, 5001, 1))), "(no rows)")
        near = self.storms.slice(at="2005-08-29 06:00", around=(-90.07, 29.95), metres=90000)
        self.assertEqual(repr(near).split("\n")[2:], ["(1 row)", *near.notes])
        self.assertIn("Katrina", repr(near))

    def test_html(self):
        read = Tags(self.path._repr_html_())
        self.assertEqual(read.tags, {"table", "thead", "tbody", "tr", "th", "td", "p"})
        self.assertEqual(read.cells[:8], self.path.columns)
        self.assertEqual(read.cells[8:16], [str(value) for value in next(self.path.records()).values()])
        self.assertIn("29 rows, of which 9 are left out here", self.path._repr_html_())
        self.assertEqual(Tags(self.bare.slice(0)._repr_html_()).cells, ["instant", "object", "x", "y"])

    def named(self, names):
        """An answer whose objects have these names."""
        grid = gract.Grid.degrees(10, cell=1, tick=6, unit=3600, names=dict(enumerate(names)))
        return gract.Answers([gract.Sighting(nth, nth, nth) for nth in range(len(names))], gract.Sighting, grid=grid, asked={"instant": 5}, notes=["<b>note"])

    def test_hostile(self):
        """No name is a tag, a formula or a terminal's command, wherever it is shown."""
        answers = self.named(HOSTILE)
        self.assertEqual(Tags(answers._repr_html_()).tags, {"table", "thead", "tbody", "tr", "th", "td", "p"})
        self.assertNotIn("\x1b", repr(answers) + answers._repr_html_())
        self.assertNotIn("\u202e", repr(answers) + answers._repr_html_())
        self.assertLess(max(map(len, repr(answers).split("\n"))), 140)
        text = answers.to_csv()
        read = [row[3] for row in csv.reader(io.StringIO(text, newline=""))][1:]
        self.assertEqual(read, [f"'{name}" if name[0] in "=+-@\t" else name for name in HOSTILE])
        # Numbers are no formulas.
        self.assertIn(",-751,", self.path.to_csv())
        features = json.loads(json.dumps(answers.geojson()))["features"]
        self.assertEqual([feature["properties"]["name"] for feature in features], [names.shown(name) for name in HOSTILE])

    def test_slices(self):
        """A slice of an answer is an answer; so is a copy, and one that was sent."""
        for part in (self.path[3:7], self.path[::-1], self.path.copy(), copy.copy(self.path), pickle.loads(pickle.dumps(self.path))):
            self.assertIs(type(part), gract.Answers)
            self.assertEqual((part.grid, part.asked, part.columns), (self.path.grid, {"object": 278}, self.path.columns))
        self.assertEqual(self.path[3:7], list(self.path)[3:7])
        self.assertEqual(list(self.path[3:7].records()), list(self.path.records())[3:7])
        self.assertIs(type(self.path[0]), gract.Stop)
        self.assertEqual(self.path[-1], list(self.path)[-1])

    def test_csv(self):
        with tempfile.TemporaryDirectory() as folder:
            file = Path(folder) / "out.csv"
            self.assertIsNone(self.path.to_csv(file))
            self.assertEqual(file.read_text(encoding="utf-8"), self.path.to_csv())
        self.assertEqual(self.path.to_csv().split("\n")[1], "278,Katrina,52075,2005-08-23 18:00,-751,231,-75.05,23.15")

    def test_geojson(self):
        line, = self.path.geojson()["features"]
        self.assertEqual((line["geometry"]["type"], line["properties"]["name"], len(line["properties"]["times"])), ("LineString", "Katrina", 29))
        self.assertEqual(line["geometry"]["coordinates"], [[row["longitude"], row["latitude"]] for row in self.path.records()])
        point, = self.storms.slice(at="2005-08-29 06:00").geojson()["features"][:1]
        self.assertEqual((point["geometry"], point["properties"]["name"]), ({"type": "Point", "coordinates": [-89.55, 29.35]}, "Katrina"))
        for answers in (self.bare.path(278), self.bare.slice(0)):
            with self.assertRaises(gract.ArgumentError):
                answers.geojson()

    def test_cells(self):
        """A cell is a pair that knows its place and its time where there is a grid."""
        cell = self.storms.position("Katrina", "2005-08-29 11:00")
        self.assertEqual((cell, (cell.longitude, cell.latitude), cell.time),
                         ((-896, 293), (-89.55, 29.35), datetime.datetime(2005, 8, 29, 6, tzinfo=datetime.timezone.utc)))
        self.assertEqual(repr(cell), "Cell(instant=52097, time='2005-08-29 06:00', x=-896, y=293, longitude=-89.55, latitude=29.35)")
        x, y = cell
        self.assertEqual((x, y, hash(cell), pickle.loads(pickle.dumps(cell)).longitude), (-896, 293, hash((-896, 293)), -89.55))
        bare = self.bare.position(278, 52097)
        self.assertEqual((bare, repr(bare)), (cell, "Cell(x=-896, y=293)"))
        for field in ("longitude", "latitude", "time"):
            with self.assertRaises(gract.ArgumentError):
                getattr(bare, field)
        self.assertIsNone(self.storms.position("Katrina", 0))

    def test_far_times(self):
        """An instant that has no date is shown without one."""
        far = gract.Answers([gract.Stop(2**40, 1, 2)], gract.Stop, grid=gract.Grid(), asked={"object": 1})
        self.assertEqual(list(far.records()), [{"object": 1, "instant": 2**40, "time": "", "x": 1, "y": 2}])

    def test_missing(self):
        for name, ask in [("pandas", self.path.frame), ("geopandas", self.path.geoframe), ("matplotlib", self.path.plot)]:
            hidden = {module: None for module in [name, *(found for found in sys.modules if found.startswith(f"{name}."))]}
            with mock.patch.dict(sys.modules, {**hidden, f"{name}.pyplot": None}), self.assertRaises(gract.LibraryMissing) as refused:
                ask()
            self.assertEqual(refused.exception.library, name)

    @unittest.skipUnless(pandas, "pandas is not there, DataFrames of answers were not tried")
    def test_frames(self):
        frame = self.path.frame()
        self.assertEqual(list(frame.columns), self.path.columns)
        self.assertEqual(frame["time"][0], pandas.Timestamp("2005-08-23 18:00", tz="UTC"))
        self.assertEqual(frame["longitude"].tolist(), [row["longitude"] for row in self.path.records()])
        self.assertEqual((len(self.bare.slice(0).frame()), list(self.bare.slice(0).frame().columns)), (0, ["instant", "object", "x", "y"]))
        old = gract.Answers([gract.Stop(-3 * 10**8, 1, 2)], gract.Stop, grid=gract.Grid(tick=60), asked={"object": 1})
        self.assertEqual(old.frame()["time"][0], f"{datetime.datetime(1970, 1, 1) - datetime.timedelta(minutes=3 * 10**8)}"[:16])
        with tempfile.TemporaryDirectory() as folder:
            # What an answer has is rows again.
            gract.build(frame, Path(folder) / "again.idx")
            with gract.open(Path(folder) / "again.idx") as again:
                self.assertEqual(again.path(278), self.path)

    @unittest.skipUnless(geopandas, "geopandas is not there, GeoDataFrames of answers were not tried")
    def test_geoframes(self):
        for answers, column in [(self.path, "longitude"), (self.storms.visits(box=(-98, 18, -81, 31), since="2005-08-20", until="2005-10-03"), "entry_longitude")]:
            frame = answers.geoframe()
            self.assertEqual((frame.crs.to_epsg(), frame.geometry.x.tolist()), (4326, [row[column] for row in answers.records()]))
        with self.assertRaises(gract.ArgumentError):
            self.bare.path(278).geoframe()

    @unittest.skipUnless(matplotlib, "matplotlib is not there, pictures of answers were not tried")
    def test_plots(self):
        from matplotlib import pyplot
        gulf = gract.zone(gract.rect(-980, 180, -900, 310), gract.disc(-860, 280, 40))
        ax = self.path.plot(coast=COAST)
        line, = [line for line in ax.lines if line.get_label() == "Katrina"]
        self.assertEqual(list(line.get_xdata()), [row["longitude"] for row in self.path.records()])
        self.assertGreater(len(ax.lines), 1)
        hits = self.storms.interval("2005-08-20", "2005-10-03", gulf)
        before = len(ax.lines)
        self.assertIs(hits.plot(ax), ax)
        # Two outlines, and a point for each.
        self.assertEqual(len(ax.lines) - before, 2 + len(hits))
        self.assertEqual([text.get_text() for text in ax.texts], [row["name"] for row in hits.records()])
        for answers in (self.bare.path(278), self.bare.slice(52097), self.bare.slice(0), self.bare.objects()[:3], self.storms.meet(281, 282, reach=150),
                        self.storms.nearest(2, 74077, place=(-80, 25)), self.storms.slice(52097, box=(-98, 18, -81, 31))):
            self.assertEqual(answers.plot().get_xlabel(), "longitude" if answers.grid else "x (cells)")
        with self.assertRaises(gract.ArgumentError):
            self.path.plot(coast=plain.STORMS)
        pyplot.close("all")

    def test_outlines(self):
        """The outline of a region has the middles of its cells inside, and those of others outside."""
        disc, = plots.outlines(gract.disc(3, -2, 5), None)
        self.assertTrue(all(abs((x - 3.5) ** 2 + (y + 1.5) ** 2 - 25) < 1e-9 for x, y in disc))
        self.assertEqual(list(plots.outlines(gract.rect(0, 1, 2, 3), None)), [[(0, 1), (3, 1), (3, 4), (0, 4), (0, 1)]])
        self.assertEqual(list(plots.outlines(None, None)), [])

    def test_shortened(self):
        for count in (0, 1, shown.SHOWN, shown.SHOWN + 1, 1000):
            parts = shown.shortened(range(count))
            self.assertEqual(sum(map(len, parts)), min(count, shown.SHOWN))
            self.assertEqual(len(parts), 1 + (count > shown.SHOWN))


class Overview(unittest.TestCase):
    def test_charts(self):
        """How many objects, which have a row, when, and in which cells, by a plain look at the rows of 100 charts."""
        with tempfile.TemporaryDirectory() as folder:
            file = Path(folder) / "chart.idx"
            for seed in range(100):
                draw = plain.randomness(seed)
                rows = plain.random_rows(draw, draw.choice([2, 40, 10**6]))
                gract.build(rows, file, period=draw.choice([1, 7, 120]))
                table = plain.Plain(plain.gridded(rows))
                with gract.open(file) as index:
                    self.assertEqual((len(index), bool(index), index.span, index.names), (len(table.objects), True, (table.first, table.last), {}))
                    self.assertEqual([item in index for item in range(12)], [item in table.objects for item in range(12)])
                    xs, ys = zip(*table.chart.values())
                    with mock.patch.object(index, "_hits", wraps=index._hits) as hits:
                        self.assertEqual(index.bounds, (min(xs), min(ys), max(xs), max(ys)))
                        self.assertLessEqual(hits.call_count, 1 + 4 * index.facts.height)
                        again = hits.call_count
                        self.assertEqual((index.bounds, hits.call_count), (index.bounds, again))
                    for wrong in (-1, 2**32, "Freja", None, 1.5):
                        self.assertNotIn(wrong, index)

    def test_degrees(self):
        grid = gract.Grid.degrees(10, cell=1, tick=6, unit=3600, names=plain.NAMES)
        with gract.open(plain.STORMS_INDEX, grid=grid) as storms:
            self.assertEqual((len(storms), "Katrina" in storms, 278 in storms, "Nobody" in storms, storms.names), (512, True, True, False, grid.names))
            self.assertEqual((str(storms.span.since), str(storms.span.until)), ("1975-06-27 00:00:00+00:00", "2020-11-18 12:00:00+00:00"))
            self.assertEqual(storms.bounds.degrees, (-109.3, 7.2, -5.9, 52.0))
        with gract.open(plain.STORMS_INDEX) as storms:
            for ask in (lambda: storms.span.since, lambda: storms.span.until, lambda: storms.bounds.degrees):
                with self.assertRaises(gract.ArgumentError):
                    ask()
