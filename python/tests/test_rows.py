"""Rows of files of tracks: what is wrong is told, what is hostile is left out or refused by its place, and memory is bounded."""

import bz2
import contextlib
import gzip
import io
import json
import lzma
import os
import sqlite3
import struct
import subprocess
import sys
import tempfile
import time
import unittest
import zipfile
from pathlib import Path
from unittest import mock

from gract.command import run
from gract.errors import GractError, SourceError
from gract.pictures import coasts
from gract.rows import Options, read
from gract.rows.spool import Spool

from . import plain

SAMPLES = plain.TOP / "examples/samples"

# No test may take so long, in seconds of the processor.
MOST_SECONDS = 60

TABLE = "id,time,lat,lon\n"
GPX = '<gpx xmlns="http://www.topografix.com/GPX/1/1"><trk><trkseg>{}</trkseg></trk></gpx>'
POINT = '<trkpt lat="{}" lon="{}"><time>{}</time></trkpt>'


class Case(unittest.TestCase):
    """A folder for files, and the command over them."""

    def setUp(self):
        self.holder = tempfile.TemporaryDirectory()
        self.folder = Path(self.holder.name)
        self.addCleanup(self.holder.cleanup)
        self.begun = time.process_time()

    def tearDown(self):
        self.assertLess(time.process_time() - self.begun, MOST_SECONDS)

    def file(self, name, text):
        path = self.folder / name
        path.write_bytes(text if isinstance(text, bytes) else text.encode())
        return path

    def rows(self, *words, status=0):
        """What the command prints, without the heading, and what it says."""
        out, err = io.StringIO(), io.StringIO()
        with contextlib.redirect_stdout(out), contextlib.redirect_stderr(err):
            ended = run(["rows", *map(str, words)])
        self.assertEqual(ended, status, err.getvalue())
        self.assertNotIn("Traceback", err.getvalue())
        if status:
            self.assertEqual(out.getvalue(), "")
            self.assertTrue(err.getvalue().startswith("gract: "))
        return out.getvalue().splitlines()[1:], err.getvalue()

    def left_out(self, why, *words):
        """All rows of a file are left out for this."""
        said = self.rows(*words, status=1)[1]
        self.assertIn("no row is left", said)
        self.assertIn(f"left out: {why}", said)

    def refused(self, why, *words):
        self.assertIn(why, self.rows(*words, status=1)[1])


class Told(Case):
    """What was wrong without a word."""

    def test_plane(self):
        table = self.file("far.csv", "mmsi,time,lat,lon\n1,2022-06-01,-45,0\n1,2022-06-02,54,1\n")
        self.refused("in metres round latitude 4 a way east or west would be up to 70 % too long", table)
        self.assertIn("round", self.rows("--metres", table)[1] + "round")
        self.assertIn("up to 70 % too long or too short", self.rows("--metres", table)[1])
        self.assertIn("at latitude 50.0: a way east or west is up to", self.rows("--middle", "50", table)[1])
        self.assertIn("the plane is degrees, 10 units", self.rows("--per-degree", "10", table)[1])
        near = self.file("near.csv", "mmsi,time,lat,lon\n1,2022-06-01,54,0\n1,2022-06-02,55,1\n")
        self.assertIn("is up to 2 % too long or too short", self.rows(near)[1])

    def test_not_used(self):
        table = self.file("table.csv", "id,name,time,lat,lon,speed\n7,a,2022-06-01,1,2,3\n7,a,2022-06-02,1,2,3\n")
        said = self.rows(table)[1]
        self.assertEqual(said.count("columns not used: name, speed\n"), 1)
        many = self.file("many.csv", "id,time,lat,lon," + ",".join(f"c{nth}" for nth in range(50)) + "\n7,2022-06-01,1,2\n")
        self.assertIn("c19 and others", self.rows(many)[1])

    def test_a_wrong_date(self):
        points = [POINT.format("54.1", "10.1", f"2050-01-01T00:{nth // 60:02}:{nth % 60:02}Z") for nth in range(300)]
        late = POINT.format("54.1", "10.1", "2069-03-01T00:00:00Z")
        said = self.rows(self.file("walk.gpx", GPX.format("".join([*points, late]))))[1]
        self.assertIn("one row is 19 years after all others, from 2069-03-01 00:00 on: --until leaves out what is wrong", said)
        early = [POINT.format("54.1", "10.1", "1970-01-01T00:00:00Z")] * 3
        said = self.rows(self.file("walk.gpx", GPX.format("".join([*points, *early]))))[1]
        self.assertIn("3 rows are 80 years before all others, until 1970-01-01 00:00", said)
        self.assertNotIn("all others", self.rows(self.file("walk.gpx", GPX.format("".join(points))))[1])

    def test_limits(self):
        """Which words would suit, and the limit that they would pass."""
        text = TABLE + "".join(f"{nth % 2},{1_600_000_000 + 60 * nth},10.{nth:04},20.{nth:04}\n" for nth in range(2000))
        self.assertRegex(self.rows(self.file("rows.csv", text))[1], r"CELL \d+, TICK \d+ and PERIOD \d+ would suit them\n$")
        text = TABLE + "".join(f"{nth},{1_600_000_000 + nth},10.5,20.5\n" for nth in range(2**16 + 1))
        said = self.rows(self.file("objects.csv", text))[1]
        self.assertIn("the limit objects would be passed: 65,536 different objects is the most. What to do: make parts by groups", said)

    def test_two_formats(self):
        log = '{"class":"TPV","time":"2020-04-07T21:39:50Z","lat":52.8,"lon":5.7}\n$GPRMC,213950.00,A,5250.53669,N,00542.34920,E,0.020,,070420,,,A*7D\n'
        path = self.file("both.log", log)
        self.refused("could be a log of NMEA sentences (--as nmea) or what gpsd says in JSON (--as gpsd): say which by --as", path)
        for form in ("nmea", "gpsd"):
            self.assertEqual(len(self.rows("--as", form, path)[0]), 1)
        table = self.file("both.csv", "mmsi,individual-local-identifier,time,lat,lon\n1,a,2022-06-01,1,2\n")
        self.refused("could be an AIS export with a heading (--as ais) or a table with a heading (--as table)", table)
        self.assertEqual(len(self.rows("--as", "ais", table)[0]), 1)

    def test_several_files(self):
        first = self.file("first.csv", TABLE + "1,2022-06-02,1,2\n")
        with zipfile.ZipFile(self.folder / "second.zip", "w") as packed:
            packed.writestr("a/one.csv", TABLE + "2,2022-06-01,1,2\n")
            packed.writestr("two.csv", TABLE + "3,2022-06-03,1,2\n")
        found, said = self.rows(first, self.folder / "second.zip")
        self.assertEqual([row.split(",")[0] for row in found], ["2", "1", "3"])
        bad = self.file("bad.csv", TABLE + "x,2022-06-02,1,2\n1,2022-06-02,1,2\n")
        self.assertIn("bad.csv line 2: x,", self.rows(first, bad)[1])
        ais = self.file("ais.csv", "mmsi,time,lat,lon\n1,2022-06-01,1,2\n")
        self.refused("the files are usually in different planes", first, ais)
        self.assertEqual(len(self.rows("--per-degree", "10", first, ais)[0]), 2)


class Usual(Case):
    """What was refused, and is usual."""

    def test_packed(self):
        text = (SAMPLES / "ais.csv").read_bytes()
        wanted = (SAMPLES / "ais.rows").read_text().splitlines()[1:]
        twice = gzip.compress(text[:40]) + gzip.compress(text[40:])
        for name, packed in (("gz", gzip.compress(text)), ("gz", twice), ("xz", lzma.compress(text)), ("bz2", bz2.compress(text)),
                             ("xz", lzma.compress(text[:40]) + b"\0" * 8 + lzma.compress(text[40:]))):
            self.assertEqual(self.rows(self.file(f"ais.csv.{name}", packed))[0], wanted)
        with zipfile.ZipFile(self.folder / "ais.zip", "w", zipfile.ZIP_DEFLATED) as archive:
            archive.writestr("ais.csv", text)
            archive.writestr("__MACOSX/._ais.csv", b"\0")
        self.assertEqual(self.rows(self.folder / "ais.zip")[0], wanted)
        kml = (SAMPLES / "walk.kml").read_bytes()
        with zipfile.ZipFile(self.folder / "walk.kmz", "w") as archive:
            archive.writestr("files/icon.png", b"\x89PNG")
            archive.writestr("doc.kml", kml)
        self.assertEqual(len(self.rows(self.folder / "walk.kmz")[0]), 4)

    def test_a_pipe(self):
        for name, kind in (("ais.csv", "ais"), ("walk.gpkg.gz", "walk")):
            done = subprocess.run(
                [sys.executable, "-m", "gract", "rows", *(["--per-degree", "1000"] if kind == "walk" else []), "-"],
                input=(SAMPLES / name).read_bytes(), capture_output=True, env={**os.environ, "PYTHONPATH": str(plain.TOP / "python")},
            )
            self.assertEqual(done.stdout, (SAMPLES / f"{kind}.rows").read_bytes(), done.stderr)

    def test_one_track(self):
        table = self.file("log.csv", "time,lat,lon\n2014/01/17 08:33:11.150,54.5,10.5\n2014/1/17 08:34:00,54.6,10.6\n")
        self.refused("--one-track NAME where all rows are of one object", table)
        self.assertEqual(self.rows("--one-track", "7", table)[0], ["7,1389947591,10500,54500", "7,1389947640,10600,54600"])
        names = self.folder / "names.csv"
        self.assertEqual(self.rows("--one-track", "Vera", "--names", names, table)[0][0], "1,1389947591,10500,54500")
        self.assertEqual(names.read_text(), "object,name\n1,Vera\n")

    def test_cuts(self):
        table = self.file("cut.csv", TABLE + "".join(f"{nth % 3},{1_600_000_000 + 60 * nth},{nth % 9}.5,{170 + nth % 20}.5\n" for nth in range(90)))
        rows = [row.split(",") for row in self.rows(table)[0]]
        first = self.rows("--from", "2020-09-13 13:00", "--until", "2020-09-13 13:30", table)[0]
        since, until = 1_600_002_000, 1_600_003_800
        self.assertEqual(first, [",".join(row) for row in rows if since <= int(row[1]) < until])
        self.assertEqual({row[0] for row in map(lambda it: it.split(","), self.rows("--only", "1,2", table)[0])}, {"1", "2"})
        only = self.file("only.txt", "0\n\n")
        self.assertEqual(len(self.rows("--only", only, table)[0]), 30)
        box = self.rows("--box", "178,2,-175,4", table)[0]
        # Longitudes of the table up to 189.5 are those up to -170.5.
        self.assertEqual(len(box), sum(2 <= nth % 9 + 0.5 <= 4 and 178 <= 170 + nth % 20 + 0.5 <= 185 for nth in range(90)))
        every = [row.split(",") for row in self.rows("--every", "10 min", table)[0]]
        self.assertEqual(len(every), 24)
        for number in "012":
            seconds = [int(row[1]) for row in every if row[0] == number]
            self.assertGreaterEqual(min(b - a for a, b in zip(seconds, seconds[1:])), 600)
        for words, why in ((["--from", "noon"], "--from: not a time"), (["--box", "1,2,3"], "--box: '1,2,3' is not"), (["--every", "x"], "--every"),
                           (["--box", "nan,0,1,1"], "--box"), (["--max-speed", "nan"], "--max-speed"), (["--middle", "90"], "--middle")):
            self.refused(why, *words, table)

    def test_properties(self):
        features = [
            {"type": "Feature", "geometry": {"type": "Point", "coordinates": [10.5, 54.5, 3]}, "properties": {"ship": "Vera", "when": 1654084800000}},
            {"type": "Feature", "geometry": None, "properties": {}},
            {"type": "Feature", "geometry": {"type": "Point", "coordinates": [True, [1]]}, "properties": {"ship": "Vera", "when": 1654084800000}},
            {"type": "Feature", "geometry": {"type": "Point", "coordinates": [float("nan"), 1e308]}, "properties": {"ship": "Vera", "when": 5}},
        ]
        words = "--id", "ship", "--time", "when", "--names", self.folder / "names.csv"
        for text in (json.dumps({"type": "FeatureCollection", "features": features}), "\n".join(map(json.dumps, features)),
                     json.dumps({"features": features, "type": "FeatureCollection"}, indent=1)):
            found, said = self.rows("--as", "geojson", *words, self.file("points.geojson", text))
            self.assertEqual(found, ["1,1654084800,10500,54500"])
            self.assertIn("1 left out: a feature that is no point with properties", said)
        other = {"type": "FeatureCollection", "crs": {"type": "name", "properties": {"name": "EPSG:3857"}}, "features": features[:1]}
        self.refused("is in another reference system", *words, self.file("points.geojson", json.dumps(other)))


class Hostile(Case):
    """What ended or hung a reader, or would fill the memory."""

    def test_ships_that_are_none(self):
        clock = '{"class":"TPV","time":"2022-06-01T00:00:00Z"}\n'
        report = '{{"class":"AIS","type":{},"mmsi":{},"scaled":true,"lon":10.5,"lat":54.5}}\n'
        for kind, ship in (("1", "4294967296"), ("1", "-5"), ("1", "true"), ("1", "1e5"), ("[1]", "1"), ("true", "1"), ("1", '"1"'), ("1", "9" * 5000)):
            log = self.file("gpsd.json", clock + report.format(kind, ship) + report.format("1", "219000001"))
            found, _ = self.rows("--per-degree", "10", log)
            self.assertEqual(found, ["219000001,1654041600,105,545"])

    def test_numbers_without_end(self):
        good = '{"class":"TPV","time":"2022-06-01T00:00:00Z","lat":54.5,"lon":10.5}\n'
        for bad in ('{"class":"TPV","time":"2022-06-01T00:00:00Z","lat":1e99999999999999999999,"lon":1}', "[" * 100000, '{"class":' * 5000,
                    '{"class":"TPV","time":"2022-06-01T00:00:00Z","lat":NaN,"lon":Infinity}', '{"class":"AIS","type":4,"timestamp":"0000-00-00T00:00:00Z"}'):
            found, _ = self.rows("--per-degree", "10", self.file("gpsd.json", good + bad + "\n"))
            self.assertEqual(found, ["0,1654041600,105,545"])
        for year in ("1e999999999", "inf", "0", "-1", "9" * 400, "nan", "99999"):
            parts = self.file("parts.csv", f"id,year,month,day,lat,lon\n1,{year},1,1,1,2\n1,2022,6,1,1,2\n")
            self.assertEqual(self.rows(parts)[0], ["1,1654041600,2000,1000"])
        for lat in ("1e99999999999999999999", "inf", "nan", "1e999999999", "9" * 400, "1e-999999999"):
            table = self.file("table.csv", TABLE + f"1,2022-06-01,{lat},2\n1,2022-06-02,1,2\n")
            self.assertIn("1,1654128000,2000,1000", self.rows(table)[0])
        for when in ("99999999999999999999999999", "0000-01-01", "9999-99-99", "1" * 70000, "c" * 70000):
            table = self.file("table.csv", TABLE + f"1,{when},1,2\n1,2022-06-02,1,2\n")
            self.assertEqual(self.rows(table)[0], ["1,1654128000,2000,1000"])
        for identity in ("inf", "nan", "-1", "4294967296", "9" * 5000, "²"):
            table = self.file("table.csv", TABLE + f"{identity},2022-06-01,1,2\n1,2022-06-02,1,2\n")
            self.assertEqual(self.rows(table)[0], ["1,1654128000,2000,1000"])

    def test_lines(self):
        text = "id,time,lat,lon,note\n" + '1,2022-06-01,1,2,"' + "x" * 200_000 + '"\n2,2022-06-01,1,2\r3,2022-06-01,1,2\r\n"4"x,2022-06-01,1,2\n5,"2022\n-06-01",1,2\n'
        found = self.rows(self.file("table.csv", text))[0]
        self.assertEqual([row[0] for row in found], ["1", "2", "3"])
        quotes = TABLE + '1,a"b\nc"d,1,2\n1,2022-06-02,1,2\n'
        found, said = self.rows(self.file("table.csv", quotes))
        self.assertEqual(found, ["1,1654128000,2000,1000"])
        self.assertIn("table.csv line 2", said)
        long = TABLE + "1,2022-06-01,1,2\n" + "x" * (1 << 21)
        self.refused("table.csv line 3: a line of more than 1,048,576 characters", self.file("table.csv", long))
        self.refused("line 1: a line of more than", "--as", "nmea", self.file("zeros.log", b"\x01" * (1 << 21)))

    def test_bombs(self):
        lines = b"x" * 1000 + b"\n"
        bomb = gzip.compress(TABLE.encode() + lines * 20000)
        self.refused("has more than 1,000,000 bytes, unpacked (--most-bytes)", "--most-bytes", "1000000", self.file("bomb.csv.gz", bomb))
        with zipfile.ZipFile(self.folder / "bomb.zip", "w", zipfile.ZIP_DEFLATED) as packed:
            packed.writestr("bomb.csv", TABLE.encode() + lines * 20000)
        self.refused("has more than 1,000,000 bytes", "--most-bytes", "1000000", self.folder / "bomb.zip")
        entities = "".join(f'<!ENTITY e{nth} "{f"&e{nth - 1};" * 10 if nth else "lol"}">' for nth in range(9))
        self.refused("line 1: entities are declared", self.file("bomb.gpx", f"<!DOCTYPE gpx [{entities}]><gpx>&e8;</gpx>"))
        external = '<?xml version="1.0"?><!DOCTYPE gpx SYSTEM "file:///etc/passwd"><gpx/>'
        self.refused("no row is left", self.file("external.gpx", external))
        self.refused("more than 64 deep", self.file("deep.gpx", "<gpx>" + "<a>" * 100_000))
        self.refused("a field of more than 1,048,576", self.file("long.gpx", GPX.format("<name>" + "x" * (1 << 22))))
        self.refused("a field of more than 1,048,576", self.file("long.gpx", f'<gpx a="{"x" * (1 << 22)}"/>'))
        self.refused("a value of more than 1,048,576", self.file("long.geojson", '{"type": "FeatureCollection", "features": [' + '"' + "x" * (1 << 22)))
        self.refused("nested too deep", self.file("deep.geojson", '{"type": "FeatureCollection", "features": [' + "[" * 100_000))

    def test_damage(self):
        packed = bytearray(gzip.compress(os.urandom(3000).hex().encode()))
        packed[len(packed) // 2] ^= 255
        self.refused("is damaged after", "--as", "nmea", self.file("damaged.gz", bytes(packed)))
        for unpacked, name in ((lzma.compress(b"x" * 9000), "xz"), (bz2.compress(b"x" * 9000), "bz2"), (gzip.compress(b"x" * 9000), "gz")):
            self.refused("is damaged after", "--as", "nmea", self.file(f"cut.{name}", unpacked[:-9]))
        archive = io.BytesIO()
        with zipfile.ZipFile(archive, "w", zipfile.ZIP_DEFLATED) as made:
            made.writestr("a.csv", "x" * 9000)
        hurt = bytearray(archive.getvalue())
        hurt[45] ^= 255
        self.refused("a.csv", "--as", "table", self.file("hurt.zip", bytes(hurt)))
        self.refused("an Excel workbook", self.zip_of("[Content_Types].xml"))

    def zip_of(self, name):
        with zipfile.ZipFile(self.folder / "one.zip", "w") as made:
            made.writestr(name, "x")
        return self.folder / "one.zip"

    def test_geopackage(self):
        path = self.folder / "points.gpkg"
        path.write_bytes(gzip.decompress((SAMPLES / "walk.gpkg.gz").read_bytes()))
        before = path.read_bytes()
        self.assertEqual(len(self.rows(path)[0]), 4)
        self.assertEqual(path.read_bytes(), before)
        with contextlib.closing(sqlite3.connect(path)) as base:
            for (name,) in base.execute("SELECT name FROM sqlite_master WHERE type = 'trigger'").fetchall():
                base.execute(f'DROP TRIGGER "{name}"')
            base.execute("UPDATE walk SET geom = ? WHERE fid = 1", (b"GP\0\1\0\0\0\0" + struct.pack("<BIdd", 1, 1, float("inf"), 1e308),))
            base.execute("UPDATE walk SET geom = ? WHERE fid = 2", (b"GP",))
            base.execute("UPDATE walk SET geom = 'text' WHERE fid = 3")
            base.commit()
        found, said = self.rows(path)
        self.assertEqual(len(found), 1)
        self.assertIn("2 left out: a row without a point", said)
        with contextlib.closing(sqlite3.connect(path)) as base:
            base.executescript("ALTER TABLE walk RENAME TO other; CREATE VIEW walk AS WITH RECURSIVE n(i) AS "
                               "(SELECT 1 UNION ALL SELECT i + 1 FROM n) SELECT i AS fid, i AS geom, i AS id, i AS time FROM n;")
            base.execute("UPDATE gpkg_geometry_columns SET table_name = 'walk'")
            base.commit()
        self.refused("has no layer of points", path)
        path.write_bytes(before[:5000] + b"\xff" * 60000)
        self.refused("is a damaged GeoPackage", path)

    def test_netcdf_that_is_none(self):
        said = self.rows(self.file("none.nc", b"\x89HDF\r\n\x1a\n" + b"\xff" * 5000), status=1)[1]
        self.assertIn("none.nc", said)

    def test_coasts(self):
        window = coasts.Window(-10, -10, 10, 10)
        for place in ("[1e308, 0]", "[NaN, 0]", "[1e999, 0]", "[0, 1e308]"):
            path = self.file("coast.json", f'{{"type": "LineString", "coordinates": [{place}, [0, 0]]}}')
            with self.assertRaises(SourceError):
                list(coasts.shapes_of(str(path), window))
        path = self.file("coast.json", "[" * 100_000)
        with self.assertRaises(SourceError):
            list(coasts.shapes_of(str(path), window))

    def test_nothing_is_lost(self):
        """A file of rows that is there stays as it is where a reader refuses, or the device fails."""
        out = self.file("rows.csv", "mine\n")
        self.rows(self.file("bad.csv", TABLE + "x,y,z,u\n"), "-o", out, status=1)
        self.assertEqual(out.read_text(), "mine\n")
        good = self.file("good.csv", TABLE + "1,2022-06-01,1,2\n")
        with mock.patch("os.replace", side_effect=OSError("no room")):
            self.refused("no room", good, "-o", out)
        self.assertEqual(out.read_text(), "mine\n")
        self.assertEqual(sorted(it.name for it in self.folder.iterdir()), ["bad.csv", "good.csv", "rows.csv"])
        self.rows(good, "-o", out)
        self.assertEqual(out.read_text(), "object,instant,x,y\n1,1654041600,2000,1000\n")

    def test_a_device_that_is_full(self):
        """Rows that were printed are never followed by a failure without a word."""
        with open("/dev/full", "w") as full:
            done = subprocess.run(
                [sys.executable, "-m", "gract", "rows", SAMPLES / "ais.csv"], stdout=full, stderr=subprocess.PIPE, text=True,
                env={**os.environ, "PYTHONPATH": str(plain.TOP / "python")},
            )
        self.assertEqual(done.returncode, 1)
        self.assertIn("No space left", done.stderr)
        self.assertNotIn("Traceback", done.stderr)

    def test_memory(self):
        """It is by the number of objects: three times the rows take as much, within a little."""
        peaks = []
        for count in (150_000, 450_000):
            with open(self.folder / "long.csv", "w") as out:
                out.write(TABLE)
                for nth in range(count):
                    out.write(f"{nth % 5},2022-06-01T{nth // 60 // 60 % 24:02}:{nth // 60 % 60:02}:{nth % 60:02},{10 + nth % 7}.5,20.25\n")
            code = ("import resource, sys; from gract.command import run; status = run(['rows', sys.argv[1], '-o', '/dev/null', '--every', '2 s']); "
                    "print(resource.getrusage(resource.RUSAGE_SELF).ru_maxrss, status)")
            done = subprocess.run(
                [sys.executable, "-c", code, self.folder / "long.csv"], capture_output=True, text=True,
                env={**os.environ, "PYTHONPATH": str(plain.TOP / "python")},
            )
            peak, status = map(int, done.stdout.split())
            self.assertEqual(status, 0, done.stderr)
            peaks.append(peak)
        self.assertLess(peaks[1], peaks[0] * 1.3, peaks)


class Kept(unittest.TestCase):
    def test_spool(self):
        """Rows come by time, of one time in the order in which they were added, whether they are in memory or in files."""
        with mock.patch("gract.rows.spool.MOST_ROWS", 100):
            spool, wanted = Spool(), []
            for nth in range(1234):
                row = (nth * 7919 % 50, nth, "1", "2")
                spool.add(row)
                wanted.append(row)
            wanted.sort(key=lambda row: row[0])
            self.assertEqual(list(spool.sorted()), wanted)
            self.assertEqual(list(spool.sorted()), wanted)
            # Two that read at the same time do not disturb each other.
            self.assertEqual(list(zip(spool.sorted(), spool.sorted())), list(zip(wanted, wanted)))
            spool.close()

    def test_fast_lines(self):
        """What the pattern of plain lines reads is what the columns read."""
        text = TABLE + "".join(
            f'{nth % 3},{"2022-06-01T" if nth % 2 else "2022-06-02 "}{nth % 24:02}:{nth % 60:02}:{nth % 61:02}{".5Z" if nth % 5 else ""},'
            f'{"-" if nth % 3 else ""}{nth % 95}.{nth},{nth % 200}.25{",x" if nth % 7 else ""}\n' for nth in range(3000)
        )
        with tempfile.TemporaryDirectory() as folder:
            path = Path(folder) / "table.csv"
            path.write_text(text)
            found = []
            for is_fast in (True, False):
                with contextlib.ExitStack() as stack:
                    if not is_fast:
                        stack.enter_context(mock.patch("gract.rows.table.Table.read_plain", return_value=0))
                    with read([str(path)], Options(per_degree=1000)) as made:
                        found.append((list(made.rows()), list(made.told())))
        self.assertEqual(*found)
        self.assertGreater(len(found[0][0]), 1000)

    def test_options(self):
        with self.assertRaises(GractError):
            Options(metres=True, middle=5)
        with self.assertRaises(GractError):
            Options(one_track="a", id="b")


if __name__ == "__main__":
    unittest.main()
