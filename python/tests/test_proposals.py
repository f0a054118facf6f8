"""`propose`: what it proposes builds, loses what it says, and keeps the limits, by a plain reckoning of each."""

import datetime
import math
import tempfile
import unittest
from pathlib import Path
from unittest import mock

import gract
from gract import errors, planes, survey

from . import plain

SAMPLES = plain.TOP / "examples" / "samples"


def sample(draw):
    """Reports in degrees: objects of all kinds, some for years, some once, at sea or all over the globe, in order or in none."""
    reports, far = [], draw.choice([0.001, 1, 40, 170])
    begin, begin_lat = draw.randrange(-10**9, 2 * 10**9), draw.uniform(-80 + far / 4, 80 - far / 4)
    for item in range(draw.randrange(1, 12)):
        lon, lat, time = draw.uniform(-far, far), begin_lat + draw.uniform(-far / 4, far / 4), begin + draw.randrange(10**draw.randrange(1, 9))
        step, gap = 10 ** draw.uniform(-6, -1), draw.choice([0, 1, 7, 10, 300, 3600, 86400, 10**6])
        for _ in range(draw.randrange(1, 60)):
            reports.append((draw.choice([item, f"{item}"]) if far < 100 else f"buoy {item}", time, lon, max(-90, min(90, lat))))
            lon, lat, time = lon + draw.gauss(0, step), lat + draw.gauss(0, step), time + gap + draw.randrange(1 + gap // 3)
    if draw.random() < 0.5:
        draw.shuffle(reports)
    return reports


def quantities(rows, cell, tick, period):
    """The quantities of a chart, each by its definition in docs/QUESTIONS.md."""
    chart = plain.gridded(rows, cell, tick)
    objects, instants = {item for item, _ in chart}, [instant for _, instant in chart]
    first, last = min(instants), max(instants)
    extents = [max(axis) - min(axis) + 1 for axis in zip(*chart.values())]
    begins = {}
    for item, instant in sorted(chart, key=lambda place: place[1]):
        begins.setdefault((item, (instant - first) // period), instant)
    ends = {block: min(first + (block[1] + 1) * period - 1, last) for block in begins}
    return {
        "objects": len(objects), "span": last - first + 1, "extent": max(extents), "blocks": len(objects) * -(-(last - first + 1) // period),
        "symbols": sum(ends[block] - begin for block, begin in begins.items()), "rows": len(rows),
    }


class Proposals(unittest.TestCase):
    def test_samples(self):
        """What is proposed builds, for 150 samples, and answers with each report that was not lost, of which there are as many as it says."""
        draw = plain.randomness(7)
        with tempfile.TemporaryDirectory() as folder:
            for nth in range(150):
                reports, file = sample(draw), Path(folder) / "out.idx"
                proposal = gract.propose(iter(reports))
                rows = proposal.grid.rows(reports)
                self.assertIsNone(proposal.passed)
                gract.build(rows, file, grid=proposal.grid, period=proposal.period)
                chart = plain.gridded(rows, proposal.cell, proposal.tick)
                with gract.open(file) as index:
                    self.assertEqual({(item, row.instant): row[1:] for item in {row.object for row in rows} for row in index.path(item)}, chart)
                self.assertEqual((proposal.lost, proposal.exact, proposal.reports), (len(reports) - len(chart), True, len(reports)))
                self.assertEqual(proposal.objects, len({str(item) for item, *_ in reports}))

    def test_files(self):
        """So it does of the files of examples/ that have the columns."""
        with tempfile.TemporaryDirectory() as folder:
            for name, columns in [("ais.csv", {}), ("movebank.csv", {}), ("ais-milliseconds.csv", {"id": "beacon", "time": "t"})]:
                proposal = gract.propose(SAMPLES / name, **columns)
                done = gract.build(SAMPLES / name, Path(folder) / "out.idx", **columns)
                self.assertEqual((done.proposal, done.rows, proposal.passed), (proposal, proposal.reports, None))

    def test_limits(self):
        """Under small limits, whatever is proposed without a word of one keeps all; whatever is told is none that a choice could help."""
        draw = plain.randomness(8)
        small = {"span": 3000, "extent": 2000, "blocks": 200, "symbols": 1500}
        passed = 0
        with mock.patch.dict(errors.LIMITS, {kind: errors.LIMITS[kind]._replace(most=most) for kind, most in small.items()}):
            for _ in range(200):
                reports = sample(draw)
                given = {"tick": draw.choice([None, None, 1, 77]), "period": draw.choice([None, None, 5]), "cell": draw.choice([None, None, 3])}
                proposal = gract.propose(reports, **given)
                rows = proposal.grid.rows(reports)
                found = quantities(rows, proposal.cell, proposal.tick, proposal.period)
                over = [kind for kind in small if found[kind] > small[kind]]
                if proposal.passed is None:
                    self.assertEqual(over, [])
                else:
                    passed += 1
                    self.assertIn(proposal.passed, proposal.text)
                    self.assertTrue(any(given.values()), proposal.text)
                for name, value in given.items():
                    self.assertIn(getattr(proposal, name), (value, getattr(proposal, name)) if value is None else (value,))
        self.assertGreater(passed, 20)

    def test_numbers(self):
        """Limits that no choice helps against are told by their names."""
        for kind, most in [("rows", 9), ("objects", 1), ("csv", 100)]:
            with mock.patch.dict(errors.LIMITS, {kind: errors.LIMITS[kind]._replace(most=most)}):
                told = gract.propose((nth % 2, nth, 10.0, 54.0) for nth in range(10))
                self.assertEqual(told.passed, kind)
                self.assertIn(errors.LIMITS[kind].advice, told.text)

    def test_why(self):
        """A ship that reports each ten seconds with an error of some metres; the numbers are those of its making."""
        draw = plain.randomness(9)
        reports = [(1, 10 * nth, 10 + nth * 1e-3 + draw.gauss(0, 5) / 64000, 55 + draw.gauss(0, 5) / 111195) for nth in range(2000)]
        told = gract.propose(reports)
        self.assertEqual((told.tick, told.gap, told.lost, told.grid.plane.middle), (10, 10, 0, 55))
        # The middle of three points in a row errs by sqrt(1.5) times the error, and the median of its length is sqrt(2 ln 2) times as much.
        self.assertAlmostEqual(told.noise / (5 * math.sqrt(1.5) * math.sqrt(2 * math.log(2))), 1, delta=0.15)
        # Twice the noise would be 20 metres, and a step of 64 metres has four cells of 10.
        self.assertEqual(told.cell, 10)
        self.assertAlmostEqual(told.stretch, 0, delta=0.01)
        doubled = gract.propose([report for report in reports for _ in range(2)])
        self.assertEqual((doubled.tick, doubled.lost), (1, 2000))
        self.assertIn("2,000 of 4,000 reports are lost", doubled.text)

    def test_planes(self):
        """Metres where they stretch by at most a quarter, or by what is allowed; else degrees."""
        globe = [(1, 0, 10.0, -45.0), (1, 3600, 11.0, 54.0)]
        told = gract.propose(globe)
        self.assertIsInstance(told.grid.plane, gract.Degrees)
        self.assertEqual(gract.propose(globe, stretch=1).grid.plane.middle, 4)
        self.assertAlmostEqual(planes.stretch_of(gract.Metres(5), 10, -45, 11, 54), 0.695, places=3)
        self.assertAlmostEqual(gract.propose(globe, plane=gract.Metres(5)).stretch, 0.695, places=3)
        self.assertEqual(gract.propose(globe, plane=gract.Degrees(10)).grid.plane.units, 10)
        across = gract.propose([("a", 0, 179.9, 5), ("a", 60, -179.9, 5), ("b", 0, 179.8, 5)], west=0)
        self.assertEqual((across.grid.west, across.passed), (0, None))

    def test_order(self):
        """Reports that come late within a piece change nothing; those that come later are told."""
        draw = plain.randomness(10)
        reports = [(nth % 5, nth, 10.0, 54.0) for nth in range(1000)]
        mixed = draw.sample(reports, len(reports))
        self.assertEqual(gract.propose(mixed), gract.propose(reports))
        with mock.patch.object(gract.proposals, "PIECE", 100):
            told = gract.propose(mixed, tick=60)
            self.assertFalse(told.exact)
            self.assertLessEqual(told.lost, gract.propose(reports, tick=60).lost)
            self.assertIn("at least", told.text)

    def test_memory(self):
        """What is kept is by the number of objects."""
        looked = survey.Survey((1, 5), True)
        for begin in range(0, 200_000, 1000):
            looked.take([(nth % 7, begin + nth, nth / 1000, nth / 3000) for nth in range(1000)])
        kept = sum(map(len, (looked.tracks, looked._gaps, looked._steps, looked._scatter)))
        self.assertLess(kept, 200)

    def test_refused(self):
        for report, argument in [
            ((1, 2, 3), "reports: report 2"), (7, "reports: report 2"), ((1.5, 0, 0, 0), "reports: report 2: object"), ((" ", 0, 0, 0), "reports: report 2: object"),
            ((1, "noon", 0, 0), "reports: report 2: time"), ((1, math.nan, 0, 0), "reports: report 2: time"), ((1, None, 0, 0), "reports: report 2: time"),
            ((1, 0, math.nan, 0), "reports: report 2: longitude"), ((1, 0, 361, 0), "reports: report 2: longitude"),
            ((1, 0, 0, -91), "reports: report 2: latitude"), ((True, 0, 0, 0), "reports: report 2: object"), (([], 0, 0, 0), "reports: report 2: object"),
        ]:
            with self.subTest(report=report), self.assertRaises(gract.ArgumentError) as refused:
                gract.propose([(1, datetime.datetime(2022, 6, 1), 0, 0), report])
            self.assertEqual(refused.exception.argument, argument)
        for reports in ([], 7, b"ais.csv"):
            with self.assertRaises(gract.ArgumentError):
                gract.propose(reports)
        for argument, value in [("cell", 0), ("tick", 2**31), ("period", 0), ("west", 181), ("stretch", -1)]:
            with self.assertRaises(gract.ArgumentError) as refused:
                gract.propose([(1, 0, 0, 0)], **{argument: value})
            self.assertEqual(refused.exception.argument, argument)
