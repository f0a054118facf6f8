"""Each method, against a plain filter over the storms and over 200 random charts."""

import tempfile
import unittest
from pathlib import Path

import gract
from gract import questions

from . import plain

CHARTS = 200


def random_shape(draw, far):
    """A shape and its test."""
    x, y = draw.randrange(-far, far), draw.randrange(-far, far)
    if draw.random() < 0.5:
        corners = x, y, x + draw.randrange(-2, far), y + draw.randrange(-2, far)
        return gract.rect(*corners), plain.in_rect(*corners)
    disc = x, y, draw.randrange(far)
    return gract.disc(*disc), plain.in_disc(*disc)


def random_region(draw, far):
    """A region and its test: a shape, or a zone of up to sixteen, which are small where they are many."""
    if draw.random() < 0.7:
        return random_shape(draw, far)
    count = draw.randrange(1, 17)
    shapes = [random_shape(draw, max(2, far // draw.randrange(1, count + 1))) for _ in range(count)]
    return gract.zone(*(shape for shape, _ in shapes)), lambda x, y: any(has(x, y) for _, has in shapes)


class Compared:
    """An index beside a plain filter, asked at random."""

    def __init__(self, test, index, table, draw, far):
        self.test, self.index, self.table, self.draw, self.far = test, index, table, draw, far

    def same(self, got, wanted):
        self.test.assertEqual(got, wanted)

    def instant(self):
        return self.draw.randrange(self.table.first - 2, self.table.last + 3)

    def window(self):
        since = self.instant()
        return since, since + self.draw.randrange(-1, 1 + (self.table.last - self.table.first) // 2 + 1)

    def object(self):
        return self.draw.choice([*self.table.objects, self.draw.randrange(2**32)])

    def one_line(self):
        index, table = self.index, self.table
        item, at, (since, until) = self.object(), self.instant(), self.window()
        region, has = random_region(self.draw, self.far)
        x, y, count = self.draw.randrange(-self.far, self.far), self.draw.randrange(-self.far, self.far), self.draw.randrange(6)
        self.same(index.position(object=item, at=at), table.position(item, at))
        self.same(index.path(object=item, since=since, until=until), table.path(item, since, until))
        self.same(index.slice(at=at, region=region), table.slice(at, has))
        self.same(index.interval(since=since, until=until, region=region), table.interval(since, until, has))
        self.same(index.nearest(count=count, at=at, cell=(x, y)), table.nearest(count, at, x, y))

    def several_lines(self):
        index, table = self.index, self.table
        at, (since, until), (region, has) = self.instant(), self.window(), random_region(self.draw, self.far)
        within, gap = self.draw.randrange(40), self.draw.choice([None, 0, 1, 2, 5])
        self.same(index.last_known(at=at, within=within, region=region), table.last_known(at, within, has))
        self.same(index.visits(region, since, until, gap=gap), table.visits(since, until, has, gap))

    def meetings(self):
        index, table = self.index, self.table
        (left, right), (since, until), reach = (self.object(), self.object()), self.window(), self.draw.randrange(self.far)
        wanted = table.meet(left, right, since, until, reach)
        self.same(index.meet(left, right, since, until, reach=reach), wanted)
        self.same(list(index.ask([f"meet {left} {right} {since} {until} {reach}", questions.Meet(left, right, since, until, reach)])), [wanted] * 2)
        whole = index.meet(left, right, reach=reach)
        self.same((whole, whole.asked), (table.meet(left, right, table.first, table.last, reach), {"left": left, "right": right}))
        return len(wanted)

    def whole(self):
        index, table = self.index, self.table
        self.same(index.objects(), table.lives())
        self.same(index.path(table.objects[0]), table.path(table.objects[0], table.first, table.last))
        self.same(index.slice(table.last), table.slice(table.last, lambda x, y: True))
        self.same(index.interval(), table.interval(table.first, table.last, lambda x, y: True))
        self.same(list(index.held(table.objects[-1])), table.path(table.objects[-1], table.first, table.last))

    def at_once(self, count):
        asked = [(self.object(), self.instant()) for _ in range(count)]
        lines = [f"position {item} {at}" for item, at in asked]
        typed = [questions.Position(item, at) for item, at in asked]
        wanted = [self.table.position(item, at) for item, at in asked]
        self.same(list(self.index.ask(lines)), wanted)
        self.same(list(self.index.ask(iter(typed))), wanted)


class Answers(unittest.TestCase):
    def test_storms(self):
        table, draw = plain.storms(), plain.randomness(1)
        with gract.open(plain.STORMS_INDEX) as index:
            self.assertEqual(index.facts[:6], (512, table.first, table.last, 1461, 1, 6))
            self.assertEqual(index.info(), index.facts)
            compared = Compared(self, index, table, draw, 900)
            compared.whole()
            compared.at_once(500)
            for _ in range(100):
                compared.one_line()
            for _ in range(2):
                compared.several_lines()

    def test_random_charts(self):
        with tempfile.TemporaryDirectory() as folder:
            for seed in range(CHARTS):
                with self.subTest(seed=seed):
                    self.chart(Path(folder) / "chart.idx", plain.randomness(seed))

    def chart(self, file, draw):
        rows = plain.random_rows(draw)
        cell, tick, period = draw.choice([1, 1, 3, 10]), draw.choice([1, 1, 2, 60]), draw.choice([1, 2, 7, 30, 1000, 4194304])
        gract.build(rows, file, cell=cell, tick=tick, period=period)
        table = plain.Plain(plain.gridded(rows, cell, tick))
        with gract.open(file) as index:
            self.assertEqual(index.facts[:6], (len(table.objects), table.first, table.last, period, cell, tick))
            compared = Compared(self, index, table, draw, 120 // cell)
            compared.whole()
            compared.at_once(50)
            for _ in range(5):
                compared.one_line()
                compared.several_lines()

    def test_meetings(self):
        """The first meeting of two objects, or of one with itself, over a third of the random charts and the storms."""
        with tempfile.TemporaryDirectory() as folder:
            met = 0
            for seed in range(0, CHARTS, 3):
                draw, file = plain.randomness(seed), Path(folder) / "chart.idx"
                rows, cell, tick = plain.random_rows(draw, 12), draw.choice([1, 1, 3]), draw.choice([1, 2, 60])
                gract.build(rows, file, cell=cell, tick=tick, period=draw.choice([1, 2, 7, 30, 1000]))
                with gract.open(file) as index:
                    compared = Compared(self, index, plain.Plain(plain.gridded(rows, cell, tick)), draw, 24 // cell)
                    met += sum(compared.meetings() for _ in range(10))
            self.assertGreater(met, CHARTS // 3)
        with gract.open(plain.STORMS_INDEX) as storms:
            self.assertEqual(storms.meet(500, 502, reach=400), [gract.Meeting(74067, -531, 243, -786, 254)])
            self.assertEqual(storms.meet(500, 502, 74068, 74067, reach=400), [])
            compared = Compared(self, storms, plain.storms(), plain.randomness(8), 900)
            for _ in range(50):
                compared.meetings()

    def test_last_rows(self):
        """Each object's last row is found, however long it is before the end."""
        with tempfile.TemporaryDirectory() as folder:
            # The windows end 15, 271 and 4,367 instants before the last.
            file, far = Path(folder) / "last.idx", [*range(280), 4366, 4367, 4368, 4369, 4900]
            rows = [(item, -back, item, 0) for item, back in enumerate(far)] + [(item, -4900, 0, 0) for item in range(0, 280, 7)]
            gract.build(rows, file, period=16)
            with gract.open(file) as index:
                self.assertEqual(index.objects(), plain.Plain(plain.gridded(rows)).lives())

    def test_kinds_of_rows(self):
        """An answer's rows are named, and tell what they have in common."""
        with gract.open(plain.STORMS_INDEX) as index:
            self.assertEqual(index.position(278, 52097), gract.Cell(x=-896, y=293))
            path = index.path(278, 52096, 52097)
            self.assertEqual((type(path[0]), path.asked), (gract.Stop, {"object": 278}))
            self.assertEqual(type(index.slice(52097)[0]), gract.Sighting)
            self.assertEqual(type(index.interval(52097, 52098)[0]), gract.Hit)
            self.assertEqual(index.nearest(1, 74077, (-802, 258)), [gract.Near(502, -865, 282, 4545)])
            self.assertEqual(list(path.records())[0], {"object": 278, "instant": 52096, "x": path[0].x, "y": path[0].y})

    def test_built_of(self):
        """An index is the same whatever its rows come as."""
        with tempfile.TemporaryDirectory() as folder:
            rows = plain.read_rows(plain.STORMS)
            for nth, source in enumerate((plain.STORMS, str(plain.STORMS), rows, iter(rows), [list(row) for row in rows])):
                file = Path(folder) / f"{nth}.idx"
                gract.build(source, file, cell=1, tick=6, period=1461)
                self.assertEqual(file.read_bytes(), plain.STORMS_INDEX.read_bytes())
                built = gract.build(rows, str(file), tick=6, period=1461)
                self.assertEqual((built.file, built.rows, built.period), (str(file), len(rows), 1461))
            self.assertEqual(len(list(Path(folder).iterdir())), 5)

    def test_older_indexes(self):
        """An index in an older version of the format answers as the newest, and is extended to that."""
        with tempfile.TemporaryDirectory() as folder, gract.open(plain.STORMS_INDEX) as newest:
            for version, file in plain.OLDER_INDEXES.items():
                self.assertEqual(file.read_bytes()[:8], b"GRACT00%d" % version)
                with gract.open(file) as index:
                    self.assertEqual((index.facts, index.bounds, index.span), (newest.facts, newest.bounds, newest.span))
                    self.assertEqual(index.path(278), newest.path(278))
                    self.assertEqual(index.interval(52000, 52200), newest.interval(52000, 52200))
                gract.extend(file, [], Path(folder) / "it.idx")
                self.assertEqual((Path(folder) / "it.idx").read_bytes(), plain.STORMS_INDEX.read_bytes())

    def test_tail_bounds(self):
        """Rows of a tail may be far from all rows of the index."""
        rows = [(number, at, number, at) for number in range(3) for at in range(20)]
        for far in (8000000, -8000000, 100000):
            later = [(2, 20, 5, far), (3, 21, -far, 0), (4, 22, 7, 7)]
            with tempfile.TemporaryDirectory() as folder:
                file, tail = Path(folder) / "few.idx", Path(folder) / "tail.csv"
                gract.build(rows, file, period=120)
                tail.write_text("".join("{},{},{},{}\n".format(*row) for row in later))
                with gract.open(file, tail=tail) as index:
                    xs, ys = ([row[axis] for row in rows + later] for axis in (2, 3))
                    self.assertEqual(index.bounds, (min(xs), min(ys), max(xs), max(ys)))
                    self.assertEqual((len(index), 4 in index, index.span), (5, True, (0, 22)))
