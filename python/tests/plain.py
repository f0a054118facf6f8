"""Answers by a plain filter over gridded rows: what the package's answers are compared with."""

import csv
import random
from pathlib import Path


def gridded(rows, cell=1, tick=1):
    """Rows (object, time, x, y) as a chart: the cell of each object and instant; the last of the file counts."""
    return {(item, time // tick): (x // cell, y // cell) for item, time, x, y in rows}


def read_rows(file):
    with open(file, newline="", encoding="utf-8") as lines:
        return [tuple(map(int, row)) for row in list(csv.reader(lines))[1:]]


class Plain:
    """A chart that is filtered anew for each question."""

    def __init__(self, chart):
        self.chart = chart
        self.rows = sorted((item, instant, *cell) for (item, instant), cell in chart.items())
        self.first = min(instant for _, instant, _, _ in self.rows)
        self.last = max(instant for _, instant, _, _ in self.rows)
        self.objects = sorted({item for item, _, _, _ in self.rows})

    def position(self, item, instant):
        return self.chart.get((item, instant))

    def path(self, item, since, until):
        return [row[1:] for row in self.rows if row[0] == item and since <= row[1] <= until]

    def slice(self, instant, has):
        return [(item, x, y) for item, when, x, y in self.rows if when == instant and has(x, y)]

    def interval(self, since, until, has):
        firsts = {}
        for item, when, x, y in self.rows:
            if since <= when <= until and has(x, y):
                firsts.setdefault(item, (item, when, x, y))
        return [firsts[item] for item in sorted(firsts)]

    def nearest(self, count, instant, x, y):
        found = [(item, *cell, (cell[0] - x) ** 2 + (cell[1] - y) ** 2) for (item, when), cell in self.chart.items() if when == instant]
        return sorted(found, key=lambda row: (row[3], row[0]))[:count]

    def meet(self, left, right, since, until, reach):
        for _, when, x, y in (row for row in self.rows if row[0] == left and since <= row[1] <= until):
            u, v = self.chart.get((right, when), (None, None))
            if u is not None and (x - u) ** 2 + (y - v) ** 2 <= reach * reach:
                return [(when, x, y, u, v)]
        return []

    def last_known(self, at, within, has):
        found = []
        for item in self.objects:
            before = self.path(item, at - within, at)
            if before and has(*before[-1][1:]):
                found.append((item, *before[-1], at - before[-1][0]))
        return found

    def visits(self, since, until, has, gap=None):
        """By places in the list of an object's rows: a stay begins at each row inside whose row before is not of the same stay."""
        found = []
        for item in self.objects:
            stops = self.path(item, since, until)
            joins = [
                place > 0 and has(*stops[place][1:]) and has(*stops[place - 1][1:])
                and (gap is None or stops[place][0] - stops[place - 1][0] <= gap)
                for place in range(len(stops))
            ]
            for begin in (place for place, stop in enumerate(stops) if has(*stop[1:]) and not joins[place]):
                end = next((place for place in range(begin + 1, len(stops)) if not joins[place]), len(stops)) - 1
                found.append((item, *stops[begin], *stops[end], end - begin + 1))
        return found

    def lives(self):
        found = []
        for item in self.objects:
            stops = self.path(item, self.first, self.last)
            found.append((item, *stops[0], *stops[-1]))
        return found


def in_rect(x1, y1, x2, y2):
    return lambda x, y: x1 <= x <= x2 and y1 <= y <= y2


def in_disc(cx, cy, r):
    return lambda x, y: (x - cx) ** 2 + (y - cy) ** 2 <= r * r


def random_rows(draw, far=40):
    """Rows of a few objects that wander about 0, are away at times, and may come twice in an instant, in no order."""
    rows = []
    begin = draw.randrange(-3000, 3000)
    for _ in range(draw.randrange(1, 9)):
        item, x, y = draw.choice([draw.randrange(12), draw.randrange(2**32)]), draw.randrange(-far, far), draw.randrange(-far, far)
        time = begin + draw.randrange(300)
        for _ in range(draw.randrange(1, 40)):
            rows.append((item, time, x, y))
            x, y, time = x + draw.randrange(-4, 5), y + draw.randrange(-4, 5), time + draw.choice([1, 1, 1, 2, 3, 30])
    draw.shuffle(rows)
    return rows


TOP = Path(__file__).resolve().parent.parent.parent
STORMS = TOP / "examples" / "atlantic-storms.csv"
STORMS_INDEX = TOP / "examples" / "atlantic-storms.idx"
OLDER_INDEXES = {version: TOP / "examples" / f"atlantic-storms-{version}.idx" for version in (1, 2)}
NAMES = TOP / "examples" / "storm-names.csv"


def storms():
    return Plain(gridded(read_rows(STORMS), 1, 6))


def randomness(seed):
    return random.Random(seed)
