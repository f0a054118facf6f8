"""What a page asks, by its paths: facts, slices, paths, who is there at all, names, the coast, and questions of the panel."""

from pathlib import Path as File
from typing import Any, Callable, Dict, List, Optional, Tuple

from ..archive.days import Days
from ..errors import ArgumentError
from ..grid import Grid
from ..planes import Degrees, Metres
from ..questions import EVERYWHERE, INSTANT, Interval, Path, Question, Rect, Slice
from . import binary, shores
from .asking_by_hand import answered
from .charts import Chart, Charts, Source
from .server import BYTES, Answer, Route, told

# How many instants, and how many paths, are asked at once.
MOST_INSTANTS, MOST_PATHS = 8, 200

# Up to so many objects slices are asked of everything; above, of what is in view and half as much around.
MOST_WHOLE = 20_000

IsGone = Callable[[], bool]


class Explorer:
    """Answers a page over the charts of a source."""

    def __init__(self, charts: Charts, coast: shores.Coast):
        self.charts, self.coast = charts, coast
        self._version, self._opened = 1, charts.stamps

    @property
    def routes(self) -> Dict[str, Route]:
        """What is asked, by its path."""
        return {
            "/facts": self.facts, "/slices": self.slices, "/paths": self.paths, "/objects": self.objects, "/names": self.names,
            "/coast": self.shore, "/ask": self.ask, "/renew": self.renew,
        }

    def marks(self) -> Dict[str, str]:
        """What each answer tells besides: the number of the charts that gave it, and whether their files were replaced since."""
        return {"X-Gract-Version": str(self._version), "X-Gract-Replaced": "1" if self.charts.is_replaced() else "0"}

    def facts(self, asked: Dict[str, Any], is_gone: IsGone) -> Answer:
        """What is explored: its span, its plane, and a box in cells that has the first row of each object."""
        return told(self.charts.play.ask(lambda chart: facts_of(chart, self), is_gone))

    def slices(self, asked: Dict[str, Any], is_gone: IsGone) -> Answer:
        """Slices of up to 8 instants, of everything or of a rectangle."""
        instants = some(asked, "instants", MOST_INSTANTS)
        region = EVERYWHERE if asked.get("rect") is None else Rect(*asked["rect"])
        questions = [Slice(instant, region) for instant in instants]
        replies = self.charts.play.ask(lambda chart: chart._exchange(lines_of(questions)), is_gone)
        return Answer(BYTES, b"".join(map(binary.slice_block, instants, replies)))

    def paths(self, asked: Dict[str, Any], is_gone: IsGone) -> Answer:
        """Paths of up to 200 objects in a window."""
        objects, since, until = some(asked, "objects", MOST_PATHS), asked["since"], asked["until"]
        questions = [Path(number, since, until) for number in objects]
        replies = self.charts.play.ask(lambda chart: chart._exchange(lines_of(questions)), is_gone)
        return Answer(BYTES, b"".join(map(binary.path_block, objects, replies)))

    def objects(self, asked: Dict[str, Any], is_gone: IsGone) -> Answer:
        """All objects, each with its first row."""
        reply = self.charts.hand.ask(lambda chart: chart._exchange(lines_of([whole_of(chart)]))[0], is_gone)
        return Answer(BYTES, binary.hits_block(reply))

    def names(self, asked: Dict[str, Any], is_gone: IsGone) -> Answer:
        """The names of objects, by their numbers."""
        grid = self.charts.hand.chart.grid
        return told({} if grid is None else {str(number): name for number, name in grid.names.items()})

    def shore(self, asked: Dict[str, Any], is_gone: IsGone) -> Answer:
        """The rings of the coast."""
        return Answer(BYTES, self.coast.data)

    def ask(self, asked: Dict[str, Any], is_gone: IsGone) -> Answer:
        """A question of the panel."""
        return told(self.charts.hand.ask(lambda chart: answered(chart, asked), is_gone))

    def renew(self, asked: Dict[str, Any], is_gone: IsGone) -> Answer:
        """Opens the files that stand there now."""
        self.charts.renew()
        if self.charts.stamps != self._opened:
            self._version, self._opened = self._version + 1, self.charts.stamps
        return told({"version": self._version})


def some(asked: Dict[str, Any], argument: str, most: int) -> List[int]:
    """A list of one number or more. Refuses another."""
    found = asked.get(argument)
    if not isinstance(found, list) or not 1 <= len(found) <= most or not all(type(number) is int for number in found):
        raise ArgumentError(argument, f"it is a list of 1 to {most} whole numbers")
    return found


def lines_of(questions: List[Any]) -> List[bytes]:
    """The lines of questions."""
    return [question.line.encode() + b"\n" for question in questions]


def whole_of(chart: Chart) -> Question:
    """Who is there at all."""
    return Interval(chart.facts.first, chart.facts.last, EVERYWHERE)


def facts_of(chart: Chart, explorer: Explorer) -> Dict[str, Any]:
    """What a page has to know before it asks."""
    grid, source = chart.grid, explorer.charts.source
    cell, tick = (chart.manifest.cell, chart.manifest.tick) if isinstance(chart, Days) else (chart.facts.cell, chart.facts.tick)
    count, box = extent_of(chart)
    return {
        "title": File(source.path).name, "opening": opening_of(source), "isArchive": source.is_archive(),
        "first": chart.facts.first, "last": chart.facts.last, "cell": cell, "tick": tick, "objects": count, "box": box,
        "isWhole": count <= MOST_WHOLE, "coast": explorer.coast.said, "version": explorer._version,
        "unit": None if grid is None else grid.unit, "epoch": None if grid is None else grid.epoch,
        "west": None if grid is None else grid.west, "plane": plane_of(grid), "limits": [INSTANT[0], INSTANT[1]],
    }


def opening_of(source: Source) -> str:
    """How the same is opened from Python, as `index`."""
    grid = "" if source.grid_file is None else f", grid=gract.Grid.load({source.grid_file!r})"
    if source.is_archive():
        return f"import gract\nfrom gract import days\nindex = days.open({source.path!r}{grid})\n"
    tail = "" if source.tail is None else f", tail={source.tail!r}"
    return f"import gract\nindex = gract.open({source.path!r}{tail}{grid})\n"


def plane_of(grid: Optional[Grid]) -> Optional[Dict[str, Any]]:
    """How cells become degrees, where they do so by one factor along each axis."""
    if grid is None or not isinstance(grid.plane, (Metres, Degrees)):
        return None
    return {"east": grid.plane.east / grid.cell, "north": grid.plane.north / grid.cell, "text": grid.plane.text}


def extent_of(chart: Chart) -> Tuple[int, Optional[List[int]]]:
    """How many objects there are, and the cells of their first rows. Of an archive, those of its last instant, so that not each day is
    opened."""
    question = Slice(chart.facts.last, EVERYWHERE) if isinstance(chart, Days) else whole_of(chart)
    rows, = chart.ask([question])
    if not rows:
        return 0, None
    xs, ys = [row.x for row in rows], [row.y for row in rows]
    return len(rows), [min(xs), min(ys), max(xs), max(ys)]
