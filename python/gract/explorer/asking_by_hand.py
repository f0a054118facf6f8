"""What the panel asks: a question with its answer, and how the same is asked by lines and from Python."""

from typing import Any, Callable, Dict, List, NamedTuple, Optional, Sequence, Tuple, Type

from .. import answers, derived
from ..errors import ArgumentError
from ..questions import Disc, Interval, Meet, Nearest, Path, Rect, Region, Slice, Zone
from . import polygons, within
from .charts import Chart

# How many lines an answer tells; there may be one for each object.
MOST_LINES = 20

# A polygon is covered by squares so wide that its longer side has about so many.
SQUARES = 96

# How many corners a polygon has at most.
MOST_CORNERS = 500


class Area(NamedTuple):
    """A region that was drawn: the zones that it is asked as, the argument that says the same in Python, and notes."""

    zones: Sequence[Region]
    argument: str
    notes: Sequence[str]


class Found(NamedTuple):
    """An answer: the kind of its rows, the rows, the lines, the call, and notes."""

    row: Type[Any]
    rows: Sequence[Any]
    lines: Sequence[str]
    call: str
    notes: Sequence[str] = ()
    area: Optional[Area] = None


def answered(chart: Chart, asked: Dict[str, Any]) -> Dict[str, Any]:
    """The answer to a question of the panel. Refuses, by `ArgumentError`, what is none."""
    kind = asked.get("kind")
    if kind not in KINDS:
        raise ArgumentError("kind", f"{kind!r} is no question: there are {', '.join(KINDS)}")
    found = KINDS[kind](chart, asked)
    return {
        "kind": kind, "columns": found.row._fields, "rows": found.rows, "lines": found.lines[:MOST_LINES],
        "more": max(0, len(found.lines) - MOST_LINES), "call": found.call, "notes": list(found.notes),
        "shapes": [] if found.area is None else shapes_of(found.area.zones),
    }


def shapes_of(zones: Sequence[Region]) -> List[Sequence[int]]:
    """The shapes of zones, rectangles of four numbers and discs of three, to be drawn."""
    return [shape for zone in zones for shape in (zone.shapes if isinstance(zone, Zone) else (zone,))]


# Arguments as they are written in Python.

def time_word(chart: Chart, instant: int) -> str:
    """An instant as it is written in a call: as a time, where there is a grid that has it."""
    try:
        if chart.grid is not None and chart.grid.instant(chart.grid.time_text(instant)) == instant:
            return repr(chart.grid.time_text(instant))
    except ArgumentError:
        pass
    return repr(instant)


def window_of(chart: Chart, asked: Dict[str, Any]) -> Tuple[int, int, str]:
    """A window, and how it is written."""
    since, until = chart.window(asked.get("since"), asked.get("until"))
    return since, until, f"since={time_word(chart, since)}, until={time_word(chart, until)}"


def area_of(chart: Chart, shape: Any) -> Area:
    """The region of a shape: `box` and `around` in degrees, `rect` and `disc` in cells, `polygon` in degrees or in cells. Refuses what is
    none."""
    if not isinstance(shape, dict):
        raise ArgumentError("shape", f"{shape!r} is none")
    if "polygon" in shape:
        return polygon_area(chart, shape["polygon"])
    if "box" in shape:
        region, notes = chart.region(box=numbers("box", shape["box"], 4))
        return Area([region], f"box={tuple(shape['box'])!r}", notes)
    if "around" in shape:
        region, notes = chart.region(around=numbers("around", shape["around"], 2), metres=shape.get("metres"))
        return Area([region], f"around={tuple(shape['around'])!r}, metres={shape['metres']!r}", notes)
    if "rect" in shape:
        region, notes = chart.region(Rect(*numbers("rect", shape["rect"], 4)))
        return Area([region], f"region=gract.rect{tuple(region)!r}", notes)
    region, notes = chart.region(Disc(*numbers("disc", shape.get("disc"), 3)))
    return Area([region], f"region=gract.disc{tuple(region)!r}", notes)


def numbers(argument: str, value: Any, count: int) -> List[Any]:
    """So many numbers. Refuses anything else."""
    if not isinstance(value, list) or len(value) != count or not all(type(number) in (int, float) for number in value):
        raise ArgumentError(argument, f"{value!r} is not {count} numbers")
    return value


def polygon_area(chart: Chart, corners: Any) -> Area:
    """The zones of a polygon: squares of cells that have a point of it, put together into rectangles, up to 16 in a zone."""
    if not isinstance(corners, list) or not 3 <= len(corners) <= MOST_CORNERS:
        raise ArgumentError("polygon", f"a polygon has 3 to {MOST_CORNERS} corners")
    ring = [numbers("polygon", corner, 2) for corner in corners]
    zones, side = polygons.zones_of(chart.grid, ring, SQUARES)
    note = f"the polygon is asked as squares of {side} x {side} cells, those that have a point of it, so that no row in it is lost"
    call = f"region={zone_word(zones[0])}" if len(zones) == 1 else "region=zone"
    return Area(zones, call, [note])


def zone_word(region: Region) -> str:
    """A region in cells as it is written in Python."""
    if isinstance(region, Zone):
        return f"gract.zone({', '.join(map(zone_word, region.shapes))})"
    return f"gract.{type(region).__name__.lower()}{tuple(region)!r}"


def call_of(area: Area, method: str, words: str) -> str:
    """The call that asks the same of an area."""
    if len(area.zones) == 1:
        return f"index.{method}({words}, {area.argument})"
    zones = ",\n    ".join(map(zone_word, area.zones))
    return f"from gract.explorer import within\nzones = [\n    {zones},\n]\nwithin.{method}(index, zones, {words})"


def notes_of(area: Area) -> List[str]:
    """What is to be said of how an area is asked."""
    zones = len(area.zones)
    return [*area.notes, *([f"it takes a line for each of {zones} zones, whose answers are put together"] if zones > 1 else [])]


# Questions.

def ask_interval(chart: Chart, asked: Dict[str, Any]) -> Found:
    """Who was there, and when first."""
    since, until, words = window_of(chart, asked)
    area = area_of(chart, asked.get("shape"))
    lines = [Interval(since, until, zone).line for zone in area.zones]
    hits = within.interval(chart, area.zones, since, until)
    return Found(answers.Hit, hits, lines, call_of(area, "interval", words), notes_of(area), area)


def ask_visits(chart: Chart, asked: Dict[str, Any]) -> Found:
    """Each visit."""
    since, until, words = window_of(chart, asked)
    area, gap = area_of(chart, asked.get("shape")), asked.get("gap")
    rows = within.visits(chart, area.zones, since, until, gap)
    lines = [Interval(since, until, zone).line for zone in area.zones]
    notes = [*notes_of(area), "after these lines a line path OBJECT FIRST LAST is asked of each object that was there"]
    call = call_of(area, "visits", words if gap is None else f"{words}, gap={gap!r}")
    return Found(answers.Visit, rows, lines, call, notes, area)


def ask_slice(chart: Chart, asked: Dict[str, Any]) -> Found:
    """Who was there at an instant."""
    at, area = chart.instant(asked["at"]), area_of(chart, asked.get("shape"))
    lines = [Slice(at, zone).line for zone in area.zones]
    call = call_of(area, "slice", f"at={time_word(chart, at)}")
    return Found(answers.Sighting, within.slice(chart, area.zones, at), lines, call, notes_of(area), area)


def ask_path(chart: Chart, asked: Dict[str, Any]) -> Found:
    """The path of an object."""
    number = chart.number(asked["object"])
    since, until, words = window_of(chart, asked)
    question = Path(number, since, until)
    stops, = chart.ask([question])
    return Found(answers.Stop, stops, [question.line], f"index.path({number}, {words})")


def ask_nearest(chart: Chart, asked: Dict[str, Any]) -> Found:
    """Who was nearest to a place; with `without`, leaving out the object whose neighbours they are."""
    at, count, without = chart.instant(asked["at"]), asked["count"], asked.get("without")
    x, y = numbers("cell", asked.get("cell"), 2)
    question = Nearest(count if without is None else count + 1, at, x, y)
    rows, = chart.ask([question])
    rows = [row for row in rows if row.object != without][:count]
    call = f"index.nearest({question.count}, at={time_word(chart, at)}, cell=({x}, {y}))"
    notes = [] if without is None else [f"object {without} itself is left out"]
    return Found(answers.Near, rows, [question.line], call, notes)


def ask_meet(chart: Chart, asked: Dict[str, Any]) -> Found:
    """When two objects first met."""
    left, right = chart.number(asked["left"], "left"), chart.number(asked["right"], "right")
    since, until, words = window_of(chart, asked)
    notes: List[str] = []
    if asked.get("metres") is not None and chart.grid is not None:
        found = derived.reach_of(chart, chart.grid, asked["metres"], left, since, until)
        reach, argument = found.cells, f"metres={asked['metres']!r}"
        notes = [f"{asked['metres']} metres are asked as {reach} cells, so that no meeting is missed; the two may be up to "
                 f"{int(found.metres) + 1} metres apart"]
    else:
        reach, argument = asked["reach"], f"reach={asked['reach']!r}"
    question = Meet(left, right, since, until, reach)
    rows, = chart.ask([question])
    return Found(answers.Meeting, rows, [question.line], f"index.meet({left}, {right}, {words}, {argument})", notes)


KINDS: Dict[str, Callable[[Chart, Dict[str, Any]], Found]] = {
    "interval": ask_interval, "visits": ask_visits, "slice": ask_slice, "path": ask_path, "nearest": ask_nearest, "meet": ask_meet,
}
