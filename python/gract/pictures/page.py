"""The page of `plot --html`: one file that needs nothing else, with the picture, zoom, pan and a slider over time."""

import json
import re
from html import escape
from pathlib import Path
from typing import TYPE_CHECKING, Any, Dict, Optional

from ..errors import SourceError
from . import drawing, replies

if TYPE_CHECKING:
    from .plot import Scene

FRAME = Path(__file__).with_name("page.html")

# How many rows a page holds at most: with more a browser takes long to open it.
MOST_ROWS = 1_000_000

# Where the frame is filled.
PLACE = re.compile("@(TITLE|DATA)@")


def track_of(track: replies.Track, scene: "Scene") -> Dict[str, Any]:
    """A track as the page keeps it: instants and cells, and where rows are missing before one."""
    return {
        "name": scene.called(track.number), "colour": scene.colour(track.number),
        "stops": [[instant, x + 0.5, y + 0.5] for instant, x, y in track.stops],
    }


def region_of(region: replies.Region) -> Optional[Dict[str, Any]]:
    """A region by its edge, in cells; None where it has no cell."""
    if region.kind == "rect":
        x1, y1, x2, y2 = region.numbers
        box = [x1, y1, x2 + 1, y2 + 1]
        return {"text": region.text, "box": box, "from": region.first, "to": region.last} if x1 <= x2 and y1 <= y2 else None
    x, y, radius = region.numbers
    return {"text": region.text, "disc": [x + 0.5, y + 0.5, radius], "from": region.first, "to": region.last}


def data_of(told: replies.Answers, scene: "Scene", picture: drawing.Picture) -> Dict[str, Any]:
    """All that the page shows, in cells and instants."""
    hits = [
        {"name": scene.called(hit.number), "kind": hit.kind, "t": hit.instant, "x": hit.x + 0.5, "y": hit.y + 0.5}
        for hit in told.of(replies.Hit)
    ]
    wide, high = picture.axes.sizes()
    return {
        "title": picture.title, "view": [picture.x1, picture.y1, picture.x2, picture.y2],
        "across": picture.across, "down": picture.down, "tick": scene.dates.seconds,
        "degrees": [wide, high] if picture.axes.plane else None, "wraps": scene.wraps,
        "tracks": [track_of(track, scene) for track in told.of(replies.Track)],
        "regions": [region for region in map(region_of, told.of(replies.Region)) if region],
        "targets": [[target.x + 0.5, target.y + 0.5, target.instant] for target in told.of(replies.Target)],
        "hits": hits,
        "places": [[shape.x, shape.y, shape.text] for shape in scene.shapes if isinstance(shape, drawing.Place)],
        "land": [[[[round(x, 2), round(y, 2)] for x, y in places], fill] for places, fill, _ in picture.land],
        "colours": {"hit": drawing.HIT, "shore": drawing.SHORE, "edge": drawing.EDGE, "pale": drawing.PALE, "town": drawing.TOWN},
    }


def json_text(data: Any) -> str:
    """Data as JSON that a script of a page can hold: without any `<`, so that no name begins or ends a comment or a script there."""
    return json.dumps(data, ensure_ascii=False, separators=(",", ":")).replace("<", "\\u003c")


def refuse_many(told: replies.Answers) -> None:
    """Refuses more rows than a page can hold."""
    rows = sum(len(track.stops) for track in told.of(replies.Track)) + len(told.of(replies.Hit))
    if rows > MOST_ROWS:
        raise SourceError(f"{rows:,} rows are more than the {MOST_ROWS:,} that a page holds: "
                          "look at them by python3 -m gract explore INDEX, or ask for less time")


def text_of(told: replies.Answers, scene: "Scene", picture: drawing.Picture) -> str:
    """The page. All its places are filled in one pass, so that no title or name is taken for a place. Refuses more than a million rows."""
    refuse_many(told)
    filled = {"TITLE": escape(picture.title or "Tracks"), "DATA": json_text(data_of(told, scene, picture))}
    return PLACE.sub(lambda place: filled[place[1]], FRAME.read_text(encoding="utf-8"))
