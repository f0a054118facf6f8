"""Where texts stand in a picture: beside what they name, in the frame, and on nothing else."""

from dataclasses import dataclass
from typing import Dict, Iterable, Iterator, List, Optional, Sequence, Set, Tuple

# How wide a letter is, in parts of the size of the script; a little more than most fonts need.
NARROW, WIDE = set("iljtfrI.,:;'|!()[] -"), set("mwMW@%")

# How far from its point a text may stand, in pixels, and in which of eight directions, the best first.
NEAR, FAR = (0, 4), (12, 26, 40, 58, 80)
DIRECTIONS = ((1, -1), (1, 1), (-1, -1), (-1, 1), (1, 0), (-1, 0), (0, -1), (0, 1))

# The side of the squares in which the lines of a picture are looked up, in pixels.
SQUARE = 6


# Left, top, right and low, and a point across and down, in pixels.
Rect = Tuple[float, float, float, float]
Point = Tuple[float, float]


def width_of(text: str, size: float, bold: bool = False) -> float:
    """How wide a text is, about."""
    wide = sum(0.4 if sign in NARROW else 0.98 if sign in WIDE else 0.74 if sign.isupper() else 0.64 for sign in text)
    return size * wide * (1.1 if bold else 1)


@dataclass
class Label:
    """A text at a point, in pixels. Of two labels the one with the lesser rank is placed first; one that is held has a line to its
    point where it stands far away, and one that is not is left out where there is no room beside the point."""

    x: float
    y: float
    text: str
    colour: str
    size: int = 11
    bold: bool = False
    rank: int = 0
    held: bool = False


@dataclass
class Placed:
    """A label with its place, and whether a line goes to its point."""

    label: Label
    left: float
    low: float
    line: bool


class Room:
    """What of a picture is taken: by marks and texts, on which no text may stand, and by lines, on which it had better not."""

    def __init__(self, left: float, top: float, right: float, low: float):
        self.frame = left + 2, top + 2, right - 2, low - 2
        self.buckets: Dict[Tuple[int, int], List[Rect]] = {}
        self.lines: Set[Tuple[int, int]] = set()

    def squares(self, box: Rect, side: int = 48) -> Iterator[Tuple[int, int]]:
        """The squares of that side that a box is in."""
        left, top, right, low = box
        for across in range(int(left // side), int(right // side) + 1):
            for down in range(int(top // side), int(low // side) + 1):
                yield across, down

    def take(self, box: Rect) -> None:
        """Takes a box, which is free for nothing else then."""
        for square in self.squares(box):
            self.buckets.setdefault(square, []).append(box)

    def add_line(self, points: Sequence[Point]) -> None:
        """Notes where a line goes."""
        for (x, y), (x2, y2) in zip(points, points[1:]):
            steps = max(1, int(max(abs(x2 - x), abs(y2 - y)) // 4))
            if steps > 2000:
                continue
            for nth in range(steps + 1):
                self.lines.add((int((x + (x2 - x) * nth / steps) // SQUARE), int((y + (y2 - y) * nth / steps) // SQUARE)))

    def is_free(self, box: Rect) -> bool:
        """Whether a box is in the frame, and nothing is in it."""
        left, top, right, low = box
        if left < self.frame[0] or top < self.frame[1] or right > self.frame[2] or low > self.frame[3]:
            return False
        return not any(
            left < other[2] and other[0] < right and top < other[3] and other[1] < low
            for square in self.squares(box) for other in self.buckets.get(square, ())
        )

    def crossed(self, box: Rect) -> int:
        """How many squares of a box lines go through."""
        return sum(square in self.lines for square in self.squares(box, SQUARE))

    def place(self, label: Label) -> Optional[Placed]:
        """Where a label stands; None where there is no room for it."""
        wide, high = width_of(label.text, label.size, label.bold), label.size
        for distances in (NEAR, FAR):
            if distances is FAR and not label.held:
                break
            found = []
            for nth, (far, (across, down)) in enumerate((far, way) for far in distances for way in DIRECTIONS):
                gap = 5 + far
                left = label.x + across * gap - (wide if across < 0 else wide / 2 if across == 0 else 0)
                top = label.y + down * gap - (high if down < 0 else high / 2 if down == 0 else 0)
                box = left - 1, top - 1, left + wide + 1, top + high + 2
                if self.is_free(box):
                    found.append((self.crossed(box) + nth / 4, left, top, box, far > 12))
            if found:
                _, left, top, box, is_far = min(found)
                self.take(box)
                return Placed(label, left, top + 0.85 * high, is_far)
        return None


def placed(labels: Iterable[Label], room: Room) -> Iterator[Placed]:
    """The labels that find room, in the order of their ranks."""
    for label in sorted(labels, key=lambda it: it.rank):
        found = room.place(label)
        if found:
            yield found
