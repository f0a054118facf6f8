"""What docs/QUESTIONS.md says that gract answers, by going through all rows: the slow twin that scripts/fuzz_files compares with.

Rows are tuples of object, instant, x and y in cells, sorted. All texts are bytes, since files and questions may hold any.
"""

import re
import sys
from collections import namedtuple

sys.set_int_max_str_digits(0)

NUMERAL = re.compile(rb"[ \t]*([+-]?[0-9]+)[ \t]*")
OBJECT, WIDE, RADIUS = (0, 2**32 - 1), (-2**41, 2**41), (0, 2**42)
SLOT, SETTING, PERIOD = (0, 15), (1, 2**30), (1, 2**22)
SHAPES = {b"rect": [WIDE] * 4, b"disc": [WIDE, WIDE, RADIUS]}
MANY = (1, 16)

# The words after each line's first one, by their ranges; of slice and interval those before the region.
LINES = {
    b"position": [OBJECT, WIDE],
    b"path": [OBJECT, WIDE, WIDE],
    b"slice": [WIDE],
    b"interval": [WIDE, WIDE],
    b"nearest": [OBJECT, WIDE, WIDE, WIDE],
    b"meet": [OBJECT, OBJECT, WIDE, WIDE, RADIUS],
    b"info": [],
    b"hold": [SLOT, OBJECT, WIDE, WIDE],
    b"more": [SLOT, OBJECT],
    b"free": [SLOT],
}

# A chart beside its facts: a list of pairs of a name and a value, which is None where it is not known.
Chart = namedtuple("Chart", "rows facts")


class Refusal(Exception):
    """A line on standard error, with its status."""

    def __init__(self, status, text):
        super().__init__(text)
        self.status, self.text = status, text


def numeral(word):
    found = NUMERAL.fullmatch(word)
    return int(found.group(1)) if found else None


# CSV files.

def records(text):
    """The records of a CSV file, as lists of fields."""
    if text.startswith(b"\xef\xbb\xbf"):
        text = text[3:]
    fields, field, state = [], bytearray(), "record"
    for byte in text:
        ends = byte in b"\r\n"
        if state == "record" and ends:
            continue
        if state == "quoted":
            if byte == 0x22:
                state = "quote"
            else:
                field.append(byte)
        elif byte == 0x22 and state in ("record", "start", "quote"):
            if state == "quote":
                field.append(byte)
            state = "quoted"
        elif ends or byte == 0x2C:
            fields.append(bytes(field))
            field.clear()
            state = "start"
            if ends:
                yield fields
                fields, state = [], "record"
        else:
            field.append(byte)
            state = "field"
    if state != "record":
        yield fields + [bytes(field)]


def row_of(nth, fields):
    """The four numbers of a record, or its refusal."""
    if len(fields) != 4:
        raise Refusal(3, f"record {nth} has {len(fields)} fields")
    numbers = []
    for place, (field, (low, high)) in enumerate(zip(fields, [OBJECT] + [(-2**40, 2**40)] * 3), 1):
        number = numeral(field)
        if number is None:
            raise Refusal(3, f"record {nth} field {place} is not a number")
        if not low <= number <= high:
            raise Refusal(3, f"record {nth} field {place} is out of range")
        numbers.append(number)
    return numbers


def quantities(rows, period):
    """The quantities of a chart, in their order, each with its limit."""
    instants = [row[1] for row in rows]
    span = max(instants) - min(instants) + 1
    extent = max(max(row[axis] for row in rows) - min(row[axis] for row in rows) for axis in (2, 3)) + 1
    objects, firsts = {row[0] for row in rows}, {}
    for number, instant, _, _ in rows:
        firsts.setdefault((number, (instant - min(instants)) // period), instant - min(instants))
    symbols = sum(min((b + 1) * period, span) - 1 - at for (_, b), at in firsts.items())
    yield "objects", len(objects), 2**16
    yield "span", span, 2**22
    yield "extent", extent, 2**24
    yield "blocks", len(objects) * -(-span // period), 2**24
    yield "symbols", symbols, 2**25


def chart_of(text, cell, tick, period):
    """The chart of a CSV file under settings, or its first refusal."""
    found = {}
    for nth, fields in enumerate(records(text), 1):
        if nth == 1 and fields == [b"object", b"instant", b"x", b"y"]:
            continue
        number, time, x, y = row_of(nth, fields)
        found[number, time // tick] = (x // cell, y // cell)
    rows = sorted((*key, *place) for key, place in found.items())
    if not rows:
        raise Refusal(3, "no rows")
    for name, value, limit in quantities(rows, period):
        if value > limit:
            raise Refusal(4, f"limit {name} passed at {value}")
    instants = [row[1] for row in rows]
    known = [("objects", len({row[0] for row in rows})), ("first", min(instants)), ("last", max(instants)), ("period", period),
             ("cell", cell), ("tick", tick)]
    return Chart(rows, known + [(name, None) for name in ("height", "alphabet", "rules", "log", "depth")])


# Questions.

class Bad(Exception):
    """The cause of a bad line."""


def number_at(words, place, limits):
    number = numeral(words[place])
    if number is None:
        raise Bad(f"number {place + 1}")
    if not limits[0] <= number <= limits[1]:
        raise Bad(f"range {place + 1}")
    return number


def region_of(words, place):
    """A region that begins at a place of a line: its shapes, each the place of its word, and the ranges of its words, which is None where no
    number stands."""
    if len(words) <= place:
        raise Bad("count")
    ranges, shapes, many = [], [], 1
    if words[place] == b"any":
        if len(words) <= place + 1:
            raise Bad("count")
        ranges, many = [None, MANY], number_at(words, place + 1, MANY)
    for _ in range(many):
        at = place + len(ranges)
        if len(words) <= at:
            raise Bad("count")
        if words[at] not in SHAPES:
            raise Bad("word")
        shapes.append(at)
        ranges += [None, *SHAPES[words[at]]]
        if len(words) < place + len(ranges):
            raise Bad("count")
    return shapes, ranges


def parsed(words):
    """A line's first word, its numbers before a region, and the region's shapes, each its word and its numbers."""
    kind = words[0]
    if kind not in LINES:
        raise Bad("word")
    ranges, shapes = LINES[kind], []
    if kind in (b"slice", b"interval"):
        shapes, region = region_of(words, 1 + len(ranges))
        ranges = ranges + region
    if len(words) != 1 + len(ranges):
        raise Bad("count")
    numbers = [limits and number_at(words, place, limits) for place, limits in enumerate(ranges, 1)]
    found = [(words[at], numbers[at:at + len(SHAPES[words[at]])]) for at in shapes]
    return kind, numbers[:len(LINES[kind])], found


def is_in(shapes, x, y):
    return any(
        numbers[0] <= x <= numbers[2] and numbers[1] <= y <= numbers[3] if shape == b"rect"
        else (x - numbers[0])**2 + (y - numbers[1])**2 <= numbers[2]**2
        for shape, numbers in shapes)


def path_of(rows, number, begin, end):
    return [(t, x, y) for o, t, x, y in rows if o == number and begin <= t <= end]


def hits_of(rows, begin, end, shapes):
    """Of each object the first row in the window and the region."""
    found = {}
    for o, t, x, y in rows:
        if begin <= t <= end and is_in(shapes, x, y):
            found.setdefault(o, (o, t, x, y))
    return list(found.values())


def nears_of(rows, count, instant, x, y):
    there = [(o, u, v, (u - x)**2 + (v - y)**2) for o, t, u, v in rows if t == instant]
    return sorted(there, key=lambda near: (near[3], near[0]))[:count]


def meeting_of(rows, left, right, begin, end, reach):
    """The first instant in the window at which both have a row and are within reach, with both cells; or nothing."""
    others = {t: (u, v) for t, u, v in path_of(rows, right, begin, end)}
    met = [(t, x, y, *others[t]) for t, x, y in path_of(rows, left, begin, end) if t in others]
    return [(t, x, y, u, v) for t, x, y, u, v in met if (x - u)**2 + (y - v)**2 <= reach**2][:1]


def told(answers):
    return [*(" ".join(map(str, answer)) for answer in answers), f"ok {len(answers)}"]


def reply(chart, desk, words):
    """The lines of the reply to a line's words; the desk has what is left of each held cursor."""
    kind, numbers, shapes = parsed(words)
    if kind == b"position":
        return told([answer[1:] for answer in path_of(chart.rows, numbers[0], numbers[1], numbers[1])])
    if kind == b"path":
        return told(path_of(chart.rows, *numbers))
    if kind == b"slice":
        return told([(o, x, y) for o, _, x, y in hits_of(chart.rows, numbers[0], numbers[0], shapes)])
    if kind == b"interval":
        return told(hits_of(chart.rows, *numbers, shapes))
    if kind == b"nearest":
        return told(nears_of(chart.rows, *numbers))
    if kind == b"meet":
        return told(meeting_of(chart.rows, *numbers))
    if kind == b"info":
        return [*(f"{name} {'*' if value is None else value}" for name, value in chart.facts), "ok 11"]
    slot = numbers[0]
    if kind == b"hold":
        if slot in desk:
            raise Bad("held")
        desk[slot] = path_of(chart.rows, *numbers[1:])
        return ["ok 0"]
    if slot not in desk:
        raise Bad("free")
    if kind == b"free":
        del desk[slot]
        return ["ok 0"]
    given, desk[slot] = desk[slot][:numbers[1]], desk[slot][numbers[1]:]
    return told(given)


def replies(chart, text):
    """The lines of the replies to all lines of a text."""
    said, desk = [], {}
    for line in text.removesuffix(b"\n").split(b"\n") if text else ():
        words = [word for word in re.split(rb"[ \t\r]+", line) if word]
        if not words:
            continue
        try:
            if len(line) > 1024:
                raise Bad("long")
            said += reply(chart, desk, words)
        except Bad as bad:
            said.append(f"bad {bad}")
    return said


def is_said(said, expected):
    """Whether these lines were said, of which a * stands for any number."""
    lines = said.decode("ascii", "replace").splitlines()
    return len(lines) == len(expected) and all(
        line == wanted or (wanted.endswith(" *") and re.fullmatch(re.escape(wanted[:-1]) + "[0-9]+", line))
        for line, wanted in zip(lines, expected))
