"""Parts of a folder beside one index over all their rows: the bytes of replies to the same lines."""

from pathlib import Path

import gract
from gract import questions

from . import plain

# What every program calls bad, and what one may call so that looks at a line with less care.
BAD = [
    "position", "position 1", "position 1 x", "position 4294967296 0", "position 1 2 3", "path 1 0", "path -1 0 1", "path x 0 1", "slice",
    "slice 0", "slice x rect 0 0 1 1", "slice 0 ring 0 0 1", "slice 0 rect 0 0 1", "interval 0 1", "interval 0 x disc 0 0 1",
    "interval 0 1 disc 0 0 -1", "slice 0 any 0", "slice 0 any 2 rect 0 0 1 1", "interval 0 1 any 17 disc 0 0 1", "nearest",
    "nearest -1 0 0 0", "nearest 1 0 0", "nearest 1 0 0 0 0", "nearest x 0 0 0", "nothing 1 2", "position 1 0\x0b",
    "slice 0 rect 0 0 1 1 " + 1010 * " ", "path 1 0 " + 1020 * "0", "meet 1 2 0 9", "meet 1 2 0 9 -1", "meet 1 x 0 9 1",
    "meet 4294967296 2 0 9 1", "meet 1 2 0 9 1 1", "meet",
]


def reply_bytes(asked, lines):
    """The bytes of the replies to lines, as the program would say them."""
    replies = asked._exchange([line.encode() + b"\n" for line in lines])
    return [b"".join(part + b"\n" for part in (*found, last)) for found, last in replies]


def random_region(draw, kinds=("rect", "disc", "any")):
    """The words of a region."""
    kind, x, y, size = draw.choice(kinds), draw.randrange(-50, 50), draw.randrange(-50, 50), draw.randrange(-1, 60)
    if kind == "any":
        shapes = [random_region(draw, kinds[:2]) for _ in range(draw.randrange(1, 5))]
        return f"any {len(shapes)} {' '.join(shapes)}"
    return f"rect {x} {y} {x + size} {y + size}" if kind == "rect" else f"disc {x} {y} {abs(size)}"


def random_lines(draw, table, count=12):
    """Lines of all kinds that parts are asked, with some that are bad and some that are written otherwise."""
    lines = []
    for _ in range(count):
        item, other = (draw.choice([*table.objects, draw.randrange(2**32)]) for _ in range(2))
        at = draw.randrange(table.first - 2, table.last + 3)
        until = at + draw.randrange(-1, 2 + (table.last - table.first) // 2)
        x, y, region = draw.randrange(-50, 50), draw.randrange(-50, 50), random_region(draw)
        lines += [
            f"position {item} {at}", f"path {item} {at} {until}", f"path {other} {table.first} {table.last}", f"slice {at} {region}",
            f"interval {at} {until} {region}", f"nearest {draw.randrange(6)} {at} {x} {y}", f"  position\t+{item} {at}\r",
            f"position 000{item} {at}", f"interval {until} {at} {region}", draw.choice(BAD),
            *(f"meet {item} {near} {at} {draw.choice([until, table.last])} {draw.choice([0, 1, draw.randrange(100)])}"
              for near in (other, draw.choice(table.objects), draw.choice(table.objects))),
        ]
    return lines + [f"interval {table.first} {table.last} {questions.region_words(questions.EVERYWHERE)}", *BAD]


class Charts:
    """Random charts, each beside one index of all its rows."""

    def __init__(self, test, folder, seed):
        self.test, self.folder, self.draw = test, Path(folder), plain.randomness(seed)
        self.rows = plain.random_rows(self.draw)
        self.cell, self.tick = self.draw.choice([1, 1, 3]), self.draw.choice([1, 1, 2, 60])
        self.period = self.draw.choice([1, 2, 7, 30, 1000])
        self.table = plain.Plain(plain.gridded(self.rows, self.cell, self.tick))
        self.words = {"cell": self.cell, "tick": self.tick, "period": self.period}

    def sources(self):
        """The rows as they are, as a file, or as several files."""
        count = self.draw.randrange(4)
        if count == 0:
            return self.rows
        files = [self.folder / f"{nth}.csv" for nth in range(count)]
        for nth, file in enumerate(files):
            part = self.rows[nth * len(self.rows) // count : (nth + 1) * len(self.rows) // count]
            file.write_text(written(self.draw, part), encoding="ascii", newline="")
        return [str(file) for file in files] if count > 1 else files[0]

    def compared(self, parted):
        """Compares all replies with those of one index."""
        with gract.Index(self.file()) as index:
            lines = random_lines(self.draw, self.table)
            self.test.assertEqual(reply_bytes(parted, lines), reply_bytes(index, lines))
            lives = self.table.lives()
            self.test.assertEqual(parted.objects(), lives)
            self.test.assertEqual((parted.facts.first, parted.facts.last), (self.table.first, self.table.last))

    def file(self):
        file = self.folder / "all.idx"
        gract.build(self.rows, file, **self.words)
        return file


def written(draw, rows):
    """A CSV file of rows, in one of the ways in which the program takes them."""
    lines = [",".join(map(str, row)) for row in rows]
    way = draw.randrange(5)
    if way == 0:
        return "object,instant,x,y\n" + "\n".join(lines)
    if way == 1:
        return "\n\n".join(["object,instant,x,y", *lines]) + "\n\n"
    if way == 2:
        return "".join(f"{line}\r\n" for line in ['"object",instant,"x",y', *lines])
    if way == 3:
        # What follows a closing quote belongs to the field.
        return "".join(f'"{item}"," {when} ","{str(x)[:-1]}"{str(x)[-1]},\t{y}\r' for item, when, x, y in rows)
    return "".join(f"+{line}\n" for line in lines)
