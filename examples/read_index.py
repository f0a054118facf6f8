#!/usr/bin/env python3
"""Prints all rows of an index file as `object,instant,x,y` in cells, or refuses it, as docs/FORMAT.md says.

    read_index.py FILE             prints the rows
    read_index.py --check FILE     prints nothing where the file is an index

All three versions of the format are read; read_bits.py has the third. A refusal is printed on standard error as
`SECTION period PERIOD place INDEX: KIND`, with status 1.
"""

import sys

from index_parts import Flaw, Parts
from read_bits import Reading


class Reader:
    """The bytes that are left, from the front."""

    def __init__(self, data):
        self.data, self.at = data, 0

    def number(self, size, section, period, index, signed=False):
        if len(self.data) - self.at < size:
            raise Flaw(section, period, index, "short")
        self.at += size
        return int.from_bytes(self.data[self.at - size:self.at], "little", signed=signed)

    def field(self, size, index, least, greatest, signed=False):
        value = self.number(size, "header", 0, index, signed)
        if not least <= value <= greatest:
            raise Flaw("header", 0, index, "field")
        return value

    def numbers(self, count, section, period=0, size=4, rising=False):
        values = []
        for index in range(count):
            value = self.number(size, section, period, index)
            if rising and values and value <= values[-1]:
                raise Flaw(section, period, index, "order")
            values.append(value)
        return values

    def rules(self, count):
        rules = []
        for index in range(count):
            if len(self.data) - self.at < 8:
                raise Flaw("rules", 0, index, "short")
            rules.append((self.number(4, "rules", 0, index), self.number(4, "rules", 0, index)))
        return rules

    def bits(self, count, section, period):
        size = (count + 7) // 8
        data = bytes(self.number(1, section, period, index) for index in range(size))
        if count % 8 and data[-1] >> count % 8:
            raise Flaw(section, period, size - 1, "pad")
        return [data[p // 8] >> p % 8 & 1 for p in range(count)]


# The versions of the format by their first eight bytes, and the greatest height of the first two.
VERSIONS = {b"GRACT001": 1, b"GRACT002": 2, b"GRACT003": 3}
HEIGHTS = {1: 20, 2: 24}


class Index(Parts):
    """The parts of a file, as they are parsed."""

    def __init__(self, data):
        super().__init__()
        if len(data) < 8:
            raise Flaw("header", 0, 0, "short")
        if bytes(data[:8]) not in VERSIONS:
            raise Flaw("header", 0, 0, "magic")
        self.version = VERSIONS[bytes(data[:8])]
        if self.version == 3:
            Reading(self, data)
            return
        r = Reader(data)
        r.at = 8
        self.period = r.field(4, 1, 1, 2**22)
        self.height = r.field(4, 2, 1, HEIGHTS[self.version])
        objects = r.field(4, 3, 1, 2**16)
        self.span = r.field(4, 4, 1, 2**22)
        self.count = -(-self.span // self.period)
        if objects * self.count > 2**24:
            raise Flaw("header", 0, 4, "field")
        alphabet, rules, symbols = (r.field(4, index, 0, 2**25) for index in (5, 6, 7))
        self.first = r.field(8, 8, -2**40, 2**40 - (self.span - 1), signed=True)
        self.base = tuple(r.field(8, index, -2**40, 2**40, signed=True) for index in (9, 10))
        self.cell, self.tick = (r.field(8, index, 1, 2**30) for index in (11, 12))
        self.objects = r.numbers(objects, "objects", rising=True)
        self.alphabet = r.numbers(alphabet, "alphabet", size=8, rising=True)
        self.rules = r.rules(rules)
        self.periods = [self.read_period(r, b) for b in range(self.count)]
        self.symbols = self.read_log(r, symbols)
        if r.at < len(data):
            raise Flaw("end", 0, 0, "extra")
        self.check()

    def read_log(self, r, count):
        if self.version == 1:
            return r.numbers(count, "log")
        width = self.symbol_width()
        bits = r.bits(width * count, "log", 0)
        return [sum(bit << place for place, bit in enumerate(bits[at:at + width])) for at in range(0, width * count, width)]

    def read_period(self, r, b):
        present = r.bits(len(self.objects), "presence", b)
        n = sum(present)
        offsets = r.numbers(n, "offsets", b)
        size = r.number(4, "treelen", b, 0)
        if size > 2**31:
            raise Flaw("treelen", b, 0, "field")
        tree, lasts = r.bits(size, "tree", b), r.bits(n, "lasts", b)
        perm, lengths = r.numbers(n, "perm", b), r.numbers(n, "lengths", b)
        here = [o for o, there in zip(self.objects, present) if there]
        return {"objects": here, "offsets": offsets, "tree": tree, "lasts": lasts, "perm": perm, "lengths": lengths}

    # Steps 1 to 4, once all bytes are read.

    def check(self):
        self.check_rules()
        if sum(sum(p["lengths"]) for p in self.periods) != len(self.symbols):
            raise Flaw("lengths", self.count - 1, 0, "total")
        for b, p in enumerate(self.periods):
            self.check_period(b, p)
        start = 0
        for b, p in enumerate(self.periods):
            for place, length in enumerate(p["lengths"]):
                self.check_block(b, p, place, start, length)
                start += length

    def check_rules(self):
        for index, value in enumerate(self.alphabet):
            self.see_value(index, value)
        for index, (left, right) in enumerate(self.rules):
            self.see_rule(index, left, right, len(self.alphabet) + index)
        for index, symbol in enumerate(self.symbols):
            if symbol >= len(self.summaries):
                raise Flaw("log", 0, index, "symbol")

    def check_period(self, b, p):
        for index, offset in enumerate(p["offsets"]):
            if offset >= self.instants(b):
                raise Flaw("offsets", b, index, "offset")
        cells, n = self.cells_of(b, p["tree"]), len(p["objects"])
        if sum(p["lasts"]) != len(cells) or (n and not p["lasts"][-1]):
            raise Flaw("lasts", b, n, "cells")
        seen = set()
        for index, place in enumerate(p["perm"]):
            if place >= n or place in seen:
                raise Flaw("perm", b, index, "perm")
            seen.add(place)
        p["anchors"], leaf = [None] * n, 0
        for index, place in enumerate(p["perm"]):
            if index and not p["lasts"][index - 1] and place <= p["perm"][index - 1]:
                raise Flaw("perm", b, index, "cellorder")
            p["anchors"][place] = cells[leaf]
            leaf += p["lasts"][index]

    def cells_of(self, b, bits):
        """The cells of a tree, from the base, in Morton order."""
        if not bits:
            return []
        squares, at = [(0, 0)], 0
        for width in self.level_widths():
            fan, children = 4**width, []
            for square in squares:
                group = bits[at:at + fan]
                if len(group) < fan or not any(group):
                    raise Flaw("tree", b, at, "tree")
                children += [child_of(square, digit, width) for digit in range(fan) if group[digit]]
                at += fan
            squares = children
        if at < len(bits):
            raise Flaw("tree", b, at, "tree")
        return squares

    def check_block(self, b, p, place, start, length):
        cell, duration = p["anchors"][place], 0
        for index in range(start, start + length):
            cell = self.moved(b, index, cell, self.symbols[index])
            duration += self.summaries[self.symbols[index]][0]
        if duration != self.instants(b) - 1 - p["offsets"][place]:
            raise Flaw("lengths", b, place, "duration")


def child_of(square, digit, width):
    """The child of a square, by one digit or by two, the higher one first."""
    for place in reversed(range(width)):
        x, y = square
        quarter = digit >> 2 * place & 3
        square = 2 * x + quarter % 2, 2 * y + quarter // 2
    return square


def main(words):
    check, path = words[:-1] == ["--check"], words[-1]
    try:
        with open(path, "rb") as file:
            index = Index(file.read())
    except Flaw as flaw:
        print(flaw, file=sys.stderr)
        return 1
    if not check:
        for row in sorted(index.rows()):
            print(*row, sep=",")
    return 0


if __name__ == "__main__":
    sys.exit(main(sys.argv[1:]) if len(sys.argv) > 1 else __doc__)
