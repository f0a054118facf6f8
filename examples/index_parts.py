"""What an index holds, whatever the version of its file: what its symbols do, and its rows. For read_index.py."""

import math


class Flaw(Exception):
    """The first flaw of a file: the section, the period, the place in it, and the kind."""

    def __init__(self, section, period, index, kind):
        super().__init__(f"{section} period {period} place {index}: {kind}")


class Parts:
    """The contents of a file. `periods` has a dictionary for each: the objects that have a block there, and lists of the same order of their
    offsets, anchors and the lengths of their logs; and the tree, the marks `lasts` and the permutation, as the first two versions keep them.
    `symbols` are all logs, by period and then by object."""

    version = period = height = span = count = first = cell = tick = 0
    base = 0, 0

    def __init__(self):
        self.objects, self.alphabet, self.rules, self.periods, self.symbols = [], [], [], [], []
        # Of each symbol the duration, the displacement, and the bounding box of the cells that are entered, if any.
        self.summaries = []

    def instants(self, b):
        return min(self.period, self.span - b * self.period)

    def symbol_width(self):
        """In how many bits a symbol is kept: the least, from 1 on, that tell all symbols apart."""
        return max(1, (len(self.alphabet) + len(self.rules) - 1).bit_length())

    def level_widths(self):
        """How many digits of a Morton number each level of a tree takes, from the top."""
        wide = 0 if self.version == 1 else self.height // 4
        return [2] * wide + [1] * (self.height - 2 * wide)

    # The grammar.

    @property
    def far(self):
        """How far a symbol leads at most along x and y."""
        return 2**self.height - 1

    def see_value(self, index, value):
        """Takes a value of the alphabet, which becomes a terminal."""
        move = move_of(value - 1) if value else (0, 0)
        if max(map(abs, move)) > self.far:
            raise Flaw("alphabet", 0, index, "code")
        self.summaries.append((1, move, move + move if value else None))

    def see_rule(self, index, left, right, top):
        """Takes a rule, whose parts are below a symbol."""
        if left >= top or right >= top:
            raise Flaw("rules", 0, index, "rule")
        joined = duration, move, box = join(self.summaries[left], self.summaries[right])
        if duration > self.period - 1 or max(map(abs, move + (box or ()))) > self.far:
            raise Flaw("rules", 0, index, "rule")
        self.summaries.append(joined)

    def moved(self, b, index, cell, symbol):
        """The cell to which an entry of a log leads from another."""
        (x, y), side = cell, 2**self.height
        _, (dx, dy), box = self.summaries[symbol]
        if box and not (0 <= x + box[0] and 0 <= y + box[1] and x + box[2] < side and y + box[3] < side):
            raise Flaw("log", b, index, "offgrid")
        return x + dx, y + dy

    # Rows.

    def rows(self):
        start = 0
        for b, p in enumerate(self.periods):
            for place, length in enumerate(p["lengths"]):
                yield from self.rows_of(b, p, place, self.symbols[start:start + length])
                start += length

    def rows_of(self, b, p, place, symbols):
        x, y = (p["anchors"][place][axis] + self.base[axis] for axis in (0, 1))
        instant = self.first + b * self.period + p["offsets"][place]
        yield p["objects"][place], instant, x, y
        stack = symbols[::-1]
        while stack:
            symbol = stack.pop()
            if symbol >= len(self.alphabet):
                stack += self.rules[symbol - len(self.alphabet)][::-1]
                continue
            instant += 1
            value = self.alphabet[symbol]
            if value:
                dx, dy = move_of(value - 1)
                x, y = x + dx, y + dy
                yield p["objects"][place], instant, x, y


def move_of(code):
    """The movement of a spiral code."""
    r = (math.isqrt(code) + 1) // 2
    if r == 0:
        return 0, 0
    side, i = divmod(code - (2 * r - 1)**2, 2 * r)
    return ((r, -r + 1 + i), (r - 1 - i, r), (-r, r - 1 - i), (-r + 1 + i, -r))[side]


def join(left, right):
    """The summary of what comes after each other."""
    (n, (dx, dy), box), (m, (ex, ey), moved) = left, right
    if moved:
        moved = (moved[0] + dx, moved[1] + dy, moved[2] + dx, moved[3] + dy)
        box = moved if not box else (*map(min, box[:2], moved[:2]), *map(max, box[2:], moved[2:]))
    return n + m, (dx + ex, dy + ey), box
