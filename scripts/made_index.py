"""Index files of the first two versions that no chart was built for, section by section, as docs/FORMAT.md says.

A file is a list of sections, each a pair of its name and its bytes, so that whoever damages it knows where sections end. made_bits.py makes
files of version 3 of what others hold.
"""

import math

SHAPES = ["none", "pairs", "chain", "doubling", "left", "same"]


def code_of(dx, dy):
    """The spiral code of a movement."""
    r = max(abs(dx), abs(dy))
    if r == 0:
        return 0
    sides = [(dx == r, dy + r - 1), (dy == r, r - 1 - dx), (dx == -r, r - 1 - dy), (dy == -r, dx + r - 1)]
    side, i = next((side, i) for side, (on, i) in enumerate(sides) if on and 0 <= i < 2 * r)
    return (2 * r - 1)**2 + 2 * r * side + i


def move_of(code):
    r = (math.isqrt(code) + 1) // 2
    if r == 0:
        return 0, 0
    side, i = divmod(code - (2 * r - 1)**2, 2 * r)
    return ((r, -r + 1 + i), (r - 1 - i, r), (-r, r - 1 - i), (-r + 1 + i, -r))[side]


def morton(x, y, height):
    return sum((x >> bit & 1) << 2 * bit | (y >> bit & 1) << 2 * bit + 1 for bit in range(height))


def numbers(values, size=4):
    return b"".join((value % 2**(8 * size)).to_bytes(size, "little") for value in values)


def bits(values):
    data = bytearray((len(values) + 7) // 8)
    for place, value in enumerate(values):
        data[place // 8] |= value << place % 8
    return bytes(data)


def packed(values, width):
    """Numbers of so many bits each, lowest first, one after the other."""
    return bits([value >> place & 1 for value in values for place in range(width)])


def widths_of(version, height):
    """How many digits of a Morton number each level of a tree takes, from the top."""
    wide = height // 4 if version == 2 else 0
    return [2] * wide + [1] * (height - 2 * wide)


def tree_of(codes, widths):
    """The bits of a k2-tree, of the Morton numbers of its cells."""
    found, squares, left = [], [0] if codes else [], sum(widths)
    for width in widths:
        left -= width
        below = sorted({code >> 2 * left for code in codes})
        for square in squares:
            found += [4**width * square + digit in below for digit in range(4**width)]
        squares = below
    return found


def log_of(version, values, rules, symbols):
    """The log section."""
    return numbers(symbols) if version == 1 else packed(symbols, max(1, (values + rules - 1).bit_length()))


class Grammar:
    """Values and rules, with what each symbol does: how many instants it lasts, where it leads, and how far from its beginning."""

    def __init__(self, draw, period, height):
        ring = min(2**height - 1, draw.choice([1, 1, 2, 40]))
        count = draw.choice([1, 2, 3, 8])
        moves = [(draw.randint(-ring, ring), draw.randint(-ring, ring)) for _ in range(count)]
        self.values = sorted({0, 1, *(1 + code_of(*move) for move in moves)} - ({0} if draw.random() < 0.3 else set()))
        self.rules, self.does = [], []
        for value in self.values:
            move = move_of(value - 1) if value else (0, 0)
            self.does.append((1, move, max(map(abs, move))))
        shape = draw.choice(SHAPES)
        wanted = 0 if shape == "none" else draw.choice([1, 2, 5, 30, 200, period])
        for _ in range(wanted):
            self.add(self.pair(draw, shape), period, 2**height - 1, draw.random() < 0.001)

    def pair(self, draw, shape):
        newest, any_one = len(self.does) - 1, draw.randrange(len(self.does))
        value = draw.randrange(len(self.values))
        return {"pairs": (any_one, draw.randrange(len(self.does))), "chain": (newest, value), "left": (value, newest),
                "doubling": (newest, newest), "same": (any_one, any_one)}[shape]

    def add(self, pair, period, far, anyway):
        """Adds a rule; one that lasts too long or leads too far is not a rule of a file, and is only added in order to be refused."""
        (n, (dx, dy), before), (m, (ex, ey), behind) = (self.does[part] for part in pair)
        reach = max(before, max(abs(dx), abs(dy)) + behind)
        if n + m <= period - 1 and reach <= far or anyway:
            self.rules.append(pair)
            self.does.append((n + m, (dx + ex, dy + ey), reach))

    def log(self, draw, instants, x, y, side):
        """Symbols for so many instants from a cell, which stay on the grid."""
        symbols = []
        rest = self.values.index(1)
        while instants:
            symbol = draw.choice([len(self.does) - 1, draw.randrange(len(self.does)), rest])
            lasts, (dx, dy), reach = self.does[symbol]
            if lasts > instants or not (reach <= x < side - reach and reach <= y < side - reach):
                symbol, lasts, dx, dy = rest, 1, 0, 0
            symbols.append(symbol)
            x, y, instants = x + dx, y + dy, instants - lasts
        return symbols


def period_sections(draw, grammar, b, instants, objects, version, height):
    """The sections of a period, and the logs of its blocks."""
    side = 2**height
    present = [draw.random() < 0.8 for _ in range(objects)]
    count = sum(present)
    spot = draw.randrange(side), draw.randrange(side)
    cells = [spot if draw.random() < 0.3 else (draw.randrange(side), draw.randrange(side)) for _ in range(count)]
    offsets = [draw.randrange(instants) if draw.random() < 0.5 else 0 for _ in range(count)]
    logs = [grammar.log(draw, instants - 1 - offset, *cell, side) for offset, cell in zip(offsets, cells)]
    codes = [morton(*cell, height) for cell in cells]
    order = sorted(range(count), key=lambda place: (codes[place], place))
    lasts = [nth + 1 == count or codes[order[nth + 1]] != codes[place] for nth, place in enumerate(order)]
    tree = tree_of(codes, widths_of(version, height))
    return [(f"presence {b}", bits(present)), (f"offsets {b}", numbers(offsets)), (f"treelen {b}", numbers([len(tree)])),
            (f"tree {b}", bits(tree)), (f"lasts {b}", bits(lasts)), (f"perm {b}", numbers(order)),
            (f"lengths {b}", numbers(map(len, logs)))], logs


def header_of(version, period, height, objects, span, alphabet, rules, symbols, first, base, cell, tick):
    counts = [period, height, objects, span, alphabet, rules, symbols]
    return [("magic", b"GRACT00%d" % version), ("counts", numbers(counts[:6] if version == 3 else counts)),
            ("first", numbers([first, *base, cell, tick], 8))]


def index_of(draw):
    """An index file over a grammar made at random."""
    version = draw.choice([1, 2])
    height = draw.choice([1, 2, 3, 5, 8, 20, 24 if version == 2 else 4])
    period = draw.choice([1, 2, 3, 5, 8, 33, 33, 300, 300, 5000 if draw.random() < 0.2 else 8])
    objects, periods = draw.choice([1, 2, 3, 9]), draw.choice([1, 1, 2, 4])
    span = max(1, period * periods - draw.choice([0, 0, 1, period // 2]))
    grammar = Grammar(draw, period, height)
    sections, symbols = [], []
    for b in range(-(-span // period)):
        found, logs = period_sections(draw, grammar, b, min(period, span - b * period), objects, version, height)
        sections += found
        symbols += [symbol for log in logs for symbol in log]
    first = draw.choice([0, -7, 1000, -2**40, 2**40 - span + 1])
    base = [draw.choice([0, -3, 2**40, -2**40]) for _ in range(2)]
    header = header_of(version, period, height, objects, span, len(grammar.values), len(grammar.rules), len(symbols), first, base,
                       draw.choice([1, 100, 2**30]), draw.choice([1, 60, 2**30]))
    names = sorted(draw.sample(range(draw.choice([20, 2**32])), objects))
    return [*header, ("objects", numbers(names)), ("alphabet", numbers(grammar.values, 8)),
            ("rules", numbers(part for rule in grammar.rules for part in rule)), *sections,
            ("log", log_of(version, len(grammar.values), len(grammar.rules), symbols))]


def sections_in(version, index):
    """The sections of the file of what an index holds, in one of the first two versions."""
    values, widths = len(index.alphabet), widths_of(version, index.height)
    sections = header_of(version, index.period, index.height, len(index.objects), index.span, values, len(index.rules), len(index.symbols),
                         index.first, index.base, index.cell, index.tick)
    sections += [("objects", numbers(index.objects)), ("alphabet", numbers(index.alphabet, 8)),
                 ("rules", numbers(part for rule in index.rules for part in rule))]
    for b, part in enumerate(index.periods):
        tree = tree_of([morton(*cell, index.height) for cell in part["anchors"]], widths)
        sections += [(f"presence {b}", bits([number in part["objects"] for number in index.objects])),
                     (f"offsets {b}", numbers(part["offsets"])), (f"treelen {b}", numbers([len(tree)])), (f"tree {b}", bits(tree)),
                     (f"lasts {b}", bits(part["lasts"])), (f"perm {b}", numbers(part["perm"])), (f"lengths {b}", numbers(part["lengths"]))]
    return [*sections, ("log", log_of(version, values, len(index.rules), index.symbols))]
