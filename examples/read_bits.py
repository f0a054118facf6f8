"""Version 3 of the index file, which is one string of bits behind its header. For read_index.py."""

from index_parts import Flaw, move_of

# No number has more digits in binary, and no file more entries of logs.
MOST_DIGITS, MOST_ENTRIES = 56, 2**25

# A period in which no object has a block. They may be four million in a file of 73 bytes, so there is one for all.
EMPTY = {"objects": (), "offsets": (), "anchors": (), "lengths": (), "tree": (), "lasts": (), "perm": ()}


class Bits:
    """The bits that are left, from the front. Whoever takes some says which element of the file they are."""

    def __init__(self, data):
        self.data, self.at = data, 0

    def take(self, count, *element):
        """So many bits as a number, the lowest first."""
        start, end = self.at, self.at + count
        if end > 8 * len(self.data):
            raise Flaw(*element, "short")
        self.at = end
        return int.from_bytes(self.data[start // 8:-(-end // 8)], "little") >> start % 8 & (1 << count) - 1

    def number(self, *element):
        """A number, in front of which is told how many digits it has, and in front of that how many digits this has."""
        zeros = 0
        while not self.take(1, *element):
            zeros += 1
            if zeros == MOST_DIGITS.bit_length():
                raise Flaw(*element, "large")
        digits = 1 << zeros | self.take(zeros, *element)
        if digits > MOST_DIGITS:
            raise Flaw(*element, "large")
        return (1 << digits - 1 | self.take(digits - 1, *element)) - 1


class Reading:
    """A file of version 3, as it is read from the front into the parts of an index."""

    def __init__(self, parts, data):
        self.parts, self.bits = parts, Bits(data)
        self.bits.take(64, "header", 0, 0)
        objects, alphabet, rules = self.read_header()
        self.read_rising(objects, parts.objects, "objects", self.see_object)
        self.read_rising(alphabet, parts.alphabet, "alphabet", parts.see_value)
        self.read_rules(rules)
        self.width, self.entries, self.blocks = parts.symbol_width(), 0, []
        for place in range(objects):
            self.read_object(place)
        self.read_end(len(data))
        self.fill_periods()

    def field(self, index, least, greatest):
        """A field of the header: the first six have four bytes, the other five have eight, three of them with a sign."""
        size = 32 if index <= 6 else 64
        value = self.bits.take(size, "header", 0, index)
        if index in (7, 8, 9):
            value -= (value >> size - 1) << size
        if not least <= value <= greatest:
            raise Flaw("header", 0, index, "field")
        return value

    def read_header(self):
        """Reads the header, and tells how many objects, values and rules there are."""
        parts = self.parts
        parts.period, parts.height, objects = self.field(1, 1, 2**22), self.field(2, 1, 24), self.field(3, 1, 2**16)
        parts.span = self.field(4, 1, 2**22)
        parts.count = -(-parts.span // parts.period)
        if objects * parts.count > 2**24:
            raise Flaw("header", 0, 4, "field")
        alphabet, rules = self.field(5, 0, 2**25), self.field(6, 0, 2**25)
        parts.first = self.field(7, -2**40, 2**40 - (parts.span - 1))
        parts.base = self.field(8, -2**40, 2**40), self.field(9, -2**40, 2**40)
        parts.cell, parts.tick = self.field(10, 1, 2**30), self.field(11, 1, 2**30)
        return objects, alphabet, rules

    def see_object(self, index, number):
        if number >= 2**32:
            raise Flaw("objects", 0, index, "field")

    def read_rising(self, count, found, section, see):
        """Reads numbers each of which is greater than the one before."""
        before = -1
        for index in range(count):
            before += 1 + self.bits.number(section, 0, index)
            see(index, before)
            found.append(before)

    def read_rules(self, count):
        """Reads rules by layer: their parts are symbols of the layers before, and one of them at least is of the layer before."""
        rules, base, top, layer = self.parts.rules, 0, len(self.parts.alphabet), 0
        while len(rules) < count:
            size = 1 + self.bits.number("layers", 0, layer)
            if size > count - len(rules):
                raise Flaw("layers", 0, layer, "field")
            before = None
            for _ in range(size):
                before = self.read_rule(before, base, top)
            base, top, layer = top, top + size, layer + 1

    def read_rule(self, before, base, top):
        """Reads a rule behind another one of its layer, or the first."""
        rules, index = self.parts.rules, len(self.parts.rules)
        left, right = before or (0, 0)
        more, rest = (self.bits.number("rules", 0, index) for _ in range(2))
        left += more
        if more or before is None:
            right = base if left < base else 0
        right += rest
        self.parts.see_rule(index, left, right, top)
        rules.append((left, right))
        return rules[-1]

    def read_object(self, place):
        """Reads the blocks of an object, by period."""
        parts, told, cell = self.parts, 0, None
        while told < parts.span:
            anchored = self.read_instant(told, place)
            if anchored is None:
                return
            b = anchored // parts.period
            told = min(parts.span, (b + 1) * parts.period)
            anchor = self.read_anchor(cell, b, place)
            symbols, cell = self.read_log(anchor, told - 1 - anchored, b)
            self.blocks.append((b, parts.objects[place], anchored - b * parts.period, anchor, symbols))

    def read_instant(self, told, place):
        """The instant of an object's next anchor, where those before `told` are told; None where it has no further one."""
        span = self.parts.span
        if told == 0:
            instant = self.bits.number("starts", 0, place)
            if instant > span:
                raise Flaw("starts", 0, place, "offset")
            return instant if instant < span else None
        b = told // self.parts.period
        gap = self.bits.number("gaps", b, place)
        if gap == 1:
            return None
        instant = told + max(0, gap - 1)
        if instant >= span:
            raise Flaw("gaps", b, place, "offset")
        return instant

    def read_anchor(self, cell, b, place):
        """The cell of a block's anchor: the first of an object as it is, a later one by the movement from where the object was last."""
        height = self.parts.height
        if cell is None:
            both = self.bits.take(2 * height, "anchors", b, place)
            return both & (1 << height) - 1, both >> height
        dx, dy = move_of(self.bits.number("anchors", b, place))
        x, y = cell[0] + dx, cell[1] + dy
        if not (0 <= x < 2**height and 0 <= y < 2**height):
            raise Flaw("anchors", b, place, "offgrid")
        return x, y

    def read_log(self, cell, rest, b):
        """The symbols of a block, which last for the rest of its instants, and where they lead."""
        parts, symbols = self.parts, []
        while rest > 0:
            if self.entries == MOST_ENTRIES:
                raise Flaw("log", b, self.entries, "total")
            symbol = self.bits.take(self.width, "log", b, self.entries)
            if symbol >= len(parts.summaries):
                raise Flaw("log", b, self.entries, "symbol")
            cell = parts.moved(b, self.entries, cell, symbol)
            rest -= parts.summaries[symbol][0]
            if rest < 0:
                raise Flaw("log", b, self.entries, "duration")
            symbols.append(symbol)
            self.entries += 1
        return symbols, cell

    def read_end(self, size):
        if self.bits.take(-self.bits.at % 8, "end", 0, 0):
            raise Flaw("end", 0, 0, "pad")
        if self.bits.at < 8 * size:
            raise Flaw("end", 0, 0, "extra")

    def fill_periods(self):
        """Puts the blocks into their periods, and their logs one behind the other."""
        parts = self.parts
        self.blocks.sort(key=lambda block: block[0])
        parts.periods = [EMPTY] * parts.count
        for b, number, offset, anchor, symbols in self.blocks:
            if parts.periods[b] is EMPTY:
                parts.periods[b] = {"objects": [], "offsets": [], "anchors": [], "lengths": []}
            p = parts.periods[b]
            p["objects"].append(number)
            p["offsets"].append(offset)
            p["anchors"].append(anchor)
            p["lengths"].append(len(symbols))
            parts.symbols += symbols
        for b in {block[0] for block in self.blocks}:
            parts.periods[b].update(snapshot_of(parts.periods[b]["anchors"], parts.level_widths()))


def snapshot_of(anchors, widths):
    """The tree of some cells, the marks of the last object in each, and the permutation, as the first two versions keep them."""
    height = sum(widths)
    codes = [code_of(*cell, height) for cell in anchors]
    perm = sorted(range(len(codes)), key=lambda place: (codes[place], place))
    lasts = [int(one != other) for one, other in zip([codes[place] for place in perm], [codes[place] for place in perm[1:]] + [None])]
    tree, squares, left = [], [0], height
    for width in widths:
        left -= width
        below = {code >> 2 * left for code in codes}
        children = [square << 2 * width | digit for square in squares for digit in range(4**width)]
        tree += [int(child in below) for child in children]
        squares = [child for child in children if child in below]
    return {"tree": tree, "lasts": lasts, "perm": perm}


def code_of(x, y, height):
    """The Morton number of a cell: a digit of base four for each bit of x and y, that of y counting twice."""
    code = 0
    for bit in reversed(range(height)):
        code = 4 * code + 2 * (y >> bit & 1) + (x >> bit & 1)
    return code
