"""Files of version 3 of what an index holds, of whatever version it was read, as docs/FORMAT.md says: for scripts/check_reader and
scripts/fuzz_files.

A file is its header, and elements: a section, a value, and in how many bits it stands, or None for a number. So one can be changed where
it stands, and is spelt anew with what follows it.
"""

from typing import NamedTuple, Optional

from made_index import code_of, header_of, move_of

# Bytes of the header, behind which the elements stand.
HEADER = 72


class Element(NamedTuple):
    section: str
    value: int
    width: Optional[int] = None


def settled(values, rules):
    """The rules in the order of version 3, by layer and then by their parts, and the new number of each symbol."""
    layers, places = [0] * values, {}
    for place, (left, right) in enumerate(rules):
        layers.append(1 + max(layers[left], layers[right]))
        places.setdefault(layers[-1], []).append(place)
    found, renamed = [], [*range(values), *(None for _ in rules)]
    for layer in sorted(places):
        for left, right, place in sorted((renamed[rules[place][0]], renamed[rules[place][1]], place) for place in places[layer]):
            renamed[values + place] = values + len(found)
            found.append((left, right))
    return found, renamed


def layers_of(values, rules):
    """Rules that are settled, in lists by layer."""
    found, layers = [], [0] * values
    for left, right in rules:
        layers.append(1 + max(layers[left], layers[right]))
        if layers[-1] > len(found):
            found.append([])
        found[-1].append((left, right))
    return found


def rising(section, values):
    """Numbers each of which is told by how many are between it and the one before."""
    return [Element(section, value - before - 1) for before, value in zip([-1, *values], values)]


def elements_of_rules(values, rules):
    base, top = 0, values
    for layer in layers_of(values, rules):
        yield Element("layers", len(layer) - 1)
        before = None
        for left, right in layer:
            same = before is not None and before[0] == left
            yield Element("rules", left - before[0] if before else left)
            yield Element("rules", right - (before[1] if same else base if left < base else 0))
            before = left, right
        base, top = top, top + len(layer)


def move_along(index, symbols):
    """The displacement and the duration of symbols, by going through the values of their expansions."""
    x, y, instants, stack = 0, 0, 0, symbols[::-1]
    while stack:
        symbol = stack.pop()
        if symbol >= len(index.alphabet):
            stack += index.rules[symbol - len(index.alphabet)][::-1]
            continue
        value = index.alphabet[symbol]
        dx, dy = move_of(value - 1) if value else (0, 0)
        x, y, instants = x + dx, y + dy, instants + 1
    return x, y, instants


def blocks_of(index):
    """Of each object its blocks by period: the instant and the cell of the anchor, and the symbols."""
    found, start = {number: [] for number in index.objects}, 0
    for b, p in enumerate(index.periods):
        for number, offset, anchor, length in zip(p["objects"], p["offsets"], p["anchors"], p["lengths"]):
            found[number].append((b * index.period + offset, anchor, index.symbols[start:start + length]))
            start += length
    return found


def elements_of_blocks(index, blocks, renamed):
    """Those of an object."""
    width, told, last = index.symbol_width(), 0, None
    for instant, (x, y), symbols in blocks:
        if last is None:
            yield Element("starts", instant)
            yield Element("anchors", x | y << index.height, 2 * index.height)
        else:
            yield Element("gaps", 0 if instant == told else instant - told + 1)
            yield Element("anchors", code_of(x - last[0], y - last[1]))
        yield from (Element("log", renamed[symbol], width) for symbol in symbols)
        dx, dy, lasts = move_along(index, symbols)
        last, told = (x + dx, y + dy), instant + lasts + 1
    if last is None:
        yield Element("starts", index.span)
    elif told < index.span:
        yield Element("gaps", 1)


def elements_of(index):
    """All elements behind the header of the file of version 3 of what an index holds."""
    values = len(index.alphabet)
    rules, renamed = settled(values, index.rules)
    found = [*rising("objects", index.objects), *rising("alphabet", index.alphabet), *elements_of_rules(values, rules)]
    for blocks in blocks_of(index).values():
        found += elements_of_blocks(index, blocks, renamed)
    return found


def spelt(element):
    """The digits of an element, the lowest first."""
    section, value, width = element
    if width is not None:
        return low(value, width)
    digits = (value + 1).bit_length()
    many = digits.bit_length() - 1
    return "0" * many + "1" + low(digits, many) + low(value + 1, digits - 1)


def low(value, width):
    """So many of the lowest binary digits of a number, the lowest first."""
    return format(value % 2**width, f"0{width}b")[::-1] if width else ""


def bytes_of(elements):
    """The bytes that elements fill, with zeros up to the end of the last."""
    digits = "".join(map(spelt, elements))
    digits += "0" * (-len(digits) % 8)
    return bytes(int(digits[at:at + 8][::-1], 2) for at in range(0, len(digits), 8))


def header_for(index):
    """The header of the file of version 3 of what an index holds."""
    sections = header_of(3, index.period, index.height, len(index.objects), index.span, len(index.alphabet), len(index.rules), None,
                         index.first, index.base, index.cell, index.tick)
    return b"".join(data for _, data in sections)


def file_of(index):
    """The whole file."""
    return header_for(index) + bytes_of(elements_of(index))
