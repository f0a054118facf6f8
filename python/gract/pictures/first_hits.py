"""One reply of the replies to several lines that ask of one zone: of each object its first hit, by object.

The zone's lines are those of QUESTIONS that begin with `interval` or `slice`, all of the same instants, as `gract.zones` writes them. What
is printed is what one line would be answered, if a line could hold all their regions: for an object that is in several replies the hit of
the earliest instant, and `ok N`. With --each a reply is printed for each line of QUESTIONS, as pictures and maps want it: an object's first
hit stays in the reply that has it, and its others go. The replies to other lines stay.
"""

import argparse
from typing import Dict, Iterable, Iterator, List, Sequence, Set, Tuple

from ..errors import SourceError
from . import replies

# The place of a question's instants among its words, and of a hit's instant among its numbers.
ZONES: Dict[str, Tuple[slice, int]] = {"slice": (slice(0, 2), -1), "interval": (slice(0, 3), 1)}


# The number of the line that a hit is from, and its numbers.
Hit = Tuple[int, List[int]]


def first_hits(asked: Sequence[replies.Asked]) -> List[Hit]:
    """The first hit of each object, by object."""
    heads: Set[Tuple[str, ...]] = set()
    found: Dict[int, Tuple[int, int, List[int]]] = {}
    for nth, (words, reply) in enumerate(asked):
        if reply is None:
            raise SourceError(f"a line was bad: {' '.join(words)[:60]}")
        if words[0] in ZONES:
            instants, place = ZONES[words[0]]
            heads.add(tuple(words[instants]))
            for line in reply:
                hit = replies.numbers_in(line, replies.WIDTHS[words[0]], " ".join(words))
                when = 0 if place < 0 else hit[place]
                if hit[0] not in found or when < found[hit[0]][0]:
                    found[hit[0]] = when, nth, hit
    if len(heads) != 1:
        other = "the lines interval and slice are not all of the same instants"
        raise SourceError(other if heads else "there is no line interval or slice")
    return [(nth, hit) for _, (_, nth, hit) in sorted(found.items())]


def one_reply(hits: Iterable[Hit]) -> Iterator[str]:
    """The hits as one reply."""
    hits = list(hits)
    yield from (" ".join(map(str, hit)) for _, hit in hits)
    yield f"ok {len(hits)}"


def each_reply(asked: Sequence[replies.Asked], hits: Sequence[Hit]) -> Iterator[str]:
    """A reply for each line, with those hits of its own that are first."""
    by_line: Dict[int, List[Hit]] = {}
    for hit in hits:
        by_line.setdefault(hit[0], []).append(hit)
    for nth, (words, reply) in enumerate(asked):
        told = reply or []
        yield from one_reply(by_line.get(nth, [])) if words[0] in ZONES else [*told, f"ok {len(told)}"]


def add_to(parser: argparse.ArgumentParser) -> None:
    """Gives the command `first_hits` its words."""
    parser.add_argument("--each", action="store_true", help="a reply for each line")
    parser.add_argument("questions")
    parser.add_argument("replies")


def run(given: argparse.Namespace) -> int:
    """Prints the reply, and answers with the status."""
    asked = list(replies.pairs(replies.lines_of(given.questions), replies.lines_of(given.replies)))
    hits = first_hits(asked)
    print(*(each_reply(asked, hits) if given.each else one_reply(hits)), sep="\n")
    return 0
