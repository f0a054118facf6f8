"""The records of a text with a heading, whatever separates its columns."""

import csv
import re
from typing import Iterator, List, Optional, Tuple

from .collecting import Rows
from .sources import MOST_LINE, lines_in

# A quote that is not closed within so many lines is a slip of the pen, and no field of many lines.
MOST_LINES_QUOTED = 8

# What may separate columns, where nobody says it.
SEPARATORS = ",;\t|"

csv.field_size_limit(MOST_LINE)


def separator_of(line: str) -> str:
    """What separates most columns of a heading."""
    bare = re.sub(r'"[^"]*"', "", line)
    return max(SEPARATORS, key=bare.count)


class Records:
    """The texts of records, with the number of the line that each begins on. A quote that is open at the end of a line goes on in the
    lines below, unless it is not closed there either."""

    def __init__(self, name: str, pieces: Iterator[str], rows: Rows):
        self.name, self.pieces, self.rows = name, pieces, rows
        self.waiting: List[Tuple[int, str]] = []
        self.number, self.text = 0, ""
        # The present piece of the text: how many lines are before it, the place of the next line in it, and how many it has.
        self.piece, self.before, self.at, self.count = "", 0, 0, 0
        self.lines: List[str] = []

    def next_line(self) -> Optional[Tuple[int, str]]:
        """The next line; None at the end."""
        if self.waiting:
            return self.waiting.pop(0)
        if self.at == self.count and not self.next_piece():
            return None
        self.lines = self.lines or lines_in(self.piece)
        self.at += 1
        return self.before + self.at, self.lines[self.at - 1]

    def next_piece(self) -> bool:
        """Goes on to the next piece of the text; false at the end."""
        self.piece, self.before, self.at = next(self.pieces, ""), self.before + self.count, 0
        self.lines, self.count = [], self.piece.count("\n")
        return self.count > 0

    def __iter__(self) -> Iterator[str]:
        while True:
            line = self.next_line()
            if line is None:
                return
            self.number, self.text = line
            if '"' not in self.text:
                if self.text.strip(f" {SEPARATORS}"):
                    yield self.text
            elif self.text.count('"') % 2 == 0 or self.close():
                yield self.text
            else:
                self.rows.leave_out("a quote that is not closed", self.where, self.text)

    def close(self) -> bool:
        """Adds the lines below, up to one that closes the quote; leaves them where none does."""
        taken = []
        for _ in range(MOST_LINES_QUOTED):
            line = self.next_line()
            if line is None:
                break
            taken.append(line)
            if line[1].count('"') % 2:
                self.text = "\n".join([self.text, *(text for _, text in taken)])
                return True
        self.waiting = taken + self.waiting
        return False

    @property
    def where(self) -> str:
        """The place of the record that was given last."""
        return f"{self.name} line {self.number}"

    def fields(self, separator: str) -> Iterator[List[str]]:
        """The fields of each record; one that cannot be cut into fields is left out."""
        table = csv.reader(self, delimiter=separator)
        while True:
            try:
                record = next(table, None)
            except csv.Error as fault:
                self.rows.leave_out(f"a line that is no record ({fault})", self.where, self.text)
                continue
            if record is None:
                return
            yield record
