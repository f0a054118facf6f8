"""CSV files of rows, cut into pieces by a field of their records.

A record goes into a piece as it stands, and nothing of it is judged here: one whose field is no number goes to part 0, so that the
program refuses it there, by what it says of it.
"""

import csv
import os
import re
import shutil
from contextlib import suppress
from pathlib import Path
from typing import Dict, Iterator, List, Protocol, Sequence, Tuple

from ..errors import LoadError, SaveError
from ..program import why_unread

BOM = b"\xef\xbb\xbf"
HEADING = b"object,instant,x,y\n"
NUMERAL = re.compile(rb"[ \t]*([+-]?)0*([0-9]{1,20})[ \t]*")
PLAIN = re.compile(r"[-+0-9 \t]+")

# How many bytes are read, how many records are written at once, and how many words are remembered.
READ = 1 << 20
WRITTEN = 1 << 17
KNOWN = 1 << 20


class Cutter(Protocol):
    """The field of a record that decides on its part, and the part of a number there."""

    @property
    def field(self) -> int:
        """The field, from 0."""

    def part(self, number: int) -> int:
        """The part of a number."""


def split(task: Tuple[str, str, Cutter]) -> Dict[int, str]:
    """Writes the records of a CSV file into a piece for each part, in their order, in a folder; the pieces by their parts. Each has a
    heading. Their names are of this call alone, so that one that was broken off leaves nothing in them. Refuses, by `LoadError`, a file
    that cannot be read, and by `SaveError` where a piece cannot be written."""
    file, folder, cut = task
    there: Dict[int, List[bytes]] = {}
    begin = str(Path(folder) / os.urandom(8).hex())
    waiting = 0
    for part, _, line in cut_records(file, cut):
        if part not in there:
            there[part] = []
        there[part].append(line)
        waiting += 1
        if waiting == WRITTEN:
            write_pieces(begin, there)
            waiting = 0
    write_pieces(begin, there)
    return {part: f"{begin}_{part}.csv" for part in there}


def write_pieces(begin: str, there: Dict[int, List[bytes]]) -> None:
    """Writes what waits for each piece. Refuses, by `SaveError`, where it cannot be written."""
    for part, lines in there.items():
        if lines:
            try:
                with open(f"{begin}_{part}.csv", "ab") as piece:
                    if piece.tell() == 0:
                        piece.write(HEADING)
                    piece.writelines(lines)
            except OSError:
                raise SaveError(os.path.dirname(begin)) from None
            lines.clear()


def join_pieces(pieces: Sequence[str], file: str) -> None:
    """Makes one file of pieces, which all begin with a heading. One piece alone is not copied, where the file system has links."""
    with suppress(FileNotFoundError):
        os.remove(file)
    if len(pieces) == 1:
        with suppress(OSError):
            os.link(pieces[0], file)
            return
    with open(file, "wb") as joined:
        joined.write(HEADING)
        for piece in pieces:
            with open(piece, "rb") as lines:
                lines.seek(len(HEADING))
                shutil.copyfileobj(lines, joined, READ)


def place_of(files: Sequence[str], cut: Cutter, part: int, nth: int) -> Tuple[int, int]:
    """Of the nth record of a part, from 1: its file, from 0, and which record of that file it is, from 1."""
    for place, file in enumerate(files):
        for other, record, _ in cut_records(file, cut):
            if other == part:
                nth -= 1
                if nth == 0:
                    return place, record
    raise ValueError("the files of rows were written since they were cut")


def cut_records(file: str, cut: Cutter) -> Iterator[Tuple[int, int, bytes]]:
    """The records of a CSV file: the part of each, its number from 1, and its line with its end. A heading is none of them. Refuses, by
    `LoadError`, a file that cannot be read."""
    field = cut.field
    known: Dict[bytes, int] = {}
    for record, line in records(file):
        words = line.split(b",", field + 1)
        word = words[field] if field < len(words) else b""
        part = known.get(word)
        if part is None:
            found = NUMERAL.fullmatch(word.rstrip(b"\n"))
            part = cut.part(int(found.group(1) + found.group(2))) if found else 0
            if len(known) == KNOWN:
                known.clear()
            known[word] = part
        yield part, record, line


def records(file: str) -> Iterator[Tuple[int, bytes]]:
    """The records of a CSV file, each with its number from 1, as lines. Refuses as `cut_records`."""
    try:
        yield from plain_records(file) if is_plain(file) else quoted_records(file)
    except OSError:
        raise LoadError(file, why_unread(file)) from None
    except csv.Error as fault:
        raise LoadError(file, str(fault)) from None


def is_plain(file: str) -> bool:
    """Whether no field of a file stands in quotes and all lines end with a line feed alone."""
    with open(file, "rb") as data:
        for piece in iter(lambda: data.read(READ), b""):
            if b'"' in piece or b"\r" in piece:
                return False
    return True


def plain_records(file: str) -> Iterator[Tuple[int, bytes]]:
    """The records of such a file, each with its number."""
    with open(file, "rb") as lines:
        if lines.read(len(BOM)) != BOM:
            lines.seek(0)
        record = 0
        for line in lines:
            if line == b"\n":
                continue
            record += 1
            if line[-1] != 10:
                line += b"\n"
            if record > 1 or line != HEADING:
                yield record, line


def quoted_records(file: str) -> Iterator[Tuple[int, bytes]]:
    """The records of any CSV file, each with its number, as lines that have the same fields."""
    with open(file, newline="", encoding="latin-1") as lines:
        if lines.read(len(BOM)) != BOM.decode("latin-1"):
            lines.seek(0)
        record = 0
        for fields in csv.reader(lines):
            if not fields:
                continue
            record += 1
            line = (",".join(map(quoted, fields)) + "\n").encode("latin-1")
            if record > 1 or fields != HEADING.decode().strip().split(","):
                yield record, line


def quoted(field: str) -> str:
    """A field as it may stand in a CSV file."""
    return field if PLAIN.fullmatch(field) else '"' + field.replace('"', '""') + '"'
