"""Names of objects and their numbers, and the CSV file `object,name` that keeps them."""

import csv
import os
import re
from typing import Dict, Iterable, List, Optional, Tuple

# The greatest object number that gract takes.
MOST_OBJECT = 2**32 - 1

# Python reads no number of thousands of digits.
MOST_DIGITS = 20

# What no picture or map may hold: control characters, halves of surrogate pairs, and what is no character (XML 1.0, 2.2).
UNSHOWN = re.compile("[\x00-\x1f\x7f-\x9f\ud800-\udfff\ufffe\uffff]")


def shown(text: str) -> str:
    """A name or a title as pictures and maps show it: what cannot stand there becomes U+FFFD."""
    return UNSHOWN.sub("\ufffd", text)


class Numbers:
    """The number of each name. Names that are whole numbers up to 2^32 - 1 are their own; with a file of names all are
    numbered from 1 as they come, after those that the file has from before."""

    def __init__(self, file: Optional[str] = None):
        self.file = file
        self.found: Dict[str, int] = {}
        if file and os.path.exists(file):
            self.found = {name: number for number, name in read_names(file)}
        self.last = max(self.found.values(), default=0)

    def number(self, name: str) -> int:
        """The number of a name. Without a file of names, raises ValueError for one that is no object number."""
        if self.file:
            if name not in self.found:
                self.last += 1
                self.found[name] = self.last
            return self.found[name]
        if not is_number(name):
            raise ValueError(f"{name} is no object number up to {MOST_OBJECT}")
        return int(name)

    def save(self) -> None:
        """Writes the file of names, where there is one."""
        if self.file:
            with open(self.file, "w", newline="", encoding="utf-8") as lines:
                table = csv.writer(lines, lineterminator="\n")
                table.writerow(("object", "name"))
                table.writerows((number, name) for name, number in self.found.items())


def is_number(name: str) -> bool:
    """Whether a name is an object's number."""
    return name.isascii() and name.isdigit() and len(name) <= MOST_DIGITS and int(name) <= MOST_OBJECT


def names_of(called: Iterable[str]) -> Optional[Dict[int, str]]:
    """The names of objects by their numbers from 1, in their order; None where all are numbers already."""
    names = list(called)
    return None if all(map(is_number, names)) else dict(enumerate(names, 1))


def read_names(file: str) -> List[Tuple[int, str]]:
    """The numbers and names of a CSV file `object,name`. Raises ValueError where a line is no number and name."""
    with open(file, newline="", encoding="utf-8") as lines:
        return [(int(number), name) for number, name in list(csv.reader(lines))[1:]]
