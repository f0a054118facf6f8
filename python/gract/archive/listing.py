"""What there is in a folder of parts: `list` and `check` of `gract.days` and `gract.shards`."""

import os
from pathlib import Path
from typing import Any, Dict, List, NamedTuple, Optional

from ..answers import Answers
from ..errors import GractError, LoadError
from ..program import Name, find_program
from .folders import LOCK
from .manifest import LIST, Manifest
from .parted import load, open_part


class Told(NamedTuple):
    """What a list says of a part: its number, the first and the last instant of its rows, how many rows and objects it has and how many
    bytes its file; the counts are None where the list is of form 1, which has none."""

    part: int
    first: int
    last: int
    rows: Optional[int]
    objects: Optional[int]
    bytes: Optional[int]
    file: str


class Checked(NamedTuple):
    """How many parts there are, the refusal of each that is not what the list says, by its number, and the names of files that are not in
    the list: what a build left that was killed, one that is under way, or what somebody else put there."""

    parts: int
    damaged: Dict[int, GractError]
    unlisted: List[str]

    @property
    def is_whole(self) -> bool:
        """Whether all is as the list says."""
        return not self.damaged and not self.unlisted

    @property
    def text(self) -> str:
        """What was found, in lines."""
        told = [f"{self.parts} parts, {len(self.damaged)} damaged, {len(self.unlisted)} files that are not in the list"]
        told += [f"part {number}: {refusal.sentence}" for number, refusal in sorted(self.damaged.items())]
        return "\n".join([*told, *(f"{name}: it is not in the list" for name in self.unlisted)])


def list_parts(path: Name, cut: Any) -> "Answers[Told]":
    """What the list of a folder says of each part, which no part is opened for. With a grid it has times too."""
    _, manifest, _ = load(path, cut, None, None, needs_program=False)
    rows = [
        Told(number, part.first, part.last, part.rows, part.objects, part.bytes, part.file)
        for number, part in sorted(manifest.parts.items())
    ]
    return Answers(rows, Told, grid=manifest.grid)


def check_parts(path: Name, cut: Any, program: Optional[Name] = None) -> Checked:
    """Compares each part with the list: its sum, whether it opens, and its facts; and looks which files are not in the list. It takes no
    lock, and so may name what is just being written."""
    folder, manifest, found = load(path, cut, program, None)
    damaged: Dict[int, GractError] = {}
    for number, listed in manifest.listed(folder).items():
        try:
            open_part(listed, find_program(found)).close()
        except GractError as refusal:
            damaged[number] = refusal
    return Checked(len(manifest.parts), damaged, unlisted(folder, manifest))


def unlisted(folder: Path, manifest: Manifest) -> List[str]:
    """The names in a folder that its list does not have. Refuses, by `LoadError`, a folder that may not be looked into."""
    try:
        there = set(os.listdir(folder))
    except OSError:
        raise LoadError(str(folder), "it may not be looked into") from None
    return sorted(there - set(manifest.files) - {LIST, LOCK})
