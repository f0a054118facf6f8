"""Documents of XML as they are read, element by element, within bounded memory.

A document that declares entities is refused: they are what bombs are made of, and no track needs them.
"""

import xml.parsers.expat as expat
from typing import Dict, Iterator, List, NamedTuple, NoReturn

from ..errors import SourceError
from .sources import HEAD, MOST_LINE, Source

# Elements stand in one another at most so deep.
MOST_DEPTH = 64


class Event(NamedTuple):
    """An element that begins or ends: its name without a namespace, and its attributes where it begins, or its text where it ends."""

    begins: bool
    name: str
    attributes: Dict[str, str]
    text: str


class Reader:
    """A document as it is read. `events` are those of the last piece."""

    def __init__(self, source: Source):
        self.source = source
        self.events: List[Event] = []
        self.depth = self.fed = self.moved = self.length = 0
        self.text: List[str] = []
        self.parser = expat.ParserCreate(namespace_separator=" ")
        self.parser.buffer_text = True
        self.parser.StartElementHandler = self._begin
        self.parser.EndElementHandler = self._end
        self.parser.CharacterDataHandler = self._data
        self.parser.EntityDeclHandler = self._entity
        self.parser.CommentHandler = self._move
        self.parser.ProcessingInstructionHandler = self._move

    @property
    def where(self) -> str:
        """The place that is being read."""
        return f"{self.source.name} line {self.parser.CurrentLineNumber}"

    def refuse(self, why: str) -> NoReturn:
        """Refuses the document at this place."""
        raise SourceError(f"{self.where}: {why}")

    def read(self) -> Iterator[Event]:
        """All elements as they begin and end. Refuses what is not well formed."""
        while True:
            block = self.source.raw.read(HEAD)
            self.fed += len(block)
            try:
                self.parser.Parse(block, not block)
            except expat.ExpatError as fault:
                raise SourceError(f"{self.source.name}: {fault}") from None
            except (UnicodeError, LookupError, ValueError) as fault:
                if isinstance(fault, SourceError):
                    raise
                raise SourceError(f"{self.where}: {fault}") from None
            if self.fed - self.moved > MOST_LINE + HEAD:
                self.refuse(f"a field of more than {MOST_LINE:,} bytes")
            yield from self.events
            self.events.clear()
            if not block:
                return

    def _begin(self, name: str, attributes: Dict[str, str]) -> None:
        self.depth += 1
        if self.depth > MOST_DEPTH:
            self.refuse(f"elements stand in one another more than {MOST_DEPTH} deep")
        self.events.append(Event(True, name.rpartition(" ")[2], attributes, ""))
        self._clear()

    def _end(self, name: str) -> None:
        self.depth -= 1
        self.events.append(Event(False, name.rpartition(" ")[2], {}, "".join(self.text).strip()))
        self._clear()

    def _clear(self) -> None:
        self.text.clear()
        self.length, self.moved = 0, self.fed

    def _data(self, text: str) -> None:
        self.length += len(text)
        if self.length > MOST_LINE:
            self.refuse(f"a field of more than {MOST_LINE:,} characters")
        self.moved = self.fed
        self.text.append(text)

    def _entity(self, *_: object) -> None:
        self.refuse("entities are declared, which are not read: the document may be a bomb")

    def _move(self, *_: object) -> None:
        self.moved = self.fed
