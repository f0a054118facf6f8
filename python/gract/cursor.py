"""`Cursor`: a path that is drawn row by row."""

from typing import TYPE_CHECKING, Any, List, NamedTuple, Optional

from .answers import Stop
from .child import Child
from .errors import ClosedError
from .questions import Free, Hold, More, Question
from .turns import in_turn

if TYPE_CHECKING:
    from .index import Index

# How many rows a cursor draws at once.
DRAWN = 512

# More bytes than the lines that empty a slot, hold a path there and draw from it.
SLOT_LINES = 1024


class Rest(NamedTuple):
    """What a cursor has not told yet: rows that were drawn, the next one last, and then those from an instant on; None where there
    are no more."""

    stops: List[Stop]
    since: Optional[int]


class Cursor:
    """An object's path that is drawn row by row: an iterator of `Stop`. Other questions may be asked meanwhile. It is a context
    manager; `close` gives its slot to others, and so does the end of the path or of the last reference to it. After anything that goes
    wrong, and where the child was begun anew, it goes on after the last row that it told."""

    def __init__(self, index: "Index", number: int, since: int, until: int):
        self._index, self._number, self._until = index, number, until
        self._turn = index._turn
        self._closed = False
        # Exchanged as one, so that whatever comes between is before or after.
        self._rest = Rest([], since)
        # The child whose slot stands where the rest begins.
        self._child: Optional[Child] = None
        self._slot = index._take_slot(self)

    @property
    def wants_slot(self) -> bool:
        """Whether it has rows to draw."""
        return not self._closed and self._rest.since is not None

    def __iter__(self) -> "Cursor":
        return self

    def __next__(self) -> Stop:
        while True:
            if self._closed:
                raise ClosedError("the cursor")
            if not self._rest.stops:
                self._draw()
            try:
                return self._rest.stops.pop()
            except IndexError:
                # Another thread has told it, or there is none.
                if not self.wants_slot:
                    raise StopIteration from None

    @in_turn
    def _draw(self) -> None:
        """Draws the next rows, where none is left of those that were drawn. Until it has them nobody knows how far the slot was drawn, and
        the path would be held there anew."""
        since = self._rest.since
        if self._rest.stops or since is None:
            return
        child = self._index._ready(SLOT_LINES)
        asked: List[Question] = [More(self._slot, DRAWN)]
        if self._child is not child:
            # Whether there was something in the slot is all the same.
            asked[:0] = [Free(self._slot), Hold(self._slot, self._number, since, self._until)]
        self._child = None
        replies = self._index._asked(child, [question.line.encode() + b"\n" for question in asked])
        for question, reply in zip(asked[-2:], replies[-2:]):
            stops: List[Stop] = self._index._read(type(question), reply)
        self._rest = Rest(stops[::-1], stops[-1].instant + 1 if len(stops) == DRAWN else None)
        self._child = child

    def close(self) -> None:
        """Gives the slot to others. A second time it does nothing."""
        self._closed = True

    def __enter__(self) -> "Cursor":
        return self

    def __exit__(self, *_: Any) -> None:
        self.close()
