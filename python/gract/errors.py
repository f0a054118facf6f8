"""What can go wrong, each an exception of its own, with its fields and a sentence for people.

`GractError` is above them all. A wrong argument is an `ArgumentError` and a bad question line a `BadQuestion`, both `ValueError`s
too. What the program refuses has the fields that the program tells; docs/QUESTIONS.md has its outcomes.
"""

from typing import Any, Dict, Mapping, NamedTuple, Optional, Sequence, Tuple, Type

from .advice import ADVICE

class GractError(Exception):
    """Anything that this package or the program refuses. It can be copied, and sent from one process to another."""

    def __reduce__(self) -> Tuple[Any, ...]:
        return again, (type(self), self.args, self.__dict__)

    @property
    def sentence(self) -> str:
        """Its text without what to do about it."""
        return str(self).split("\n", 1)[0]


def again(kind: Type[GractError], args: Tuple[Any, ...], fields: Dict[str, Any]) -> GractError:
    """A refusal with the sentence and the fields that another one had."""
    # And not by its own `__new__`: that of `MemoryRefused` is MemoryError's, which does not make what is laid out otherwise.
    base: Any = kind.__base__
    refusal: GractError = base.__new__(kind, *args)
    refusal.args = args
    refusal.__dict__.update(fields)
    return refusal


class OutsideWarning(UserWarning):
    """A position is None since its instant or its object is outside the index, which an answer of rows tells in its notes."""


class ArgumentError(GractError, ValueError):
    """An argument that is refused before the program is asked. `argument` is its name, `problem` what is wrong with it."""

    def __init__(self, argument: str, problem: str):
        super().__init__(f"{argument}: {problem}")
        self.argument, self.problem = argument, problem


class GridError(GractError, ValueError):
    """A grid that cannot be read, or that is not the one of its index."""


class ClosedError(GractError, ValueError):
    """An index, or a cursor, that is asked after it was closed."""

    def __init__(self, what: str):
        super().__init__(f"{what} is closed")


class BusyError(GractError):
    """What is asked by a signal handler, or by anything else that comes within a question, while the same thread asks it; or a folder of
    parts that another process writes. `what` is it."""

    WITHIN = "is being asked by this very thread: a signal handler cannot ask it too, but once it has returned"

    def __init__(self, what: str, why: str = WITHIN):
        super().__init__(f"{what} {why}")
        self.what = what


class ChangedError(GractError):
    """An index file that is another one than when it was opened, found where a new child was to open it; or a part that the list of its
    folder has no more. `file` is its name."""

    AGAIN = "was written since it was opened, and would answer otherwise: open it again"
    REFRESH = "was replaced since its list was read: archive.refresh() reads the new list, and goes on with all that is unchanged"

    def __init__(self, file: str, why: str = AGAIN):
        super().__init__(f"{file} {why}")
        self.file = file


class SlotsError(GractError):
    """More cursors are held than the program has slots for."""

    def __init__(self, slots: int):
        super().__init__(f"{slots} cursors are held already, and that is the most: close one, or draw it to its end")
        self.slots = slots


class LibraryMissing(GractError, ImportError):
    """A library is wanted for what was asked, and is not there. `library` is its name."""

    def __init__(self, library: str, advice: str = ""):
        super().__init__(f"{library} is not installed: Debian has it as python3-{library}{advice}")
        self.library = library


class PandasMissing(LibraryMissing):
    """A DataFrame was asked for or given, and pandas is not there."""

    def __init__(self) -> None:
        super().__init__("pandas", ". Without it use the named tuples, or records(), which has the same columns")


class DistributedMissing(GractError, ImportError):
    """Shards were asked for, and Dask's distributed scheduler is not there."""

    def __init__(self) -> None:
        super().__init__("distributed is not installed: Debian has it as python3-distributed. gract.days asks without it")


class SourceError(GractError, ValueError):
    """A file of tracks, of answers, of a coast or of a zone that cannot be read as such. It is told by its name and place."""


class ManifestError(GractError, ValueError):
    """A folder that is no folder of parts. `file` is its list of parts."""

    def __init__(self, file: str, why: str):
        super().__init__(f"{file} could not be read as a list of parts: {why}")
        self.file = file


class OtherFileError(GractError):
    """The index file of a part is not the one of the list. `file` is its name, `why` what is otherwise."""

    def __init__(self, file: str, why: str):
        super().__init__(f"{file} is an index, and not the one that was built: {why}. Copy that one, or build anew")
        self.file, self.why = file, why


class PartsError(GractError):
    """Parts that cannot be asked. `parts` has the refusal of each, by its number."""

    def __init__(self, parts: Mapping[int, GractError], count: int):
        told = "; ".join(f"part {number}: {refusal.sentence}" for number, refusal in sorted(parts.items()))
        super().__init__(f"{len(parts)} of {count} parts cannot be asked: {told}. With partial=True the others answer what they can")
        self.parts = dict(parts)


class WorkerLost(GractError):
    """The workers that asked a part died, one after the other. `file` is the part's index."""

    def __init__(self, file: str):
        super().__init__(f"{file}: one worker after the other died while it was asked. Is there memory enough?")
        self.file = file


class ProgramNotFound(GractError, FileNotFoundError):
    """The program gract is not there, or cannot be run. `tried` says where it was looked for."""

    def __init__(self, tried: Sequence[str]):
        super().__init__(
            f"the program gract was not found: {'; '.join(tried)}. make gract builds it; "
            "say where it is by program= or by the variable GRACT"
        )
        self.tried = tuple(tried)


class OverwriteError(GractError, FileExistsError):
    """`build` or `extend` was to write over a file that is no index; or `build` in a folder that has other things in it, or parts that
    are not to be replaced. `path` is its name."""

    def __init__(self, path: str, there: str = "is there and is no index: it is not written over. Take another name, or remove it"):
        super().__init__(f"{path} {there}")
        self.path = path


class BadQuestion(GractError, ValueError):
    """A question line that the program calls bad. `line` is the line, `cause` a word of `CAUSES`, `place` the place of the word that
    is bad, from 1, where the cause has one."""

    CAUSES = {
        "long": "it has more than 1,024 bytes",
        "word": "its first word is no question, or its region is of no kind that there is",
        "count": "it has too few words or too many",
        "number": "its word {place} is no number",
        "range": "its word {place} is out of range",
        "held": "the slot holds a cursor already",
        "free": "the slot holds no cursor",
    }

    def __init__(self, line: str, cause: str, place: Optional[int] = None):
        why = self.CAUSES.get(cause, "it is refused").format(place=place)
        shown = line if len(line) <= 80 else f"{line[:77]}..."
        super().__init__(f"bad question '{shown}' ({cause}): {why}")
        self.line, self.cause, self.place = line, cause, place


class ReplyError(GractError):
    """What the program said is no reply: it is another program, or another version. `said` is the line."""

    def __init__(self, program: str, said: str):
        super().__init__(f"{program} said '{said[:80]}', which is no reply of gract: is it the right program?")
        self.program, self.said = program, said


class ProgramError(GractError):
    """An outcome of the program other than that all was done. `status` is what it ended with, `last_words` what it said on
    standard error, `advice` what to do about that."""

    status: Optional[int] = None
    last_words: str = ""

    # The key of ADVICE for its line, where it has one.
    _about: str = ""

    @property
    def advice(self) -> str:
        """What to do about it, as docs/QUESTIONS.md has it, or nothing where it is none of the program's lines."""
        return ADVICE[self._about].what if self._about else ""

    def __str__(self) -> str:
        told = super().__str__()
        return f"{told}\nWhat to do: {self.advice}" if self.advice and self.advice not in told else told


class ChildDied(ProgramError):
    """The program ended, and not as it says that it does: by a signal, or before all questions had their replies. `status` is
    negative for a signal."""

    def __init__(self, status: Optional[int], last_words: str):
        how = "with no status" if status is None else f"by signal {-status}" if status < 0 else f"with status {status}"
        words = f"; its last words were: {last_words}" if last_words else ", and said nothing"
        super().__init__(f"the program gract ended {how} while it was needed{words}")


class WordsError(ProgramError):
    """The program does not take its command words. `place` is that of the first bad one, from 1."""

    _about = "words"

    def __init__(self, place: int):
        super().__init__(f"the program does not take word {place} of its command: is it of the version of this package?")
        self.place = place


class EmptyError(ProgramError, ValueError):
    """There is not a single row."""

    _about = "empty"

    def __init__(self, file: str):
        super().__init__(f"{file}: there is no row, and an index needs one")
        self.file = file


class RowError(ProgramError, ValueError):
    """A record of a CSV file that is no row. `record` is its number from 1, `line` the line on which it begins, found by reading
    the file again, or None. `fault` is `count`, and `field` how many fields it has; or `number` or `range`, and `field` which
    one it is, from 1. `text` is the record's fields."""

    FIELDS = ("object", "instant", "x", "y")

    def __init__(self, file: str, record: int, field: int, fault: str, line: Optional[int] = None, text: Sequence[str] = ()):
        name = self.FIELDS[field - 1] if 1 <= field <= 4 else str(field)
        span = "0 to 4294967295" if field == 1 else "-1099511627776 to 1099511627776"
        why = {
            "count": f"it has {field} fields, and a row has four: object,instant,x,y",
            "number": f"its field {field} ({name}) is no whole number",
            "range": f"its field {field} ({name}) is not from {span}",
        }[fault]
        where = f"line {line}, record {record}" if line else f"record {record}"
        shown = f" ({','.join(text)[:80]})" if text else ""
        heading = "; a heading must be object,instant,x,y" if record == 1 and fault != "range" else ""
        super().__init__(f"{file}, {where}{shown}: {why}{heading}")
        self.file, self.record, self.field, self.fault, self._about = file, record, field, fault, fault
        self.line, self.text = line, tuple(text)


class Limit(NamedTuple):
    """A limit of the program: its number, what it counts, and what one does at it."""

    most: int
    what: str
    advice: str


LIMITS: Dict[str, Limit] = {
    kind: Limit(most, what, ADVICE[f"limit {kind}"].what)
    for kind, most, what in (
        ("csv", 2**29, "bytes of the CSV file"),
        ("rows", 2**24, "rows"),
        ("objects", 2**16, "different objects"),
        ("span", 2**22, "instants from the first row to the last"),
        ("extent", 2**24, "cells along x or y"),
        ("blocks", 2**24, "objects times periods"),
        ("symbols", 2**25, "instants after the first row of each object in each period"),
        ("index", 2**30, "bytes of the index file"),
        ("questions", 2**32, "bytes of questions"),
        ("base", 2**40, "cells from 0 to a row's x or y"),
    )
}


class LimitError(ProgramError, ValueError):
    """A limit that is passed. `kind` is a key of `LIMITS`, `value` what there is, `limit` the most that there may be."""

    def __init__(self, kind: str, value: int, file: Optional[str] = None):
        limit = LIMITS[kind]
        super().__init__(
            f"{f'{file}: ' if file else ''}the limit {kind} is passed: {value:,} {limit.what}, and {limit.most:,} is the most. "
            f"What to do: {limit.advice}"
        )
        self.kind, self.value, self.limit, self.file, self._about = kind, value, limit.most, file, f"limit {kind}"


class FormatError(ProgramError, ValueError):
    """A file that is no index. `section`, `period` (from 0), `place` (from 0) and `kind` are its first flaw, as docs/FORMAT.md has
    them."""

    _about = "flaw"

    def __init__(self, file: str, section: str, period: int, place: int, kind: str):
        flaw = f"section {section}, period {period}, place {place}: {kind}"
        if section == "header" and place == 0:
            why = f"{file} is no index of gract ({flaw}): it does not begin as one"
        elif kind in ("short", "extra"):
            why = f"{file} is damaged ({flaw}): bytes {'are missing' if kind == 'short' else 'follow its end'}. Was it copied whole?"
        else:
            why = f"{file} is damaged ({flaw}). Take a copy of it, or build it again from its rows"
        super().__init__(why)
        self.file, self.section, self.period, self.place, self.kind = file, section, period, place, kind


class DeviceError(ProgramError, OSError):
    """A file or a stream that failed."""


class LoadError(DeviceError):
    """A file could not be read. `file` is its name."""

    _about = "load"

    def __init__(self, file: str, why: str = "the program could not read it"):
        super().__init__(f"{file} could not be read: {why}")
        self.file = file


class SaveError(DeviceError):
    """An index could not be saved. `file` is its name; what it holds now is what it held, or nothing that can be relied on."""

    _about = "save"

    def __init__(self, file: str):
        super().__init__(f"{file} could not be saved: is there room, and may its folder be written?")
        self.file = file


class ListenError(DeviceError):
    """The program could not read its questions."""

    _about = "listen"

    def __init__(self) -> None:
        super().__init__("the program could not read the questions that it was asked")


class SayError(DeviceError):
    """The program could not write its replies."""

    _about = "say"

    def __init__(self) -> None:
        super().__init__("the program could not write its replies")


class MemoryRefused(ProgramError, MemoryError):
    """The program was refused memory."""

    _about = "memory"

    def __init__(self) -> None:
        super().__init__("the program was refused memory: ask for less at once, or free some")
