"""gract from Python, with dates and degrees.

    import gract
    with gract.open("ships.idx") as ships:
        print(ships.slice(at="2022-06-01 12:00", box=(10.2, 54.1, 11.0, 55.0)).table())

`open` asks an index through the program gract, `build` makes one, and `extend` adds later rows to it; docs/PYTHON.md is the page. None
of this package is proved. It is tested against the program, whose answers are.
"""

from typing import TYPE_CHECKING

if TYPE_CHECKING:
    from . import questions
    from .answers import Answers, Cell, Facts, Hit, Last, Life, Meeting, Near, Sighting, Stop, Visit
    from .building import Built, build
    from .cursor import Cursor
    from .errors import (
        ArgumentError,
        BadQuestion,
        BusyError,
        ChangedError,
        ChildDied,
        ClosedError,
        DeviceError,
        DistributedMissing,
        EmptyError,
        FormatError,
        GractError,
        GridError,
        LibraryMissing,
        LimitError,
        ListenError,
        LoadError,
        ManifestError,
        MemoryRefused,
        OtherFileError,
        OutsideWarning,
        OverwriteError,
        PandasMissing,
        PartsError,
        ProgramError,
        ProgramNotFound,
        ReplyError,
        RowError,
        SaveError,
        SayError,
        SlotsError,
        SourceError,
        WordsError,
        WorkerLost,
    )
    from .extending import Extended, extend
    from .grid import Circle, Grid, Place, RawRow, Reach
    from .index import Index, open
    from .planes import Degrees, Metres, Projected
    from .program import find_program, program_sum
    from .proposals import Proposal, propose
    from .questions import Disc, Rect, Zone, disc, rect, zone
else:
    def __getattr__(name):
        """A public name, or a module, which is loaded where it is first wanted: a command wants few of them."""
        import importlib

        if name.startswith("_"):
            raise AttributeError(f"module {__name__!r} has no attribute {name!r}")
        module = f"{__name__}.{_HOMES.get(name, name)}"
        try:
            found = importlib.import_module(module)
        except ModuleNotFoundError as fault:
            if fault.name != module:
                raise
            raise AttributeError(f"module {__name__!r} has no attribute {name!r}") from None
        if name in _HOMES:
            found = getattr(found, name)
        globals()[name] = found
        return found

    def __dir__():
        return sorted({*globals(), *__all__})

__version__ = "0.1.0"

__all__ = [
    "Answers", "ArgumentError", "BadQuestion", "Built", "BusyError", "Cell", "ChangedError", "ChildDied", "Circle", "ClosedError",
    "Cursor", "Degrees", "DeviceError", "Disc", "DistributedMissing", "EmptyError", "Extended", "Facts", "FormatError", "GractError",
    "Grid", "GridError", "Hit", "Index", "Last", "LibraryMissing", "Life", "LimitError", "ListenError", "LoadError", "ManifestError",
    "Meeting", "MemoryRefused", "Metres", "Near", "OtherFileError", "OutsideWarning", "OverwriteError", "PandasMissing", "PartsError",
    "Place", "ProgramError", "ProgramNotFound", "Projected", "Proposal", "RawRow", "Reach", "Rect", "ReplyError", "RowError",
    "SaveError", "SayError", "Sighting", "SlotsError", "SourceError", "Stop", "Visit", "WordsError", "WorkerLost", "Zone", "build",
    "disc", "extend", "find_program", "open", "program_sum", "propose", "questions", "rect", "zone",
]

# The module of each public name but `questions`, which is one, and the errors.
_HOMES = {
    **{name: "errors" for name in __all__ if name.endswith(("Error", "Missing"))},
    **{name: module for module, names in {
        "answers": "Answers Cell Facts Hit Last Life Meeting Near Sighting Stop Visit", "building": "Built build", "cursor": "Cursor",
        "errors": "BadQuestion ChildDied MemoryRefused OutsideWarning ProgramNotFound WorkerLost", "extending": "Extended extend",
        "grid": "Circle Grid Place RawRow Reach", "index": "Index open", "planes": "Degrees Metres Projected",
        "program": "find_program program_sum", "proposals": "Proposal propose", "questions": "Disc Rect Zone disc rect zone",
    }.items() for name in names.split()},
}
