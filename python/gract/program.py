"""The program gract: where it is, and what its outcomes are as exceptions."""

import csv
import hashlib
import os
import re
import shutil
from contextlib import contextmanager
from pathlib import Path
from typing import IO, Iterator, List, Optional, Tuple, Union

from . import errors
from .errors import ProgramError

Name = Union[str, "os.PathLike[str]"]

# The wheel that has the program has it here.
IN_WHEEL = Path(__file__).resolve().parent / "bin" / "gract"

# python/gract/program.py stands two folders below the top of a checkout.
CHECKOUT = Path(__file__).resolve().parent.parent.parent

# The texts of docs/QUESTIONS.md.
LIMIT = re.compile(r"gract: limit (\w+) passed at (\d+)")
RECORD_COUNT = re.compile(r"gract: record (\d+) has (\d+) fields")
RECORD_FIELD = re.compile(r"gract: record (\d+) field (\d+) is (not a number|out of range)")
FLAW = re.compile(r"gract: index (\w+) period (\d+) place (\d+): (\w+)")
WORD = re.compile(r"gract: word (\d+) is not as expected")


def find_program(program: Optional[Name] = None) -> str:
    """The program: the one named, else that of the variable GRACT, else that of the wheel from which this package was installed, else
    gract on the path, else ./gract of this checkout. The first that is said counts, even where it is not there. Refuses, by
    `ProgramNotFound`, where there is none that can be run."""
    if program is not None and not isinstance(program, (str, os.PathLike)):
        raise errors.ArgumentError("program", f"{program!r} is no name of a file")
    tried: List[str] = []
    said = [("program=", None if program is None else os.fspath(program)), ("the variable GRACT", os.environ.get("GRACT"))]
    for where, name in said:
        if name:
            found = shutil.which(os.path.abspath(name) if os.path.isfile(name) else name)
            if found:
                return found
            raise errors.ProgramNotFound([f"{where} says {name}, which is {'no program' if os.path.exists(name) else 'not there'}"])
        tried.append(f"{where} is not given")
    if can_run(IN_WHEEL):
        return str(IN_WHEEL)
    tried.append("the package was installed from no wheel that has it")
    found = shutil.which("gract")
    if found:
        return found
    tried.append("there is none on the path")
    built = CHECKOUT / "gract"
    if can_run(built):
        return str(built)
    raise errors.ProgramNotFound([*tried, f"nor is it {built}"])


def can_run(file: Path) -> bool:
    """Whether it is a file that can be run."""
    return file.is_file() and os.access(file, os.X_OK)


def program_sum(program: Optional[Name] = None) -> str:
    """The sha256 of the program that is run, to compare with that of CHANGELOG.md. Finds and refuses it as `find_program` does."""
    found = hashlib.sha256()
    with beginning(file := find_program(program)), open(file, "rb") as data:
        for piece in iter(lambda: data.read(1 << 20), b""):
            found.update(piece)
    return found.hexdigest()


@contextmanager
def beginning(program: str) -> Iterator[None]:
    """Where a program is begun: refuses, by `ProgramNotFound`, one that the system cannot run."""
    try:
        yield
    except OSError as fault:
        raise errors.ProgramNotFound([f"{program} cannot be run: {fault.strerror}"]) from None


def refusal_of(status: Optional[int], last_words: str, *, index: str, csv_file: Optional[str] = None) -> ProgramError:
    """The exception of an outcome that is not `Done`, by what the program said on standard error; `ChildDied` where it is none of
    its outcomes. `index` and `csv_file` are the files of its command, as people know them."""
    refusal = _told(last_words.strip(), index, csv_file) or errors.ChildDied(status, last_words.strip())
    refusal.status, refusal.last_words = status, last_words.strip()
    return refusal


def _told(text: str, index: str, csv_file: Optional[str]) -> Optional[ProgramError]:
    read = csv_file or index
    if text == "gract: no rows":
        return errors.EmptyError(read)
    if text == "gract: a file could not be read":
        return errors.LoadError(read, why_unread(read))
    if text == "gract: the index could not be saved":
        return errors.SaveError(index)
    if text == "gract: the questions could not be read":
        return errors.ListenError()
    if text == "gract: the answers could not be written":
        return errors.SayError()
    if text == "gract: no memory":
        return errors.MemoryRefused()
    return _told_numbers(text, index, read)


def _told_numbers(text: str, index: str, read: str) -> Optional[ProgramError]:
    found = LIMIT.fullmatch(text)
    if found and found.group(1) in errors.LIMITS:
        return errors.LimitError(found.group(1), int(found.group(2)), None if found.group(1) == "questions" else read)
    found = FLAW.fullmatch(text)
    if found:
        return errors.FormatError(index, found.group(1), int(found.group(2)), int(found.group(3)), found.group(4))
    found = WORD.fullmatch(text)
    if found:
        return errors.WordsError(int(found.group(1)))
    found = RECORD_COUNT.fullmatch(text)
    if found:
        return _row_error(read, int(found.group(1)), int(found.group(2)), "count")
    found = RECORD_FIELD.fullmatch(text)
    if found:
        fault = "range" if found.group(3) == "out of range" else "number"
        return _row_error(read, int(found.group(1)), int(found.group(2)), fault)
    return None


def _row_error(file: str, record: int, field: int, fault: str) -> errors.RowError:
    line, text = find_record(file, record)
    return errors.RowError(file, record, field, fault, line, text)


def find_record(file: str, record: int) -> Tuple[Optional[int], List[str]]:
    """The line from 1 on which a record of a CSV file begins, and its fields, found by reading the file again; None and nothing
    where it cannot be found any more."""
    try:
        with open(file, newline="", encoding="latin-1") as lines:
            return _nth_record(lines, record)
    except (OSError, csv.Error):
        return None, []


def _nth_record(lines: IO[str], record: int) -> Tuple[Optional[int], List[str]]:
    if lines.read(3) != "\u00ef\u00bb\u00bf":
        lines.seek(0)
    reader = csv.reader(lines)
    begins = 1
    for fields in reader:
        if fields:
            record -= 1
            if record == 0:
                return begins, fields
        begins = reader.line_num + 1
    return None, []


def why_unread(file: str) -> str:
    """Why a file cannot be read, as far as a look at it tells."""
    if os.path.isdir(file):
        return "it is a folder"
    if not os.path.exists(file):
        return "there is no such file"
    if not os.access(file, os.R_OK):
        return "it may not be read"
    return "the device failed, or the program may not read it"


def file_word(argument: str, name: Name) -> str:
    """The name of a file as a word for the program; refuses, by the name of the argument, what can be none."""
    try:
        word = os.fspath(name)
        if not isinstance(word, str):
            raise TypeError
        word.encode()
    except (TypeError, UnicodeEncodeError):
        raise errors.ArgumentError(argument, f"{name!r} is no name of a file that the program takes: a text in UTF-8") from None
    if not word or "\0" in word:
        raise errors.ArgumentError(argument, f"{word!r} is no name of a file")
    return word
