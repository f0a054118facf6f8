"""`python3 -m gract rows`: makes rows of files of tracks."""

import argparse
import contextlib
import gc
import os
import sys
from typing import IO, Iterator, Optional

from . import detecting
from .options import add_options, options_of
from .reading import read

EPILOG = """
formats, each of which is found out by the content of a file:

{formats}

Files may be packed by gzip, xz, bzip2 or zip, and those of text may be -, standard input. Rows are in whole seconds since 1970-01-01 00:00
UTC and in whole units of a plane, by time. What was read and what was left out is told on standard error.

    python3 -m gract rows export.csv.gz -o rows.csv
    python3 -m gract rows --names names.csv --per-degree 1000 drifters.nc > rows.csv
"""


def add_to(parser: argparse.ArgumentParser) -> None:
    """Gives the command its words."""
    parser.epilog = EPILOG.format(formats="\n".join(f"    {it.name:<11} {it.what}" for it in detecting.FORMATS))
    parser.formatter_class = argparse.RawDescriptionHelpFormatter
    parser.add_argument("files", nargs="+", metavar="FILE")
    parser.add_argument("-o", "--output", metavar="CSV", help="the file of rows (else standard output)")
    add_options(parser, list(detecting.BY_NAME))


def run(given: argparse.Namespace) -> int:
    """Makes the rows, and answers with the status."""
    options = options_of(given)
    # Rows hold nothing that holds them, and the collector would look through all of them again and again.
    gc.disable()
    with read(given.files, options) as found:
        told = list(found.told())
        with written(given.output) as out:
            for text in found.texts():
                out.write(text)
            out.flush()
        found.numbers.save()
    print(*told, sep="\n", file=sys.stderr)
    return 0


@contextlib.contextmanager
def written(name: Optional[str]) -> Iterator[IO[str]]:
    """A file that is there under its name when all of it is written, and not before; or standard output."""
    if name is None or name == "-":
        yield sys.stdout
        return
    folder, base = os.path.split(name)
    if os.path.exists(name) and not os.path.isfile(name):
        with open(name, "w", encoding="ascii") as out:
            yield out
        return
    import tempfile

    file = tempfile.NamedTemporaryFile("w", dir=folder or ".", prefix=f".{base[:100]}.", delete=False, encoding="ascii")
    try:
        with file:
            yield file
        mask = os.umask(0)
        os.umask(mask)
        os.chmod(file.name, 0o666 & ~mask)
        os.replace(file.name, name)
    except BaseException:
        with contextlib.suppress(OSError):
            os.unlink(file.name)
        raise
