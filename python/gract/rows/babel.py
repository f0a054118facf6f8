"""Files of watches and bicycle computers, FIT and TCX, by way of gpsbabel, which makes GPX of them."""

import io
import shutil
import subprocess
import tempfile
from typing import Optional

from ..errors import SourceError
from . import gpx
from .collecting import Rows
from .sources import HEAD, Source, Stream

# What gpsbabel calls these formats.
FORMS = {"fit": "garmin_fit", "tcx": "gtrnctr"}


def read_by(form: str, source: Source, rows: Rows) -> None:
    """Reads a file as gpsbabel turns it into GPX. Refuses it where gpsbabel is not there, or does not take it."""
    program = shutil.which("gpsbabel")
    if program is None:
        raise SourceError(f"{source.name}: gpsbabel reads {form.upper()} files, and is not there; Debian's package gpsbabel has it")
    with source.on_disk() as path, tempfile.TemporaryFile() as said:
        words = [program, "-i", FORMS[form], "-f", path, "-o", "gpx", "-F", "-"]
        with subprocess.Popen(words, stdin=subprocess.DEVNULL, stdout=subprocess.PIPE, stderr=said) as child:
            assert child.stdout is not None
            try:
                fault = fault_of(source, io.BufferedReader(Stream(source.name, child.stdout, source.most), HEAD), rows)
            finally:
                child.kill()
            status = child.wait()
        said.seek(0)
        last_words = " ".join(said.read(400).decode("utf-8", "replace").split())
    if status > 0:
        raise SourceError(f"{source.name}: gpsbabel could not read it: {last_words}")
    if fault is not None:
        raise fault


def fault_of(source: Source, raw: io.BufferedReader, rows: Rows) -> Optional[SourceError]:
    """Reads the GPX that gpsbabel writes to its end, and answers with what is wrong with it."""
    try:
        if raw.peek(1):
            gpx.read(Source(source.name, raw, None, source.most), rows)
        return None
    except SourceError as fault:
        return fault


def read_fit(source: Source, rows: Rows) -> None:
    """Reads a FIT file."""
    read_by("fit", source, rows)


def read_tcx(source: Source, rows: Rows) -> None:
    """Reads a TCX file."""
    read_by("tcx", source, rows)
