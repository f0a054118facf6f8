"""Files of tracks that are packed: by zip, gzip, xz or bzip2. They are unpacked as they are read, within bounded memory."""

import bz2
import contextlib
import gzip
import io
import lzma
import shutil
import tempfile
import zipfile
import zlib
from typing import IO, Any, Iterator, Optional

from ..errors import SourceError
from .sources import BZIP2, GZIP, HEAD, XZ, ZIP, Source, Stream

# The most memory that unpacking xz may take, in bytes; its own greatest level takes 65 MiB.
MOST_XZ = 1 << 27

# What damaged files raise as they are unpacked.
DAMAGES = (EOFError, OSError, RuntimeError, NotImplementedError, zlib.error, lzma.LZMAError, zipfile.BadZipFile)


class Unxz:
    """A file of xz as it is unpacked, within bounded memory."""

    def __init__(self, packed: IO[bytes]):
        self.packed, self.unpacker = packed, self.fresh()

    def fresh(self) -> lzma.LZMADecompressor:
        """What unpacks the next stream of the file."""
        return lzma.LZMADecompressor(format=lzma.FORMAT_XZ, memlimit=MOST_XZ)

    def read(self, size: int) -> bytes:
        """At most so many bytes; none at the end."""
        while True:
            data = b""
            if self.unpacker.eof:
                data = self.unpacker.unused_data.lstrip(b"\0") or self.packed.read(HEAD).lstrip(b"\0")
                if not data:
                    return b""
                self.unpacker = self.fresh()
            elif self.unpacker.needs_input:
                data = self.packed.read(HEAD)
                if not data:
                    raise EOFError("Compressed file ended before the end-of-stream marker was reached")
            found = self.unpacker.decompress(data, size)
            if found:
                return found


def sources_of(name: str, raw: io.BufferedReader, path: Optional[str], most: int) -> Iterator[Source]:
    """The file of that name, or the files of a zip archive."""
    if raw.peek(4).startswith(ZIP):
        with seekable(name, raw, most) as file:
            yield from members_of(name, file, most)
    else:
        yield unpacked(name, raw, path, most)


@contextlib.contextmanager
def seekable(name: str, raw: io.BufferedReader, most: int) -> Iterator[IO[bytes]]:
    """A file that can be read from any place on: itself, or a temporary copy of standard input."""
    if name != "-":
        with open(name, "rb") as file:
            yield file
        return
    with tempfile.TemporaryFile(prefix="gract-") as copy:
        shutil.copyfileobj(io.BufferedReader(Stream(name, raw, most)), copy)
        copy.seek(0)
        yield copy


def members_of(name: str, file: IO[bytes], most: int) -> Iterator[Source]:
    """The files of a zip archive; of one with KML, as Google Earth's, those alone."""
    try:
        archive = zipfile.ZipFile(file)
        members = [member for member in archive.infolist() if not member.is_dir() and not member.filename.startswith("__MACOSX/")]
    except DAMAGES as fault:
        raise SourceError(f"{name} is a damaged zip archive: {fault}") from None
    if any(member.filename == "[Content_Types].xml" for member in members):
        raise SourceError(f"{name} is an Excel workbook or a document of Office: save the table as CSV")
    if not members:
        raise SourceError(f"{name} is a zip archive without a file")
    maps = [member for member in members if member.filename.lower().endswith(".kml")]
    for member in maps or members:
        inner = f"{name}/{member.filename}"
        try:
            opened = archive.open(member)
        except DAMAGES as fault:
            raise SourceError(f"{inner} could not be unpacked: {fault}") from None
        with opened:
            yield unpacked(inner, io.BufferedReader(Stream(inner, opened, most, DAMAGES), HEAD), None, most)


def unpacked(name: str, raw: io.BufferedReader, path: Optional[str], most: int) -> Source:
    """A file that may be packed, as what it holds."""
    start = raw.peek(6)
    packed: Any = None
    if start.startswith(GZIP):
        packed = gzip.GzipFile(fileobj=raw)
    elif start.startswith(XZ):
        packed = Unxz(raw)
    elif start.startswith(BZIP2):
        packed = bz2.BZ2File(raw)
    if packed is not None:
        return Source(name, io.BufferedReader(Stream(name, packed, most, DAMAGES), HEAD), None, most)
    return Source(name, io.BufferedReader(Stream(name, raw, most), HEAD), path, most)
