"""Files of tracks as they are opened: within bounds, and as lines. What is damaged, or more than it may be, is refused by its
name and place."""

import codecs
import contextlib
import io
import itertools
import sys
from typing import Any, Iterator, List, Optional, Tuple, Type

from ..errors import SourceError

# The most bytes of a line, a field or a name, and how many bytes of a file are looked at to find out what it is.
MOST_LINE = 1 << 20
HEAD = 1 << 16

# How files begin that are packed: by zip, gzip, xz and bzip2.
PACKED = ZIP, GZIP, XZ, BZIP2 = b"PK\x03\x04", b"\x1f\x8b", b"\xfd7zXZ\0", b"BZh"


class Stream(io.RawIOBase):
    """The bytes of a file. Refuses what is damaged, which raises `damages`, and more bytes than `most`."""

    def __init__(self, name: str, file: Any, most: Optional[int] = None, damages: Tuple[Type[Exception], ...] = (OSError,)):
        super().__init__()
        self.name_of_file, self.file, self.most, self.damages, self.count = name, file, most, damages, 0

    def readable(self) -> bool:
        """It is."""
        return True

    def readinto(self, buffer: Any) -> int:
        """Fills a buffer, as far as there are bytes."""
        try:
            data: bytes = self.file.read(len(buffer))
        except self.damages as fault:
            raise SourceError(f"{self.name_of_file} is damaged after {self.count:,} bytes: {fault}") from None
        buffer[: len(data)] = data
        self.count += len(data)
        if self.most is not None and self.count > self.most:
            raise SourceError(f"{self.name_of_file} has more than {self.most:,} bytes, unpacked (--most-bytes): is it what it seems to be?")
        return len(data)


class Source:
    """An open file of tracks: `name` as people know it, `raw` its bytes, and `head` the first of them."""

    def __init__(self, name: str, raw: io.BufferedReader, path: Optional[str], most: int):
        self.name, self.raw, self.path, self.most = name, raw, path, most
        self.head = raw.peek(1)[:HEAD]

    def lines(self) -> Iterator[Tuple[int, str]]:
        """The lines of a text with their numbers from 1, without their ends."""
        return enumerate(itertools.chain.from_iterable(lines_in(text) for text in self.pieces()), 1)

    def texts(self) -> Iterator[str]:
        """The text, a piece at a time, each line of which ends with a line feed."""
        utf16 = self.head.startswith((codecs.BOM_UTF16_LE, codecs.BOM_UTF16_BE))
        inner = codecs.getincrementaldecoder("utf-16" if utf16 else "utf-8-sig")("replace")
        decoder = io.IncrementalNewlineDecoder(inner, translate=True)
        block = self.raw.read(HEAD)
        while block:
            text = decoder.decode(block)
            yield text.replace("\0", "") if "\0" in text else text
            block = self.raw.read(HEAD)
        yield decoder.decode(b"", final=True)

    def pieces(self) -> Iterator[str]:
        """The lines of a text, some at a time, each of which ends with a line feed. Marks of byte order, other encodings and bytes 0 do not
        matter. Refuses a line of more than a megabyte."""
        rest, count = "", 0
        for text in self.texts():
            text = rest + text
            end = text.rfind("\n") + 1
            if len(text) > MOST_LINE:
                nth = next((nth for nth, line in enumerate(text.split("\n")) if len(line) > MOST_LINE), None)
                if nth is not None:
                    raise SourceError(f"{self.name} line {count + nth + 1}: a line of more than {MOST_LINE:,} characters")
            rest = text[end:]
            if end:
                count += text.count("\n")
                yield text[:end]
        if rest:
            yield f"{rest}\n"

    @contextlib.contextmanager
    def on_disk(self) -> Iterator[str]:
        """The name of a file with the bytes, for libraries that want one: the file itself, or a temporary copy that is unpacked."""
        if self.path is not None:
            yield self.path
            return
        import shutil
        import tempfile

        with tempfile.NamedTemporaryFile(prefix="gract-") as copy:
            shutil.copyfileobj(self.raw, copy)
            copy.flush()
            yield copy.name


def lines_in(piece: str) -> List[str]:
    """The lines of a text each of which ends with a line feed, without it."""
    return piece[:-1].split("\n")


def sources_of(name: str, most: int) -> Iterator[Source]:
    """The file of that name, or standard input under the name -; of a zip archive its files. Each may be packed by gzip, xz or bzip2."""
    with contextlib.ExitStack() as stack:
        file = sys.stdin.buffer if name == "-" else stack.enter_context(open(name, "rb"))
        raw = io.BufferedReader(Stream(name, file), HEAD)
        path = None if name == "-" else name
        if raw.peek(6).startswith(PACKED):
            # What unpacks takes time to be loaded.
            from . import packed
            yield from packed.sources_of(name, raw, path, most)
        else:
            yield Source(name, io.BufferedReader(Stream(name, raw, most), HEAD), path, most)
