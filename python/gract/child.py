"""`Child`: one run of `gract ask`, and the pipes to it.

A pipe takes some 64 KiB. Whoever writes many questions before reading a reply stops when both pipes are full, since the program
then waits for its replies to be read. So both are done at the same time. One `poll` does it, and not a thread that
writes: there is nothing to join or to leave behind, and an interrupt comes to the one thread there is. A `poll` object has no
file that would have to be closed, and it is made once for each child, since to make one costs as much as a question.
"""

import enum
import os
import select
from typing import List, Optional, Sequence, Tuple

from . import errors
from .processes import Process
from .program import beginning, refusal_of

# The program ends after so many bytes of questions.
MOST_QUESTIONS = 2**32

PIECE = 1 << 16

# So many questions are unanswered at once. After so many bytes of replies no more are asked, and after so many more those that are
# unanswered are given up.
AHEAD = 256
MOST_BYTES = 1 << 22
MOST_HELD = 1 << 25

# Of what a child says on standard error its end is kept: an outcome is one line.
MOST_WORDS = 4096

# How long a child may take to end, in seconds, once it has no more questions.
PATIENCE = 10.0


# The lines of a reply before its last, and its last: `ok N` or `bad CAUSE`. A plain pair, since there may be very many.
Reply = Tuple[List[bytes], bytes]


class State(enum.Enum):
    """What has become of a child."""

    NEW = "it was not begun"
    CLEAN = "all its replies were read"
    ASKED = "it was asked, and has replies that were not read"
    ENDED = "it was ended"


class Child:
    """A child that is asked, by one thread at a time.

    It is `ASKED` before the first byte of a question is written, and `CLEAN` once the last reply is read; only a clean one is asked. So
    where anything goes wrong in between, an interrupt at any place too, its replies are never taken for those of other questions:
    whoever has it ends it, and begins another. It belongs to the process that began it: in a copy of that it is not clean.
    """

    def __init__(self, program: str, index: str, tail: Optional[str] = None):
        self.program, self.index, self.tail = program, index, tail
        self.sent = 0
        self._words = b""
        self._state, self._is_trusted = State.NEW, True
        self._process = Process([program, "ask", index, *([] if tail is None else [tail])])

    def begin(self) -> None:
        """Begins it. Refuses, by `ProgramNotFound`, a program that the system cannot run."""
        with beginning(self.program):
            self._process.begin()
        self._stdin, self._stdout, self._stderr = self._process.pipes
        self._output, self._errors = self._stdout.fileno(), self._stderr.fileno()
        self._ready = select.poll()
        for pipe in (self._stdin, self._stdout, self._stderr):
            os.set_blocking(pipe.fileno(), False)
        for pipe in (self._stdout, self._stderr):
            self._ready.register(pipe, select.POLLIN)
        self._state = State.CLEAN

    @property
    def pid(self) -> int:
        """The number of the child's process."""
        return self._process.pid

    @property
    def is_clean(self) -> bool:
        """Whether it may be asked."""
        return self._state is State.CLEAN and self._is_trusted and self._process.is_mine

    def distrust(self) -> None:
        """Has it never asked again, since what it said is no reply."""
        self._is_trusted = False

    def has_room(self, size: int) -> bool:
        """Whether it would still take so many bytes of questions."""
        return self.sent + size <= MOST_QUESTIONS

    def exchange(self, lines: Sequence[bytes]) -> List[Reply]:
        """Asks lines, each with its end and at least one word, and answers with the replies to the first of them: to all, but where they
        have more bytes than are to be held at once to some, at least to one. Where replies were given up it is ended.
        Refuses with the program's outcome where it ends before, and by `ReplyError` where it says what is no reply."""
        if self._state is not State.CLEAN:
            raise errors.ClosedError(f"the child of {self.index}")
        self._state = State.ASKED
        questions, replies = _Questions(lines), _Replies(self.program)
        self._exchange(questions, replies)
        if len(replies.found) == questions.asked:
            self._state = State.CLEAN
        else:
            self.kill()
        return replies.found

    def _exchange(self, questions: "_Questions", replies: "_Replies") -> None:
        is_full, most = False, len(questions.lines)
        while True:
            if questions.asked < most and replies.size < MOST_BYTES:
                self.sent += questions.take(len(replies.found))
            if len(replies.found) == questions.asked or (replies.found and replies.size > MOST_HELD):
                return
            if questions.left:
                questions.left = self._write(questions.left)
            if is_full != bool(questions.left):
                is_full = not is_full
                self._watch_room(is_full)
            self._await(replies, questions.asked)

    def _watch_room(self, is_full: bool) -> None:
        """Waits for room in the pipe of the questions too, or no more."""
        if is_full:
            self._ready.register(self._stdin, select.POLLOUT)
        else:
            self._ready.unregister(self._stdin)

    def _await(self, replies: "_Replies", asked: int) -> None:
        """Waits until there is something to read, or to be written, and reads it."""
        ready = self._ready.poll()
        if not self._process.is_mine:
            # A signal handler has forked meanwhile, and this is the copy.
            raise errors.BusyError(f"the index {self.index}")
        for pipe, _ in ready:
            if pipe == self._output:
                if not replies.take(self._stdout.read(PIECE), asked):
                    raise self._outcome()
            elif pipe == self._errors and not self._hear():
                self._ready.unregister(self._stderr)

    def _write(self, data: bytes) -> bytes:
        """What is left of the data once the pipe is full. Where the child does not read any more there is nothing left: what it
        says, or that it has ended, tells why."""
        try:
            while data:
                written = self._stdin.write(data if len(data) <= PIECE else data[:PIECE])
                if written is None:
                    return data
                if written == len(data):
                    break
                data = data[written:]
        except BrokenPipeError:
            pass
        return b""

    def _hear(self) -> bool:
        """Keeps what the child says on standard error; False at its end."""
        said = self._stderr.read(PIECE)
        if said is None:
            return True
        self._words = (self._words + said)[-MOST_WORDS:]
        return bool(said)

    def _outcome(self) -> errors.ProgramError:
        """How the child ended, once it says no more."""
        status = self._process.wait(PATIENCE)
        before = None
        while before != self._words:
            before = self._words
            self._hear()
        # The index is read first. What is said of a file is of the tail, then.
        read = self.tail if os.access(self.index, os.R_OK) else None
        return refusal_of(status, self._words.decode(errors="replace"), index=self.index, csv_file=read)

    def close(self) -> None:
        """Ends the child and waits for it. Refuses with its outcome where it was clean and ends otherwise than well; the child has
        ended all the same."""
        is_clean, self._state = self.is_clean, State.ENDED
        try:
            if is_clean:
                self._stdin.close()
                if self._process.wait(PATIENCE) != 0:
                    raise self._outcome()
        finally:
            self.kill()

    def kill(self) -> None:
        """Ends the child at once, and waits for it. Where this is interrupted it ends all the same, and is never asked again."""
        self._state = State.ENDED
        self._process.end()


class _Questions:
    """Questions that are written in pieces."""

    def __init__(self, lines: Sequence[bytes]):
        self.lines, self.asked, self.left = lines, 0, b""

    def take(self, answered: int) -> int:
        """Takes the next questions to be written, where few are unanswered; how many bytes they have."""
        if self.left or 2 * (self.asked - answered) > AHEAD:
            return 0
        piece = self.lines[self.asked : answered + AHEAD]
        self.left = b"".join(piece)
        self.asked += len(piece)
        return len(self.left)


class _Replies:
    """Replies as they come in pieces."""

    def __init__(self, program: str):
        self.program = program
        self.found: List[Reply] = []
        self.size = 0
        self._rest = b""
        self._lines: List[bytes] = []

    def take(self, piece: Optional[bytes], asked: int) -> bool:
        """Takes the next piece of the replies to so many questions; False at the end. Refuses more replies than there are questions."""
        if piece is None:
            return True
        self.size += len(piece)
        lines = (self._rest + piece).split(b"\n")
        self._rest = lines.pop()
        found, current = self.found, self._lines
        for line in lines:
            if line.startswith((b"ok ", b"bad ")):
                found.append((current, line))
                current = []
            else:
                current.append(line)
        self._lines = current
        if len(found) > asked or (len(found) == asked and (self._rest or current)):
            raise errors.ReplyError(self.program, (self._rest or lines[-1]).decode(errors="replace"))
        return bool(piece)
