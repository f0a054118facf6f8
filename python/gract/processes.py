"""`Process`: a run of a program with its pipes, that is begun whole and ended whole.

Python calls signal handlers between any two steps of its main thread, and in no other thread. An interrupt that comes as a process is
begun would lose its number, and one that comes as it is ended would leave it running. So both are done in a thread of their own: an
interrupt ends the waiting for it, and it is done all the same.

A process belongs to the one that began it. In a copy of that, which `os.fork` makes, the pipes are closed at once, and it is left alone.
"""

import _thread
import os
import subprocess
import threading
import weakref
from contextlib import contextmanager
from typing import IO, Callable, Dict, Iterator, List, Optional, Sequence, Set, Tuple

from .errors import BusyError

# What has the C library ask for memory in huge pages; glibc does so from 2.35 on, and any other takes no notice.
HUGE_PAGES = {"GLIBC_TUNABLES": "glibc.malloc.hugetlb=1"}


def environment() -> Dict[str, str]:
    """The environment of what is begun: that of this process, with huge pages unless it tunes the C library itself."""
    return {**HUGE_PAGES, **os.environ}


class Process:
    """A run of a program. Its last reference ends it, and so does the end of Python."""

    def __init__(self, words: Sequence[str]):
        self._run = _Run(words, weakref.ref(self))
        weakref.finalize(self, self._run.end)

    def begin(self) -> None:
        """Begins it. Raises OSError where the system cannot run it."""
        uninterrupted(self._run.begin)

    def end(self) -> None:
        """Ends it, whatever it does, waits for it, and closes its pipes; a second time it does nothing. Where this is interrupted it is
        ended all the same."""
        self._run.is_wanted = False
        uninterrupted(self._run.end)

    @property
    def is_mine(self) -> bool:
        """Whether this process began it, and is no copy of the one that did."""
        run = self._run
        return run.is_mine and run.owner == os.getpid()

    @property
    def pid(self) -> int:
        """Its number."""
        return self._run.process.pid

    @property
    def pipes(self) -> Tuple[IO[bytes], IO[bytes], IO[bytes]]:
        """What goes to its standard input, and what comes from its standard output and error."""
        return self._run.pipes

    def wait(self, seconds: float) -> int:
        """What it ends with; where it does not within that time it is made to."""
        process = self._run.process
        try:
            return process.wait(seconds)
        except subprocess.TimeoutExpired:
            process.kill()
            return process.wait()

    def finish(self) -> Tuple[int, str]:
        """Reads all that it says, and answers with what it ends with and what it said on standard error."""
        said = self._run.process.communicate()[1]
        return self._run.process.returncode, said.decode(errors="replace")


class _Run:
    """What runs, for as long as there is its `Process`. It is in `_RUNS` until it was waited for."""

    def __init__(self, words: Sequence[str], wanted_by: "weakref.ref[Process]"):
        self.words, self.wanted_by, self.owner = words, wanted_by, os.getpid()
        self.is_wanted = self.is_mine = True
        self._lock = threading.RLock()
        self._process: Optional["subprocess.Popen[bytes]"] = None

    @property
    def process(self) -> "subprocess.Popen[bytes]":
        """The process, once it was begun."""
        assert self._process is not None
        return self._process

    @property
    def pipes(self) -> Tuple[IO[bytes], IO[bytes], IO[bytes]]:
        """Its three pipes."""
        found = self.process
        assert found.stdin is not None and found.stdout is not None and found.stderr is not None
        return found.stdin, found.stdout, found.stderr

    def begin(self) -> None:
        """Begins it, unless it was ended before that. Those are ended first whose own end was cut short."""
        for other in list(_RUNS):
            if not other.is_wanted or other.wanted_by() is None:
                other.end()
        with self._lock, _BEGINNING:
            if not self.is_wanted:
                return
            # In a session of its own it does not get the interrupt of a terminal, which would end it between questions too.
            self._process = subprocess.Popen(
                self.words, bufsize=0, stdin=subprocess.PIPE, stdout=subprocess.PIPE, stderr=subprocess.PIPE, start_new_session=True,
                env=environment(),
            )
            _RUNS.add(self)

    def end(self) -> None:
        """Ends it here."""
        self.is_wanted = False
        if not self.is_mine or self.owner != os.getpid():
            self.leave()
            return
        with self._lock:
            if self._process is not None:
                self._process.kill()
                self._process.wait()
                self._close()
        _RUNS.discard(self)

    def leave(self) -> None:
        """Lets go of what is another process's child."""
        self.is_mine = False
        if self._process is not None:
            # It is not to be waited for.
            self._process.returncode = 0
            self._close()

    def _close(self) -> None:
        for pipe in self.pipes:
            try:
                pipe.close()
            except OSError:
                # What was left in the pipe is not read any more.
                pass


# What keeps a fork away from what is just being begun, whose pipes the copy would hold without knowing.
_BEGINNING = threading.RLock()


@contextmanager
def no_copies() -> Iterator[None]:
    """Where no thread makes a copy of this process."""
    with _BEGINNING:
        yield


_RUNS: Set[_Run] = set()

# What is waited for in `uninterrupted`, which is never done in a copy.
_WAITED: "Set[_thread.LockType]" = set()


def uninterrupted(function: Callable[[], None]) -> None:
    """Calls a function where no signal handler runs, and waits for it. An interrupt ends the waiting alone. Refuses, by `BusyError`, in
    a copy that was forked meanwhile, where it is not done."""
    if threading.current_thread() is not threading.main_thread():
        function()
        return
    faults: List[Optional[BaseException]] = []
    done = _thread.allocate_lock()
    done.acquire()

    def call() -> None:
        try:
            function()
            faults.append(None)
        except BaseException as fault:
            faults.append(fault)
        finally:
            done.release()

    _WAITED.add(done)
    try:
        _thread.start_new_thread(call, ())
        done.acquire()
    except RuntimeError:
        # There is no thread to be had, as at the end of Python.
        function()
        return
    finally:
        _WAITED.discard(done)
    if not faults:
        raise BusyError("a program")
    if faults[0] is not None:
        raise faults[0]


def _is_copy() -> None:
    global _BEGINNING
    _BEGINNING = threading.RLock()
    for run in list(_RUNS):
        run.leave()
    _RUNS.clear()
    for done in list(_WAITED):
        done.release()


def _before_fork() -> None:
    _BEGINNING.acquire()


def _after_fork() -> None:
    _BEGINNING.release()


os.register_at_fork(before=_before_fork, after_in_parent=_after_fork, after_in_child=_is_copy)
