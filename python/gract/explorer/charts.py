"""The indices that are asked: one for play and one for the hand, so that neither waits for the other.

Requests take turns. One that was cancelled while it waited is dropped; a question that takes too long ends its child, and the next one
begins another.
"""

import os
import signal
import threading
import time
from pathlib import Path
from types import TracebackType
from typing import Any, Callable, List, NamedTuple, Optional, Type, TypeVar, Union

from ..archive import days
from ..archive.manifest import LIST
from ..errors import ChildDied, GractError
from ..grid import Grid
from ..index import Index, stamp_of

# How long a question may take, in seconds; how often a request that waits looks whether it was cancelled, and the watch whether one
# takes too long.
MOST_SECONDS = 10.0
LOOK_SECONDS = 0.05
WATCH_SECONDS = 0.1

# How many children the days of an archive have at most, for play and for the hand together.
MOST_CHILDREN = 8

Chart = Union[Index, days.Days]
Answer = TypeVar("Answer")


class Gone(Exception):
    """A request whose page does not wait for it any more."""


class TooLong(GractError):
    """A question that took too long: its child was ended."""

    def __init__(self) -> None:
        super().__init__(f"the question took more than {MOST_SECONDS:g} seconds and was ended: ask for less time or a smaller region")


class Source(NamedTuple):
    """What is explored: an index or an archive, with rows that came since, a grid, and the program."""

    path: str
    tail: Optional[str] = None
    grid: Optional[Grid] = None
    program: Optional[str] = None
    grid_file: Optional[str] = None

    def is_archive(self) -> bool:
        """Whether it is a folder of parts."""
        return (Path(self.path) / LIST).exists()

    def open(self) -> Chart:
        """Opens it. Refuses as `gract.open` and `days.open` do."""
        if self.is_archive():
            return days.open(self.path, program=self.program, grid=self.grid, most=MOST_CHILDREN // 2)
        return Index(self.path, program=self.program, grid=self.grid, tail=self.tail)

    def stamps(self) -> List[Any]:
        """What tells its files from others that were written in their place."""
        if self.is_archive():
            return [stamp_of(str(Path(self.path) / LIST))]
        return [stamp_of(self.path, self.tail)]


def children_of(chart: Chart) -> List[int]:
    """The numbers of the processes that a chart asks now."""
    if isinstance(chart, days.Days):
        return [pid for index in chart.open_indices() for pid in children_of(index)]
    return [chart._child.pid] if chart._child is not None and is_child(chart._child.pid) else []


def is_child(pid: int) -> bool:
    """Whether a process of that number is a child of this one, which nobody has waited for: then no other can have the number."""
    try:
        os.waitid(os.P_PID, pid, os.WEXITED | os.WNOHANG | os.WNOWAIT)
    except ChildProcessError:
        return False
    return True


class Watch:
    """Looks, in a thread of its own, how long each question of a chart takes, and ends its children where that is too long. It is a
    context manager around a question; `rang` says whether it ended the last one."""

    def __init__(self, chart: Chart, seconds: float):
        self.seconds, self.rang = seconds, False
        self._chart, self._lock, self._closed = chart, threading.Lock(), threading.Event()
        self._began: Optional[float] = None
        threading.Thread(target=self._look, daemon=True).start()

    def _look(self) -> None:
        while not self._closed.wait(WATCH_SECONDS):
            with self._lock:
                if self._began is not None and time.monotonic() - self._began > self.seconds:
                    self._ring()

    def _ring(self) -> None:
        self.rang, self._began = True, None
        for pid in children_of(self._chart):
            # It is not waited for here: whoever reads its replies finds that it has ended.
            os.kill(pid, signal.SIGKILL)

    def __enter__(self) -> None:
        with self._lock:
            self.rang, self._began = False, time.monotonic()

    def __exit__(self, kind: Optional[Type[BaseException]], fault: Optional[BaseException], trace: Optional[TracebackType]) -> None:
        with self._lock:
            self._began = None

    def close(self) -> None:
        """Looks no more."""
        self._closed.set()


class Turns:
    """A chart that threads ask one after the other."""

    def __init__(self, chart: Chart, seconds: float = MOST_SECONDS):
        self.chart, self.watch = chart, Watch(chart, seconds)
        self._lock = threading.Lock()

    def ask(self, work: Callable[[Chart], Answer], is_gone: Callable[[], bool] = lambda: False) -> Answer:
        """What a function of the chart gives. Refuses as it does, by `TooLong` after ten seconds, and by `Gone` where nobody waits."""
        while not self._lock.acquire(timeout=LOOK_SECONDS):
            if is_gone():
                raise Gone
        try:
            if is_gone():
                raise Gone
            return self._asked(work)
        finally:
            self._lock.release()

    def _asked(self, work: Callable[[Chart], Answer]) -> Answer:
        try:
            return self._watched(work)
        except ChildDied:
            # Somebody ended the child: a new one is asked the same.
            return self._watched(work)

    def _watched(self, work: Callable[[Chart], Answer]) -> Answer:
        try:
            with self.watch:
                return work(self.chart)
        except GractError:
            if self.watch.rang:
                raise TooLong from None
            raise

    def close(self) -> None:
        """Closes the chart, once nobody asks it."""
        with self._lock:
            self.watch.close()
            close(self.chart)


def close(chart: Chart) -> None:
    """Closes a chart, whatever became of its children."""
    try:
        chart.close()
    except GractError:
        pass


class Charts:
    """Both charts of a source. It is a context manager; `close` ends their children."""

    def __init__(self, source: Source, seconds: float = MOST_SECONDS):
        self.source, self._seconds = source, seconds
        self._renewal = threading.Lock()
        self._open()

    def _open(self) -> None:
        self.stamps = self.source.stamps()
        play = self.source.open()
        try:
            hand = self.source.open()
        except BaseException:
            close(play)
            raise
        self.play, self.hand = Turns(play, self._seconds), Turns(hand, self._seconds)

    def is_replaced(self) -> bool:
        """Whether a file is another one than when it was opened."""
        return self.source.stamps() != self.stamps

    def renew(self) -> None:
        """Opens what stands there now, where it is another one. Refuses as opening does; what was open then stays."""
        with self._renewal:
            if not self.is_replaced():
                return
            old = self.play, self.hand
            self._open()
            for turns in old:
                turns.close()

    def close(self) -> None:
        """Closes both."""
        self.play.close()
        self.hand.close()

    def __enter__(self) -> "Charts":
        return self

    def __exit__(self, kind: Optional[Type[BaseException]], fault: Optional[BaseException], trace: Optional[TracebackType]) -> None:
        self.close()
