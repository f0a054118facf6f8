"""`Turn`: one thread at a time, and no question within a question.

The lock is taken and let go by a `with` of its own, at no line of the modules that use it: Python runs no signal handler between its own
steps there, so that an interrupt never leaves it held.
"""

import functools
import os
import threading
import weakref
from typing import Any, Callable, TypeVar, cast

from .errors import BusyError

Method = TypeVar("Method", bound=Callable[..., Any])


class Turn:
    """The turns of what threads share: others wait, and a second turn within one of the same thread, as of a signal handler, is
    refused. A copy of the process that was forked begins with its own turns, whoever had one."""

    def __init__(self, what: str):
        self.what = what
        self.renew()
        _TURNS.add(self)

    def renew(self) -> None:
        """Makes it nobody's turn."""
        # The lock lets a thread in that has it: a lock that does not would wait for itself in a signal handler.
        self.lock, self.is_taken = threading.RLock(), False


_TURNS: "weakref.WeakSet[Turn]" = weakref.WeakSet()


def in_turn(method: Method) -> Method:
    """A method that is called in the turn of its object's `_turn`. Refuses, by `BusyError`, a call within another of the same thread."""

    @functools.wraps(method)
    def called(self: Any, *arguments: Any, **others: Any) -> Any:
        turn = self._turn
        with turn.lock:
            if turn.is_taken:
                raise BusyError(turn.what)
            turn.is_taken = True
            try:
                return method(self, *arguments, **others)
            finally:
                turn.is_taken = False

    return cast(Method, called)


def _renew_all() -> None:
    for turn in list(_TURNS):
        turn.renew()


os.register_at_fork(after_in_child=_renew_all)
