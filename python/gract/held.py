"""`Held`: a folder for what is asked together with an index, for as long as somebody asks."""

import os
import shutil
import tempfile
import weakref
from pathlib import Path


class Held:
    """A folder of this process. It goes with what is in it when it is let go, or with the last reference to it; a copy of the process
    leaves it alone."""

    def __init__(self) -> None:
        self.path = Path(tempfile.mkdtemp(prefix="gract-tail-"))
        self._end = weakref.finalize(self, remove, str(self.path), os.getpid())

    def let_go(self) -> None:
        """Takes it away. A second time it does nothing."""
        self._end()


def remove(folder: str, owner: int) -> None:
    """Takes a folder away, where this is the process that made it."""
    if os.getpid() == owner:
        shutil.rmtree(folder, ignore_errors=True)
