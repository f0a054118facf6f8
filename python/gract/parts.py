"""The old name of `gract.archive.parts`."""

import sys

from .archive import parts
from .archive.parts import *  # noqa: F401,F403

sys.modules[__name__] = parts
