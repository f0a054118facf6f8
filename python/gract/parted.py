"""The old name of `gract.archive.parted`."""

import sys

from .archive import parted
from .archive.parted import *  # noqa: F401,F403

sys.modules[__name__] = parted
