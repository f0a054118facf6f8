"""The old name of `gract.archive.folders`."""

import sys

from .archive import folders
from .archive.folders import *  # noqa: F401,F403

sys.modules[__name__] = folders
