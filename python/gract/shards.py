"""The old name of `gract.archive.shards`."""

import sys

from .archive import shards
from .archive.shards import *  # noqa: F401,F403

sys.modules[__name__] = shards
