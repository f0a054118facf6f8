"""The old name of `gract.archive.manifest`."""

import sys

from .archive import manifest
from .archive.manifest import *  # noqa: F401,F403

sys.modules[__name__] = manifest
