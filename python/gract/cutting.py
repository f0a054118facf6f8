"""The old name of `gract.archive.cutting`."""

import sys

from .archive import cutting
from .archive.cutting import *  # noqa: F401,F403

sys.modules[__name__] = cutting
