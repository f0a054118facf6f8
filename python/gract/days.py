"""The old name of `gract.archive.days`."""

import sys

from .archive import days
from .archive.days import *  # noqa: F401,F403

sys.modules[__name__] = days
