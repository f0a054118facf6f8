"""The old name of `gract.archive.routes`."""

import sys

from .archive import routes
from .archive.routes import *  # noqa: F401,F403

sys.modules[__name__] = routes
