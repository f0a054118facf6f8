"""`python3 -m gract`."""

import sys

from .command import run

if __name__ == "__main__":
    sys.exit(run())
