"""Libraries that are used only where they are there."""

import importlib
from typing import Any

from .errors import LibraryMissing, PandasMissing


def library(name: str) -> Any:
    """A module of a library. Refuses, by `LibraryMissing`, one that is not there."""
    try:
        return importlib.import_module(name)
    except ImportError:
        top = name.split(".")[0]
        raise (PandasMissing() if top == "pandas" else LibraryMissing(top)) from None
