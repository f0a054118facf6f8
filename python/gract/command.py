"""The command `python3 -m gract`, for those who do not program."""

import argparse
import importlib
import os
import sys
from typing import Dict, NamedTuple, Optional, Sequence

from .errors import GractError


class Command(NamedTuple):
    """A command, whose module is loaded where it is asked for: `add_to(parser)` gives it its words, `run(given)` runs it and answers with
    the status."""

    module: str
    help: str


COMMANDS: Dict[str, Command] = {
    "ask": Command("gract.prompt", "ask an index"),
    "build": Command("gract.building", "build an index of a CSV file of rows, and save its grid beside it"),
    "rows": Command("gract.rows.command", "make rows of files of tracks, whatever their format is"),
    "plot": Command("gract.pictures.plot", "draw questions and their replies as an SVG, or as a page to look around in"),
    "map": Command("gract.pictures.maps", "write questions and their replies as GeoJSON, GPX or CSV"),
    "zone": Command("gract.zones", "make question lines of a zone that is a polygon"),
    "first_hits": Command("gract.pictures.first_hits", "make one reply of the replies to several lines that ask of one zone"),
    "cell": Command("gract.cells", "print the cell of a longitude and a latitude, or with --back those of a cell's corner"),
    "explore": Command("gract.explorer.command", "look around in an index on a map, in the browser"),
    "days": Command("gract.archive.command", "build, add to, drop from, list and check an archive of days"),
    "instant": Command("gract.instants", "print the instant of a time, or with --back the time at which an instant begins"),
    "propose": Command("gract.proposals", "tell which plane, cell, tick and period suit a CSV file of reports, and why"),
}


def parser(words: Sequence[str] = ()) -> argparse.ArgumentParser:
    """What the command line may be; those commands are known whole that the words name."""
    top = argparse.ArgumentParser(prog="python3 -m gract", description="Questions to an index of gract, with dates and degrees.")
    elsewhere = "else that of GRACT, of the wheel, on the path, or of this checkout"
    top.add_argument("--program", metavar="FILE", help=f"the program gract ({elsewhere})")
    commands = top.add_subparsers(dest="command", required=True)
    for name, known in COMMANDS.items():
        command = commands.add_parser(name, help=known.help, description=f"{known.help[0].upper()}{known.help[1:]}.")
        if name in words:
            importlib.import_module(known.module).add_to(command)
    return top


def run(words: Optional[Sequence[str]] = None) -> int:
    """Runs a command line, and answers with its status."""
    words = sys.argv[1:] if words is None else words
    given = parser(words).parse_args(words)
    try:
        return int(importlib.import_module(COMMANDS[given.command].module).run(given))
    except GractError as refusal:
        return tell(refusal)
    except BrokenPipeError:
        # Whoever reads only the first lines has all that is wanted.
        os.dup2(os.open(os.devnull, os.O_WRONLY), sys.stdout.fileno())
        return 0
    except OSError as refusal:
        return tell(refusal)
    except KeyboardInterrupt:
        return 130


def tell(refusal: Exception) -> int:
    """Tells a refusal on standard error, and answers with the status that it is worth."""
    print(f"gract: {refusal}", file=sys.stderr)
    return 1
