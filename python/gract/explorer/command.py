"""`python3 -m gract explore`: opens a map in the browser."""

import argparse
import re
import signal
import sys
import threading
import webbrowser
from typing import Callable, Optional

from ..errors import ArgumentError
from ..grid import Grid
from .charts import Charts, Source
from .explorer import Explorer, extent_of
from .guard import StartFile
from .server import Server
from .shores import coast_of

# What stands behind `#`: pairs NAME=VALUE, in letters that need no quoting there.
STATE = re.compile(r"[A-Za-z0-9%_.,;:=&+~*!'()-]{0,8000}")


def add_to(explore: argparse.ArgumentParser) -> None:
    """Gives the sub-command its words."""
    explore.epilog = "The map is served on this machine alone, until it is interrupted (Ctrl-C)."
    explore.add_argument("index", metavar="INDEX|ARCHIVE")
    explore.add_argument("--tail", metavar="ROWS", help="a CSV file of rows that came since the index was built")
    explore.add_argument("--coast", metavar="FILE", help="a GeoJSON file, or gshhg (else a coarse coast, where geopandas is there)")
    explore.add_argument("--grid", metavar="FILE", help="the grid (else NAME.grid.json beside the index, if it is there)")
    explore.add_argument("--at", metavar="TEXT", default="", help="what to show: a link that was copied from the page")
    explore.add_argument("--no-browser", action="store_true", help="only say which file opens the page")


def run(given: argparse.Namespace) -> int:
    """Runs the sub-command. A signal that would end it ends it as Ctrl-C does, so that its start file goes."""
    for ending in (signal.SIGTERM, signal.SIGHUP):
        signal.signal(ending, signal.default_int_handler)
    show: Callable[[str], bool] = webbrowser.open
    if given.no_browser:
        show = no_browser
    explore(given.index, tail=given.tail, coast=given.coast, grid=given.grid, at=given.at, program=given.program, show=show)
    return 0


def no_browser(file: str) -> bool:
    """Opens nothing."""
    return False


def state_of(text: str) -> str:
    """What a link is to show: what stands behind its `#`, without a secret. Refuses what is no link."""
    state = text.strip().rpartition("#")[2]
    if not STATE.fullmatch(state):
        raise ArgumentError("at", f"{text[:60]!r} is no link that was copied from the page")
    return "&".join(pair for pair in state.split("&") if pair and not pair.startswith("secret="))


def explore(path: str, *, tail: Optional[str] = None, coast: Optional[str] = None, grid: Optional[str] = None, at: str = "",
            program: Optional[str] = None, show: Callable[[str], bool] = webbrowser.open) -> None:
    """Serves a map of an index or an archive until it is interrupted. `grid` is a file, and `show` gets the address of the file that
    opens it. Refuses as opening the index does, by `ArgumentError` a tail of an archive and an `at` that is no link, and by
    `CoastError` a coast."""
    state = state_of(at)
    source = Source(path, tail, None if grid is None else Grid.load(grid), program, grid)
    if tail is not None and source.is_archive():
        raise ArgumentError("tail", "an archive has none: build its newest day anew")
    with Charts(source) as charts:
        _, box = charts.play.ask(extent_of)
        explorer = Explorer(charts, coast_of(charts.play.chart.grid, coast, box))
        with Server(explorer.routes, explorer.marks) as server, StartFile(server.guard.address(state)) as start:
            threading.Thread(target=server.serve_forever, args=(0.1,), daemon=True).start()
            print(f"gract: the map of {path} is opened by {start.file.as_uri()}; Ctrl-C ends it", file=sys.stderr, flush=True)
            show(start.file.as_uri())
            try:
                threading.Event().wait()
            except KeyboardInterrupt:
                pass
            finally:
                server.shutdown()
