"""Shards of an index, by object, that the workers of Dask's distributed scheduler build and ask.

    from gract import shards
    if __name__ == "__main__":
        shards.build(["1.csv", "2.csv"], "fleets", count=8, cell=100, tick=60)
        with shards.open("fleets") as fleets:
            fleets.slice(at=27568080, region=gract.rect(7000, 60000, 8000, 61000))

An object's rows are in one shard. The scheduler says which worker does what; one that dies is begun again by its nanny, and what it was
asked is asked anew. docs/SHARDS.md says what is asked of which shard.
"""

import os
import pickle
import threading
from contextlib import contextmanager
from typing import Any, Callable, Collection, Dict, Iterator, List, Mapping, Optional, Sequence, Tuple

from ..answers import Answers
from ..errors import DistributedMissing, GractError, WorkerLost
from ..grid import Grid, whole
from ..index import Index
from ..program import Name
from .folders import WAIT
from .listing import Checked, Told, check_parts, list_parts
from .manifest import COUNTS, ByObject, Listed
from .parted import DAMAGE, Here, Outcome, Parted, load, open_part
from .parts import Added, Run
from .parts import add as add_parts
from .parts import build as build_parts

# How often a shard is asked anew where its child dies, and not its worker.
RETRIES = 2

# How long a worker of a cluster that is begun here may be away before it is given up.
LOST = "1 day"

# The addresses of this machine alone, where nobody else may say which worker does what.
HERE = "127.0.0.1"


class Shard:
    """A shard that a worker has, opened when it is first asked. The scheduler sends what is asked of it to the worker that has it, and
    makes another where that worker died. Its copy in another process is opened there."""

    def __init__(self, program: str, listed: Listed):
        self._words = program, listed
        self._index: Optional[Index] = None
        self._lock = threading.Lock()

    def __reduce__(self) -> Tuple[Any, ...]:
        return Shard, self._words

    def __sizeof__(self) -> int:
        # What the scheduler takes it to cost to have it elsewhere: it would be read there.
        file = self._words[1].file
        return os.path.getsize(file) if os.path.exists(file) else object.__sizeof__(self)

    def ask(self, lines: List[bytes]) -> Outcome:
        """The replies to the first of lines, or that it is damaged."""
        program, listed = self._words
        with self._lock:
            try:
                if self._index is None:
                    self._index = open_part(listed, program)
                return self._index._first(lines)
            except DAMAGE as refusal:
                return refusal


def ask_shards(shards: List[Shard], lines: List[List[bytes]]) -> bytes:
    """What a worker does. Its outcomes are sent as one text: of a list of lines Dask sends each line by itself, which takes 20 times as
    long."""
    return pickle.dumps([shard.ask(asked) for shard, asked in zip(shards, lines)])


class Workers:
    """Asks shards by the workers of a client; a line of one shard alone in this process, where its file can be read here: a scheduler
    takes a hundred times as long as such a line. What is asked of several shards is one task for each worker that has some of them."""

    def __init__(self, client: Any, program: str, end: Optional[Callable[[], None]]):
        self._client, self._program, self._end = client, program, end
        self._lock = threading.Lock()
        self._here = Here("shards", program)
        self._shards: Dict[Listed, Any] = {}

    def ask(self, parts: Mapping[int, Listed], lines: Mapping[int, List[bytes]]) -> Dict[int, Outcome]:
        """The replies of each of these shards to the first of its lines, or that it is damaged. Refuses, by `WorkerLost`, a shard of which
        worker after worker died."""
        if is_short(lines) and all(os.access(parts[number].file, os.R_OK) for number in lines):
            found = self._here.ask(parts, lines)
            # What is another file here may be the right one elsewhere.
            if not any(isinstance(outcome, GractError) for outcome in found.values()):
                return found
        return self._ask_workers(parts, lines)

    def _ask_workers(self, parts: Mapping[int, Listed], lines: Mapping[int, List[bytes]]) -> Dict[int, Outcome]:
        from distributed.scheduler import KilledWorker

        shards = {number: self._shard(parts[number]) for number in lines}
        groups = self._by_worker(shards)
        futures = [
            self._client.submit(
                ask_shards, [shards[number] for number in group], [lines[number] for number in group], pure=False, retries=RETRIES,
            )
            for group in groups
        ]
        try:
            outcomes = self._client.gather(futures)
        except KilledWorker:
            lost = next((group for group, future in zip(groups, futures) if future.status == "error"), groups[0])
            raise WorkerLost(parts[lost[0]].file) from None
        found = {number: outcome for group, told in zip(groups, outcomes) for number, outcome in zip(group, pickle.loads(told))}
        return {number: found[number] for number in lines}

    def _by_worker(self, shards: Mapping[int, Any]) -> List[List[int]]:
        """The numbers of shards, those together that one worker has. A shard that none has yet, or that is on its way, is by itself."""
        if len(shards) == 1:
            return [[*shards]]
        there = self._client.who_has([*shards.values()])
        groups: Dict[Any, List[int]] = {}
        for number, shard in shards.items():
            having: Sequence[Any] = there.get(shard.key) or ()
            groups.setdefault(having[0] if len(having) == 1 else number, []).append(number)
        return [*groups.values()]

    def _shard(self, listed: Listed) -> Any:
        """The shard that a worker has, or is to have."""
        with self._lock:
            if listed not in self._shards:
                self._shards[listed] = self._client.submit(Shard, self._program, listed, pure=False)
            return self._shards[listed]

    def keep(self, parts: Collection[Listed]) -> None:
        """Lets go of all shards but these."""
        self._here.keep(parts)
        with self._lock:
            self._shards = {listed: shard for listed, shard in self._shards.items() if listed in parts}

    def close(self) -> None:
        """Lets go of the shards, which closes them, and ends the workers that were begun for them."""
        self._here.close()
        self._shards = {}
        if self._end is not None:
            self._end()


def is_short(lines: Mapping[int, List[bytes]]) -> bool:
    """Whether it is one line, of one shard."""
    return len(lines) == 1 and all(len(asked) == 1 for asked in lines.values())


class Shards(Parted):
    """Shards that are asked as one index: `position` and `path` of the shard of the object, `slice`, `interval` and `nearest` of all, and
    `meet` of the shard that has both objects, or by two paths where two shards have them."""

    first_batch = 1024
    has_whole_names = True


@contextmanager
def at_work(client: Optional[Any], workers: Optional[int]) -> Iterator[Any]:
    """The client given, or one of workers that are begun here and ended afterwards."""
    known, end = begun(client, workers)
    try:
        yield known
    finally:
        if end is not None:
            end()


def begun(client: Optional[Any], workers: Optional[int]) -> Tuple[Any, Optional[Callable[[], None]]]:
    """The client given; or one of workers that are begun on this machine, for its own addresses alone, and what ends them. Refuses, by
    `DistributedMissing`, where there is no scheduler."""
    try:
        from dask import config
        from distributed import Client, LocalCluster
    except ImportError:
        raise DistributedMissing() from None
    if client is not None:
        return client, None
    count = whole("workers", os.cpu_count() or 1 if workers is None else workers, *COUNTS)
    # A cluster lets go of a worker that is not there so long after it died. One that dies again by then may be on its way.
    config.set({"distributed.deploy.lost-worker-timeout": LOST})
    any_port = f"{HERE}:0"
    begin_cluster: Any = LocalCluster
    begin_client: Any = Client
    cluster = begin_cluster(
        n_workers=count, threads_per_worker=1, processes=True, host=HERE, dashboard_address=any_port, worker_dashboard_address=any_port,
    )
    known = begin_client(cluster)

    def end() -> None:
        known.close()
        cluster.close()

    return known, end


def by_workers(client: Any) -> Run:
    """Runs a function with each argument by workers. What a worker that died was to do is done anew."""
    def run(function: Callable[[Any], Any], arguments: Sequence[Any]) -> List[Any]:
        done: List[Any] = client.gather(client.map(function, arguments, pure=False))
        return done

    return run


def build(rows: Any, path: Name, *, count: int, cell: Optional[int] = None, tick: Optional[int] = None, period: int = 120,
          grid: Optional[Grid] = None, program: Optional[Name] = None, client: Optional[Any] = None, workers: Optional[int] = None,
          replace: bool = False, wait: float = WAIT) -> None:
    """Builds `count` shards of rows in the folder `path`, with a list of them: an object is in that of its number modulo `count`.

    `rows` are those of `gract.build`, or the names of several CSV files, which workers cut side by side. `client` is one of Dask's, whose
    workers have this package, the program, and the files under the same names; else so many `workers` as are said, or as there are
    processors, are begun on this machine and ended. The other arguments, and what is refused, are those of `gract.build`. A folder that
    has other things in it is not written into. One that has parts is refused too, by `OverwriteError`, since all of them would be lost:
    with `replace` these shards take their place, and `add` adds to them. A folder that another process writes is waited for, so many
    seconds; then it is a `BusyError`.
    """
    cut = ByObject(whole("count", count, *COUNTS))
    with at_work(client, workers) as known:
        build_parts(rows, path, cut, cell=cell, tick=tick, period=period, grid=grid, program=program, run=by_workers(known),
                    replace=replace, wait=wait)


def add(rows: Any, path: Name, *, grid: Optional[Grid] = None, program: Optional[Name] = None, client: Optional[Any] = None,
        workers: Optional[int] = None, wait: float = WAIT) -> Added:
    """Adds rows to the shards of the folder `path`, as `gract.days.add` does to days. Every shard of which rows have an object is written
    anew, which is nearly every one: what it costs grows with all rows that are there. `client` and `workers` are those of `build`."""
    with at_work(client, workers) as known:
        return add_parts(rows, path, ByObject, grid=grid, program=program, run=by_workers(known), wait=wait)


def list(path: Name) -> "Answers[Told]":
    """What the list says of each shard: the first and the last instant of its rows, how many rows, objects and bytes it has, and its
    file."""
    return list_parts(path, ByObject)


def check(path: Name, *, program: Optional[Name] = None) -> Checked:
    """Compares each shard with the list, by its sum and its facts, and opens it; and names files that are not in the list."""
    return check_parts(path, ByObject, program)


def open(path: Name, *, program: Optional[Name] = None, grid: Optional[Grid] = None, partial: bool = False,
         client: Optional[Any] = None, workers: Optional[int] = None) -> Shards:
    """Opens shards: each is opened by a worker and asked for its facts, so that a damaged one is told at once, by `PartsError`; with
    `partial` the others answer without it. `client` and `workers` are those of `build`; the grid is the one given, else that with which
    they were built. Refuses, by `ManifestError`, a folder that has no shards."""
    folder, manifest, found = load(path, ByObject, program, grid)
    known, end = begun(client, workers)
    opened = Shards(folder, manifest, Workers(known, found, end), found, partial, grid)
    try:
        opened.info()
    except BaseException:
        opened.close()
        raise
    return opened
