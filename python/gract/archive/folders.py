"""A folder of parts that is written: by one at a time, and with nothing lost whenever who writes is killed.

Who writes has the lock of the file FOLDER/lock, which ends with its process and is never removed. It works in a folder within, says there
which files it puts into the folder and which it takes away, puts the new parts in, then the list in the place of the one that is there,
and takes away what no list has last. So whoever writes next knows what one left that was killed, and nothing else is ever taken away.
Parts, the folder, the list and the folder are synced in this order: what the list on a disk says is there.
"""

import errno
import fcntl
import json
import os
import re
import shutil
import stat
import tempfile
import time
from contextlib import contextmanager, suppress
from pathlib import Path
from typing import Collection, Dict, Iterator, List, Mapping, NamedTuple, Optional, Set

from ..errors import BusyError, GractError, ManifestError, OverwriteError, SaveError
from ..plain_json import read_json
from ..processes import no_copies
from ..program import why_unread
from .manifest import LIST, PART, Manifest

LOCK = "lock"

# A folder within.
WITHIN = "gract-build-"
BUILD = re.compile(rf"{WITHIN}[a-z0-9_]{{8}}")

# What a folder within says of files: those that come into the folder, and those that go.
MOVES = "moves.json"

# How long, in seconds, one waits for who writes, how often it is looked, and how long files stay that were replaced.
WAIT = 60.0
LOOK = 0.05
KEPT = 86400


class Lock(NamedTuple):
    """An open file of this process, and whether it is locked. Not every file system has locks."""

    file: int
    is_held: bool
    owner: int

    @property
    def is_mine(self) -> bool:
        """Whether this process opened it, and is no copy of the one that did."""
        return self.owner == os.getpid()

    def let_go(self) -> None:
        """Lets go of it, also where a copy of this process has it open."""
        if not self.is_mine:
            return
        _OPEN.discard(self.file)
        if self.is_held:
            with suppress(OSError):
                fcntl.flock(self.file, fcntl.LOCK_UN)
        os.close(self.file)


# Lock files that are open, which a copy of this process closes.
_OPEN: Set[int] = set()


def _is_copy() -> None:
    for file in list(_OPEN):
        os.close(file)
    _OPEN.clear()


os.register_at_fork(after_in_child=_is_copy)


class Written(NamedTuple):
    """A folder that is locked: its list, if it has one, and a folder within to build in."""

    folder: Path
    there: Optional[Manifest]
    within: Path

    def put(self, manifest: Manifest, files: Mapping[int, str]) -> None:
        """Puts parts that were built into the folder, from these files by their numbers, and then a list in the place of the one that is
        there. Files that it has no more are taken away afterwards."""
        names = {number: manifest.parts[number].file for number in files}
        before = set(self.there.files) if self.there is not None else set()
        moves = {"new": sorted(set(names.values()) - before), "gone": sorted(before - set(manifest.files))}
        (self.within / MOVES).write_text(json.dumps(moves), encoding="ascii")
        manifest.save(self.within / LIST)
        for file in (*files.values(), self.within / MOVES, self.within):
            sync(file)
        for number, name in names.items():
            os.replace(files[number], self.folder / name)
        sync(self.folder)
        sync(self.within / LIST)
        os.replace(self.within / LIST, self.folder / LIST)
        sync(self.folder)

    def replaced(self, parts: Collection[str], dropped: Collection[str] = ()) -> Dict[str, int]:
        """The files that a list with these parts keeps: those that were parts until now, and those that were replaced within a day, but
        what is dropped."""
        if self.there is None:
            return {}
        moment = int(time.time())
        # A clock that was set back keeps a file for a day from then on.
        kept = {name: min(since, moment) for name, since in self.there.replaced.items() if moment - since < KEPT}
        kept.update((part.file, moment) for part in self.there.parts.values())
        return {name: since for name, since in kept.items() if name not in parts and name not in dropped}


@contextmanager
def folder_to_build_in(folder: Path, replace: bool, wait: float = WAIT) -> Iterator[Written]:
    """A folder to build in, which is made where it is not there. Refuses, by `OverwriteError`, one that has other things in it, and
    one that has parts, unless they are to be replaced; by `BusyError` one that another process writes for longer than `wait` seconds;
    and by `SaveError` what the system refuses."""
    with saving(folder):
        refuse_strangers(folder)
        folder.mkdir(parents=True, exist_ok=True)
    with written(folder, wait, OverwriteError) as found:
        if found.there is None and {place.name for place in folder.iterdir()} - {LOCK, found.within.name}:
            raise OverwriteError(str(folder))
        if found.there is not None and not replace:
            told = f"has {found.there.text}: they are replaced, and lost, with replace=True alone; add adds to them"
            raise OverwriteError(str(folder), told)
        yield found


@contextmanager
def folder_to_add_to(folder: Path, wait: float = WAIT) -> Iterator[Written]:
    """A folder of parts to be changed. Refuses, by `ManifestError`, one that is none, and as `folder_to_build_in` what is written and
    what the system refuses."""
    if not os.path.lexists(folder / LIST):
        raise ManifestError(str(folder / LIST), why_unread(str(folder / LIST)))
    with written(folder, wait, ManifestError) as found:
        yield found


@contextmanager
def written(folder: Path, wait: float, kind: type) -> Iterator[Written]:
    """A folder that is locked, without what was left of others, and with a folder within that is gone afterwards. A list that is none
    is refused by that kind of refusal."""
    with saving(folder):
        lock = locked(folder, wait)
        try:
            there = list_there(folder, kind)
            if lock.is_held:
                sweep(folder, leftovers(folder))
            within = Path(tempfile.mkdtemp(prefix=WITHIN, dir=folder))
            try:
                yield Written(folder, there, within)
            finally:
                if lock.is_mine:
                    sweep(folder, [within])
        finally:
            lock.let_go()


@contextmanager
def saving(folder: Path) -> Iterator[None]:
    """Where a folder is written: what the system refuses, as a full disk, is a `SaveError`."""
    try:
        yield
    except GractError:
        raise
    except (FileExistsError, NotADirectoryError):
        raise OverwriteError(str(folder)) from None
    except OSError as fault:
        raise SaveError(str(folder)) from fault


def refuse_strangers(folder: Path) -> None:
    """Refuses, by `OverwriteError`, a folder without a list that has anything in it but what a build leaves that is killed, before there is
    a lock in it."""
    if not folder.is_dir() or os.path.lexists(folder / LIST):
        return
    for place in folder.iterdir():
        if place.name != LOCK and not BUILD.fullmatch(place.name) and not PART.fullmatch(place.name):
            raise OverwriteError(str(folder))


def locked(folder: Path, wait: float) -> Lock:
    """The lock of a folder. Refuses, by `BusyError`, where another has it for longer than `wait` seconds."""
    until = time.monotonic() + wait
    while True:
        lock = lock_of(folder)
        if lock is not None and is_of(lock, folder):
            return lock
        if lock is not None:
            # The folder was taken away meanwhile, and made anew.
            lock.let_go()
        elif time.monotonic() >= until:
            raise BusyError(str(folder), f"is being written by another process, and was for {wait:g} seconds: wait= says how long to wait")
        time.sleep(LOOK)


def lock_of(folder: Path) -> Optional[Lock]:
    """The lock of a folder, or None where another has it."""
    flags = os.O_CREAT | os.O_NOFOLLOW | os.O_CLOEXEC | os.O_NONBLOCK
    with no_copies():
        try:
            file = os.open(folder / LOCK, os.O_RDWR | flags, 0o666)
        except PermissionError:
            file = os.open(folder / LOCK, os.O_RDONLY | flags, 0o666)
        _OPEN.add(file)
    try:
        found = os.fstat(file)
        if not stat.S_ISREG(found.st_mode) or found.st_size:
            raise OverwriteError(str(folder / LOCK), "is there and is no lock of gract: take another folder, or remove it")
        fcntl.flock(file, fcntl.LOCK_EX | fcntl.LOCK_NB)
    except BlockingIOError:
        Lock(file, False, os.getpid()).let_go()
        return None
    except OSError as fault:
        if fault.errno in (errno.ENOLCK, errno.ENOSYS, errno.EOPNOTSUPP, errno.EBADF, errno.EINVAL):
            return Lock(file, False, os.getpid())
        Lock(file, False, os.getpid()).let_go()
        raise
    return Lock(file, True, os.getpid())


def is_of(lock: Lock, folder: Path) -> bool:
    """Whether a lock is still that of a folder."""
    try:
        return os.path.samestat(os.fstat(lock.file), os.lstat(folder / LOCK))
    except FileNotFoundError:
        return False


def list_there(folder: Path, kind: type) -> Optional[Manifest]:
    """The list of a folder, if it has one. One that is none is refused, by that kind of refusal."""
    try:
        return Manifest.load(folder) if os.path.lexists(folder / LIST) else None
    except ManifestError:
        if kind is ManifestError:
            raise
        raise OverwriteError(str(folder)) from None


def sync(file: object) -> None:
    """Has the system write a file or a folder to its disk."""
    place = os.open(str(file), os.O_RDONLY | os.O_CLOEXEC)
    try:
        os.fsync(place)
    finally:
        os.close(place)


# What one left that was killed.


def leftovers(folder: Path) -> List[Path]:
    """The folders within that are there. A link is none."""
    return [place for place in folder.iterdir() if BUILD.fullmatch(place.name) and place.is_dir() and not place.is_symlink()]


def sweep(folder: Path, builds: Collection[Path]) -> None:
    """Takes away folders within, with the files that they say come or go and that the folder's list does not have. What cannot be taken
    away, since what was begun there still writes for example, is left to who writes next; and so is all where the list cannot be read."""
    kept: Optional[Set[str]] = None
    if os.path.lexists(folder / LIST):
        try:
            kept = set(Manifest.load(folder).files)
        except ManifestError:
            return
    for within in builds:
        moves = moves_of(within)
        # Where there is no list nothing has taken the place of what goes.
        for name in moves["new"] | (moves["gone"] if kept is not None else set()):
            if name not in (kept or ()):
                with suppress(OSError):
                    (folder / name).unlink()
        shutil.rmtree(within, ignore_errors=True)


def moves_of(within: Path) -> Dict[str, Set[str]]:
    """The files that a folder within says come and go; none where it says nothing that is right."""
    found: Dict[str, Set[str]] = {"new": set(), "gone": set()}
    try:
        told = read_json(within / MOVES)
        for what in found:
            found[what] = {name for name in told[what] if PART.fullmatch(name)}
    except (OSError, ValueError, TypeError, KeyError, AttributeError):
        return {"new": set(), "gone": set()}
    return found
