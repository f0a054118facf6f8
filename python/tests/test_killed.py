"""Archives that several add to at once, or that are added to by one that is killed, finds no room, or may not write."""

import json
import os
import resource
import shutil
import signal
import subprocess
import threading
import time
import unittest
from pathlib import Path
from unittest import mock

import gract
from gract.archive import days, folders, manifest, parts

from . import plain
from .test_forks import copy, status_of
from .test_growing import NEW, OLD, Archive, contents

KILLS = 100


class Killed(Archive):
    def test_two_at_once(self):
        """One waits for the other, and both are there afterwards; a copy of the process has no lock."""
        days.build(OLD, self.parts, length=10)
        batches = [[(item, at, item, 2 * at) for item in range(3) for at in range(since, since + 15)] for since in (0, 20, 40)]
        copies = [copy(lambda rows=rows: days.add(rows, self.parts, wait=60) is not None) for rows in batches]
        self.assertEqual([status_of(pid) for pid in copies], [0, 0, 0])
        with days.open(self.parts) as asked:
            table = plain.Plain(plain.gridded([*OLD, *(row for rows in batches for row in rows)]))
            for item in table.objects:
                self.assertEqual(asked.path(item), table.path(item, table.first, table.last))
        begun, done = threading.Event(), threading.Event()

        def waits(function, arguments):
            begun.set()
            done.wait(60)
            return parts.one_by_one(function, arguments)

        thread = threading.Thread(target=days.add, args=(NEW, self.parts), kwargs={"run": waits})
        thread.start()
        begun.wait(60)
        since = time.monotonic()
        for refused in (lambda: days.add(NEW, self.parts, wait=0.3), lambda: days.drop(self.parts, before=10, wait=0)):
            with self.assertRaises(gract.BusyError):
                refused()
        self.assertGreater(time.monotonic() - since, 0.3)
        other = copy(lambda: time.sleep(30) is None)
        done.set()
        thread.join()
        days.add(OLD, self.parts, wait=5)
        os.kill(other, signal.SIGKILL)
        os.waitpid(other, 0)

    def test_kills(self):
        """One that adds is killed at random moments: what is there is what was there or all of it, and nothing is left once one was not."""
        days.build(OLD, self.folder / "before", length=10)
        wanted = {before: self.wanted(*batches) for before, batches in ((True, [OLD]), (False, [OLD, NEW]))}
        shutil.copytree(self.folder / "before", self.parts)
        begun = time.monotonic()
        self.assertEqual(status_of(copy(lambda: days.add(NEW, self.parts) is not None)), 0)
        whole, draw, seen = time.monotonic() - begun, plain.randomness(1), []
        for _ in range(KILLS):
            shutil.rmtree(self.parts)
            shutil.copytree(self.folder / "before", self.parts)
            pid = copy(lambda: days.add(NEW, self.parts) is not None)
            time.sleep(draw.uniform(0, 1.05 * whole))
            os.kill(pid, signal.SIGKILL)
            os.waitpid(pid, 0)
            found = self.replies()
            self.assertIn(found, wanted.values())
            seen.append(found == wanted[True])
            listed = set(manifest.Manifest.load(self.parts).files)
            self.assertLessEqual(listed, set(os.listdir(self.parts)))
            self.is_clean()
            self.assertEqual(self.replies(), wanted[False])
        self.assertIn(True, seen)

    def test_steps(self):
        """Killed before each step that it takes in the folder, and where each of them fails."""
        days.build(OLD, self.folder / "before", length=10)
        wanted = [self.wanted(OLD), self.wanted(OLD, NEW)]
        for name, most, step in (("replace", 6, 1), ("fsync", 10, 2), ("unlink", 12, 2), ("open", 40, 5)):
            for nth in range(1, most, step):
                for how in ("dies", "fails"):
                    shutil.rmtree(self.parts, ignore_errors=True)
                    shutil.copytree(self.folder / "before", self.parts)
                    status = status_of(copy(lambda: self.stopped(name, nth, how)))
                    self.assertIn(status, (0, 9), f"{name} {nth} {how}")
                    self.assertIn(self.replies(), wanted)
                    if status != 0 or how == "fails":
                        self.is_clean()
                        self.assertEqual(self.replies(), wanted[1])

    def stopped(self, name, nth, how, rows=NEW):
        """Adds where the Nth call of a function of the system ends all, or fails; then what is refused is a `GractError`."""
        whole, count = getattr(os, name), []

        def called(*words, **others):
            count.append(1)
            if len(count) == nth:
                if how == "dies":
                    os._exit(9)
                raise OSError(28, "No space left on device")
            return whole(*words, **others)

        with mock.patch.object(os, name, called):
            try:
                days.add(rows, self.parts)
            except gract.GractError:
                pass
        return True

    def test_what_is_left(self):
        """Of one that is killed while it puts parts in, or takes replaced ones away, nothing is left once another has added other rows."""
        days.build(OLD, self.folder / "before", length=10)
        others, later = [(1, 5, 7, 7)], time.time() + 86500

        def a_day_later(nth):
            with mock.patch("time.time", lambda: later):
                return self.stopped("unlink", nth, "dies", others)

        left = []
        for nth in (2, 3, 4, 5):
            shutil.copytree(self.folder / "before", self.parts)
            self.assertEqual(status_of(copy(lambda: self.stopped("replace", nth, "dies"))), 9 if nth < 5 else 0)
            left.append(len(days.check(self.parts).unlisted))
            self.is_clean(others)
            self.assertEqual(self.replies(), self.wanted(OLD, others) if nth < 5 else self.wanted(OLD, NEW, others))
            shutil.rmtree(self.parts)
        self.assertEqual(left, [2, 3, 4, 0])
        for nth in (1, 2):
            shutil.copytree(self.folder / "before", self.parts)
            days.add(NEW, self.parts)
            self.assertEqual(status_of(copy(lambda: a_day_later(nth))), 9)
            self.assertGreater(len(days.check(self.parts).unlisted), 1)
            with mock.patch("time.time", lambda: later):
                self.is_clean([(1, 6, 7, 7)])
            self.assertEqual(self.replies(), self.wanted(OLD, NEW, others, [(1, 6, 7, 7)]))
            shutil.rmtree(self.parts)

    def test_order_of_syncs(self):
        """Parts, the folder, the list, the folder."""
        synced, sync = [], folders.sync
        days.build(OLD, self.parts, length=10)
        with mock.patch.object(folders, "sync", lambda file: synced.append(Path(file)) or sync(file)):
            days.add(NEW, self.parts)
        names = ["folder" if file == self.parts else file.suffix or "within" for file in synced]
        self.assertEqual(names, [".idx", ".idx", ".idx", ".json", "within", "folder", ".json", "folder"])

    def test_files_that_cannot_grow(self):
        """Where files may have so many bytes and no more, which is as on a disk that is full: refused, and nothing is changed."""
        days.build(OLD, self.parts, length=10)
        before = contents(self.parts)
        for most in (0, 60, 200, 400, 700, 1000, 1500, 2000):
            self.assertEqual(status_of(copy(lambda: self.refused_at(most))), 0, most)
            self.assertEqual(contents(self.parts), before)
        self.is_clean()

    def refused_at(self, most):
        resource.setrlimit(resource.RLIMIT_FSIZE, (most, most))
        try:
            days.add([(item, at, item, 7 * at % 100) for item in range(20) for at in range(25, 60)], self.parts)
        except gract.GractError:
            return True
        return False

    def test_a_full_disk(self):
        """A small one of its own, where the system lets it be made."""
        script = (
            "import sys, gract; from gract.archive import days; folder = sys.argv[1]\n"
            "days.build([(i, t, i, t) for i in range(9) for t in range(30)], folder + '/parts', length=10)\n"
            "before = days.list(folder + '/parts'); sizes = []\n"
            "for size in range(20, 4000, 200):\n"
            "    rows = [(i, t, i * t % 97, t * t % 89) for i in range(size) for t in range(30, 60)]\n"
            "    try: days.add(rows, folder + '/parts')\n"
            "    except gract.GractError as refusal: sizes.append(size); assert days.check(folder + '/parts').is_whole, refusal\n"
            "    else: before = days.list(folder + '/parts')\n"
            "    assert days.list(folder + '/parts') == before\n"
            "print(len(sizes))\n"
        )
        self.parts.mkdir()
        told = 'mount -t tmpfs -o size=512k tmpfs "$1" || exit 77; exec python3 -c "$2" "$1"'
        try:
            run = subprocess.run(
                ["unshare", "--mount", "sh", "-c", told, "sh", str(self.parts), script], capture_output=True, text=True,
                env={**os.environ, "PYTHONPATH": str(plain.TOP / "python")},
            )
        except FileNotFoundError:
            self.skipTest("unshare is not there, a full disk was not tried")
        if run.returncode == 77 or "unshare failed" in run.stderr:
            self.skipTest("no disk may be made here, a full one was not tried")
        self.assertEqual(run.returncode, 0, run.stderr)
        self.assertGreater(int(run.stdout), 5)

    def test_a_folder_that_may_not_be_written(self):
        """It is read, and nothing else."""
        days.build(OLD, self.parts, length=10)
        wanted, before = self.wanted(OLD), contents(self.parts)
        self.folder.chmod(0o755)
        self.parts.chmod(0o555)
        try:
            self.assertEqual(status_of(copy(lambda: self.only_read(wanted))), 0)
        finally:
            self.parts.chmod(0o755)
        self.assertEqual(contents(self.parts), before)

    def only_read(self, wanted):
        if os.geteuid() == 0:
            os.setgid(65534)
            os.setuid(65534)
        for refused in (lambda: days.add(NEW, self.parts), lambda: days.drop(self.parts, before=20),
                        lambda: days.build(NEW, self.parts, length=10, replace=True)):
            try:
                refused()
                return False
            except gract.SaveError:
                pass
        return self.replies() == wanted and days.check(self.parts).is_whole and len(days.list(self.parts)) == 3

    def test_what_is_left_alone(self):
        """Links, files of other names, and what a folder within says of files that are not ours or are listed."""
        days.build(OLD, self.parts, length=10)
        outside = self.folder / "outside"
        outside.mkdir()
        (outside / "kept").touch()
        listed = days.list(self.parts)[0].file
        moves = {"new": ["../outside/kept", "kept", listed, 7, "part_0_aaaaaaaaaaaa.idx"], "gone": [listed, "../outside/kept"]}
        for name in ("gract-build-abcdefgh", "gract-build-mine", "gract-build-abcdefg1"):
            (self.parts / name).mkdir()
            (self.parts / name / folders.MOVES).write_text(json.dumps({**moves, "new": moves["new"][:2]} if "1" in name else moves))
        (self.parts / "gract-build-01234567").symlink_to(outside)
        (self.parts / "part_9_0123456789ab.idx").touch()
        (self.parts / "kept").touch()
        days.add(NEW, self.parts)
        self.assertEqual(self.replies(), self.wanted(OLD, NEW))
        self.assertEqual(days.check(self.parts).unlisted, ["gract-build-01234567", "gract-build-mine", "kept", "part_9_0123456789ab.idx"])
        self.assertEqual(os.listdir(outside), ["kept"])
        (self.parts / "lock").unlink()
        (self.parts / "lock").symlink_to(outside / "kept")
        with self.assertRaises(gract.GractError):
            days.add(NEW, self.parts)
        (self.parts / "lock").unlink()
        (self.parts / "lock").write_text("mine")
        with self.assertRaises(gract.OverwriteError):
            days.add(NEW, self.parts)
        self.assertEqual((self.parts / "lock").read_text(), "mine")

    def test_a_list_that_was_lost(self):
        """Where somebody took the list away, what one left that was killed takes no day with it."""
        days.build(OLD, self.parts, length=10)
        self.assertEqual(status_of(copy(lambda: self.stopped("replace", 3, "dies"))), 9)
        there = sorted(file.name for file in self.parts.glob("part_*"))
        told = (self.parts / manifest.LIST).read_bytes()
        for text in (None, b"{}"):
            (self.parts / manifest.LIST).unlink(missing_ok=True)
            if text is not None:
                (self.parts / manifest.LIST).write_bytes(text)
            for refused in (lambda: days.add(NEW, self.parts), lambda: days.build(NEW, self.parts, length=10)):
                with self.assertRaises((gract.ManifestError, gract.OverwriteError)):
                    refused()
            self.assertLessEqual(set(manifest.Manifest.of(json.loads(told)).files), {file.name for file in self.parts.glob("part_*")})
        (self.parts / manifest.LIST).write_bytes(told)
        self.assertGreater(len(there), 3)
        self.is_clean()


if __name__ == "__main__":
    unittest.main()
