"""Shards that workers of Dask's distributed scheduler build and ask: their replies beside those of one index, and workers that die."""

import importlib.util
import os
import signal
import tempfile
import threading
import time
import unittest
from pathlib import Path
from unittest import mock

import gract
from gract.archive import days, shards

from . import plain
from .parted import Charts, reply_bytes

CHARTS = 20


def listening(pids):
    """The addresses on which processes listen, as Linux tells them."""
    sockets = set()
    for pid in pids:
        for place in Path(f"/proc/{pid}/fd").iterdir():
            try:
                sockets.add(os.readlink(place))
            except OSError:
                pass
    lines = [line.split() for name in ("tcp", "tcp6") for line in Path(f"/proc/net/{name}").read_text().splitlines()[1:]]
    return {line[1].split(":")[0] for line in lines if line[3] == "0A" and f"socket:[{line[9]}]" in sockets}


def worker_pids(client, killed=()):
    """The processes of the workers of a cluster on this machine, once others have come for those that were killed."""
    for _ in range(600):
        pids = {nanny.pid for nanny in client.cluster.workers.values()}
        if None not in pids and not pids & set(killed):
            return pids
        time.sleep(0.1)
    raise AssertionError("a worker that died was not begun again")


class Shards(unittest.TestCase):
    @classmethod
    def setUpClass(cls):
        if importlib.util.find_spec("distributed") is None:
            raise unittest.SkipTest("distributed is not installed, shards were not asked by workers")
        cls.client, cls.end = shards.begun(None, 3)

    @classmethod
    def tearDownClass(cls):
        cls.end()

    def setUp(self):
        folder = tempfile.TemporaryDirectory()
        self.addCleanup(folder.cleanup)
        self.folder = Path(folder.name)

    def built(self):
        rows = [(item, at, item * at % 50, at) for item in range(30) for at in range(40)]
        shards.build(rows, self.folder / "parts", count=3, client=self.client)
        gract.build(rows, self.folder / "all.idx", period=120)
        return self.folder / "parts"

    def test_random_charts(self):
        """The bytes of the replies of three shards are those of one index over all rows."""
        for seed in range(CHARTS):
            with self.subTest(seed=seed):
                chart = Charts(self, self.folder, seed)
                shards.build(chart.sources(), self.folder / "parts", count=3, client=self.client, replace=True, **chart.words)
                with shards.open(self.folder / "parts", client=self.client) as asked:
                    chart.compared(asked)

    def test_growing(self):
        """Rows that are added by workers; a reader goes on as before until it is refreshed."""
        rows = [(item, at, item * at % 50, at) for item in range(30) for at in range(40)]
        more = [(item, at, item, at) for item in range(25, 35) for at in range(30, 50)]
        lines = ["interval 0 50 disc 20 20 40", "nearest 9 7 0 0", "position 27 35", "path 33 0 90", "slice 49 rect 0 0 90 90", "meet 3 31 0 50 9"]
        gract.build([*rows, *more], self.folder / "more.idx")
        with shards.open(self.built(), client=self.client) as asked:
            with gract.open(self.folder / "all.idx") as before, gract.open(self.folder / "more.idx") as index:
                added = shards.add(more, self.folder / "parts", client=self.client)
                self.assertEqual(added, ([], [0, 1, 2], {}))
                self.assertEqual(reply_bytes(asked, lines), reply_bytes(before, lines))
                self.assertTrue(asked.refresh())
                for _ in range(2):
                    self.assertEqual(reply_bytes(asked, lines), reply_bytes(index, lines))
                    self.assertEqual([reply_bytes(asked, [line]) for line in lines], [reply_bytes(index, [line]) for line in lines])
        self.assertEqual([row.objects for row in shards.list(self.folder / "parts")], [12, 12, 11])
        self.assertTrue(shards.check(self.folder / "parts").is_whole)

    def test_who_is_asked(self):
        """A line of one shard is asked here, without the scheduler; of a batch each worker gets one task, and an exchange has 1,024 questions."""
        with shards.open(self.built(), client=self.client) as asked, gract.open(self.folder / "all.idx") as index:
            submit, tasks = self.client.submit, []
            with mock.patch.object(self.client, "submit", lambda *words, **others: tasks.append(words) or submit(*words, **others)):
                self.assertEqual(asked.position(4, 5), index.position(4, 5))
                self.assertEqual(asked.path(7), index.path(7))
                self.assertEqual(tasks, [])
                lines = [f"slice {at % 40} rect 0 0 50 50" for at in range(2000)]
                self.assertEqual(list(asked.ask(lines)), list(index.ask(lines)))
                self.assertEqual([len(words[2][0]) for words in tasks], [1024] * (len(tasks) // 2) + [976] * (len(tasks) // 2))
                self.assertLessEqual(len(tasks), 2 * 3)
                tasks.clear()
                with mock.patch("os.access", lambda *words: False):
                    self.assertEqual(asked.position(4, 5), index.position(4, 5))
                self.assertEqual(len(tasks), 1)

    def test_storms(self):
        """Names and degrees, questions of several lines, and workers that are begun here and end with what asked them."""
        grid = gract.Grid.degrees(10, tick=6, unit=3600, names=plain.NAMES)
        shards.build(plain.STORMS, self.folder / "parts", count=5, period=1461, grid=grid, workers=2)
        before = threading.active_count()
        with shards.open(self.folder / "parts", workers=2) as asked, gract.open(plain.STORMS_INDEX, grid=grid) as index:
            self.assertEqual(asked.position("Katrina", "2005-08-29 06:00"), (-896, 293))
            box, since = (-98, 18, -81, 31), "2005-06-01"
            self.assertEqual(asked.visits(box=box, since=since, until="2005-12-01"), index.visits(box=box, since=since, until="2005-12-01"))
            self.assertEqual(asked.objects(), index.objects())
            pids = worker_pids(asked._asker._client)
            self.assertEqual(len(pids), 2)
            self.assertLessEqual(listening([os.getpid(), *pids]), {"0100007F"})
        self.assertFalse(any(os.path.exists(f"/proc/{pid}") for pid in pids))
        self.assertLessEqual(threading.active_count(), before + 2)

    def test_a_worker_that_dies(self):
        """It is begun again, and its shard is asked anew: before a question, and amid many."""
        lines = ["interval 0 40 disc 20 20 40", "nearest 9 7 0 0", "position 4 5", "path 5 0 9"] * 50
        with shards.open(self.built(), client=self.client) as asked, gract.open(self.folder / "all.idx") as index:
            wanted = reply_bytes(index, lines)
            self.assertEqual(reply_bytes(asked, lines), wanted)
            first = min(worker_pids(self.client))
            os.kill(first, signal.SIGKILL)
            self.assertEqual(reply_bytes(asked, lines), wanted)
            second = max(worker_pids(self.client, [first]))
            killer = threading.Timer(0.02, os.kill, (second, signal.SIGKILL))
            killer.start()
            for _ in range(20):
                self.assertEqual(reply_bytes(asked, lines), wanted)
            killer.join()
            self.assertEqual(len(worker_pids(self.client, [first, second])), 3)
            self.assertEqual(reply_bytes(asked, lines), wanted)

    def test_a_child_that_dies(self):
        """A worker whose child dies asks its shard anew."""
        with shards.open(self.built(), client=self.client) as asked:
            self.client.gather([self.client.submit(kill_child, shard) for shard in asked._asker._shards.values()])
            self.assertEqual(len(asked.slice(5)), 30)

    def test_damaged_shards(self):
        folder = self.built()
        with shards.open(folder, client=self.client) as asked:
            file = folder / asked.manifest.parts[1].file
            file.write_bytes(file.read_bytes()[:-1])
        with self.assertRaises(gract.PartsError) as refused:
            shards.open(folder, client=self.client)
        self.assertIn(str(file.resolve()), str(refused.exception))
        self.assertIs(type(refused.exception.parts[1]), gract.FormatError)
        with shards.open(folder, client=self.client, partial=True) as asked:
            self.assertEqual([row.object for row in asked.slice(5)], [item for item in range(30) if item % 3 != 1])
            with self.assertRaises(gract.PartsError):
                asked.position(4, 5)

    def test_a_shard_that_is_damaged_meanwhile(self):
        """It answers while a worker has it open, and is told once it has to be opened again."""
        folder = self.built()
        with shards.open(folder, client=self.client) as asked:
            file = folder / asked.manifest.parts[1].file
            file.write_bytes(b"GRACT002")
            self.assertEqual(len(asked.slice(5)), 30)
            killed = worker_pids(self.client)
            for pid in killed:
                os.kill(pid, signal.SIGKILL)
            with self.assertRaises(gract.PartsError):
                asked.slice(5)

    def test_days_by_workers(self):
        """Days too may be built by workers."""
        run = shards.by_workers(self.client)
        days.build(plain.STORMS, self.folder / "parts", length=6000, tick=6, period=100, run=run)
        table = plain.storms()
        with days.open(self.folder / "parts") as asked:
            self.assertEqual(asked.path(278), table.path(278, table.first, table.last))


def kill_child(shard):
    """Kills the child of a shard, in its worker."""
    os.kill(shard._index._child.pid, signal.SIGKILL)


if __name__ == "__main__":
    unittest.main()
