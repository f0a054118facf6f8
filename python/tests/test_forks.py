"""Copies of a process: each asks by a child of its own, and leaves that of the other alone."""

import ctypes
import multiprocessing
import os
import signal
import tempfile
import threading
import time
import unittest
from unittest import mock

import gract
from gract import child, processes
from gract.archive import days

from . import plain
from .test_pipe import is_there

ASKED = {}


def copy(function):
    """Runs a function in a copy of this process; its status: 0 where it gave True."""
    pid = os.fork()
    if pid == 0:
        status = 1
        try:
            signal.alarm(60)
            status = 0 if function() else 1
        finally:
            os._exit(status)
    return pid


def status_of(pid):
    return os.waitstatus_to_exitcode(os.waitpid(pid, 0)[1])


def asked_in_pool(at):
    return ASKED["index"].position(278, at)


class Forks(unittest.TestCase):
    def setUp(self):
        self.table = plain.storms()
        self.path = self.table.path(278, self.table.first, self.table.last)

    def is_right(self, index, item=278):
        """Whether answers are those of a plain filter."""
        path = self.table.path(item, self.table.first, self.table.last)
        return all(index.position(item, at) == (x, y) for at, x, y in path) and list(index.held(item)) == path

    def test_both_ask(self):
        """The copy and the one that it was made of, at the same time, with a cursor of before."""
        with gract.open(plain.STORMS_INDEX) as index, mock.patch("gract.cursor.DRAWN", 3):
            held, pid = index.held(278), index._child.pid
            drawn = [next(held) for _ in range(4)]
            copies = [copy(lambda: self.is_right(index, 502) and drawn + list(held) == self.path) for _ in range(3)]
            for _ in range(5):
                self.assertTrue(self.is_right(index))
            self.assertEqual(drawn + list(held), self.path)
            self.assertEqual([status_of(pid) for pid in copies], [0, 0, 0])
            self.assertEqual(index._child.pid, pid)

    def test_the_child_of_a_copy(self):
        """It is another one, and ends with the copy's index; that of the first process goes on."""
        with gract.open(plain.STORMS_INDEX) as index:
            pid = index._child.pid

            def ends():
                index._drop()
                index.position(278, 52097)
                own = index._child.pid
                index.close()
                return own != pid and not is_there(own) and is_there(pid)

            self.assertEqual(status_of(copy(ends)), 0)
            self.assertEqual((index.position(278, 52097), index._child.pid), ((-896, 293), pid))

    def test_a_copy_holds_nothing(self):
        """One that lives on does not keep `close` waiting, and has no pipe of the child."""
        index = gract.open(plain.STORMS_INDEX)
        before = set(os.listdir("/proc/self/fd"))
        lives = copy(lambda: len(set(os.listdir("/proc/self/fd")) & before) == len(before) - 3 and time.sleep(30))
        begun = time.monotonic()
        index.close()
        self.assertLess(time.monotonic() - begun, child.PATIENCE / 2)
        self.assertEqual(os.waitpid(lives, os.WNOHANG), (0, 0))
        os.kill(lives, signal.SIGKILL)
        os.waitpid(lives, 0)

    def test_a_pool(self):
        """The processes of multiprocessing's pool, which are copies."""
        instants = [at for at, _, _ in self.path] * 20
        with gract.open(plain.STORMS_INDEX) as index:
            ASKED["index"] = index
            with multiprocessing.get_context("fork").Pool(3) as pool:
                found = pool.map(asked_in_pool, instants)
            self.assertEqual(found, [self.table.position(278, at) for at in instants])
            ASKED.clear()

    def test_a_copy_made_within_a_question(self):
        """While another thread asks, and by a signal handler that comes back: there the question is refused, and the next one is not."""
        with gract.open(plain.STORMS_INDEX) as index:
            ended = threading.Event()

            def work():
                while not ended.is_set():
                    index.interval()

            thread = threading.Thread(target=work)
            thread.start()
            copies = [copy(lambda: self.is_right(index)) for _ in range(5)]
            self.assertEqual([status_of(pid) for pid in copies], [0] * 5)
            ended.set()
            thread.join()
            waited, pids = child.Child._await, []

            def forks(*words):
                patch.stop()
                pids.append(os.fork())
                signal.alarm(0 if pids[0] else 60)
                return waited(*words)

            patch = mock.patch.object(child.Child, "_await", forks)
            patch.start()
            refused = False
            try:
                found = index.position(278, 52097)
            except gract.BusyError:
                refused = True
            if pids[0] == 0:
                os._exit(0 if refused and self.is_right(index) else 1)
            self.assertEqual((status_of(pids[0]), refused, found), (0, False, (-896, 293)))

    def test_a_copy_that_python_does_not_know_of(self):
        """One that was made by the system's own call, which tells nobody: by its number."""
        with gract.open(plain.STORMS_INDEX) as index:
            pid = ctypes.PyDLL(None).fork()
            if pid == 0:
                os._exit(0 if self.is_right(index, 502) else 1)
            self.assertTrue(self.is_right(index))
            self.assertEqual(status_of(pid), 0)

    def test_days(self):
        """Days, each of which has a child."""
        with gract.open(plain.STORMS_INDEX) as index, tempfile.TemporaryDirectory() as folder, mock.patch.object(days, "MOST_OPEN", 2):
            days.build(plain.STORMS, folder, length=60000, tick=6, period=100)
            with days.open(folder) as asked:
                wanted = index.path(278)
                self.assertEqual(asked.path(278), wanted)
                copies = [copy(lambda: asked.path(278) == wanted and asked.path(502) == index.path(502)) for _ in range(2)]
                self.assertEqual(asked.path(278), wanted)
                self.assertEqual([status_of(pid) for pid in copies], [0, 0])

    def test_no_process_is_left(self):
        """What was ended was waited for."""
        with gract.open(plain.STORMS_INDEX) as index:
            for _ in range(10):
                index._child.kill()
                index.position(278, 52097)
        self.assertEqual([run for run in processes._RUNS if not run.is_wanted], [])


if __name__ == "__main__":
    unittest.main()
