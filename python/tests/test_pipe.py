"""The pipes and the child: many questions, long replies, cursors, a child that is begun anew or killed, and none that is left."""

import gc
import json
import os
import signal
import subprocess
import sys
import tempfile
import textwrap
import threading
import time
import unittest
from unittest import mock

import gract
from gract import child, questions

from . import plain

MANY = 100_000


def is_there(pid):
    try:
        os.kill(pid, 0)
    except ProcessLookupError:
        return False
    return True


def has_gone(pid):
    for _ in range(500):
        if not is_there(pid):
            return True
        time.sleep(0.01)
    return False


class Pipe(unittest.TestCase):
    def setUp(self):
        self.table = plain.storms()

    def test_many_questions(self):
        """100,000 questions go through one pipe, and so do replies of some megabytes at once."""
        with gract.open(plain.STORMS_INDEX) as index:
            pid = index._child.pid
            asked = [(1 + nth % 515, 8000 + 37 * nth % 66400) for nth in range(MANY)]
            answers = index.ask(questions.Position(*pair) for pair in asked)
            self.assertTrue(all(found == self.table.position(*pair) for pair, found in zip(asked, answers)))
            self.assertIsNone(next(answers, None))
            everyone = questions.Interval(index.facts.first, index.facts.last, questions.EVERYWHERE)
            replies = index._child.exchange([everyone.line.encode() + b"\n"] * 500)
            self.assertEqual({len(lines) for lines, _ in replies}, {512})
            self.assertEqual(index._child.pid, pid)
            self.assertEqual(threading.active_count(), 1)

    def test_answers_that_are_not_drawn(self):
        """Answers that nobody draws are not taken for those of other questions."""
        with gract.open(plain.STORMS_INDEX) as index:
            answers = index.ask(f"position 278 {instant}" for instant in range(52000, 52200))
            taken = [next(answers) for _ in range(100)]
            self.assertEqual(index.position(278, 52097), (-896, 293))
            self.assertEqual(taken + list(answers), [self.table.position(278, instant) for instant in range(52000, 52200)])

    def test_another_child_in_time(self):
        """Before the program has taken all bytes that it takes a new child is begun, and cursors go on in it."""
        with mock.patch.object(child, "MOST_QUESTIONS", 1500), mock.patch("gract.cursor.DRAWN", 3):
            with gract.open(plain.STORMS_INDEX) as index:
                cursor, pids = index.held(278), set()
                whole, got = self.table.path(278, 0, 10**6), []
                for instant in range(51900, 52300):
                    self.assertEqual(index.position(278, instant), self.table.position(278, instant))
                    got.extend([next(cursor)] if len(got) < len(whole) else [])
                    pids.add(index._child.pid)
                    self.assertLessEqual(index._child.sent, 1500)
                self.assertEqual(got + list(cursor), whole)
                self.assertGreater(len(pids), 1)
                self.assertEqual(sum(map(is_there, pids)), 1)
        self.assertFalse(any(map(is_there, pids)))

    def test_a_killed_child(self):
        """It is told, the next question begins another, and a cursor goes on where it was, however often."""
        with gract.open(plain.STORMS_INDEX) as index, mock.patch("gract.cursor.DRAWN", 1):
            cursor, drawn = index.held(278), []
            for _ in range(20):
                os.kill(index._child.pid, signal.SIGKILL)
                with self.assertRaises(gract.ChildDied) as died:
                    index.position(278, 52097)
                self.assertEqual(died.exception.status, -signal.SIGKILL)
                self.assertEqual(index.position(278, 52097), (-896, 293))
                drawn.append(next(cursor))
            self.assertEqual(drawn + list(cursor), self.table.path(278, 0, 10**6))

    def test_a_child_killed_amid_replies(self):
        with gract.open(plain.STORMS_INDEX) as index:
            pid = index._child.pid
            killer = threading.Timer(0.05, os.kill, (pid, signal.SIGKILL))
            killer.start()
            self.addCleanup(killer.join)
            with self.assertRaises(gract.ChildDied):
                while True:
                    list(index.ask(["interval 0 80000 disc 0 0 5000"] * 50))
            self.assertTrue(has_gone(pid))

    def test_cursors(self):
        """Sixteen cursors are drawn in turns, and each slot is there again after a cursor's end, its close, and its last reference."""
        with gract.open(plain.STORMS_INDEX) as index:
            items = range(100, 116)
            cursors = [index.held(item) for item in items]
            with self.assertRaises(gract.SlotsError):
                index.held(278)
            drawn = [[] for _ in items]
            while any([drawn[nth].extend([stop]) or True for nth, cursor in enumerate(cursors) for stop in [next(cursor, None)] if stop]):
                pass
            self.assertEqual(drawn, [self.table.path(item, 0, 10**6) for item in items])
            for turn in range(40):
                one, other = index.held(278), index.held(279)
                next(one)
                one.close() if turn % 2 else None
                del one, other
            gc.collect()
            with index.held(278) as cursor:
                next(cursor)
            with self.assertRaises(gract.ClosedError):
                next(cursor)
            self.assertEqual(len([index.held(item) for item in items]), 16)

    def test_close(self):
        index = gract.open(plain.STORMS_INDEX)
        pid = index._child.pid
        index.close()
        index.close()
        self.assertFalse(is_there(pid))
        with self.assertRaises(gract.ClosedError):
            index.info()
        index = gract.open(plain.STORMS_INDEX)
        pid = index._child.pid
        del index
        gc.collect()
        self.assertFalse(is_there(pid))
        with self.assertRaises(ZeroDivisionError):
            with gract.open(plain.STORMS_INDEX) as index:
                pid = index._child.pid
                os.kill(pid, signal.SIGKILL)
                1 / 0
        self.assertFalse(is_there(pid))

    def test_a_fork_leaves_the_child(self):
        with gract.open(plain.STORMS_INDEX) as index:
            forked = os.fork()
            if forked == 0:
                index._child.kill()
                os._exit(0)
            os.waitpid(forked, 0)
            self.assertEqual(index.position(278, 52097), (-896, 293))

    def ends(self, ending, how, **environment):
        """Runs a Python that opens an index, prints its child's number and ends so; its status, and whether the child is gone."""
        code = f"""
            import gract, sys, time
            index = gract.open({str(plain.STORMS_INDEX)!r})
            print(index._child.pid, flush=True)
            {ending}
        """
        python = subprocess.Popen(
            [sys.executable, "-c", textwrap.dedent(code)], stdout=subprocess.PIPE, stderr=subprocess.PIPE, text=True,
            env={**os.environ, **environment},
        )
        pid = int(python.stdout.readline())
        if how is not None:
            time.sleep(0.1)
            python.send_signal(how)
        python.communicate(timeout=20)
        return python.returncode, has_gone(pid)

    def test_no_child_is_left(self):
        """Not after the end of Python, nor after an exception, an interrupt, or a signal that nobody can catch."""
        self.assertEqual(self.ends("pass", None), (0, True))
        self.assertEqual(self.ends("1 / 0", None), (1, True))
        self.assertEqual(self.ends("time.sleep(60)", signal.SIGINT), (-signal.SIGINT, True))
        self.assertEqual(self.ends("time.sleep(60)", signal.SIGKILL), (-signal.SIGKILL, True))
        waits = {"GRACT": str(plain.TOP / "python/tests/stand_in.py"), "STAND_IN": '{"waits": true}'}
        self.assertEqual(self.ends("index.info()", signal.SIGINT, **waits), (-signal.SIGINT, True))

    def test_no_build_is_left(self):
        """An interrupt of a build ends the program too."""
        with tempfile.TemporaryDirectory() as folder:
            told = os.path.join(folder, "pid")
            stand_in = {"GRACT": str(plain.TOP / "python/tests/stand_in.py"), "STAND_IN": json.dumps({"after": 0, "waits": True, "pid": told})}
            code = f"import gract; gract.build([(1, 0, 0, 0)], {os.path.join(folder, 'new.idx')!r})"
            python = subprocess.Popen([sys.executable, "-c", code], stderr=subprocess.DEVNULL, env={**os.environ, **stand_in})
            for _ in range(2000):
                if os.path.exists(told) and os.path.getsize(told):
                    break
                time.sleep(0.01)
            time.sleep(0.1)
            python.send_signal(signal.SIGINT)
            self.assertEqual(python.wait(20), -signal.SIGINT)
            with open(told, encoding="ascii") as file:
                self.assertTrue(has_gone(int(file.read())))
            self.assertEqual(os.listdir(folder), ["pid"])

    def test_huge_pages(self):
        """The program is told to ask for memory in huge pages, to answer and to build, unless the user tells its C library anything."""
        with tempfile.TemporaryDirectory() as folder:
            program = os.path.join(folder, "gract")
            with open(program, "w", encoding="ascii") as script:
                script.write('#!/bin/sh\nprintf %s "$GLIBC_TUNABLES" >&2\nexit 99\n')
            os.chmod(program, 0o700)
            for own, wanted in (None, "glibc.malloc.hugetlb=1"), ("glibc.malloc.check=1", "glibc.malloc.check=1"), ("", ""):
                with self.subTest(own=own), mock.patch.dict(os.environ):
                    os.environ.pop("GLIBC_TUNABLES", None)
                    os.environ.update({} if own is None else {"GLIBC_TUNABLES": own})
                    with self.assertRaises(gract.ChildDied) as asked:
                        gract.open(plain.STORMS_INDEX, program=program)
                    with self.assertRaises(gract.ChildDied) as built:
                        gract.build([(1, 0, 0, 0)], os.path.join(folder, "new.idx"), program=program)
                    self.assertEqual((asked.exception.last_words, built.exception.last_words), (wanted, wanted))

    def test_an_interrupt_is_survived(self):
        """After an interrupt within a question the next one is answered."""
        with gract.open(plain.STORMS_INDEX) as index:
            before = index._child.pid
            with mock.patch("gract.child.Child._await", side_effect=KeyboardInterrupt):
                with self.assertRaises(KeyboardInterrupt):
                    index.info()
            self.assertFalse(is_there(before))
            self.assertEqual(index.position(278, 52097), (-896, 293))
