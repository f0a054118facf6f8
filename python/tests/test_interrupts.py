"""Exceptions at any line of what asks, signals in bursts, signal handlers that ask, and threads: no later answer is another question's."""

import os
import signal
import subprocess
import sys
import tempfile
import textwrap
import threading
import time
import unittest
from collections import Counter
from contextlib import contextmanager, suppress
from pathlib import Path
from unittest import mock

import gract
from gract import asking, child, cursor, index, questions

from . import plain

RUNS = 2000
FILES = {module.__file__ for module in (asking, child, cursor, index)}


class Injected(BaseException):
    """What comes at any time."""


def children():
    """The processes that this one has, and those that it has not waited for."""
    found = set()
    for place in Path("/proc").glob("[0-9]*/stat"):
        with suppress(OSError):
            if int(place.read_text().rpartition(")")[2].split()[1]) == os.getpid():
                found.add(int(place.parent.name))
    return found


class Lines:
    """Counts the lines of FILES that are come to, and raises at one of them, when it is come to for the nth time; and then once more
    at the nth call or return, while that is handled."""

    def __init__(self, line=None, nth=0, calls=0):
        self.line, self.nth, self.calls = line, nth, calls
        self.seen = Counter()

    def __enter__(self):
        sys.settrace(self.called)
        return self

    def __exit__(self, *_):
        sys.settrace(None)
        sys.setprofile(None)

    def called(self, frame, event, _):
        return self.come_to if frame.f_code.co_filename in FILES else None

    def come_to(self, frame, event, _):
        if event == "line":
            line = (os.path.basename(frame.f_code.co_filename), frame.f_lineno)
            self.seen[line] += 1
            if line == self.line and self.seen[line] == self.nth:
                # Python ends the tracing where it raises.
                sys.setprofile(self.profiled if self.calls else None)
                raise Injected
        return self.come_to

    def profiled(self, frame, event, _):
        if frame.f_code.co_filename in FILES:
            self.calls -= 1
            if self.calls == 0:
                sys.setprofile(None)
                raise Injected


class Asker:
    """Asks an index at random, and compares each answer with a plain filter."""

    def __init__(self, test, asked, table, draw):
        self.test, self.index, self.table, self.draw = test, asked, table, draw
        self.cursors = []
        self.kinds = [self.position, self.path, self.slice, self.interval, self.nearest, self.many, self.visits, self.drawn]

    def any_time(self):
        return self.draw.randrange(self.table.first, self.table.last + 1)

    def any_object(self):
        return self.draw.choice(self.table.objects)

    def position(self):
        item = self.any_object()
        stop = self.draw.choice(self.table.path(item, self.table.first, self.table.last))
        self.test.assertEqual(self.index.position(item, stop[0]), stop[1:])

    def path(self):
        item, since, until = self.any_object(), self.any_time(), self.any_time()
        self.test.assertEqual(self.index.path(item, since, until), self.table.path(item, since, until))

    def slice(self):
        at = self.any_time()
        self.test.assertEqual(self.index.slice(at), self.table.slice(at, lambda x, y: True))

    def interval(self):
        since, until = self.any_time(), self.any_time()
        found = self.index.interval(since, until, gract.rect(-20, -20, 20, 20))
        self.test.assertEqual(found, self.table.interval(since, until, plain.in_rect(-20, -20, 20, 20)))

    def nearest(self):
        at = self.any_time()
        self.test.assertEqual(self.index.nearest(3, at, (0, 0)), self.table.nearest(3, at, 0, 0))

    def many(self):
        pairs = [(self.any_object(), self.any_time()) for _ in range(20)]
        answers = list(self.index.ask(questions.Position(*pair) for pair in pairs))
        self.test.assertEqual(answers, [self.table.position(*pair) for pair in pairs])

    def visits(self):
        found = self.index.visits(gract.disc(0, 0, 15))
        self.test.assertEqual(found, self.table.visits(self.table.first, self.table.last, plain.in_disc(0, 0, 15)))

    def drawn(self):
        """Draws some rows of a cursor, of which each tells all of its path, whatever came between."""
        if len(self.cursors) < 3:
            item = self.any_object()
            self.cursors.append((self.index.held(item), self.table.path(item, self.table.first, self.table.last), []))
        held, wanted, got = self.draw.choice(self.cursors)
        for _ in range(self.draw.randrange(20)):
            try:
                got.append(next(held))
            except StopIteration:
                self.test.assertEqual(got, wanted)
                self.cursors.remove((held, wanted, got))
                return
        self.test.assertEqual(got, wanted[: len(got)])


class Interrupts(unittest.TestCase):
    def setUp(self):
        folder = tempfile.TemporaryDirectory()
        self.addCleanup(folder.cleanup)
        self.draw = plain.randomness(57)
        rows = plain.random_rows(self.draw)
        self.file = Path(folder.name) / "rows.idx"
        gract.build(rows, self.file, period=30)
        self.table = plain.Plain(plain.gridded(rows))

    @contextmanager
    def asker(self):
        """An asker, of whose index no child is left but the one that it has."""
        before = children()
        with gract.open(self.file) as asked, mock.patch.object(cursor, "DRAWN", 5):
            yield Asker(self, asked, self.table, self.draw)
            self.assertEqual(children() - before, {asked._child.pid})
        self.assertEqual(children() - before, set())

    def test_an_exception_at_each_line(self):
        """At each line of asking.py, child.py, cursor.py and index.py that a question comes to, and in half of the runs another one
        while it is handled."""
        come = {}
        with self.asker() as asker:
            for kind in asker.kinds:
                for _ in range(5):
                    asked = asker.index._child
                    asked.kill() if self.draw.randrange(2) else None
                    with Lines() as lines:
                        kind()
                    come.update({(kind, line): times for line, times in lines.seen.items()})
            places = [(kind, line, times) for (kind, line), times in come.items()]
            wanted, hit = {line for _, line in come}, set()
            self.draw.shuffle(places)
            for run in range(RUNS):
                kind, line, times = places[run % len(places)]
                asked = asker.index._child
                if run % 5 == 0:
                    asked.kill()
                with Lines(line, self.draw.randrange(times) + 1, self.draw.choice([0, self.draw.randrange(1, 30)])):
                    try:
                        kind()
                    except Injected:
                        hit.add(line)
                # Whatever it was, the next question has its own answer.
                self.draw.choice(asker.kinds)()
            self.assertGreater(len(wanted), 150)
            self.assertLess(len(wanted - hit), len(wanted) // 10, sorted(wanted - hit))

    def test_bursts_of_signals(self):
        """Signals that come as one is handled, by the system's clock."""
        armed = [False]

        def hand(*_):
            if armed[0]:
                raise Injected

        before = signal.signal(signal.SIGALRM, hand)
        self.addCleanup(signal.signal, signal.SIGALRM, before)
        come = 0
        with self.asker() as asker:
            for _ in range(300):
                first, again = self.draw.uniform(0.00005, 0.003), self.draw.choice((0, 0.00002, 0.00005, 0.0001, 0.0003))
                try:
                    try:
                        armed[0] = True
                        signal.setitimer(signal.ITIMER_REAL, first, again)
                        for _ in range(20):
                            list(asker.index.ask(["interval 0 999999 disc 0 0 99", "path 1 0 999999"] * 20))
                    finally:
                        armed[0] = False
                except Injected:
                    come += 1
                signal.setitimer(signal.ITIMER_REAL, 0)
                self.draw.choice(asker.kinds[:-1])()
        self.assertGreater(come, 200)

    def test_a_second_interrupt(self):
        """One that comes as the child is ended for the first one."""
        kill = child.Child.kill

        def killed(asked):
            child.Child.kill = kill
            raise KeyboardInterrupt

        self.addCleanup(setattr, child.Child, "kill", kill)
        with self.asker() as asker:
            with mock.patch.object(child.Child, "_await", side_effect=KeyboardInterrupt), self.assertRaises(KeyboardInterrupt):
                child.Child.kill = killed
                asker.index.path(self.table.objects[0])
            for kind in asker.kinds:
                kind()

    def test_a_cursor_goes_on(self):
        """After an exception as its rows are read, and after its child was killed as it had drawn the last of them."""
        item = max(self.table.objects, key=lambda item: len(self.table.path(item, self.table.first, self.table.last)))
        wanted = self.table.path(item, self.table.first, self.table.last)
        for fault in ("read", "kill"):
            with self.asker() as asker, asker.index.held(item) as held:
                got, faults = [], 0
                while len(got) < len(wanted):
                    with suppress(Injected, gract.ChildDied, ProcessLookupError):
                        faults += 1
                        if fault == "kill" and faults % 2:
                            os.kill(asker.index._child.pid, signal.SIGKILL)
                        with mock.patch.object(questions.More, "read", side_effect=Injected if faults % 2 and fault == "read" else None,
                                               wraps=questions.More.read):
                            got.append(next(held))
                self.assertGreater(faults, len(wanted))
                self.assertEqual(got, wanted)
                self.assertIsNone(next(held, None))
                asker.index._drop()
                asker.position()

    def test_a_signal_handler_that_asks(self):
        """It is refused within a question, and does not wait for what waits for it; afterwards it may ask."""
        told = []

        def hand(*_):
            try:
                told.append(asker.index.position(*asked))
            except gract.BusyError as refusal:
                told.append(refusal.what)

        before = signal.signal(signal.SIGUSR1, hand)
        self.addCleanup(signal.signal, signal.SIGUSR1, before)
        (item, at), place = asked, _ = next(iter(self.table.chart.items()))
        waited = child.Child._await

        def signalled(*words):
            signal.raise_signal(signal.SIGUSR1)
            return waited(*words)

        with self.asker() as asker:
            with mock.patch.object(child.Child, "_await", signalled):
                self.assertEqual(asker.index.path(item, at, at), [(at, *place)])
            self.assertEqual(set(told), {f"the index {self.file}"})
            told.clear()
            signal.raise_signal(signal.SIGUSR1)
            self.assertEqual(told, [place])

    # Threads.

    def test_threads(self):
        """Many that ask one index, while children die."""
        faults = []

        def work(seed):
            asker = Asker(self, asked, self.table, plain.randomness(seed))
            for _ in range(60):
                try:
                    asker.draw.choice(asker.kinds)()
                except gract.ChildDied:
                    pass
                except BaseException as fault:
                    faults.append(fault)

        with self.asker() as asker:
            asked = asker.index
            threads = [threading.Thread(target=work, args=(seed,)) for seed in range(4)]
            for thread in threads:
                thread.start()
            while any(thread.is_alive() for thread in threads):
                time.sleep(0.02)
                with suppress(AssertionError, ProcessLookupError):
                    os.kill(asked._child.pid, signal.SIGKILL)
            for thread in threads:
                thread.join()
            self.assertEqual(faults, [])
            with suppress(gract.ChildDied):
                asker.position()
            asker.position()

    def test_a_thread_that_waits(self):
        """It waits for its turn while the child of the one before is ended, and writes into no file that takes the numbers of its pipes."""
        got = []
        asked, place = next(iter(self.table.chart.items()))

        def interrupted(*_):
            patch.stop()
            thread.start()
            time.sleep(0.2)
            raise KeyboardInterrupt

        with self.asker() as asker:
            thread = threading.Thread(target=lambda: got.append(asker.index.position(*asked)))
            patch = mock.patch.object(child.Child, "_await", interrupted)
            patch.start()
            with self.assertRaises(KeyboardInterrupt):
                asker.index.position(*asked)
            with tempfile.TemporaryDirectory() as folder:
                files = [open(Path(folder) / f"{nth}", "w+b") for nth in range(6)]
                thread.join()
                for file in files:
                    self.assertEqual(file.read(), b"")
                    file.close()
            self.assertEqual(got, [place])

    # Memory.

    def test_long_replies_after_short_ones(self):
        """A batch ends where its replies have many bytes."""
        code = f"""
            import gract, resource
            gract.build([(1, at, at % 7, at % 5) for at in range(1500)], {str(self.file)!r}, period=100)
            most = lambda: resource.getrusage(resource.RUSAGE_SELF).ru_maxrss // 1024
            with gract.open({str(self.file)!r}) as index:
                answers = index.ask(["position 1 5"] * 10000 + ["path 1 0 1499"] * 10000)
                for _ in range(10000):
                    assert next(answers) == (5, 0)
                before = most()
                for _ in range(50):
                    assert len(next(answers)) == 1500
                print(most() - before)
        """
        python = subprocess.run([sys.executable, "-c", textwrap.dedent(code)], stdout=subprocess.PIPE, check=True, timeout=100)
        self.assertLess(int(python.stdout), 100)

    def test_replies_that_are_given_up(self):
        """Where the replies under way are too many, what is left is asked of another child, and all are answered in their order."""
        with mock.patch.object(child, "MOST_BYTES", 50), mock.patch.object(child, "MOST_HELD", 200), self.asker() as asker:
            for _ in range(20):
                asker.many()
                asker.visits()
            items = self.table.objects * 9
            answers = list(asker.index.ask(questions.Path(item, self.table.first, self.table.last) for item in items))
            self.assertEqual(answers, [self.table.path(item, self.table.first, self.table.last) for item in items])
            asker.position()


if __name__ == "__main__":
    unittest.main()
