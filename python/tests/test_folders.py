"""Folders of parts: their lists, of which nothing is believed, builds in a folder that has parts, and builds that are killed."""

import hashlib
import json
import os
import shutil
import tempfile
import threading
import unittest
from pathlib import Path

import gract
from gract.archive import days, folders, manifest, parts

from . import plain
from .parted import reply_bytes
from .test_parts import build_here, shards_here

ROWS = [(item, at, item, at) for item in range(9) for at in range(30)]
LINES = [
    "position 4 15", "path 5 0 29", "path 5 8 12", "slice 10 rect 0 0 9 99", "interval 0 29 rect 0 0 9 99", "interval 5 25 disc 4 20 3",
    "nearest 3 19 4 19", "meet 2 4 0 29 2", "meet 2 5 9 9 3", "position 8 29", "position 0 0",
]


class Folders(unittest.TestCase):
    def setUp(self):
        folder = tempfile.TemporaryDirectory()
        self.addCleanup(folder.cleanup)
        self.folder = Path(folder.name)
        self.parts = self.folder / "parts"

    def by_time(self, length=10, rows=ROWS, **others):
        days.build(rows, self.parts, length=length, **others)

    def by_object(self):
        build_here(ROWS, self.parts, 3)

    def opened(self):
        """The folder, opened as what its list says."""
        is_by_time = '"by": "time"' in (self.parts / manifest.LIST).read_text()
        return days.open(self.parts) if is_by_time else shards_here(self.parts)

    def wanted(self):
        gract.build(ROWS, self.folder / "all.idx")
        with gract.open(self.folder / "all.idx") as index:
            return reply_bytes(index, LINES)

    def told(self):
        return json.loads((self.parts / manifest.LIST).read_text())

    def old_text(self):
        """The list in form 1, which has no sum."""
        told = self.told()
        told["form"] = 1
        for name in ("sum", "replaced"):
            del told[name]
        for part in told["parts"].values():
            for name in set(part) - {"file", "sha256", "first", "last"}:
                del part[name]
        return json.dumps(told, indent=1)

    def parts_there(self):
        """The files of parts in the folder, and those that the list has as parts."""
        return sorted(file.name for file in self.parts.glob("part_*")), sorted(part["file"] for part in self.told()["parts"].values())

    def refused(self, change):
        """What refuses a list that was changed so: when it is read, or when a part is asked."""
        told = self.told()
        text = change(told) or json.dumps({**told, "sum": manifest.sum_of(told)})
        before = (self.parts / manifest.LIST).read_bytes()
        (self.parts / manifest.LIST).write_text(text)
        with self.assertRaises((gract.ManifestError, gract.PartsError)) as refused:
            with self.opened() as asked:
                reply_bytes(asked, LINES)
        (self.parts / manifest.LIST).write_bytes(before)
        return refused.exception

    # Lists.

    def test_a_false_list(self):
        """No list that says what is not so gives an answer."""
        def twice(told):
            told["parts"]["1"] = told["parts"]["0"]

        def exchanged(told):
            told["parts"]["0"], told["parts"]["1"] = told["parts"]["1"], told["parts"]["0"]

        def doubled(told):
            part = json.dumps(told["parts"]["0"])
            return json.dumps(told).replace('"parts": {', '"parts": {"1": %s, ' % part)

        def of(name, value, part=None):
            def change(told):
                (told if part is None else told["parts"][part])[name] = value
            return change

        common = [twice, exchanged, doubled, of("cell", 2), of("tick", 2), of("period", 60), of("size", 7), of("size", 5), of("size", 0),
                  of("first", 3, "0"), of("last", 7, "1"), of("last", 28, "2"), of("first", 40, "2"), of("sha256", "0" * 64, "1"),
                  of("cell", True), of("size", 3.0), of("form", 3), of("rows", 0, "0"), of("objects", 8, "0"), of("bytes", 0, "2"), of("file", "part_0.idx", "0"), of("parts", {})]
        for build, others in ((self.by_time, [of("size", 20), of("tick", 3)]), (self.by_object, [of("size", 2), of("size", 6), of("size", 1)])):
            build()
            for nth, change in enumerate([*common, *others]):
                with self.subTest(build=build.__name__, nth=nth):
                    self.refused(change)
            with self.opened() as asked:
                self.assertEqual(reply_bytes(asked, LINES), self.wanted())
            shutil.rmtree(self.parts)

    def test_parts_that_are_not_those_of_the_list(self):
        """An index that was put in the place of a part, with the list made to have its sha256: of other objects, days, cells."""
        for build, rows, words, why in [
            (self.by_object, [row for row in ROWS if row[0] % 3 == 0 or row[0] == 4], {}, "object 4"),
            (self.by_object, [row for row in ROWS if row[0] % 3 == 0], {"cell": 2}, "cell 2"),
            (self.by_object, [row for row in ROWS if row[0] % 3 == 0], {"period": 7}, "period 7"),
            (self.by_object, [row for row in ROWS if row[0] % 3 == 0 and row[1] > 3], {}, "instants 4 to 29"),
            (self.by_time, [row for row in ROWS if row[1] < 11], {}, "instants 0 to 10"),
            (self.by_time, [row for row in ROWS if row[1] < 10], {"tick": 2}, "tick 2"),
        ]:
            build()
            file = self.folder / "other.idx"
            gract.build(rows, file, **{"period": 30 if build == self.by_object else 120, **words})
            digest = hashlib.sha256(file.read_bytes()).hexdigest()

            def change(told):
                told["parts"]["0"].update(sha256=digest, file=f"part_0_{digest[:12]}.idx", objects=None, greatest=None)

            file.replace(self.parts / f"part_0_{digest[:12]}.idx")
            refusal = self.refused(change)
            self.assertIs(type(refusal.parts[0]), gract.OtherFileError)
            self.assertIn(why, str(refusal))
            shutil.rmtree(self.parts)

    def test_lists_that_are_damaged(self):
        """Answers are those of all rows, or there are none, whatever a digit of the list is made to be."""
        draw, wanted, answered = plain.randomness(5), self.wanted(), 0
        for build, form in ((self.by_time, 1), (self.by_object, 1), (self.by_time, 2)):
            build()
            text = self.old_text() if form == 1 else (self.parts / manifest.LIST).read_text()
            places = [place for place, letter in enumerate(text) if letter.isdigit()]
            for _ in range(60):
                place = draw.choice(places)
                (self.parts / manifest.LIST).write_text(text[:place] + str(draw.randrange(10)) + text[place + 1:])
                try:
                    with self.opened() as asked:
                        self.assertEqual(reply_bytes(asked, LINES), wanted)
                        answered += 1
                except gract.GractError:
                    pass
            shutil.rmtree(self.parts)
        self.assertLess(answered, 45)

    def test_lists_that_nobody_writes(self):
        """Texts that are no JSON, or that no number and no text holds, are told in words."""
        self.by_time()
        text = self.old_text()
        digits = text.replace('"cell": 1', '"cell": ' + "1" * 5000)
        for told in (
            digits, text.replace('"cell": 1', '"cell": Infinity'), text.replace('"cell": 1', '"cell": NaN'), "[" * 100000 + "]" * 100000,
            text.replace('"size": 10', '"size": 1e999'), text.replace("time", "\\ud800"), text.replace('"0": {', '"%s": {' % ("1" * 5000)),
            text.replace('"grid": null', '"grid": {"grid": 1, "cell": 1, "tick": 1, "unit": 1, "epoch": 0, "west": 0, "names": {"1": "\\udfff"}}'),
            text.replace('"grid": null', '"grid": {"grid": 1, "cell": 1, "tick": 1, "unit": 1, "epoch": 1e999, "west": 0, "names": {}}'),
            text.replace('"0": {', '"00": {'), text.replace('"sha256": "', '"sha256": "\\ud800'), text.replace("part_0", "\\ud800"),
            "{}", "7", '"parts"', "null", text[:-3], "\0",
        ):
            (self.parts / manifest.LIST).write_text(told)
            with self.subTest(told=told[:300]), self.assertRaises(gract.ManifestError) as refused:
                days.open(self.parts)
            str(refused.exception).encode()
        (self.parts / manifest.LIST).write_bytes(text.encode("utf-16"))
        with self.assertRaises(gract.ManifestError):
            days.open(self.parts)

    # Building.

    def test_parts_are_not_lost(self):
        """A build in a folder that has parts is refused, and tells what is there, unless it is to replace them."""
        self.by_time()
        before = {file.name: file.read_bytes() for file in self.parts.iterdir()}
        for build in (lambda: self.by_time(rows=[(1, 31, 0, 0)]), self.by_object):
            with self.assertRaises(gract.OverwriteError) as refused:
                build()
            self.assertIn("has 3 parts by time, with instants 0 to 29", str(refused.exception))
            self.assertEqual({file.name: file.read_bytes() for file in self.parts.iterdir()}, before)
        self.by_time(rows=[(1, 31, 0, 0)], replace=True)
        with days.open(self.parts) as asked:
            self.assertEqual(asked.path(1), [(31, 0, 0)])
        there, listed = self.parts_there()
        self.assertEqual((len(there), len(listed)), (4, 1))

    def killed(self, step):
        """Builds in a copy of this process, which is killed at a step of it."""
        pid = os.fork()
        if pid == 0:
            try:
                step()
            finally:
                os._exit(9)
        self.assertEqual(os.waitstatus_to_exitcode(os.waitpid(pid, 0)[1]), 9)

    def test_a_build_that_was_killed(self):
        """The next one in the folder takes away what it left, whether it was the first or not; what was there is there."""
        def stops(*_):
            os._exit(9)

        def at(name):
            def build(**others):
                whole, count = getattr(os, name), []
                setattr(os, name, lambda *words: count.append(1) or (stops() if len(count) > 3 else whole(*words)))
                self.by_time(rows=[(1, when, 0, 0) for when in range(50)], **others)
            return build

        for step in (lambda **others: self.by_time(run=stops, **others), at("replace")):
            self.killed(step)
            self.assertTrue(list(self.parts.glob(f"{folders.WITHIN}*")))
            self.by_time()
            self.assertEqual(len(os.listdir(self.parts)), 5)
            self.killed(lambda: step(replace=True))
            with days.open(self.parts) as asked:
                self.assertEqual(reply_bytes(asked, LINES), self.wanted())
            with self.assertRaises(gract.OverwriteError):
                self.by_time()
            self.assertEqual(len(os.listdir(self.parts)), 5)
            self.killed(lambda: step(replace=True))
            self.by_time(length=30, replace=True)
            self.assertEqual(sorted(self.told()["replaced"]), sorted(set(self.parts_there()[0]) - set(self.parts_there()[1])))
            self.assertEqual(len(os.listdir(self.parts)), 6)
            shutil.rmtree(self.parts)

    def test_two_builds(self):
        """The second one in a folder is refused, and takes away nothing of the first; that which is refused may be the one that made it."""
        begun, done = threading.Event(), threading.Event()
        faults = []

        def waits(function, arguments):
            begun.set()
            done.wait(60)
            return parts.one_by_one(function, arguments)

        def first(rows):
            try:
                self.by_time(rows=rows, run=waits)
            except gract.GractError as refusal:
                faults.append(refusal)

        for rows in (ROWS, [(1, 0, 0, 0), (1, 1, 2**40, 0)]):
            begun.clear(), done.clear(), faults.clear()
            thread = threading.Thread(target=first, args=(rows,))
            thread.start()
            begun.wait(60)
            with self.assertRaises(gract.BusyError) as refused:
                self.by_time(wait=0.1)
            self.assertIn("is being written by another", str(refused.exception))
            done.set()
            thread.join()
            if rows is ROWS:
                self.assertEqual(faults, [])
                with self.opened() as asked:
                    self.assertEqual(reply_bytes(asked, LINES), self.wanted())
                shutil.rmtree(self.parts)
        self.assertEqual([type(fault) for fault in faults], [gract.LimitError])
        self.assertEqual(os.listdir(self.parts), ["lock"])
        self.by_time()

    def test_folders_that_are_none(self):
        """Nothing is built where something else is."""
        for name in ("file", "file/parts", "other"):
            self.parts = self.folder / name
            (self.folder / "file").touch()
            (self.folder / "other").mkdir(exist_ok=True)
            (self.folder / "other/mine").touch()
            with self.subTest(name=name), self.assertRaises(gract.OverwriteError):
                self.by_time()
        self.assertEqual(os.listdir(self.folder / "other"), ["mine"])


if __name__ == "__main__":
    unittest.main()
