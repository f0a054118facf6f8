"""Each exception once or more, with its fields; those that no real program can be made to give, by a stand-in."""

import hashlib
import inspect
import json
import os
import pickle
import re
import signal
import sys
import tempfile
import unittest
from contextlib import contextmanager, suppress
from pathlib import Path
from unittest import mock

import gract
from gract import advice, errors, program, zones
from gract.archive import days, manifest, parted, shards

from . import plain

# What it brings with it is to be there before modules are exchanged for a check, which would bring it twice.
with suppress(ImportError):
    import distributed  # noqa: F401

STAND_IN = plain.TOP / "python/tests/stand_in.py"
ABOVE_OTHERS = {errors.GractError, errors.ProgramError, errors.DeviceError}


def page_section(title):
    """A section of the page of questions."""
    page = (plain.TOP / "docs/QUESTIONS.md").read_text()
    return re.search(rf"^## {title}\n(.*?)^## ", page, re.MULTILINE | re.DOTALL).group(1)


class Errors(unittest.TestCase):
    met = set()

    def setUp(self):
        folder = tempfile.TemporaryDirectory()
        self.addCleanup(folder.cleanup)
        self.folder = Path(folder.name)

    @classmethod
    def tearDownClass(cls):
        known = {kind for _, kind in inspect.getmembers(errors, inspect.isclass) if issubclass(kind, errors.GractError)}
        missing = known - ABOVE_OTHERS - cls.met
        assert not missing, f"no check meets {missing}"
        assert all(getattr(gract, kind.__name__) is kind for kind in known)

    @contextmanager
    def refused(self, exception, sentence="", **fields):
        with self.assertRaises(exception) as caught:
            yield
        self.assertIs(type(caught.exception), exception)
        self.assertIn(sentence, str(caught.exception))
        for name, value in fields.items():
            self.assertEqual(getattr(caught.exception, name), value, name)
        sent = pickle.loads(pickle.dumps(caught.exception))
        self.assertEqual((type(sent), str(sent), vars(sent).keys()), (exception, str(caught.exception), vars(caught.exception).keys()))
        self.met.add(exception)

    @contextmanager
    def stand_in(self, **told):
        with mock.patch.dict(os.environ, STAND_IN=json.dumps(told)):
            yield gract.open(self.file("any.idx", ""), program=STAND_IN) if told.get("after") != 0 else None

    def file(self, name, text):
        file = self.folder / name
        file.write_bytes(text if isinstance(text, bytes) else text.encode())
        return str(file)

    # What the program is not asked.

    def test_arguments(self):
        """Each wrong argument is refused by its name, before the child is asked."""
        grid = gract.Grid.degrees(10, cell=1, tick=6, unit=3600, names={1: "Amy", 2: "Amy", 3: "Caroline"})
        wrong = [
            ("object", lambda s: s.position(-1, 0)), ("object", lambda s: s.position(2**32, 0)), ("object", lambda s: s.position(1.0, 0)),
            ("object", lambda s: s.position(True, 0)), ("object", lambda s: s.position("Nobody", 0)), ("object", lambda s: s.position("Amy", 0)),
            ("object", lambda s: s.path(None)), ("object", lambda s: s.held("Nobody")),
            ("at", lambda s: s.position(1, "noon")), ("at", lambda s: s.position(1, 2**41 + 1)), ("at", lambda s: s.slice(None)),
            ("at", lambda s: s.slice("2005-13-01")), ("at", lambda s: s.nearest(1, 0.5, (0, 0))), ("at", lambda s: s.last_known("x", 1)),
            ("since", lambda s: s.path(1, "x")), ("until", lambda s: s.path(1, None, -2**41 - 1)), ("since", lambda s: s.interval(1.5)),
            ("until", lambda s: s.visits(until="x")), ("until", lambda s: s.held(1, 0, "x")),
            ("region", lambda s: s.slice(0, (1, 2, 3, 4))), ("region", lambda s: s.slice(0, "rect 0 0 1 1")),
            ("rect: y2", lambda s: s.slice(0, gract.rect(0, 0, 0, 2**41 + 1))), ("disc: r", lambda s: s.slice(0, gract.disc(0, 0, -1))),
            ("region: r", lambda s: s.interval(region=gract.Disc(0, 0, 2**42 + 1))), ("region: x1", lambda s: s.visits(gract.Rect(0.5, 0, 0, 0))),
            ("zone", lambda s: gract.zone()), ("zone", lambda s: gract.zone(*[gract.rect(0, 0, 1, 1)] * 17)), ("zone: shape 1", lambda s: gract.zone(7)),
            ("zone: shape 2: r", lambda s: gract.zone(gract.rect(0, 0, 1, 1), gract.Disc(0, 0, -1))), ("region", lambda s: s.slice(0, gract.Zone("x"))),
            ("region", lambda s: s.interval(-2**41, -2**41, gract.zone(*[gract.rect(-2**41, -2**41, -2**41, -2**41)] * 16))),
            ("region: shape 1", lambda s: s.visits(gract.Zone((gract.zone(gract.rect(0, 0, 1, 1)),)))),
            ("box", lambda s: s.slice(0, gract.rect(0, 0, 1, 1), box=(0, 0, 1, 1))), ("box", lambda s: s.slice(0, box=(0, 0, 1))),
            ("box", lambda s: s.slice(0, box="0011")), ("box", lambda s: s.slice(0, box=(0, 1, 1, 0))), ("box", lambda s: s.slice(0, box=(170, 0, -170, 1))),
            ("box: west", lambda s: s.slice(0, box=("a", 0, 1, 1))), ("box: north", lambda s: s.slice(0, box=(0, 0, 1, 91))),
            ("box: east", lambda s: s.slice(0, box=(0, 0, float("nan"), 1))),
            ("around", lambda s: s.slice(0, around=(0, 0, 1), metres=1)), ("around", lambda s: s.slice(0, around=(0, 89), metres=200000)),
            ("around", lambda s: s.slice(0, around=(179.9, 0), metres=20000)), ("metres", lambda s: s.slice(0, around=(0, 0))),
            ("around", lambda s: s.slice(0, metres=5)), ("metres", lambda s: s.slice(0, around=(0, 0), metres=-1)),
            ("count", lambda s: s.nearest(-1, 0, (0, 0))), ("count", lambda s: s.nearest("3", 0, (0, 0))),
            ("cell", lambda s: s.nearest(1, 0)), ("place", lambda s: s.nearest(1, 0, (0, 0), place=(0, 0))), ("cell", lambda s: s.nearest(1, 0, (0,))),
            ("x", lambda s: s.nearest(1, 0, (0.5, 0))), ("y", lambda s: s.nearest(1, 0, (0, 2**42))), ("latitude", lambda s: s.nearest(1, 0, place=(0, 99))),
            ("left", lambda s: s.meet(-1, 0, reach=1)), ("right", lambda s: s.meet(0, "Amy", reach=1)), ("reach", lambda s: s.meet(0, 1)),
            ("metres", lambda s: s.meet(0, 1, reach=1, metres=1)), ("reach", lambda s: s.meet(0, 1, reach=2**42 + 1)),
            ("since", lambda s: s.meet(0, 1, "x", reach=1)), ("until", lambda s: s.meet(0, 1, 0, 0.5, reach=1)),
            ("within", lambda s: s.last_known(0, -1)), ("within", lambda s: s.last_known(0, "soon")), ("within", lambda s: s.last_known(0, 1.5)),
            ("gap", lambda s: s.visits(gap=-1)), ("gap", lambda s: s.visits(gap="x")),
            ("asked: question 2", lambda s: list(s.ask(["info", "  "]))), ("asked: question 1", lambda s: list(s.ask(["info\ninfo"]))),
            ("asked", lambda s: s.ask("position 1 1")), ("asked", lambda s: s.ask(7)), ("asked: question 1", lambda s: list(s.ask([7]))), ("asked: question 1", lambda s: list(s.ask(["free 0"]))),
        ]
        with gract.open(plain.STORMS_INDEX, grid=grid) as storms:
            for nth, (argument, ask) in enumerate(wrong):
                sent = storms._child.sent
                with self.subTest(nth=nth, argument=argument), self.refused(gract.ArgumentError, argument, argument=argument):
                    ask(storms)
                # A question before the wrong one in `ask` is asked.
                self.assertLessEqual(storms._child.sent - sent, len("info\n"))
        with gract.open(plain.STORMS_INDEX) as storms:
            for argument, ask in [("at", lambda s: s.position(1, "2005-08-29")), ("object", lambda s: s.position("Amy", 0)),
                                  ("box", lambda s: s.slice(0, box=(0, 0, 1, 1))), ("within", lambda s: s.last_known(0, "1 h"))]:
                with self.refused(gract.ArgumentError, "wants a grid", argument=argument):
                    ask(storms)
        with self.refused(gract.ArgumentError, argument="path"):
            gract.open("")
        with self.refused(gract.ArgumentError, argument="program"):
            gract.open(plain.STORMS_INDEX, program=7)
        with self.refused(gract.ArgumentError, argument="grid"):
            gract.open(plain.STORMS_INDEX, grid="storms.grid.json")

    def test_build_arguments(self):
        target, row = self.folder / "new.idx", (1, 0, 0, 0)
        grid = gract.Grid(cell=5)
        wrong = [
            ("cell", dict(cell=0)), ("cell", dict(cell=1.5)), ("tick", dict(tick=2**30 + 1)), ("period", dict(period=0)),
            ("period", dict(period=2**22 + 1)), ("cell", dict(cell=4, grid=grid)), ("grid", dict(grid=5)),
        ]
        for argument, others in wrong:
            with self.refused(gract.ArgumentError, argument, argument=argument):
                gract.build([row], target, **others)
        for argument, rows in [
            ("rows", [row, (1, 2, 3)]), ("rows", ["1,0,0,0"]), ("rows", 7), ("rows", b"rows.csv"), ("rows: row 2: x", [row, (1, 0, 0.5, 0)]),
            ("rows: row 1: object", [(-1, 0, 0, 0)]), ("rows: row 1: instant", [(1, 2**40 + 1, 0, 0)]), ("rows", "a\0b"),
        ]:
            with self.refused(gract.ArgumentError, argument, argument=argument):
                gract.build(rows, target)
        self.assertFalse(target.exists())

    def test_overwriting(self):
        """No file but an index is written over."""
        for name, text in [("notes.txt", "notes"), ("empty", ""), ("short", "GRAC")]:
            file = self.file(name, text)
            with self.refused(gract.OverwriteError, file, path=file):
                gract.build([(1, 0, 0, 0)], file)
            self.assertEqual(Path(file).read_text(), text)
        with self.refused(gract.OverwriteError):
            gract.build([(1, 0, 0, 0)], self.folder)

    def test_names_and_pipes(self):
        """A name that is too long is refused in words, and a pipe is not waited for."""
        for length in (250, 255, 256):
            with self.refused(gract.ArgumentError, f"has {length} bytes, and 249 is the most", argument="path"):
                gract.build([(1, 0, 0, 0)], self.folder / ("a" * length))
        with self.refused(gract.ArgumentError, "has 240 bytes, and 237 is the most", argument="path"):
            gract.build([(1, 0, 0, 0)], self.folder / ("\u00e9" * 118 + ".idx"), grid=gract.Grid())
        gract.build([(1, 0, 0, 0)], self.folder / ("a" * 249))
        gract.build([(1, 0, 0, 0)], self.folder / ("b" * 233 + ".idx"), grid=gract.Grid())
        pipe = self.folder / "pipe"
        os.mkfifo(pipe)
        with self.refused(gract.OverwriteError, "is no index", path=str(pipe)):
            gract.build([(1, 0, 0, 0)], pipe)

    def test_texts_and_numbers_that_are_none(self):
        """No text and no number is so long, and none so wrong, that what is raised is no refusal."""
        grid = gract.Grid.degrees(10, tick=6, unit=3600, names=plain.NAMES)
        with gract.open(plain.STORMS_INDEX, grid=grid) as storms:
            for argument, ask in [
                ("at", lambda: storms.position(1, 10**5000)), ("at", lambda: storms.position(1, "1" * 5000)), ("object", lambda: storms.path(-10**5000)),
                ("object", lambda: storms.path("1" * 5000)), ("object", lambda: storms.path("\ud800")), ("within", lambda: storms.last_known(0, "9" * 5000 + " d")),
                ("asked: question 1", lambda: list(storms.ask(["position 1 \ud800"]))), ("at", lambda: storms.position(1, "2005-08-29 06:00+99:99")),
                ("at", lambda: storms.position(1, "2005-08-29 06:00-24:00")), ("at", lambda: storms.position(1, "2005-08-29 06:00+02:60")),
            ]:
                with self.refused(gract.ArgumentError, argument=argument):
                    ask()
            self.assertEqual(storms.position("Katrina", "2005-08-29 08:30+02:30"), (-896, 293))
        file = self.file("storms.idx", plain.STORMS_INDEX.read_bytes())
        names = '{"grid": 1, "cell": 1, "tick": 6, "unit": 1, "epoch": %s, "west": 0, "names": {"%s": "%s"}}'
        for text in ("[" * 100000, names % ("1e999", "1", "a"), names % ("1", "1" * 5000, "a"), names % ("1" * 5000, "1", "a"),
                     names % ("1", "1", "\\ud800"), names % ("NaN", "1", "a"), names % ("1", "x", "a")):
            self.file("storms.grid.json", text)
            with self.refused(gract.GridError, "storms.grid.json"):
                gract.open(file)

    def test_busy(self):
        """A question within a question of the same thread."""
        with gract.open(plain.STORMS_INDEX) as storms, storms._turn.lock:
            self.assertEqual(storms.position(278, 52097), (-896, 293))
            storms._turn.is_taken = True
            with self.refused(gract.BusyError, "is being asked by this very thread", what=f"the index {plain.STORMS_INDEX}"):
                storms.position(278, 52097)
            storms._turn.is_taken = False

    def test_no_program(self):
        with self.refused(gract.ProgramNotFound, "program= says /none/gract"):
            gract.open(plain.STORMS_INDEX, program="/none/gract")
        with self.refused(gract.ProgramNotFound, "no program"):
            gract.open(plain.STORMS_INDEX, program=self.file("text", "text"))
        text = self.file("text", "text")
        os.chmod(text, 0o700)
        for run in (lambda: gract.open(plain.STORMS_INDEX, program=text), lambda: gract.build([], self.folder / "new.idx", program=text)):
            with self.refused(gract.ProgramNotFound, "cannot be run: Exec format error"):
                run()
        with mock.patch.dict(os.environ, GRACT="/none/gract"), self.refused(gract.ProgramNotFound, "the variable GRACT"):
            gract.build([(1, 0, 0, 0)], self.folder / "new.idx")
        with mock.patch.dict(os.environ, PATH=str(self.folder)), mock.patch("gract.program.CHECKOUT", self.folder):
            os.environ.pop("GRACT", None)
            with self.refused(gract.ProgramNotFound, "none on the path", tried=(
                "program= is not given", "the variable GRACT is not given", "the package was installed from no wheel that has it",
                "there is none on the path", f"nor is it {self.folder}/gract",
            )):
                gract.find_program()
            (self.folder / "gract").symlink_to(STAND_IN)
            self.assertEqual(gract.find_program(), f"{self.folder}/gract")
            self.assertEqual(gract.program_sum(), hashlib.sha256(STAND_IN.read_bytes()).hexdigest())
            with mock.patch("gract.program.IN_WHEEL", STAND_IN):
                self.assertEqual(gract.find_program(), str(STAND_IN))
                with mock.patch.dict(os.environ, GRACT=str(self.folder / "gract")):
                    self.assertEqual(gract.find_program(), f"{self.folder}/gract")

    def test_grids(self):
        file = self.file("storms.idx", plain.STORMS_INDEX.read_bytes())
        with self.refused(gract.GridError, "cell 2 and tick 6"):
            gract.open(file, grid=gract.Grid(cell=2, tick=6))
        for text in ("", "[]", "{}", '{"grid": 2}', '{"grid": 1, "cell": 0, "tick": 1, "unit": 1, "epoch": 0, "west": 0, "names": {}}'):
            self.file("storms.grid.json", text)
            with self.refused(gract.GridError, "storms.grid.json"):
                gract.open(file)

    def test_closed(self):
        storms = gract.open(plain.STORMS_INDEX)
        cursor = storms.held(278)
        storms.close()
        for ask in (storms.info, lambda: storms.slice(0), lambda: list(storms.ask(["info"])), lambda: next(cursor)):
            with self.refused(gract.ClosedError, "closed"):
                ask()

    def test_changed(self):
        """A new child never opens another index than the one that was opened."""
        file = self.file("storms.idx", plain.STORMS_INDEX.read_bytes())
        with gract.open(file) as storms:
            storms._child.kill()
            self.assertEqual(storms.position(278, 52097), (-896, 293))
            gract.build([(278, 52097, 0, 0)], file)
            self.assertEqual(storms.position(278, 52097), (-896, 293))
            storms._child.kill()
            for _ in range(2):
                with self.refused(gract.ChangedError, "was written since", file=file):
                    storms.position(278, 52097)
        with gract.open(file) as storms:
            self.assertEqual(storms.position(278, 52097), (0, 0))

    def test_slots(self):
        with gract.open(plain.STORMS_INDEX) as storms:
            kept = [storms.held(item) for item in range(16)]
            with self.refused(gract.SlotsError, "16 cursors", slots=len(kept)):
                storms.held(278)

    def test_pandas(self):
        with gract.open(plain.STORMS_INDEX) as storms, mock.patch.dict(sys.modules, pandas=None):
            with self.refused(gract.PandasMissing, "pandas is not installed"):
                storms.slice(52097).frame()
        with gract.open(plain.STORMS_INDEX) as storms, mock.patch.dict(sys.modules, {"matplotlib": None, "matplotlib.pyplot": None}):
            with self.refused(gract.LibraryMissing, "python3-matplotlib", library="matplotlib"):
                storms.slice(52097).plot()

    # What the program refuses.

    def test_advice(self):
        """Each line of the page of questions has its advice, in the page's table and in the exception for the line."""
        outcomes, todo = (page_section(title) for title in ("Outcomes", "What to do"))
        lines = re.findall(r"\| `gract: ([^`]*)` \|", outcomes)
        quantities = [line.replace("QUANTITY", name) for line in lines if "QUANTITY" in line
                      for name in ("objects", "span", "extent", "blocks", "symbols")]
        wanted = {line for line in lines if "QUANTITY" not in line} | set(quantities)
        self.assertEqual(wanted, {told.line for told in advice.ADVICE.values()})
        self.assertEqual(re.findall(r"^\| `gract: (.*)` \| (.*) \|$", todo, re.MULTILINE), [tuple(told) for told in advice.ADVICE.values()])
        for key, told in advice.ADVICE.items():
            line = re.sub(r"\b[A-Z]+\b", lambda word: {"SECTION": "log", "KIND": "symbol"}.get(word[0], "1"), told.line)
            refusal = program.refusal_of(3, f"gract: {line}\n", index="any.idx", csv_file=None if key == "flaw" else "any.csv")
            with self.subTest(key=key):
                if key in ("settings", "common"):
                    # Of `merge`, which the package does not run.
                    self.assertEqual((type(refusal), refusal.advice), (errors.ChildDied, ""))
                else:
                    self.assertEqual(refusal.advice, told.what)
                    self.assertTrue(str(refusal).endswith(f"What to do: {told.what}"))
                    self.assertEqual(str(refusal).count("What to do"), 1)
                    self.assertTrue(str(refusal).startswith(refusal.sentence) and "\n" not in refusal.sentence)
                    self.assertEqual(pickle.loads(pickle.dumps(refusal)).advice, told.what)

    def test_bad_questions(self):
        with gract.open(plain.STORMS_INDEX) as storms:
            for line, cause, place in [
                ("where was Katrina", "word", None), ("slice 0 ring 0 0 1", "word", None), ("position 1", "count", None), ("slice 0", "count", None),
                ("position x 1", "number", 2), ("position 1 2199023255553", "range", 3), ("info " + " " * 1020, "long", None),
            ]:
                with self.refused(gract.BadQuestion, f"({cause})", line=line, cause=cause, place=place):
                    list(storms.ask(["info", line, "info"]))
                self.assertEqual(storms.position(278, 52097), (-896, 293))

    def test_rows(self):
        """A row that is none is told with its line, which is not its record where quotes hold ends of lines."""
        text = '\ufeffobject,instant,x,y\r\n\n1,0,"\n0",0\n1,1,1,1\n'
        with self.refused(gract.RowError, "line 3, record 2", record=2, field=3, fault="number", line=3, text=("1", "0", "\n0", "0"), status=3):
            gract.build(self.file("rows.csv", text), self.folder / "new.idx")
        with self.refused(gract.RowError, "3 fields", record=3, field=3, fault="count", line=4, text=("1", "2", "3")):
            gract.build(self.file("rows.csv", "1,0,0,0\n\r\n1,1,0,0\r1,2,3\n"), self.folder / "new.idx")
        with self.refused(gract.RowError, "0 to 4294967295", record=1, field=1, fault="range", line=1):
            gract.build(self.file("rows.csv", "-1,0,0,0"), self.folder / "new.idx")
        with self.refused(gract.RowError, "a heading must be", record=1, field=1, fault="number"):
            gract.build(self.file("rows.csv", "mmsi,time,x,y\n1,0,0,0\n"), self.folder / "new.idx")
        with self.refused(gract.EmptyError, "there is no row", file=self.file("rows.csv", "object,instant,x,y\n")):
            gract.build(self.folder / "rows.csv", self.folder / "new.idx")
        with self.refused(gract.EmptyError):
            gract.build([], self.folder / "new.idx")
        self.assertFalse((self.folder / "new.idx").exists())

    def test_limits(self):
        far = [
            ("span", 2**22 + 1, 2**22, [(1, 0, 0, 0), (1, 2**22, 0, 0)], {}), ("extent", 2**24 + 1, 2**24, [(1, 0, 0, 0), (1, 1, 0, 2**24)], {}),
            ("objects", 65537, 65536, [(item, 0, 0, 0) for item in range(65537)], {}),
            ("blocks", 9 * 2**22, 2**24, [(item, item // 9 * (2**22 - 1), 0, 0) for item in range(1, 10)], dict(period=1)),
            ("symbols", 9 * 2**22 - 9, 2**25, [(item, 0, 0, 0) for item in range(9)] + [(1, 2**22 - 1, 0, 0)], dict(period=2**22)),
        ]
        for kind, value, limit, rows, others in far:
            with self.refused(gract.LimitError, "the rows: the limit", kind=kind, value=value, limit=limit, status=4):
                gract.build(rows, self.folder / "new.idx", **others)
        long = self.folder / "long.csv"
        with open(long, "wb") as file:
            file.truncate(2**29 + 1)
        with self.refused(gract.LimitError, str(long), kind="csv", value=2**29 + 1, limit=2**29, file=str(long)):
            gract.build(long, self.folder / "new.idx")
        for kind in ("rows", "index", "questions"):
            with self.stand_in(status=4, text=f"gract: limit {kind} passed at 7\n") as index:
                with self.refused(gract.LimitError, kind=kind, value=7):
                    index.position(1, 1)

    def test_sources(self):
        with self.refused(gract.SourceError, "line 1 is no corner, which is two numbers: no corner"):
            zones.polygons_in(self.file("zone.txt", "no corner\n"))

    def test_damaged_indices(self):
        data, header = plain.STORMS_INDEX.read_bytes(), 72
        older = plain.OLDER_INDEXES[2].read_bytes()
        for damaged, section, period, kind, sentence in [
            (b"X" + data[1:], "header", 0, "magic", "is no index of gract"), (data[:-1], "log", 45, "short", "bytes are missing"),
            (older[:-1], "log", 0, "short", "bytes are missing"), (data + b"\0", "end", 0, "extra", "bytes follow its end"),
            (b"", "header", 0, "short", "is no index"), (data[:8] + b"\0\0\0\0" + data[12:], "header", 0, "field", "is damaged"),
            (data[:header] + b"\0" + data[header + 1:], "objects", 0, "large", "is damaged"),
        ]:
            file = self.file("damaged.idx", damaged)
            with self.refused(gract.FormatError, sentence, file=file, section=section, kind=kind, period=period, status=5):
                gract.open(file)
        draw = plain.randomness(7)
        for _ in range(60):
            place = draw.randrange(len(data))
            file = self.file("damaged.idx", data[:place] + bytes([data[place] ^ 1 << draw.randrange(8)]) + data[place + 1:])
            try:
                gract.open(file).close()
            except gract.FormatError as flaw:
                self.assertEqual(flaw.last_words, f"gract: index {flaw.section} period {flaw.period} place {flaw.place}: {flaw.kind}")

    def test_devices(self):
        with self.refused(gract.LoadError, "there is no such file", file=str(self.folder / "none.idx"), status=6):
            gract.open(self.folder / "none.idx")
        with self.refused(gract.LoadError, "it is a folder", file=str(self.folder)):
            gract.open(self.folder)
        with self.refused(gract.LoadError, "rows.csv", file=str(self.folder / "rows.csv")):
            gract.build(self.folder / "rows.csv", self.folder / "new.idx")
        with self.refused(gract.SaveError, "could not be saved", file=str(self.folder / "none/new.idx")):
            gract.build([(1, 0, 0, 0)], self.folder / "none/new.idx")
        for kind, text in [(gract.ListenError, "the questions could not be read"), (gract.SayError, "the answers could not be written")]:
            with self.stand_in(status=6, text=f"gract: {text}\n") as index, self.refused(kind, status=6):
                index.position(1, 1)

    # What no real program does.

    def test_stand_ins(self):
        with self.stand_in(status=7, text="gract: no memory\n") as index, self.refused(gract.MemoryRefused, "memory", status=7):
            index.path(1, 0, 1)
        with self.stand_in(after=0, status=2, text="gract: word 1 is not as expected\n"):
            with self.refused(gract.WordsError, "word 1", place=1):
                gract.open(self.file("any.idx", ""), program=STAND_IN)
        with self.stand_in(status=1, text="thread main panicked\n") as index:
            with self.refused(gract.ChildDied, "its last words were: thread main panicked", status=1, last_words="thread main panicked"):
                index.path(1, 0, 1)
        with self.stand_in(signal=signal.SIGSEGV, text="oh") as index:
            with self.refused(gract.ChildDied, "by signal 11", status=-11, last_words="oh"):
                index.path(1, 0, 1)
        with self.stand_in(status=0, text="") as index, self.refused(gract.ChildDied, "and said nothing", status=0):
            index.path(1, 0, 1)

    def test_other_replies(self):
        """What is no reply is never taken for one."""
        for said in ("what\nok 2\n", "ok\n1 2 3\nok x\n", "1 2 3\nok 0\n", "1 2\nok 1\n", "a b c\nok 1\n", "ok 0\nok 0\n", "ok 0\nmore", "bad word\n"):
            with self.subTest(said=said), self.stand_in(said=said) as index:
                with self.refused(gract.ReplyError, "no reply of gract", program=str(STAND_IN)):
                    index.path(1, 0, 1)

    def test_frames(self):
        """A frame has the columns of the records, also without a row."""
        grid = gract.Grid.degrees(10, tick=6, unit=3600)
        with gract.open(plain.STORMS_INDEX, grid=grid) as storms, mock.patch.dict(sys.modules, pandas=Pandas):
            path = storms.path(278, 52096, 52097)
            frame = path.frame()
            self.assertEqual((frame.rows, frame.columns), (list(path.records()), path.columns))
            self.assertEqual(frame.set, {"time": [52096, 52097]})
            self.assertEqual(storms.path(278, 0, 1).frame().columns, path.columns)
            self.assertEqual(path.columns, ["object", "instant", "time", "x", "y", "longitude", "latitude"])

    def test_later_questions(self):
        """A line that this package does not know is asked all the same, and its reply is numbers."""
        with self.stand_in(said="1 -2 3\nok 1\n") as index:
            self.assertEqual(list(index.ask(["wander 1 2 0 9 5"])), [[(1, -2, 3)]])

    def test_parts(self):
        """What is refused of parts; test_parts.py has more."""
        folder = self.folder / "parts"
        days.build([(1, 0, 0, 0), (1, 9, 0, 0)], folder, length=9)
        with self.refused(gract.DistributedMissing, "python3-distributed"), mock.patch.dict(sys.modules, distributed=None):
            shards.build([(1, 0, 0, 0)], self.folder / "shards", count=1)
        with days.open(folder) as asked:
            one, other = (folder / asked.manifest.parts[number].file for number in (0, 1))
            one.write_bytes(other.read_bytes())
            with self.refused(gract.PartsError, f"1 of 2 parts cannot be asked: part 0: {one} is an index, and not the one"):
                asked.path(1)
        with self.refused(gract.OtherFileError, str(one), file=str(one)):
            raise parted.Opener(gract.find_program(), 1).ask(asked.manifest.listed(folder)[0], [b"info\n"])
        with self.refused(gract.ManifestError, "no such file", file=str(self.folder / "parts.json")):
            days.open(self.folder)

    def test_a_lost_worker(self):
        """A shard of which one worker after the other dies is told."""
        listed = manifest.Manifest(manifest.ByObject(1), 1, 1, 1, {0: manifest.Part("part_0.idx", "", 0, 0)}).listed(self.folder)
        with mock.patch.dict(sys.modules, {"distributed": Scheduler, "distributed.scheduler": Scheduler}):
            workers = shards.Workers(Scheduler, gract.find_program(), None)
            with self.refused(gract.WorkerLost, "Is there memory enough?", file=str(self.folder / "part_0.idx")):
                workers.ask(listed, {0: [b"info\n"]})

    def test_noise(self):
        """A child that says much on standard error goes on being read."""
        with self.stand_in(noise=10**6) as index:
            self.assertEqual(index.path(1, 0, 1), [])


class Scheduler:
    """As much of distributed as `Workers` uses, where workers die."""

    status = "error"

    class KilledWorker(Exception):
        pass

    @classmethod
    def submit(cls, *words, **others):
        return cls

    @classmethod
    def gather(cls, futures):
        raise cls.KilledWorker


class Pandas:
    """As much of pandas as `frame` uses."""

    class DataFrame:
        def __init__(self, rows, columns):
            self.rows, self.columns, self.set = rows, columns, {}

        def __getitem__(self, name):
            return [row[name] for row in self.rows]

        def __setitem__(self, name, values):
            self.set[name] = values

    @staticmethod
    def to_datetime(texts, utc):
        assert utc
        return [gract.Grid(tick=6, unit=3600).instant(text) for text in texts]
