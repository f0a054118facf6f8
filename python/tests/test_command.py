"""The command `python3 -m gract`: questions with dates and degrees, each format, and the prompt on a terminal."""

import contextlib
import csv
import importlib.util
import io
import json
import os
import pty
import select
import signal
import subprocess
import sys
import tempfile
import time
import unittest
from pathlib import Path
from unittest import mock

import gract
from gract.command import run

from . import plain

GULF = "box=-98,18,-81,31"


def command(*words, stdin=""):
    """A command line's status, standard output and standard error."""
    out, err = io.StringIO(), io.StringIO()
    with contextlib.redirect_stdout(out), contextlib.redirect_stderr(err), mock.patch("sys.stdin", io.StringIO(stdin)):
        try:
            status = run([str(word) for word in words])
        except SystemExit as end:
            status = end.code
    return status, out.getvalue(), err.getvalue()


class Command(unittest.TestCase):
    @classmethod
    def setUpClass(cls):
        cls.folder = tempfile.TemporaryDirectory()
        cls.index = Path(cls.folder.name) / "storms.idx"
        words = "--tick 6 --unit 3600 --per-degree 10 --period 1461 --names".split()
        assert command("build", plain.STORMS, cls.index, *words, plain.NAMES) == (0, "", "")
        assert cls.index.read_bytes() == plain.STORMS_INDEX.read_bytes()

    @classmethod
    def tearDownClass(cls):
        cls.folder.cleanup()

    def ask(self, *words, **others):
        return command("ask", self.index, *words, **others)

    def test_propose(self):
        samples = plain.TOP / "examples" / "samples"
        proposal = gract.propose(samples / "ais.csv", cell=50)
        self.assertEqual(command("propose", samples / "ais.csv", "--cell", 50), (0, f"{proposal.text}\n", ""))
        status, out, err = command("propose", samples / "ais-milliseconds.csv", "--id", "beacon", "--time", "t")
        self.assertEqual((status, err), (0, ""))
        self.assertIn("a shorter tick passes the limit span; 1 of 3 reports are lost", out)
        refused = "gract: id: no column is called as usual: say which by id=. There are lon, lat, t, beacon\n"
        self.assertEqual(command("propose", samples / "ais-milliseconds.csv"), (1, "", refused))

    def test_formats(self):
        question = "position", "object=Katrina", "at=2005-08-29 06:00"
        heading = "object,name,instant,time,x,y,longitude,latitude\n"
        self.assertEqual(self.ask(*question, "--format", "csv"), (0, f"{heading}278,Katrina,52097,2005-08-29 06:00,-896,293,-89.55,29.35\n", ""))
        row = {"object": 278, "name": "Katrina", "instant": 52097, "time": "2005-08-29 06:00", "x": -896, "y": 293}
        self.assertEqual(json.loads(self.ask(*question, "--format", "json")[1]), [{**row, "longitude": -89.55, "latitude": 29.35}])
        self.assertEqual(json.loads(self.ask(*question, "--format", "geojson")[1]), {"type": "FeatureCollection", "features": [
            {"type": "Feature", "geometry": {"type": "Point", "coordinates": [-89.55, 29.35]}, "properties": row},
        ]})
        self.assertEqual(self.ask(*question)[1].split(), (heading.replace(",", " ") + "278 Katrina 52097 2005-08-29 06:00 -896 293 -89.55 29.35").split())
        self.assertEqual(self.ask("position", "object=Katrina", "at=52000"), (0, "(no rows)\n", ""))
        self.assertEqual(self.ask("position", "object=Katrina", "at=52000", "--format", "json"), (0, "[]\n", ""))
        self.assertIn("there is no row at instant 0", self.ask("position", "object=Katrina", "at=0")[2])
        self.assertEqual(self.ask("position", "object=Katrina", "at=52000", "--format", "csv"), (0, heading, ""))

    def test_answers(self):
        """Each question that can be typed has the answer of its method, in each format."""
        with gract.open(self.index) as storms:
            for words, answer in [
                (["path", "object=278", "since=2005-08-28", "until=2005-08-29 23:00"], storms.path(278, "2005-08-28", "2005-08-29 23:00")),
                (["slice", "at=52097", "rect=-980,180,-810,310"], storms.slice(52097, gract.rect(-980, 180, -810, 310))),
                (["slice", "at=52097", "zone=disc -802 258 9 rect -980,180,-810,310"],
                 storms.slice(52097, gract.zone(gract.disc(-802, 258, 9), gract.rect(-980, 180, -810, 310)))),
                (["slice", "at=52097", "around=-90,29.9", "metres=70000"], storms.slice(52097, around=(-90, 29.9), metres=70000)),
                (["interval", "since=2005-06-01", "until=2005-11-30", GULF], storms.interval("2005-06-01", "2005-11-30", box=(-98, 18, -81, 31))),
                (["nearest", "count=3", "at=74077", "place=-80.2 25.8"], storms.nearest(3, 74077, (-802, 258))),
                (["nearest", "count=3", "at=74077", "cell=-802,258"], storms.nearest(3, 74077, (-802, 258))),
                (["meet", "left=500", "right=502", "reach=400"], storms.meet(500, 502, reach=400)),
                (["last_known", "at=2005-08-29 08:00", "within=1 d", "disc=-802,258,150"],
                 storms.last_known(52097, 4, gract.disc(-802, 258, 150))),
                (["visits", "since=2005-06-01", "until=2005-12-01", GULF], storms.visits(since="2005-06-01", until="2005-12-01", box=(-98, 18, -81, 31))),
                (["objects"], storms.objects()),
            ]:
                self.assertGreater(len(answer), 0)
                notes = "".join(f"gract: {note}\n" for note in answer.notes)
                status, out, err = self.ask(*words, "--format", "csv")
                self.assertEqual((status, err.rstrip()), (0, notes.replace("(-98, 18, -81, 31)", "(-98.0, 18.0, -81.0, 31.0)").replace(
                    "(-90, ", "(-90.0, ").replace("70000 metres around", "70000.0 metres around").rstrip()))
                texts = [{name: str(value) for name, value in record.items()} for record in answer.records()]
                self.assertEqual(list(csv.DictReader(io.StringIO(out))), texts)
                self.assertEqual(json.loads(self.ask(*words, "--format", "json")[1]), list(answer.records()))
                features = json.loads(self.ask(*words, "--format", "geojson")[1])["features"]
                if words[0] == "path":
                    self.assertEqual(len(features[0]["geometry"]["coordinates"]), len(answer))
                    self.assertEqual(features[0]["properties"]["instants"], [stop.instant for stop in answer])
                elif words[0] == "meet":
                    self.assertEqual([feature["geometry"]["coordinates"] for feature in features], [[-53.05, 24.35]])
                else:
                    self.assertEqual([feature["properties"]["object"] for feature in features], [row.object for row in answer])
            self.assertEqual(json.loads(self.ask("info", "--format", "json")[1]), [storms.facts._asdict()])

    def test_lines(self):
        """Without a question they are read from standard input."""
        lines = "position object=Katrina at='2005-08-29 06:00'\n\nposition object=278 at=0\n"
        self.assertEqual(self.ask("--format", "json", stdin=lines)[1].count("\n"), 2)
        status, out, err = self.ask("--format", "csv", stdin="position object=278 at=52000\nposition object=Nobody at=0\ninfo\n")
        self.assertEqual((status, out.count("\n"), err), (1, 1, "gract: object: no object is called Nobody\n"))

    def test_refusals(self):
        for words, sentence in [
            (["where"], "question: where is none"), (["slice"], "at: it is missing"), (["slice", "when=0"], "when: slice has no such argument"),
            (["slice", "at=0", "at=1"], "at: it is there twice"), (["slice", "at=0", "rect=1,2,3"], "rect: 1,2,3 has 3 numbers"),
            (["slice", "at=0", "rect=1,2,3,x"], "rect: x is no whole number"), (["slice", "at=0", "box=a,b,c,d"], "box: a is no number"),
            (["slice", "at=0", "zone=ring 1 2"], "zone: 'ring' is no shape"), (["slice", "at=0", "zone=disc 1 2"], "zone: 1 2 has 2 numbers"),
            (["slice", "at=0", "zone=rect 0 0 1 1", "disc=1,2,3"], "disc: it is there twice"),
            (["slice", "at=noon"], "at: not a time: noon"), (["position", "object=278", "at"], "at: position has no such"),
            (["nearest", "count=-1", "at=0", "cell=0,0"], "count: -1 is not from 0"), (["info", "--grid", "none.json"], "none.json could not be read"),
            (["info", "--format", "geojson"], "format: geojson wants degrees"),
        ]:
            status, out, err = self.ask(*words)
            self.assertEqual((status, out), (1, ""), words)
            self.assertIn(f"gract: {sentence}", err)
            self.assertEqual(err.count("\n"), 1)
        self.assertIn("there is no such file", command("ask", "none.idx", "info")[2])
        self.assertIn("is there and is no index", command("build", plain.STORMS, plain.NAMES)[2])
        self.assertIn("names: 'none.csv' could not be read", command("build", plain.STORMS, self.index, "--names", "none.csv")[2])
        self.assertEqual(command("ask", self.index, "info", "--format", "xml")[0], 2)
        self.assertEqual(command("--program", "/none/gract", "ask", self.index, "info")[0], 1)

    def test_a_pipe_that_closes(self):
        """Who reads only the first line gets it, and nothing is said of the rest."""
        python = subprocess.Popen(
            [sys.executable, "-m", "gract", "ask", self.index, "--format", "csv"], stdin=subprocess.PIPE, stdout=subprocess.PIPE,
            stderr=subprocess.PIPE, text=True, env={**os.environ, "PYTHONPATH": str(plain.TOP / "python")},
        )
        python.stdin.write("objects\n")
        python.stdin.flush()
        self.assertTrue(python.stdout.readline().startswith("object,name,first"))
        python.stdout.close()
        python.stdin.write("objects\n" * 20)
        python.stdin.close()
        self.assertEqual((python.wait(20), python.stderr.read()), (0, ""))
        python.stderr.close()


class Terminal:
    """A prompt on a terminal of its own."""

    def __init__(self, index):
        self.shown = ""
        self.pid, self.fd = pty.fork()
        if self.pid == 0:
            os.environ.update(PYTHONPATH=str(plain.TOP / "python"), TERM="dumb", INPUTRC="/dev/null", COLUMNS="200")
            os.execv(sys.executable, [sys.executable, "-m", "gract", "ask", str(index), "--format", "csv"])

    def until(self, text, seconds=20):
        """What the terminal shows up to that text. What it shows after it is kept for the next."""
        end = time.monotonic() + seconds
        while text not in self.shown:
            if not select.select([self.fd], [], [], max(0, end - time.monotonic()))[0]:
                raise AssertionError(f"{text!r} does not come: {self.shown!r}")
            self.shown += os.read(self.fd, 4096).decode()
        shown, self.shown = self.shown.split(text, 1)
        return shown

    def type(self, text):
        os.write(self.fd, text.encode())

    def press(self, key, text):
        """Types that key until the terminal shows that text: Python's prompt loses an interrupt that comes while it begins to wait."""
        for _ in range(20):
            self.type(key)
            with contextlib.suppress(AssertionError):
                return self.until(text, seconds=1)
        raise AssertionError(f"{text!r} does not come: {self.shown!r}")


@unittest.skipUnless(importlib.util.find_spec("readline"), "this Python has no readline, the prompt was not tried")
class Prompt(unittest.TestCase):
    def test_prompt(self):
        """Words are completed, a line is asked again from the history, a refusal and an interrupt end nothing, and no child is left."""
        answer = "278,Katrina,52097,2005-08-29 06:00,-896,293,-89.55,29.35"
        with tempfile.TemporaryDirectory() as folder:
            index = Path(folder) / "storms.idx"
            index.write_bytes(plain.STORMS_INDEX.read_bytes())
            gract.Grid.degrees(10, tick=6, unit=3600, names=plain.NAMES).save(index)
            terminal = Terminal(index)
            try:
                terminal.until("gract> ")
                terminal.type("posi\tobj\tKat\tat='2005-08-29 06:00'\n")
                self.assertIn("position object=Katrina at=", terminal.until(answer))
                terminal.until("gract> ")
                terminal.type("\x1b[A\n")
                terminal.until(answer)
                terminal.until("gract> ")
                terminal.type("slice at=noon\n")
                terminal.until("gract: at: not a time: noon")
                terminal.until("gract> ")
                terminal.type("posi")
                terminal.until("posi")
                terminal.press("\x03", "(interrupted)")
                terminal.until("gract> ")
                terminal.type("slice at='2005-08-29 06:00\n")
                terminal.until("no closing quotation")
                terminal.type("help\n")
                terminal.until("within=")
                terminal.type("nearest count=1 at=52097 place=-90,30\n")
                terminal.until("278,Katrina")
                terminal.until("gract> ")
                terminal.type("\x04")
                self.assertEqual(os.waitstatus_to_exitcode(self.wait(terminal.pid)), 0)
            finally:
                with contextlib.suppress(ProcessLookupError):
                    os.kill(terminal.pid, signal.SIGKILL)
                os.close(terminal.fd)

    @staticmethod
    def wait(pid):
        for _ in range(1000):
            done, status = os.waitpid(pid, os.WNOHANG)
            if done:
                return status
            time.sleep(0.01)
        raise AssertionError("the prompt does not end")
