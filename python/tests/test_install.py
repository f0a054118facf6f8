"""The installation of python/ into a new environment, without a network."""

import importlib.util
import os
import shutil
import subprocess
import sys
import tempfile
import unittest
from pathlib import Path

import gract

from . import plain


SAMPLE = plain.TOP / "examples/samples/ais.csv"


def parts_of(folder):
    """The files of the package in a folder."""
    return {str(file.relative_to(folder)) for file in folder.rglob("*") if file.suffix in (".py", ".html", ".css", ".js", ".svg", ".typed")}


@unittest.skipUnless(importlib.util.find_spec("pip") and importlib.util.find_spec("venv"), "pip or venv is missing, the installation was not tried")
class Install(unittest.TestCase):
    def test_install(self):
        """The package that is installed is the one of the checkout, answers, and brings one command, which does not hide the program."""
        with tempfile.TemporaryDirectory() as folder:
            place, python = Path(folder) / "python", Path(folder) / "venv/bin/python"
            shutil.copytree(plain.TOP / "python", place, ignore=shutil.ignore_patterns("__pycache__", ".mypy_cache"))
            self.run_in(folder, sys.executable, "-m", "venv", "--without-pip", "--system-site-packages", "venv")
            if subprocess.run([python, "-m", "pip", "--version"], stdout=subprocess.DEVNULL, stderr=subprocess.DEVNULL).returncode != 0:
                self.skipTest("a new environment has no pip, the installation was not tried")
            before = set(python.parent.iterdir())
            self.run_in(folder, str(python), "-m", "pip", "install", "--quiet", "--no-index", "--no-deps", "--disable-pip-version-check", str(place))
            self.assertEqual({file.name for file in set(python.parent.iterdir()) - before}, {"gract-py"})
            self.assertEqual(sorted(file.name for file in place.iterdir()), sorted(file.name for file in (plain.TOP / "python").iterdir() if not file.name.startswith((".", "__"))))
            code = f"import gract; print(gract.__file__, gract.__version__, gract.open({str(plain.STORMS_INDEX)!r}).position(278, 52097))"
            file, version, *cell = self.run_in(folder, str(python), "-c", code, GRACT=gract.find_program()).split(maxsplit=2)
            self.assertTrue(Path(file).resolve().is_relative_to(Path(folder).resolve()))
            self.assertEqual((version, cell), (gract.__version__, ["Cell(x=-896, y=293)\n"]))
            there = parts_of(Path(file).parent)
            self.assertTrue({"pictures/page.html", "py.typed"} <= there)
            self.assertEqual(there, parts_of(plain.TOP / "python/gract"))
            self.assertEqual(len(self.run_in(folder, str(python), "-m", "gract", "rows", str(SAMPLE)).splitlines()), 4)
            version = self.run_in(folder, str(python.parent / "gract-py"), "ask", str(plain.STORMS_INDEX), "position", "object=278", "at=52097", GRACT=gract.find_program())
            self.assertIn("-896", version)
            # It tells of all packages of the system, of which others may lack something.
            checked = self.run_in(folder, str(python), "-m", "pip", "check", "--disable-pip-version-check", statuses=(0, 1))
            self.assertNotIn("gract", checked)

    def run_in(self, folder, *words, statuses=(0,), **others):
        environment = {name: value for name, value in os.environ.items() if name != "PYTHONPATH"}
        done = subprocess.run(words, cwd=folder, stdout=subprocess.PIPE, stderr=subprocess.PIPE, text=True, env={**environment, **others})
        self.assertIn(done.returncode, statuses, done.stdout + done.stderr)
        return done.stdout
