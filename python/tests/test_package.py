"""The package itself: Python 3.9 can read it, it needs the standard library alone, and all that is public is described."""

import ast
import importlib
import os
import subprocess
import sys
import unittest
from pathlib import Path

import gract

from . import plain

FILES = sorted((plain.TOP / "python").rglob("*.py"))
OWN = {"gract", "tests"}

# Whose functions are described and short.
FOLDERS = {"gract", "archive"}

# What became `gract.archive` keeps its names.
OLD_NAMES = ["cutting", "days", "folders", "manifest", "parted", "parts", "routes", "shards"]

# What is used only where it is there.
OPTIONAL = {"pandas", "geopandas", "matplotlib", "pyproj", "readline", "dask", "distributed"}


class Package(unittest.TestCase):
    def trees(self):
        return [(file, ast.parse(file.read_text(encoding="utf-8"), feature_version=(3, 9))) for file in FILES]

    def test_python_3_9(self):
        self.assertGreater(len(self.trees()), 15)

    @unittest.skipUnless(hasattr(sys, "stdlib_module_names"), "this Python does not tell its standard library, imports were not looked at")
    def test_standard_library(self):
        for file, tree in self.trees():
            for node in ast.walk(tree):
                names = [name.name for name in node.names] if isinstance(node, ast.Import) else []
                names += [node.module] if isinstance(node, ast.ImportFrom) and not node.level else []
                for name in names:
                    top = name.split(".")[0]
                    self.assertTrue(top in sys.stdlib_module_names or top in OWN | OPTIONAL, f"{file.name} imports {name}")

    def test_described(self):
        kinds = (ast.FunctionDef, ast.ClassDef)
        for file, tree in self.trees():
            if file.parent.name not in FOLDERS:
                continue
            self.assertTrue(ast.get_docstring(tree), file.name)
            public = [node for node in tree.body if isinstance(node, kinds)]
            public += [item for node in public if isinstance(node, ast.ClassDef) for item in node.body if isinstance(item, kinds)]
            for node in public:
                if not node.name.startswith("_"):
                    self.assertTrue(ast.get_docstring(node), f"{file.name}: {node.name} is not described")

    def test_long(self):
        """No function is longer than 40 lines, no line than 140 columns, no file than 500 lines."""
        for file, tree in self.trees():
            lines = file.read_text(encoding="utf-8").splitlines()
            self.assertLess(len(lines), 500, file.name)
            if file.parent.name in FOLDERS:
                for node in ast.walk(tree):
                    if isinstance(node, ast.FunctionDef):
                        self.assertLessEqual(node.end_lineno - node.lineno + 1, 40, f"{file.name}: {node.name}")

    def test_old_names(self):
        """A module of `gract.archive` is the one that has its old name, however it is imported."""
        for name in OLD_NAMES:
            module = importlib.import_module(f"gract.{name}")
            self.assertIs(module, importlib.import_module(f"gract.archive.{name}"))
            self.assertIs(getattr(gract, name), module)

    def test_what_is_loaded(self):
        """A name is that of its module, and a command loads what it wants: rows of a table no index, no program and no other format."""
        tree = ast.parse(Path(gract.__file__).read_text(encoding="utf-8"))
        block = next(node for node in tree.body if isinstance(node, ast.If))
        homes = {name.name: node.module or name.name for node in block.body for name in node.names}
        self.assertEqual(sorted(homes), gract.__all__)
        for name, module in homes.items():
            home = importlib.import_module(f"gract.{module}")
            self.assertIs(getattr(gract, name), home if name == module else getattr(home, name))
        self.assertFalse(hasattr(gract, "nothing"))
        code = "import sys; from gract.command import run; run(sys.argv[1:]); print(*(name for name in sys.modules if name.startswith('gract')))"
        words = ["rows", str(plain.TOP / "examples" / "samples" / "ais.csv"), "--output", os.devnull]
        done = subprocess.run([sys.executable, "-c", code, *words], cwd=plain.TOP / "python", capture_output=True, text=True, check=True)
        unwanted = {"gract.index", "gract.child", "gract.processes", "gract.frames", "gract.rows.nmea", "gract.rows.packed", "gract.rows.moves"}
        self.assertIn("gract.rows.table", done.stdout.split())
        self.assertFalse(unwanted & set(done.stdout.split()))

    def test_names(self):
        self.assertEqual(sorted(gract.__all__), gract.__all__)
        for name in gract.__all__:
            self.assertTrue(hasattr(gract, name), name)
        change = (plain.TOP / "CHANGELOG.md").read_text(encoding="utf-8")
        self.assertIn(f"\n| {gract.__version__} |", change)
