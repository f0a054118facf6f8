"""The build backend of `pip install ./python` (PEP 517): that of setuptools, over a copy of the files, which leaves theirs as they are.

pip builds apart from what is installed, and would fetch setuptools anew. So none is asked for where the Python that runs has setuptools
and wheel: they are looked for where it keeps them, and pip installs without a network. Where it has none, pip is asked to bring them.

The same files give the same bytes, with the same setuptools. `build_wheel(folder, {"program": "./gract"})` makes a wheel that has the
program in it, for the systems on which that runs.
"""

import importlib.util
import os
import shutil
import site
import sys
import tempfile
from contextlib import contextmanager
from pathlib import Path
from typing import Any, Dict, Iterator, List, Optional

HERE = Path(__file__).resolve().parent

# What setuptools is, and since when it reads pyproject.toml.
WANTED = {"setuptools": "setuptools>=61", "wheel": "wheel"}

# Where Debian keeps them for its Python.
DEBIAN = "/usr/lib/python3/dist-packages"

# The program asks for a C library of 2.36 at most.
PLATFORM = "manylinux_2_36_x86_64"

# All files are as old as this in a wheel: 2000-01-01.
TIME = "946684800"

Config = Optional[Dict[str, Any]]


def reach_installed() -> None:
    """Makes what the Python has installed be found, behind all else."""
    for folder in [*site.getsitepackages([sys.prefix, sys.base_prefix]), DEBIAN]:
        if folder not in sys.path and os.path.isdir(folder):
            sys.path.append(folder)


def missing() -> List[str]:
    """What pip has to bring."""
    reach_installed()
    return [wanted for name, wanted in WANTED.items() if importlib.util.find_spec(name) is None]


def get_requires_for_build_wheel(config_settings: Config = None) -> List[str]:
    """What pip has to bring for a wheel."""
    return missing()


def get_requires_for_build_editable(config_settings: Config = None) -> List[str]:
    """What pip has to bring for an installation that reads the files where they are."""
    return missing()


def build_wheel(wheel_directory: str, config_settings: Config = None, metadata_directory: Optional[str] = None) -> str:
    """Writes the wheel into a folder, and answers with its name. The setting `program` names a program that goes into it."""
    target, program = Path(wheel_directory).resolve(), (config_settings or {}).get("program")
    with copied(Path(program).resolve() if program else None):
        os.environ.setdefault("SOURCE_DATE_EPOCH", TIME)
        return str(backend().build_wheel(str(target)))


def build_editable(wheel_directory: str, config_settings: Config = None, metadata_directory: Optional[str] = None) -> str:
    """Writes a wheel that reads the files where they are, and answers with its name."""
    return str(backend().build_editable(wheel_directory))


def build_sdist(sdist_directory: str, config_settings: Config = None) -> str:
    """There is no archive of sources but the repository's."""
    raise NotImplementedError("gract has no source archive: install from python/ of its repository")


def backend() -> Any:
    """That of setuptools."""
    reach_installed()
    return importlib.import_module("setuptools.build_meta")


@contextmanager
def copied(program: Optional[Path]) -> Iterator[None]:
    """Works in a copy of the files, in which all have the same modes, also what is made of them, and the program is in its place."""
    before = os.getcwd()
    with tempfile.TemporaryDirectory(prefix="gract-wheel-") as folder:
        place = Path(folder)
        shutil.copytree(HERE / "gract", place / "gract", ignore=shutil.ignore_patterns("__pycache__", ".*", "bin"))
        shutil.copy(HERE / "pyproject.toml", place)
        if program is not None:
            (place / "gract" / "bin").mkdir()
            shutil.copyfile(program, place / "gract" / "bin" / "gract")
            (place / "setup.cfg").write_text(f"[bdist_wheel]\npython_tag = py3\nplat_name = {PLATFORM}\n", encoding="ascii")
        for file in place.rglob("*"):
            file.chmod(0o755 if file.is_dir() or file.parent.name == "bin" else 0o644)
        os.chdir(place)
        mask = os.umask(0o022)
        try:
            yield
        finally:
            os.umask(mask)
            os.chdir(before)
