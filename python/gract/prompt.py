"""`python3 -m gract ask`: questions as they are typed, on the command line, at a prompt, or a line each."""

import argparse
import sys
from typing import Any, List, Optional, Sequence

from . import output, wording
from .command import tell
from .errors import GractError
from .grid import Grid
from .index import Index
from .index import open as open_index
from .records import OBJECTS

PROMPT = "gract> "
ENDS = ("quit", "exit")

EXAMPLES = """
questions, each a word and arguments NAME=VALUE:

{questions}

    python3 -m gract ask ships.idx slice at='2022-06-01 12:00' box=10.2,54.1,11.0,55.0
    python3 -m gract ask ships.idx path object=219001460 --format geojson > path.geojson
    python3 -m gract ask ships.idx
    python3 -m gract build rows.csv ships.idx --cell 100 --tick 60 --middle 55

Without a question `ask` reads them, a line each: from a prompt where standard input is a terminal. A refusal is told on
standard error, with status 1.
"""


def add_to(parser: argparse.ArgumentParser) -> None:
    """Gives the command its words."""
    parser.epilog = EXAMPLES.format(questions="\n".join(f"    {line}" for line in wording.help_lines()))
    parser.formatter_class = argparse.RawDescriptionHelpFormatter
    parser.add_argument("index", metavar="INDEX")
    parser.add_argument("question", nargs="*", metavar="WORD", help="a question, and its arguments NAME=VALUE")
    parser.add_argument("--format", choices=output.FORMATS, default="table", help="how answers are printed (table)")
    parser.add_argument("--grid", metavar="FILE", help="the grid (else NAME.grid.json beside the index, if it is there)")


def run(given: argparse.Namespace) -> int:
    """Asks one question, or those that are typed."""
    grid = Grid.load(given.grid) if given.grid else None
    with open_index(given.index, program=given.program, grid=grid) as index:
        if given.question:
            say(index, given.question, given.format)
            return 0
        return prompt(index, given.format) if sys.stdin.isatty() else read_lines(index, given.format)


def say(index: Index, words: Sequence[str], form: str) -> None:
    """Asks a question, prints its answer, and tells notes on standard error."""
    told = wording.told(index, words)
    sys.stdout.write(output.FORMATS[form](told))
    sys.stdout.flush()
    for note in told.notes:
        print(f"gract: {note}", file=sys.stderr)


def read_lines(index: Index, form: str) -> int:
    """Asks the questions of standard input, a line each; the first that is refused ends it."""
    for line in sys.stdin:
        if line.strip():
            say(index, wording.split(line), form)
    return 0


def prompt(index: Index, form: str) -> int:
    """Asks the questions that are typed, with a history and completion where there is readline, until the end of input."""
    Completion(index).begin()
    print(f"{index!r}. 'help' says what can be asked; 'quit' ends.")
    while True:
        try:
            line = input(PROMPT).strip()
            if line in ENDS:
                return 0
            if line == "help":
                print(*wording.help_lines(), sep="\n")
            elif line:
                say(index, wording.split(line), form)
        except GractError as refusal:
            tell(refusal)
        except EOFError:
            print()
            return 0
        except KeyboardInterrupt:
            print("\n(interrupted)")


class Completion:
    """Completes words at the prompt: questions, their arguments, and objects that have names."""

    def __init__(self, index: Index):
        self.names = sorted(index.grid.names.values()) if index.grid else []

    def begin(self) -> None:
        """Sets up readline, where it is there."""
        try:
            import readline
        except ImportError:
            return
        self.readline: Any = readline
        readline.set_completer(self.complete)
        # A name with blanks is completed inside its quotes.
        readline.set_completer_delims(" ")
        readline.parse_and_bind("bind ^I rl_complete" if "libedit" in (readline.__doc__ or "") else "tab: complete")

    def complete(self, text: str, state: int) -> Optional[str]:
        """The completion of that number, from 0; readline asks until there is none."""
        found = self.found(self.readline.get_line_buffer()[: self.readline.get_begidx()].split(), text)
        return found[state] if state < len(found) else None

    def found(self, before: List[str], text: str) -> List[str]:
        """All completions of a word after those before it."""
        if not before:
            return [f"{word} " for word in (*wording.ASKED, "help", "quit") if word.startswith(text)]
        argument = text.partition("=")[0]
        if "=" in text and argument in OBJECTS:
            words = (f"{argument}={quoted(name)} " for name in self.names)
            return [word for word in words if word.startswith(text)]
        return [f"{name}=" for name in wording.ASKED.get(before[0], ()) if f"{name}=".startswith(text)]


def quoted(name: str) -> str:
    """A name as a word that `wording.split` takes for one."""
    return f'"{name}"' if " " in name else name
