"""What the repository's own checks read of it: crates, their definitions, clauses and edits."""

import importlib.util
import re
from pathlib import Path

TOP = Path(__file__).resolve().parent.parent

# A line of specs/ that begins a definition, and its name.
DEFINITION = re.compile(r"^ *(?:abbrev |unfoldable |opaque )?pub (?:record |data )?([^\s:(]+)")
NOT_DEFINITIONS = ("use", "mod", "open")


def crates():
    """Each crate of crates.txt with what it stands on, in the order of the file."""
    listed = {}
    for line in (TOP / "crates.txt").read_text().splitlines():
        name, colon, below = line.partition("#")[0].partition(":")
        if colon:
            listed[name.split()[0]] = below.split()
    return listed


def folder(crate):
    return TOP / "crates" / crate


def definitions(file):
    """Each public definition of a file of specs/: its name, and the comment above it, if it has one."""
    found, comment, record = [], [], None
    for line in file.read_text().splitlines():
        if line.lstrip().startswith("-- "):
            comment.append(line.strip()[3:])
            continue
        indent = len(line) - len(line.lstrip())
        if line.strip() and record is not None and indent <= record:
            record = None
        match = DEFINITION.match(line)
        if match and match.group(1) not in NOT_DEFINITIONS and " use " not in line and record is None:
            found.append((match.group(1), " ".join(comment)))
            if "pub record " in line or "pub data " in line:
                record = indent
        comment = []
    return found


def spec_files(crate):
    """The files of a crate's definitions, in the reading order of its Lib.antt."""
    specs = folder(crate) / "specs"
    library = specs / "Lib.antt"
    if not library.exists():
        return []
    names = re.findall(r"^(?:pub )?mod (\w+)", library.read_text(), re.MULTILINE)
    files = [specs / f"{name}.antt" for name in names]
    return [file for file in files if file.exists()]


def heading(file):
    """The sentence at the head of a file of definitions."""
    lines = []
    for line in file.read_text().splitlines():
        if not line.startswith("-- "):
            break
        lines.append(line[3:])
    return re.split(r"(?<=[.])\s", " ".join(lines))[0]


def files_below(file):
    """The files of definitions that a file's `use` lines name, and all that those rest on."""
    found, left = set(), [file]
    while left:
        for crate, name in re.findall(r"^\s*(?:ghost |pub )?use Rattle\.(\w+)\.specs\.(\w+)", left.pop().read_text(), re.MULTILINE):
            below = folder(crate) / "specs" / f"{name}.antt"
            if below.exists() and below not in found:
                found.add(below)
                left.append(below)
    return found


def about(name):
    """A text of the program about itself: what `gract --help` or `gract --version` prints."""
    text = (folder("gract_cli") / "src" / "about.rt").read_text()
    found = re.search(rf'^const {name}: &str = "((?:[^"\\]|\\.)*)";$', text, re.MULTILINE | re.DOTALL)
    return found.group(1).replace("\\\n", "").replace("\\n", "\n").replace('\\"', '"')


def advice():
    """Of each line that the program says on standard error, what to do about it: the table of the package for Python."""
    file = TOP / "python" / "gract" / "advice.py"
    module = importlib.util.module_from_spec(spec := importlib.util.spec_from_file_location("advice", file))
    spec.loader.exec_module(module)
    return [(told.line, told.what) for told in module.ADVICE.values()]


def version():
    """The version, as the program tells it."""
    return about("VERSION").split()[1]


def edits(crate):
    """The names of a crate's wrong bodies that the gate tries."""
    return sorted(file.name for file in (folder(crate) / "must-fail").glob("*.edit"))


def more_edits(crate):
    """The names of a crate's wrong bodies that scripts/check_edits tries."""
    return sorted(file.name for file in (folder(crate) / "more-edits").glob("*.edit"))


def sources(crate):
    return [file for file in (folder(crate) / "src").rglob("*.rt")]


def tests(crate):
    """The tests of a crate, each by its module and its name."""
    for file in sources(crate):
        module = file.relative_to(folder(crate) / "src").with_suffix("").parts
        for name in re.findall(r"^#\[test\]\nfn (\w+)", file.read_text(), re.MULTILINE):
            yield "::".join([*(part for part in module if part not in ("lib", "main")), name])


def labels(crate):
    """The labels of the clauses of each call of a crate, of calls with one name together, as a dictionary."""
    found = {}
    for file in sources(crate):
        call = None
        for line in file.read_text().splitlines():
            begins = re.match(r"^ *(?:pub(?:\(\w+\))? )?fn (\w+)", line)
            if begins:
                call = begins.group(1)
                found.setdefault(call, set())
            label = re.match(r"^ *(?:requires|ensures) (\w+) ", line)
            if label and call:
                found[call].add(label.group(1))
    return found


def exported(crate):
    """The names that a library hands out."""
    root = folder(crate) / "src" / "lib.rt"
    handed = re.findall(r"^pub use ([^;]*);", root.read_text(), re.MULTILINE) if root.exists() else []
    return set(re.findall(r"\w+", " ".join(handed)))


def answers(crate):
    """Each call that a library hands out, with the type of its answer: of a type or a trait `TYPE::CALL`, of none `CALL`."""
    names = exported(crate)
    for file in sources(crate):
        if "tests" in file.relative_to(folder(crate)).as_posix():
            continue
        owner = is_trait = call = None
        for line in file.read_text().splitlines():
            begins = re.match(r"(?:pub )?(impl|trait)\b(?:<[^>]*>)?(.* for)? (\w+)", line)
            if begins:
                is_trait, owner = begins.group(1) == "trait", begins.group(3)
            call = re.match(r"( *)(pub )?fn (\w+)", line) or call
            answer = re.search(r"-> (.*?)(?: \{|;)?$", line)
            if not call or not answer:
                continue
            indent, is_public, name = call.groups()
            call = None
            if (owner if indent else name) in names and (is_public or indent and is_trait):
                yield f"{owner}::{name}" if indent else name, answer.group(1)


def words(crate):
    """All public names of a crate's definitions, those of fields too."""
    found = set()
    for file in spec_files(crate):
        found.update(name for name, _ in definitions(file))
        found.update(re.findall(r"^ +pub (\w+) :", file.read_text(), re.MULTILINE))
    return found


def readme(crate):
    file = folder(crate) / "README.md"
    return file.read_text() if file.exists() else ""


def first_sentence(text):
    """The sentence after a page's heading, in one line."""
    body = text.split("\n", 1)[1].strip() if "\n" in text else ""
    paragraph = " ".join(body.split("\n\n", 1)[0].split())
    return re.split(r"(?<=[.])\s", paragraph)[0]


def tables(text, header):
    """The rows, as lists of cells, of the tables of a page whose heading row begins with these cells."""
    rows, inside = [], False
    for line in text.splitlines():
        cells = None
        if line.startswith("|"):
            cells = [cell.strip() for cell in re.split(r"(?<=\s)\|(?=\s)", line.strip().strip("|"))]
        if cells is None:
            inside = False
        elif cells[: len(header)] == header:
            inside = True
        elif inside and not set(line) <= set("|- "):
            rows.append(cells)
    return rows
