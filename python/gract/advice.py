"""What to do about each line that the program says on standard error.

This is the one place where it stands: docs/QUESTIONS.md has it as a table, which scripts/write_pages makes of it, and each exception of
`gract.errors` for such a line has it as `advice`, and as the last line of its text.
"""

from typing import Dict, NamedTuple


class Advice(NamedTuple):
    """A line of the program, with a word in capitals where it has a number or a name, and what to do about it."""

    line: str
    what: str


PARTS = "make parts by day, week or month, each with its own index"

# In the order of the table.
ADVICE: Dict[str, Advice] = {
    "words": Advice(
        "word PLACE is not as expected",
        "look at that word, counted from 1 after gract: it is misspelt, missing, out of range, or one too many. "
        "gract --help has the words of each command",
    ),
    "load": Advice(
        "a file could not be read",
        "check that the file is there, is no folder, and may be read; INDEX or CSV is read before TAIL, and of merge A before B",
    ),
    "limit csv": Advice("limit csv passed at 536870913", PARTS),
    "limit rows": Advice("limit rows passed at VALUE", PARTS),
    "count": Advice(
        "record NTH has FIELD fields",
        "write four fields in each row: object,instant,x,y. python3 -m gract rows makes such rows of other files",
    ),
    "number": Advice(
        "record NTH field FIELD is not a number",
        "write whole numbers, below no heading or exactly object,instant,x,y. python3 -m gract rows makes them of dates, degrees and names",
    ),
    "range": Advice(
        "record NTH field FIELD is out of range",
        "correct that row, or take a greater unit. Where ids are greater than 2^32 - 1, python3 -m gract rows --names FILE numbers them",
    ),
    "empty": Advice("no rows", "check that this is the file you meant, and that it has rows below its heading"),
    "limit base": Advice("limit base passed at VALUE", "build the index again: none that build makes has such a row"),
    "limit objects": Advice("limit objects passed at VALUE", "make parts by groups of objects, each with its own index"),
    "limit span": Advice("limit span passed at VALUE", f"take a greater tick, or {PARTS}; is a time wrong?"),
    "limit extent": Advice("limit extent passed at VALUE", "take a greater cell, or make parts by region; is a position wrong?"),
    "limit blocks": Advice("limit blocks passed at VALUE", f"take a greater period, or {PARTS}"),
    "limit symbols": Advice(
        "limit symbols passed at VALUE", f"take a smaller period, where objects are seldom there, or a greater tick, or {PARTS}"
    ),
    "limit index": Advice("limit index passed at 1073741825", "is it an index at all? No index that build makes is so long"),
    "flaw": Advice(
        "index SECTION period PERIOD place INDEX: KIND",
        "check that INDEX is an index and was copied whole: compare its sha256 with that of the original. "
        "Else build it again from its rows",
    ),
    "settings": Advice(
        "the files differ in NAME: LEFT and RIGHT", "build one of the two again with the CELL, TICK and PERIOD of the other"
    ),
    "common": Advice(
        "object OBJECT is in both files", "join later rows of the same objects by extend; merge takes parts that share no object"
    ),
    "save": Advice(
        "the index could not be saved",
        "make room on the disk, and check that the file and its folder may be written. Remove INDEX.0.new to INDEX.99.new, where killed "
        "saves left them",
    ),
    "listen": Advice("the questions could not be read", "check what standard input comes from: a file that may be read, or a pipe"),
    "say": Advice(
        "the answers could not be written", "check what standard output goes to: is the disk full, or does nobody read the pipe?"
    ),
    "limit questions": Advice("limit questions passed at 4294967297", "begin the program anew"),
    "memory": Advice(
        "no memory", "ask for less at once by a shorter window or a smaller region, make smaller parts, or let the program have more memory"
    ),
}
