"""Records as tables: as a text in columns, as HTML, and as CSV."""

import csv
import html
from types import SimpleNamespace
from typing import Any, Dict, List, Sequence

# How many rows are shown of a long answer: half of them from its front and half from its end.
SHOWN = 20

# A text is shown with so many characters at most.
WIDEST = 60

# A spreadsheet takes a text that begins so for a formula, or as one.
FORMULAS = ("=", "+", "-", "@", "\t", "\r", "\n")


def table_of(records: Sequence[Dict[str, Any]]) -> str:
    """Records in columns; texts stand to the left, numbers to the right."""
    if not records:
        return "(no rows)"
    lines = [list(records[0]), *([f"{value}" for value in record.values()] for record in records)]
    widths = [max(map(len, column)) for column in zip(*lines)]
    left = [isinstance(value, str) for value in records[0].values()]
    return "\n".join(
        "  ".join(text.ljust(width) if side else text.rjust(width) for text, width, side in zip(line, widths, left)).rstrip()
        for line in lines
    )


def shortened(records: Sequence[Any]) -> Sequence[Sequence[Any]]:
    """The rows that are shown: all, or those at the front and those at the end."""
    return [records] if len(records) <= SHOWN else [records[: SHOWN // 2], records[-(SHOWN // 2):]]


def count_text(count: int) -> str:
    """How many rows there are, and how many are not shown."""
    rows = f"{count:,} row{'' if count == 1 else 's'}"
    return rows if count <= SHOWN else f"{rows}, of which {count - SHOWN:,} are left out here"


def plain_text(value: Any) -> str:
    """A value as a text without signs that a terminal obeys, and not too long."""
    text = "".join(sign if sign.isprintable() else "\N{REPLACEMENT CHARACTER}" for sign in f"{value}")
    return text if len(text) <= WIDEST else f"{text[:WIDEST - 3]}..."


def short_table(parts: Sequence[Sequence[Dict[str, Any]]], count: int, notes: Sequence[str]) -> str:
    """Records in columns, with a mark where some are left out, and what there is besides."""
    if not count:
        return "\n".join(["(no rows)", *notes])
    records = [{name: value if isinstance(value, (int, float)) else plain_text(value) for name, value in record.items()}
               for part in parts for record in part]
    lines = table_of(records).split("\n")
    if len(parts) > 1:
        lines.insert(1 + len(parts[0]), "...")
    return "\n".join([*lines, f"({count_text(count)})", *notes])


def html_table(columns: Sequence[str], parts: Sequence[Sequence[Dict[str, Any]]], count: int, notes: Sequence[str]) -> str:
    """Records as an HTML table, in which every text is escaped."""
    gap = f'<tr><td colspan="{len(columns)}">...</td></tr>\n'
    rows = gap.join("".join(html_row("td", record.values()) for record in part) for part in parts)
    below = "".join(f"<p>{html.escape(note)}</p>\n" for note in (count_text(count), *notes))
    return f"<table>\n<thead>{html_row('th', columns)}</thead>\n<tbody>\n{rows}</tbody>\n</table>\n{below}"


def html_row(kind: str, values: Any) -> str:
    """A row of an HTML table."""
    cells = "".join(f"<{kind}>{html.escape(plain_text(value))}</{kind}>" for value in values)
    return f"<tr>{cells}</tr>\n"


def csv_text(columns: Sequence[str], records: Sequence[Dict[str, Any]]) -> str:
    """Records as CSV with a heading. A text that a spreadsheet would take for a formula has an apostrophe before it."""
    lines: List[str] = []
    # With this end of a line the module quotes a text that has one of its signs in it.
    table = csv.DictWriter(SimpleNamespace(write=lines.append), columns, lineterminator="\r\n")
    table.writeheader()
    table.writerows({name: guarded(value) for name, value in record.items()} for record in records)
    return "".join(f"{line[:-2]}\n" for line in lines)


def guarded(value: Any) -> Any:
    """A value that is no formula."""
    return f"'{value}" if isinstance(value, str) and value.startswith(FORMULAS) else value
