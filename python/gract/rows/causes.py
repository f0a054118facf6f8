"""Why lines of a file were left out, and what of it was not used."""

from typing import Dict, Iterable, Iterator, List

# So many signs of a line are shown, and so many names of what was not used.
MOST_SHOWN, MOST_NAMED = 100, 20


class Cause:
    """How many lines were left out for one reason, and the first of them."""

    def __init__(self, where: str, line: str):
        self.count, self.where, self.line = 0, where, short(line)


class Causes:
    """The reasons of a whole run, and what files have that was not used."""

    def __init__(self) -> None:
        self.found: Dict[str, Cause] = {}
        self.unused: Dict[str, Dict[str, None]] = {}

    def leave_out(self, why: str, where: str = "", line: str = "", count: int = 1) -> None:
        """Counts a line that is left out; of each reason the first is kept."""
        cause = self.found.get(why)
        if cause is None:
            cause = self.found[why] = Cause(where, line)
        cause.count += count

    def not_used(self, what: str, names: Iterable[str]) -> None:
        """Notes what a file has that no row is made of, as its columns."""
        known = self.unused.setdefault(what, {})
        for name in names:
            if len(known) <= MOST_NAMED:
                known[short(name)] = None

    def told(self) -> Iterator[str]:
        """A line for each reason, and below it the first line that was left out for it; then a line for what was not used."""
        for why, cause in self.found.items():
            yield f"{cause.count} left out: {why}"
            if cause.line:
                yield f"  {cause.where}: {cause.line}" if cause.where else f"  {cause.line}"
        for what, names in self.unused.items():
            if names:
                yield f"{what} not used: {listed(list(names))}"


def short(line: str) -> str:
    """The beginning of a line."""
    return line if len(line) <= MOST_SHOWN else f"{line[:MOST_SHOWN - 3]}..."


def listed(names: List[str]) -> str:
    """Names with commas between them, or the first of them."""
    return ", ".join(names[:MOST_NAMED]) + (" and others" if len(names) > MOST_NAMED else "")
