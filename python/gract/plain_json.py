"""JSON files, with nothing in them that can be read in two ways or held by no number or text of ours."""

import json
import math
from pathlib import Path
from typing import Any, Dict, List, NoReturn, Tuple, Union


def read_json(file: Union[str, Path]) -> Any:
    """What a JSON file in UTF-8 says. Raises OSError; and ValueError for anything else, for an object with a name twice, for a number
    that is not finite, and for a text that is no Unicode."""
    text = Path(file).read_text(encoding="utf-8")
    try:
        told = json.loads(text, object_pairs_hook=once, parse_constant=refused, parse_float=finite)
        json.dumps(told, ensure_ascii=False).encode()
    except RecursionError:
        raise ValueError("it is nested too deep") from None
    return told


def once(pairs: List[Tuple[str, Any]]) -> Dict[str, Any]:
    """An object of these names and values. Refuses a name that comes twice."""
    found = dict(pairs)
    if len(found) < len(pairs):
        names = [name for name, _ in pairs]
        raise ValueError(f"it has {next(name for name in found if names.count(name) > 1)!r} twice")
    return found


def refused(word: str) -> NoReturn:
    """Refuses NaN and the infinities, which are no JSON."""
    raise ValueError(f"{word} is no number")


def finite(word: str) -> float:
    """The number of a word. Refuses one that is too great."""
    number = float(word)
    if not math.isfinite(number):
        refused(word)
    return number
