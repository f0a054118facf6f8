"""Numbers in a range; anything else is refused by the name of the argument."""

from typing import Any

from .errors import ArgumentError


def whole(argument: str, value: Any, least: int, most: int) -> int:
    """A whole number (also of numpy's) in a range; anything else is refused by the argument's name."""
    if isinstance(value, bool) or not hasattr(value, "__index__"):
        raise ArgumentError(argument, f"{value!r} is no whole number")
    number: int = value.__index__()
    if not least <= number <= most:
        # Python writes no number of thousands of digits.
        shown = number if number.bit_length() < 256 else f"a number of {number.bit_length()} bits"
        raise ArgumentError(argument, f"{shown} is not from {least} to {most}")
    return number


def real(argument: str, value: Any, least: float, most: float) -> float:
    """A number in a range, as a float; anything else is refused by the argument's name."""
    try:
        if isinstance(value, (bool, str, bytes)):
            raise TypeError
        number = float(value)
    except (TypeError, ValueError, OverflowError):
        raise ArgumentError(argument, f"{value!r} is no number") from None
    if not least <= number <= most:
        raise ArgumentError(argument, f"{value} is not from {least} to {most}")
    return number
