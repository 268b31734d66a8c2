"""Lists of values, as a loop of a scenario and a sweep name them: `1..200`, `0..50%:5`, `10,20,40`, `near,far`."""
from __future__ import annotations

import re
from decimal import Decimal

RANGE = re.compile(r"(-?\d+(?:\.\d+)?)\.\.(-?\d+(?:\.\d+)?)(%?)(?::(\d+(?:\.\d+)?))?")
WORD = re.compile(r"[^\s,$]+")
MOST = 1_000_000


class NoValues(ValueError):
    """The text names no values; the message says why."""


def values_of(text: str) -> list[str]:
    """The values that a text names, in order."""
    found = RANGE.fullmatch(text)
    if found:
        return range_of(found)
    values = text.split(",")
    for value in values:
        if not WORD.fullmatch(value) or ".." in value:
            raise NoValues(f"'{text}' names no values: write A..B, A..B:STEP or A,B,C")
    return values


def range_of(found: re.Match[str]) -> list[str]:
    """The values of FIRST..LAST[%][:STEP], the last one too where a step ends at it."""
    first, last = Decimal(found.group(1)), Decimal(found.group(2))
    step = Decimal(found.group(4) or "1")
    if step == 0 or last < first:
        raise NoValues(f"'{found.group(0)}' names no values: the step is above 0, and the first value at most the last")
    count = int((last - first) / step) + 1
    if count > MOST:
        raise NoValues(f"'{found.group(0)}' names {count:,} values, and at most {MOST:,} are taken")
    return [f"{first + step * place}{found.group(3)}" for place in range(count)]
