"""Lists of values, as loops and sweeps name them."""
from __future__ import annotations

import pytest

from planet_tools.values import NoValues, values_of


@pytest.mark.parametrize("text, values", [
    ("1..4", ["1", "2", "3", "4"]),
    ("0..20%:10", ["0%", "10%", "20%"]),
    ("0..5:2", ["0", "2", "4"]),
    ("0..1:0.5", ["0.0", "0.5", "1.0"]),
    ("-1..1", ["-1", "0", "1"]),
    ("7..7", ["7"]),
    ("10,20,40", ["10", "20", "40"]),
    ("near", ["near"]),
])
def test_values(text: str, values: list[str]) -> None:
    assert values_of(text) == values


@pytest.mark.parametrize("text", ["", "4..1", "1..4:0", "1..", "1,,2", "1..9999999", "a..b", "1, 2", "$x"])
def test_no_values(text: str) -> None:
    with pytest.raises(NoValues):
        values_of(text)
