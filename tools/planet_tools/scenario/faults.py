"""What is wrong with a scenario, and at which of its lines."""
from __future__ import annotations


class Fault(Exception):
    """One line of a scenario can't be meant, or what it asks for passes a limit."""

    def __init__(self, line: int, what: str) -> None:
        super().__init__(what)
        self.line = line
        self.what = what
