"""Verdicts on positions and games."""
from __future__ import annotations

import enum
from typing import Optional


class Verdict(enum.IntEnum):
    """A verdict, by its number in messages and records. Its text is its name."""

    WhiteMates = 1
    BlackMates = 2
    Stalemate = 3
    TableDraw = 4
    TableWhite = 5
    TableBlack = 6
    Stopped = 7

    @property
    def result(self) -> str:
        """The result as PGN has it: "1-0", "0-1", "1/2-1/2", or "*" for Stopped, where a table is damaged."""
        return _RESULTS[self]

    def __str__(self) -> str:
        return self.name


_RESULTS = ("*", "1-0", "0-1", "1/2-1/2", "1/2-1/2", "1-0", "0-1", "*")
_VERDICTS = (None, *Verdict)


def verdict_of(value: int) -> Optional[Verdict]:
    """The verdict of a number; None for 0, a game that goes on."""
    return _VERDICTS[value]
