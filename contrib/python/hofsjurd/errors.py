"""Errors, each with the library's number for it (`status`) and its name as text, the same that the program `adjudicate` prints."""
from __future__ import annotations

import os
from typing import Any

from . import _library
from ._library import library, text_of


class ProbeError(Exception):
    """A question that has no answer. `status` is the library's number for it; the text is its name, and the table's where there is one."""

    def __init__(self, status: int, table: str = "") -> None:
        name = text_of(library.hofsjurd_status_name, status)
        super().__init__(f"{name} {table}" if table else name)
        self.status, self.table = status, table

    def __str__(self) -> str:
        return str(self.args[0])  # (that of a KeyError would be in quotes)

    def __reduce__(self) -> Any:
        return _made_again, (type(self), self.args, self.__dict__)  # (as pickle wants it: another process may raise it)


class ClosedError(ProbeError):
    """The Tablebase was closed."""


class PositionError(ProbeError, ValueError):
    """A text that is no FEN, or a position that breaks a rule of chess."""


class MoveError(ProbeError, ValueError):
    """A text that is no move, a move that isn't legal, or a text that is so of two legal moves."""


class GameOverError(ProbeError):
    """A game that has its verdict takes no move."""


class OutOfScopeError(ProbeError, KeyError):
    """A right to castle, or more than five men."""


class MissingTableError(ProbeError, KeyError):
    """A table that is needed is missing. `table` is its material, as "KQvKR"."""


class TooManyMenError(OutOfScopeError, MissingTableError):
    """More than five men: out of scope, and no such table is there. `table` is the material of the position."""


class RefusedTableError(MissingTableError):
    """A table that is needed is missing since its file is refused: it can't be read, isn't the one that was listed any more, or is no good
    table. `filename` is the file, `errno` the system's number for it or 0, `table` its name."""

    def __init__(self, status: int, number: int, filename: str) -> None:
        super().__init__(status)
        why = os.strerror(number) if number else "changed since it was listed" if status == _library.FILE_CHANGED else self.args[0]
        self.args = (f"{filename}: {why}",)
        self.errno, self.filename, self.table = number, filename, os.path.basename(filename)


class NoMemoryError(ProbeError, MemoryError):
    """The library was refused memory. Nothing is left changed."""


_KINDS: dict[int, type[ProbeError]] = {
    _library.HANDLE_CLOSED: ClosedError,
    _library.OUT_OF_SCOPE: OutOfScopeError,
    _library.NOT_COVERED: MissingTableError,
    _library.OUT_OF_MEMORY: NoMemoryError,
    _library.GAME_OVER: GameOverError,
    _library.BAD_MOVE: MoveError,
    _library.ILLEGAL_MOVE: MoveError,
    _library.AMBIGUOUS_MOVE: MoveError,
    **dict.fromkeys(_library.POSITION_FAULTS, PositionError),
}


def _made_again(kind: type[ProbeError], given: tuple[Any, ...], values: dict[str, Any]) -> ProbeError:
    error = kind.__new__(kind, *given)
    error.__dict__.update(values)
    return error


def error_of(status: int, table: str = "") -> ProbeError:
    """The error of a status that isn't 0."""
    return _KINDS.get(status, ProbeError)(status, table)
