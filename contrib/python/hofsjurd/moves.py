"""Moves, and what needs no table: legal moves, the position after one, and algebraic notation."""
from __future__ import annotations

import ctypes
from typing import Optional, Protocol, Union

from . import _library
from ._library import PlainBoard, PlainMove, PlainRootMove, Reply, library
from .errors import ProbeError, error_of
from .positions import BoardLike, Position, fen_of, plain_of, square_name

# What a pawn becomes: by the library's numbers, as letters, and as piece types of python-chess (a knight is 2, a queen 5).
_LETTERS = ("", "q", "r", "b", "n")
_PIECE_TYPES = (None, 5, 4, 3, 2)
_EFFECTS = ("quiet", "pawn move", "capture", "en passant")
_STATES = ("open", "check", "checkmate", "stalemate")


class HasUci(Protocol):
    """Anything whose `uci()` gives a move in coordinates, as a chess.Move."""

    def uci(self) -> str:
        ...


MoveLike = Union[str, HasUci]


class Move:
    """A move, with the names of python-chess's chess.Move: squares from 0 (a1) to 63 (h8), and in `promotion` the type of the piece that
    a pawn becomes (2 knight, 3 bishop, 4 rook, 5 queen) or None. It is equal to a chess.Move of the same squares and piece, and a
    chess.Board takes it."""

    __slots__ = ("from_square", "to_square", "promotion")
    drop = None

    def __init__(self, from_square: int, to_square: int, promotion: Optional[int] = None) -> None:
        self.from_square, self.to_square, self.promotion = from_square, to_square, promotion

    @classmethod
    def from_uci(cls, text: str) -> Move:
        """The move that a text in coordinates is, as "e7e8q". A MoveError for any other text."""
        plain = plain_move(text)
        return cls(plain.start, plain.end, _PIECE_TYPES[plain.promotion])

    def uci(self) -> str:
        """The move in coordinates, as "e7e8q"."""
        return square_name(self.from_square) + square_name(self.to_square) + _LETTERS[_PIECE_TYPES.index(self.promotion)]

    def __eq__(self, other: object) -> bool:
        try:
            return self._key() == (other.from_square, other.to_square, other.promotion, other.drop)  # type: ignore[attr-defined]
        except AttributeError:
            return NotImplemented

    def __hash__(self) -> int:
        return hash(self._key())

    def _key(self) -> tuple[int, int, Optional[int], None]:
        return self.from_square, self.to_square, self.promotion, None

    def __str__(self) -> str:
        return self.uci()

    def __repr__(self) -> str:
        return f"Move.from_uci({self.uci()!r})"


class RootMove(Move):
    """A legal move with what it does and what it is worth to the side that makes it."""

    __slots__ = ("effect", "state", "_wdl", "_dtz")

    def __init__(self, plain: PlainRootMove) -> None:
        super().__init__(plain.start, plain.end, _PIECE_TYPES[plain.promotion])
        self.effect = _EFFECTS[plain.effect]
        self.state = _STATES[plain.state]
        self._wdl, self._dtz = _pair(plain.wdl), _pair(plain.dtz)

    @property
    def wdl(self) -> Optional[int]:
        """-2 to 2; None where a table is missing or damaged."""
        return None if self._wdl[0] else self._wdl[1]

    @property
    def dtz(self) -> Optional[int]:
        """From before the move in plies; None where a table is missing or damaged."""
        return None if self._dtz[0] else self._dtz[1]

    @property
    def error(self) -> Optional[ProbeError]:
        """Why there is no value, or no distance; None where there are both."""
        status = self._wdl[0] or self._dtz[0]
        return error_of(status) if status else None

    def __repr__(self) -> str:
        return f"RootMove({self.uci()}, wdl={self.wdl}, dtz={self.dtz})"


def _pair(reply: Reply) -> tuple[int, int]:
    return reply.status, reply.value


def _square(name: str) -> int:
    return "abcdefgh".index(name[:1] or " ") + 8 * "12345678".index(name[1:] or " ")


def plain_move(move: MoveLike) -> PlainMove:
    """The move as the library takes it. A MoveError for a text that is none."""
    text = move if isinstance(move, str) else move.uci()
    try:
        return PlainMove(_square(text[:2]), _square(text[2:4]), _LETTERS.index(text[4:]))
    except ValueError:
        raise error_of(_library.BAD_MOVE) from None


def uci_of(plain: PlainMove) -> str:
    """The move in coordinates."""
    return square_name(plain.start) + square_name(plain.end) + _LETTERS[plain.promotion]


def legal_moves(board: BoardLike) -> list[Move]:
    """The legal moves of a position, in rising order of their squares and promotions. It needs no table."""
    moves = (PlainMove * _library.MOST_MOVES)()
    reply = library.hofsjurd_board_moves(plain_of(board), moves, _library.MOST_MOVES)
    if reply.status:
        raise error_of(reply.status)
    return [Move(it.start, it.end, _PIECE_TYPES[it.promotion]) for it in moves[: reply.value]]


def plain_after(plain: PlainBoard, move: PlainMove) -> PlainBoard:
    """The board after a legal move. A MoveError where it isn't one, a PositionError where the board is at fault."""
    after = PlainBoard()
    status = library.hofsjurd_board_after(plain, move, after)
    if status:
        raise error_of(status)
    return after


def after(board: BoardLike, move: MoveLike) -> Position:
    """The position after a legal move. A MoveError where it isn't one. It needs no table."""
    return Position._over(plain_after(plain_of(board), plain_move(move)))


def state(board: BoardLike) -> str:
    """How a position stands for its side to move: "open", "check", "checkmate" or "stalemate". It needs no table."""
    reply = library.hofsjurd_board_state(plain_of(board))
    if reply.status:
        raise error_of(reply.status)
    return _STATES[reply.value]


def san(board: BoardLike, move: MoveLike) -> str:
    """A legal move in standard algebraic notation, as "Nf3". A MoveError where it is no move or isn't legal. It needs no table."""
    fen, room = fen_of(board), ctypes.create_string_buffer(16)
    reply = library.hofsjurd_move_san(fen, len(fen), plain_move(move), room, len(room))
    if reply.status:
        raise error_of(reply.status)
    return room.value.decode()


def read_san(fen: bytes, text: str) -> PlainMove:
    """The move that a text in standard algebraic notation tells in the position of a FEN text, as the library takes it."""
    given, move = text.encode(), PlainMove()
    status = library.hofsjurd_read_san(fen, len(fen), given, len(given), move)
    if status:
        raise error_of(status)
    return move


def parse_san(board: BoardLike, text: str) -> str:
    """The move in coordinates that a text in standard algebraic notation tells. A MoveError where it is none of a move, no legal move is as
    it tells, or two are. It needs no table."""
    return uci_of(read_san(fen_of(board), text))
