"""Positions: by FEN, by sets of squares, or by a chess.Board of python-chess."""
from __future__ import annotations

from typing import Any, Optional, Protocol, Union

from . import _library
from ._library import PlainBoard, library
from .errors import OutOfScopeError, ProbeError, TooManyMenError, error_of

START = "rnbqkbnr/pppppppp/8/8/8/8/PPPPPPPP/RNBQKBNR w KQkq - 0 1"

_KINDS = ("kings", "pawns", "rooks", "queens", "bishops", "knights")
_LETTERS = dict(zip(_KINDS, "kprqbn"))
# The bits of rights to castle in the library's order, as FEN writes them; and the rooks' squares, by which python-chess tells them.
_RIGHTS = ((1, "K"), (2, "Q"), (4, "k"), (8, "q"))
_ROOKS = ((1 << 7, 1), (1 << 0, 2), (1 << 63, 4), (1 << 56, 8))
_CORNERS = sum(rook for rook, _ in _ROOKS)
_MOST_COUNTER = 0xFFFF
_MOST_MEN = 5


class HasFen(Protocol):
    """Anything whose `fen()` gives a FEN text of six fields, as a chess.Board."""

    def fen(self) -> str:
        ...


BoardLike = Union[str, HasFen]


class Position:
    """A position as sets of squares, in which a1 is bit 0, b1 bit 1, up to h8, bit 63.

    `turn` is True for white, `castling_rights` has 1 for white with the rook of h1, 2 with that of a1, 4 and 8 for black likewise, and
    `ep_square` is the square that a pawn passed by a double step just now. A number that is none of these is a ValueError. Whether it is a
    position of chess is told by the call that it is given to, as a PositionError.
    """

    __slots__ = ("_plain",)

    def __init__(
        self,
        *,
        white: int,
        black: int,
        kings: int,
        queens: int = 0,
        rooks: int = 0,
        bishops: int = 0,
        knights: int = 0,
        pawns: int = 0,
        turn: bool = True,
        castling_rights: int = 0,
        ep_square: Optional[int] = None,
        halfmove_clock: int = 0,
        fullmove_number: int = 1,
    ) -> None:
        passed = _library.NO_SQUARE if ep_square is None else ep_square
        counters = min(halfmove_clock, _MOST_COUNTER), min(fullmove_number, _MOST_COUNTER)
        sets = white, black, kings, queens, rooks, bishops, knights, pawns
        # (a number beyond its room would be cut without a word)
        if min(*sets, *counters) < 0 or max(sets) >> 64 or not (0 <= castling_rights < 16 and 0 <= passed <= _library.NO_SQUARE):
            raise ValueError("a set has 64 bits, rights to castle are 0 to 15, a square is 0 to 63, and no counter is below 0")
        self._plain = PlainBoard(*sets, *counters, not turn, castling_rights, passed)

    @classmethod
    def of(cls, board: BoardLike) -> Position:
        """The position of a FEN text or of a board."""
        return cls._over(plain_of(board))

    @classmethod
    def _over(cls, plain: PlainBoard) -> Position:
        made = cls.__new__(cls)
        made._plain = plain
        return made

    @property
    def turn(self) -> bool:
        """Whether white is to move."""
        return not self._plain.side

    @property
    def men(self) -> int:
        """The number of men, kings included."""
        return bin(self._plain.white | self._plain.black).count("1")

    @property
    def halfmove_clock(self) -> int:
        """Plies since the last capture or pawn move."""
        return int(self._plain.halfmove)

    def fen(self) -> str:
        """The FEN text, of six fields."""
        plain = self._plain
        rows = "/".join(_row(plain, rank) for rank in range(7, -1, -1))
        rights = "".join(letter for bit, letter in _RIGHTS if plain.rights & bit) or "-"
        passed = "-" if plain.passed >= _library.NO_SQUARE else square_name(plain.passed)
        return f"{rows} {'b' if plain.side else 'w'} {rights} {passed} {plain.halfmove} {plain.fullmove}"

    def __eq__(self, other: object) -> bool:
        return isinstance(other, Position) and bytes(self._plain) == bytes(other._plain)

    def __hash__(self) -> int:
        return hash(bytes(self._plain))

    def __repr__(self) -> str:
        return f"Position({self.fen()!r})"


def square_name(square: int) -> str:
    return "abcdefgh"[square % 8] + str(square // 8 + 1)


def _row(plain: PlainBoard, rank: int) -> str:
    """A rank as FEN has it."""
    text, empty = "", 0
    for square in range(8 * rank, 8 * rank + 8):
        man = _man(plain, 1 << square)
        if not man:
            empty += 1
            continue
        text += (str(empty) if empty else "") + man
        empty = 0
    return text + (str(empty) if empty else "")


def _man(plain: PlainBoard, bit: int) -> str:
    """The letter of the man on a square; empty for none."""
    if not (plain.white | plain.black) & bit:
        return ""
    letter = next((_LETTERS[kind] for kind in _KINDS if getattr(plain, kind) & bit), "")
    return letter.upper() if plain.white & bit else letter


def plain_of(board: BoardLike) -> PlainBoard:
    """The board as the library takes it. A PositionError for a text that is no FEN."""
    if isinstance(board, str):
        plain = PlainBoard()
        read_into(plain, board)
        return plain
    if isinstance(board, Position):
        return board._plain
    if hasattr(board, "occupied_co"):
        return _plain_of_sets(board)
    return plain_of(board.fen())


def read_into(plain: PlainBoard, fen: str) -> None:
    """Writes the board of a FEN text. A PositionError, with nothing written, for any other text."""
    text = fen.encode()
    status = library.hofsjurd_read_fen(text, len(text), plain)
    if status:
        raise error_of(status)


def _plain_of_sets(board: Any) -> PlainBoard:
    """The board of a chess.Board, by its sets."""
    rights = board.castling_rights
    if rights & ~_CORNERS or getattr(board, "uci_variant", "chess") != "chess":
        raise OutOfScopeError(_library.OUT_OF_SCOPE)
    return Position(
        white=board.occupied_co[True],
        black=board.occupied_co[False],
        kings=board.kings,
        queens=board.queens,
        rooks=board.rooks,
        bishops=board.bishops,
        knights=board.knights,
        pawns=board.pawns,
        turn=board.turn,
        castling_rights=sum(bit for rook, bit in _ROOKS if rights & rook) if rights else 0,
        ep_square=board.ep_square,
        halfmove_clock=board.halfmove_clock,
        fullmove_number=board.fullmove_number,
    )._plain


def fen_of(board: BoardLike) -> bytes:
    """The FEN text of a board, which is not looked at here."""
    return (board if isinstance(board, str) else board.fen()).encode()


def material_of(plain: PlainBoard) -> str:
    """The name of the men of a board, as "KQvKR", the side with more men first."""
    order = tuple(zip("KQRBNP", ("kings", "queens", "rooks", "bishops", "knights", "pawns")))
    names = ["".join(letter * bin(getattr(plain, kind) & side).count("1") for letter, kind in order) for side in (plain.white, plain.black)]
    names.sort(key=lambda it: (-len(it), ["KQRBNP".index(letter) for letter in it]))
    return "v".join(names)


def board_error(plain: PlainBoard, status: int) -> ProbeError:
    """The error of a status of a board that names no table."""
    if status == _library.OUT_OF_SCOPE and bin(plain.white | plain.black).count("1") > _MOST_MEN:
        return TooManyMenError(status, material_of(plain))
    return error_of(status)
