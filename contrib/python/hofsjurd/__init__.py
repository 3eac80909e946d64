"""Syzygy tables of three to five men in Python, in the manner of python-chess's chess.syzygy, over libhofsjurd.so.

    import hofsjurd
    with hofsjurd.open_tablebase("DIR") as tables:
        tables.probe_wdl("7k/8/6K1/8/8/8/8/1Q6 w - - 0 1")      # 2
        tables.probe_dtz("7k/8/6K1/8/8/8/8/1Q6 w - - 0 1")      # 1
        tables.judge("7k/8/6K1/8/8/8/8/1Q6 w - - 0 1")          # Verdict.TableWhite
        tables.root("7k/8/6K1/8/8/8/8/1Q6 w - - 0 1")[0].uci()  # 'b1b8'
        tables.san("7k/8/6K1/8/8/8/8/1Q6 w - - 0 1", "b1b8")    # 'Qb8#'
        game = hofsjurd.Game(tables, "7k/8/6K1/8/8/8/8/1Q6 w - - 0 1")

A position is a FEN text of six fields, a chess.Board of python-chess or anything else whose `fen()` gives such a text, or a Position, made
of sets of squares. Nothing but Python's own modules is needed (3.9 or later), and the shared library (HOFSJURD_LIBRARY).
"""
from ._library import version
from .errors import (
    ClosedError,
    GameOverError,
    MissingTableError,
    MoveError,
    NoMemoryError,
    OutOfScopeError,
    PositionError,
    ProbeError,
    RefusedTableError,
    TooManyMenError,
)
from .games import Game
from .many import BOARD_FIELDS, BOARD_FORMAT, BOARD_SIZE, Boards, Replies
from .moves import Move, RootMove, after, legal_moves, parse_san, san, state
from .positions import START, Position
from .tables import Tablebase, open_tablebase
from .verdicts import Verdict

__all__ = [
    "BOARD_FIELDS",
    "BOARD_FORMAT",
    "BOARD_SIZE",
    "START",
    "Boards",
    "ClosedError",
    "Game",
    "GameOverError",
    "MissingTableError",
    "Move",
    "MoveError",
    "NoMemoryError",
    "OutOfScopeError",
    "Position",
    "PositionError",
    "ProbeError",
    "RefusedTableError",
    "Replies",
    "RootMove",
    "Tablebase",
    "TooManyMenError",
    "Verdict",
    "after",
    "legal_moves",
    "open_tablebase",
    "parse_san",
    "san",
    "state",
    "version",
]
