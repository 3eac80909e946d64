"""Games that are told move by move."""
from __future__ import annotations

import threading
from typing import Optional

from ._library import GAME_OVER, Handle, PlainBoard, PlainMove, Reply, library, text_of
from .errors import GameOverError, error_of
from .moves import MoveLike, plain_after, plain_move, read_san, uci_of
from .positions import START, BoardLike, Position, fen_of, plain_of
from .tables import Tablebase, _error, _Prober
from .verdicts import Verdict, verdict_of


class Game:
    """A game and its first verdict: checkmate and stalemate at once, and a verdict by the tables once it has held for `delay` further plies,
    0 to 8. Without a Tablebase the board alone judges.

    Threads may share it; one move is told at a time. Its tables may not be closed before it ends.
    """

    def __init__(self, tables: Optional[Tablebase] = None, start: BoardLike = START, *, delay: int = 0) -> None:
        if not 0 <= delay <= 8:
            raise ValueError(f"a delay is 0 to 8 plies: {delay}")
        self._tables = Tablebase() if tables is None else tables
        self._handle, self._lock = Handle(), threading.Lock()
        self._moves: list[str] = []
        self._plain = plain_of(start)
        self.start, self.delay = Position._over(self._plain).fen(), delay
        fen = fen_of(self.start)
        prober = self._tables._prober()
        _open_tables(prober, self._plain)
        self._verdict = self._value(library.hofsjurd_game_begin(self._handle, prober.set, fen, len(fen), delay))

    @property
    def verdict(self) -> Optional[Verdict]:
        """The first verdict; None while the game goes on. Its ply is `ply`, since no move comes after it."""
        return self._verdict

    @property
    def ply(self) -> int:
        """The number of moves so far."""
        return len(self._moves)

    @property
    def moves(self) -> list[str]:
        """The moves so far, in coordinates."""
        return [*self._moves]

    @property
    def position(self) -> Position:
        """The position that the game has come to."""
        return Position._over(self._plain)

    def fen(self) -> str:
        """The FEN text of the position that the game has come to. So a game is asked of like a board."""
        with self._lock:
            return self._fen()

    def push(self, move: MoveLike) -> Optional[Verdict]:
        """Tells the next move, in coordinates or as a Move, and returns the first verdict so far. Any error leaves the game as it was: a
        MoveError, a GameOverError behind the verdict, or a RefusedTableError where a table that is needed can't be read."""
        with self._lock:
            return self._pushed(plain_move(move))

    def push_san(self, text: str) -> Optional[Verdict]:
        """The same of a move in standard algebraic notation."""
        with self._lock:
            return self._pushed(read_san(self._fen().encode(), text))

    push_uci = push

    def _fen(self) -> str:
        """For who has the lock: a call of the library reads the game, or changes it."""
        return text_of(library.hofsjurd_game_fen, self._handle)

    def _pushed(self, move: PlainMove) -> Optional[Verdict]:
        if self._verdict:
            raise GameOverError(GAME_OVER)
        prober, after = self._tables._prober(), plain_after(self._plain, move)
        _open_tables(prober, after)
        verdict = self._value(library.hofsjurd_game_move(self._handle, prober.set, move))
        self._plain = after
        self._moves.append(uci_of(move))
        self._verdict = verdict
        return verdict

    @staticmethod
    def _value(reply: Reply) -> Optional[Verdict]:
        if reply.status:
            raise error_of(reply.status)
        return verdict_of(reply.value)

    _end = library.hofsjurd_game_end

    def __del__(self) -> None:
        if hasattr(self, "_handle"):
            self._end(self._handle)

    def __repr__(self) -> str:
        return f"Game({self.fen()!r}, ply={self.ply}, verdict={self._verdict and str(self._verdict)})"


def _open_tables(prober: _Prober, plain: PlainBoard) -> None:
    """Opens the tables that a verdict on a board takes: the game itself opens none."""
    reply = library.hofsjurd_prober_judge(prober.handle, plain)
    if reply.status:
        raise _error(prober, plain, reply.status)
