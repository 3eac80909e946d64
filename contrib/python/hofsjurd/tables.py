"""Tables of folders, and what is asked of them."""
from __future__ import annotations

import ctypes
import os
import threading
from types import TracebackType
from typing import Any, NamedTuple, Optional, TypeVar, Union

from . import _library, moves
from ._library import PlainBoard, PlainRootMove, library, text_of
from .errors import ClosedError, MissingTableError, ProbeError, RefusedTableError, error_of
from .many import Boards, Replies, ask_boards
from .moves import RootMove
from .positions import BoardLike, board_error, plain_of
from .verdicts import Verdict, verdict_of

_SUFFIXES = {"w": ".rtbw", "z": ".rtbz"}
_Default = TypeVar("_Default")
PathLike = Union[str, "os.PathLike[str]"]


class _Question(NamedTuple):
    """The calls of a question: of a board, opening the tables that it takes; of a FEN text or many boards, by those that are open; and for
    the name of the table that is missing."""

    of_board: Any
    of_text: Any = None
    of_boards: Any = None
    needs_dtz: bool = True
    missing: Any = library.hofsjurd_board_missing


_WDL = _Question(library.hofsjurd_prober_wdl, library.hofsjurd_wdl, library.hofsjurd_boards_wdl, needs_dtz=False)
_DTZ = _Question(library.hofsjurd_prober_dtz, library.hofsjurd_dtz, library.hofsjurd_boards_dtz, missing=library.hofsjurd_board_dtz_missing)
_JUDGE = _Question(library.hofsjurd_prober_judge, None, library.hofsjurd_boards_judge)
_ROOT = _Question(library.hofsjurd_prober_root)
_DETERMINED_WDL = _Question(library.hofsjurd_prober_determined_wdl, needs_dtz=False)
_DETERMINED_DTZ = _Question(library.hofsjurd_prober_determined_dtz, missing=library.hofsjurd_board_dtz_missing)
_DETERMINED_ROOT = _Question(library.hofsjurd_prober_determined_root)


class _Folder(NamedTuple):
    """A folder whose tables are listed, and which of them count."""

    path: str
    has_wdl: bool
    has_dtz: bool
    is_strict: bool


class _Listing:
    """The tables of folders, by their names. The library opens each when a prober needs it first. They are unmapped when nobody holds this
    any more."""

    _free = library.hofsjurd_listing_free
    _close = library.hofsjurd_prober_close

    def __init__(self, folders: tuple[_Folder, ...] = ()) -> None:
        self.handle, self.folders = ctypes.c_void_p(), folders
        self.probers: set[int] = set()  # the library's, which are open
        self.names: set[str] = set()
        for folder in folders:
            self._add(folder)
        self.has_wdl = any(it.has_wdl for it in folders)
        self.has_dtz = any(it.has_dtz for it in folders)

    def _add(self, folder: _Folder) -> None:
        refused: list[Exception] = []

        def tell(_with: Any, path: bytes, name: Optional[bytes], status: int, error: int) -> bool:
            where = os.fsdecode(os.path.join(path, name) if name else path)
            refused.append(OSError(error, os.strerror(error), where) if error else RefusedTableError(status, 0, where))
            return not folder.is_strict and name is not None

        teller = _library.Teller(tell)
        status = library.hofsjurd_listing_add(ctypes.byref(self.handle), os.fsencode(folder.path), teller, None)
        if folder.is_strict and not status:
            status = library.hofsjurd_listing_open_all(self.handle, teller, None)
        if status:
            raise error_of(status) if status == _library.OUT_OF_MEMORY or not refused else refused[-1]
        suffixes = tuple(_SUFFIXES[kind] for kind, is_wanted in (("w", folder.has_wdl), ("z", folder.has_dtz)) if is_wanted)
        self.names.update(it for it in os.listdir(folder.path) if it.endswith(suffixes) and self.has(it))

    def has(self, name: str) -> bool:
        """Whether a file is listed, as "KQvK.rtbw"."""
        return bool(self.handle) and bool(library.hofsjurd_listing_has(self.handle, name.encode()))

    def close(self, prober: Optional[int]) -> None:
        """Closes a prober over it, once."""
        if prober in self.probers:
            self.probers.discard(prober)
            self._close(prober)

    def __del__(self) -> None:
        # (of objects that hold one another in a ring, this one may go before its probers)
        for it in [*self.probers]:
            self.close(it)
        if self.handle:
            self._free(self.handle)


class _Prober:
    """Who asks: the library's prober over a listing, for one thread. It holds the listing, and is closed when nobody holds it any more."""

    def __init__(self, listing: _Listing, cache: int) -> None:
        self.handle, self.listing = ctypes.c_void_p(), listing
        # (without any folder, a table is missing as any other)
        self.has_wdl = listing.has_wdl or not listing.folders
        self.has_all = self.has_wdl and (listing.has_dtz or not listing.folders)
        status = library.hofsjurd_prober_open(ctypes.byref(self.handle), listing.handle, cache)
        if status:
            raise error_of(status)
        listing.probers.add(self.handle.value or 0)
        self.set = library.hofsjurd_prober_set(self.handle)

    def __del__(self) -> None:
        self.listing.close(self.handle.value)


class _Probers(threading.local):
    """A prober for each thread, made when the thread asks first. A call that runs holds its own, so that what another thread closes
    meanwhile is freed after it."""

    def __init__(self, listing: _Listing, cache: int) -> None:
        self.listing = listing
        self.prober = _Prober(listing, cache)


class Tablebase:
    """Tables of folders. Each is opened, and mapped into memory, when a probe needs it first.

    Any number of threads may ask it at once: the library gets a prober for each of them, and no call holds the lock of the interpreter.
    It is closed by `close`, at the end of a `with`, or when nobody holds it any more. After a fork the child opens one of its own.
    """

    def __init__(self, *, cache: int = 64, max_fds: Optional[int] = None) -> None:
        """`cache` is the number of decoded blocks that each thread keeps, 1 to 4096. No descriptor stays open, so `max_fds` says nothing."""
        self._cache = cache
        self._changing = threading.Lock()
        self._probers: Optional[_Probers] = _Probers(_Listing(), cache)

    def add_directory(self, directory: PathLike, *, load_wdl: bool = True, load_dtz: bool = True, strict: bool = False) -> int:
        """Lists the tables of a folder by their names and returns how many were new.

        A folder that can't be read is an OSError. What is no regular file is passed over, and a file that turns out to be no table is a
        RefusedTableError of the probe that needs it. With `strict` all are opened now, and each of these is an OSError or a ProbeError.
        Any error leaves the Tablebase as it was. The folders before it are listed anew, so that files that were exchanged count as they
        are now; a probe that runs in another thread is answered by the tables that it began with.

        The library lists whole folders. Where every folder was added without its WDL tables, or without its DTZ tables, what needs one is
        a MissingTableError; with one folder that was added with them, those of all folders count.
        """
        with self._changing:
            before = self._held().listing
            folder = _Folder(os.fspath(directory), load_wdl, load_dtz, strict)
            listing = _Listing((*before.folders, folder))
            self._probers = _Probers(listing, self._cache)
        return len(listing.names - before.names)

    def share(self) -> Tablebase:
        """A second Tablebase over the same open tables. Each is closed for itself."""
        shared = Tablebase.__new__(Tablebase)
        shared._cache, shared._changing = self._cache, threading.Lock()
        shared._probers = _Probers(self._held().listing, self._cache)
        return shared

    def close(self) -> None:
        """Unmaps the files, once the calls that run in other threads have returned. Each later call is a ClosedError."""
        with self._changing:
            self._probers = None

    def has(self, material: str, *, dtz: bool = False) -> bool:
        """Whether the WDL table for a material, as "KQvK", is listed, or its DTZ table. A ProbeError for a text that names none."""
        prober, name = self._prober(), material.encode()
        reply = library.hofsjurd_has(prober.set, name, len(name), int(dtz))
        if reply.status:
            raise error_of(reply.status)
        return prober.listing.has(material + _SUFFIXES["z" if dtz else "w"])

    @property
    def largest(self) -> int:
        """The largest number of men of a WDL table that is listed, kings included; 0 without one."""
        listing = self._held().listing
        return int(library.hofsjurd_listing_largest(listing.handle)) if listing.handle else 0

    @property
    def open_count(self) -> int:
        """How many tables are open by now."""
        listing = self._held().listing
        return int(library.hofsjurd_listing_open_count(listing.handle)) if listing.handle else 0

    def probe_wdl(self, board: BoardLike) -> int:
        """-2 loss, -1 blessed loss, 0 draw, 1 cursed win, 2 win, for the side to move. A ProbeError where there is no answer."""
        return self._asked(_WDL, board)

    def probe_dtz(self, board: BoardLike) -> int:
        """Plies to the next capture or pawn move, above 0 where the side to move wins, 101 and more for a cursed win; below 0 where it
        loses. A ProbeError where there is no answer."""
        return self._asked(_DTZ, board)

    def get_wdl(self, board: BoardLike, default: Optional[_Default] = None) -> Union[int, Optional[_Default]]:
        """As `probe_wdl`, with a default where a table is missing or the position out of scope."""
        try:
            return self.probe_wdl(board)
        except KeyError:
            return default

    def get_dtz(self, board: BoardLike, default: Optional[_Default] = None) -> Union[int, Optional[_Default]]:
        """As `probe_dtz`, with a default where a table is missing or the position out of scope."""
        try:
            return self.probe_dtz(board)
        except KeyError:
            return default

    def judge(self, board: BoardLike) -> Optional[Verdict]:
        """The verdict on a position: checkmate and stalemate; then a draw by the tables, or a win that comes before the rule of fifty moves.
        None where the game goes on, also where the tables can't tell."""
        return verdict_of(self._asked(_JUDGE, board))

    def root(self, board: BoardLike) -> list[RootMove]:
        """All legal moves, the best first. A ProbeError where the position is out of scope or breaks a rule; a move whose table is missing
        or damaged has None for a value."""
        return self._root(_ROOT, board)

    def determined_wdl(self, board: BoardLike) -> int:
        """As `probe_wdl`, also where a table is missing, if the answer is the same whatever that table holds."""
        return self._asked(_DETERMINED_WDL, board)

    def determined_dtz(self, board: BoardLike) -> int:
        """As `probe_dtz`, also where a table is missing, in cases where the answer is the same whatever that table holds."""
        return self._asked(_DETERMINED_DTZ, board)

    def determined_root(self, board: BoardLike) -> list[RootMove]:
        """As `root`, with the values and distances that are the same whatever the missing tables hold."""
        return self._root(_DETERMINED_ROOT, board)

    def probe_wdl_many(self, boards: Any) -> Replies:
        """`probe_wdl` of many boards: a Boards, or what one is made of. It raises for no board; `errors` of the Replies has what is wrong."""
        return self._many(_WDL, boards)

    def probe_dtz_many(self, boards: Any) -> Replies:
        """`probe_dtz` of many boards, likewise."""
        return self._many(_DTZ, boards)

    def judge_many(self, boards: Any) -> Replies:
        """`judge` of many boards, likewise, as the numbers of verdicts, 0 for a game that goes on."""
        return self._many(_JUDGE, boards)

    # (what needs no table, for who has the Tablebase at hand)
    san = staticmethod(moves.san)
    parse_san = staticmethod(moves.parse_san)
    legal_moves = staticmethod(moves.legal_moves)
    after = staticmethod(moves.after)
    state = staticmethod(moves.state)

    def _held(self) -> _Probers:
        probers = self._probers
        if probers is None:
            raise ClosedError(_library.HANDLE_CLOSED)
        return probers

    def _prober(self) -> _Prober:
        """The prober of this thread."""
        probers = self._probers
        if probers is None:
            raise ClosedError(_library.HANDLE_CLOSED)
        return probers.prober

    def _prober_for(self, question: _Question) -> _Prober:
        """The prober of this thread, where tables of the kinds that a question needs were loaded."""
        prober = self._prober()
        if not prober.has_all and (question.needs_dtz or not prober.has_wdl):
            raise MissingTableError(_library.NOT_COVERED, f"{'DTZ' if prober.has_wdl else 'WDL'} tables were not loaded")
        return prober

    def _asked(self, question: _Question, board: BoardLike) -> int:
        prober = self._prober_for(question)
        value: int
        if question.of_text and isinstance(board, str):
            text = board.encode()
            reply = question.of_text(prober.set, text, len(text))
            if not reply.status:
                value = reply.value
                return value
        plain = plain_of(board)
        reply = question.of_board(prober.handle, plain)
        if reply.status:
            raise _error(prober, plain, reply.status, question.missing)
        value = reply.value
        return value

    def _root(self, question: _Question, board: BoardLike) -> list[RootMove]:
        prober = self._prober_for(question)
        plain, room = plain_of(board), (PlainRootMove * _library.MOST_MOVES)()
        reply = question.of_board(prober.handle, plain, room, _library.MOST_MOVES)
        if reply.status:
            raise _error(prober, plain, reply.status)
        return [RootMove(it) for it in room[: reply.value]]

    def _many(self, question: _Question, boards: Any) -> Replies:
        """What the tables that are open answer, and one by one those boards for which one may have to be opened."""
        prober = self._prober_for(question)
        given = boards if isinstance(boards, Boards) else Boards(boards)
        replies = ask_boards(question.of_boards, prober.set, given)
        for place in replies._open_places(is_verdict=question is _JUDGE):
            plain = given._plain[place]
            reply = question.of_board(prober.handle, plain)
            replies._set(place, reply.value, _error(prober, plain, reply.status, question.missing) if reply.status else None)
        return replies

    def __enter__(self) -> Tablebase:
        return self

    def __exit__(self, kind: Optional[type[BaseException]], error: Optional[BaseException], trace: Optional[TracebackType]) -> None:
        self.close()


def _error(prober: _Prober, plain: PlainBoard, status: int, missing: Any = None) -> ProbeError:
    """The error of a status that isn't 0, with the table's name."""
    if status in _library.FILE_STATUSES:
        refusal = library.hofsjurd_prober_refusal(prober.handle).contents
        return RefusedTableError(status, refusal.error, os.path.join(os.fsdecode(refusal.path), os.fsdecode(refusal.name)))
    if status == _library.NOT_COVERED and missing:
        return MissingTableError(status, text_of(missing, prober.set, plain))
    return board_error(plain, status)


def open_tablebase(
    directory: PathLike,
    *,
    load_wdl: bool = True,
    load_dtz: bool = True,
    max_fds: Optional[int] = None,
    cache: int = 64,
    strict: bool = False,
) -> Tablebase:
    """A Tablebase with the tables of a folder (`Tablebase.add_directory`)."""
    tables = Tablebase(cache=cache, max_fds=max_fds)
    tables.add_directory(directory, load_wdl=load_wdl, load_dtz=load_dtz, strict=strict)
    return tables
