"""Many boards at once, from a buffer or from a list."""
from __future__ import annotations

import ctypes
import functools
from array import array
from collections.abc import Sequence
from typing import Any, Optional, Union, overload

from ._library import NOT_COVERED, PlainBoard
from .errors import ProbeError, error_of
from .positions import BoardLike, Position, board_error, plain_of, read_into

# A board in a buffer has 72 bytes: eight sets of squares, two counters, three small numbers and a fill byte. For struct.pack, and, as
# numpy.dtype(BOARD_FIELDS, align=True), for NumPy.
BOARD_FORMAT = "=8Q2H3Bx"
BOARD_SIZE = ctypes.sizeof(PlainBoard)
BOARD_FIELDS = [
    *((name, "u8") for name in ("white", "black", "kings", "queens", "rooks", "bishops", "knights", "pawns")),
    *((name, "u2") for name in ("halfmove", "fullmove")),
    *((name, "u1") for name in ("side", "rights", "passed")),
]


# The formats of NumPy's arrays of texts, and of objects of Python: they are lists here.
_NO_BOARDS = ("w", "O")


class Boards(Sequence[Position]):
    """Boards in one buffer, made once and asked of often.

    They come from FEN texts, positions and chess.Boards, in a list or in NumPy's array of texts or objects, or from a buffer of boards
    (bytes, an array, a memoryview, an array of NumPy).
    A buffer that can be written is used in place, and is to stay as it is while it is asked of. `errors` has what is wrong with a text
    that is no FEN, by its place; its board is empty.
    """

    def __init__(self, boards: Any) -> None:
        self.errors: dict[int, ProbeError] = {}
        if isinstance(boards, str):
            raise TypeError("boards are a list or a buffer, and not one text")
        try:
            view = memoryview(boards)
            is_buffer = not view.format.endswith(_NO_BOARDS)
        except TypeError:
            is_buffer = False
        if not is_buffer:
            view = memoryview(self._read(list(boards)))
        if not view.c_contiguous or view.nbytes % BOARD_SIZE:
            raise ValueError(f"a buffer of boards has {BOARD_SIZE} bytes for each, one behind the other: {view.nbytes}")
        kind = PlainBoard * (view.nbytes // BOARD_SIZE)
        self.buffer = view
        self._plain = kind.from_buffer_copy(view) if view.readonly else kind.from_buffer(view)

    def _read(self, boards: list[BoardLike]) -> bytearray:
        """The bytes of boards."""
        room = bytearray(BOARD_SIZE * len(boards))
        plain = (PlainBoard * len(boards)).from_buffer(room)
        for place, board in enumerate(boards):
            try:
                if isinstance(board, str):
                    read_into(plain[place], board)
                else:
                    plain[place] = plain_of(board)
            except ProbeError as error:
                self.errors[place] = error
        return room

    def __len__(self) -> int:
        return len(self._plain)

    @overload
    def __getitem__(self, place: int) -> Position:
        ...

    @overload
    def __getitem__(self, place: slice) -> list[Position]:
        ...

    def __getitem__(self, place: Union[int, slice]) -> Union[Position, list[Position]]:
        if isinstance(place, slice):
            return [Position._over(it) for it in self._plain[place]]
        return Position._over(self._plain[place])


class Replies(Sequence[Optional[int]]):
    """The answer of each board in its place, None where there is none. `values` and `statuses` are arrays of 4-byte numbers, which NumPy
    takes without a copy; a value counts where the status is 0."""

    def __init__(self, replies: array[int], boards: Boards) -> None:
        self.statuses, self.values = replies[0::2], replies[1::2]
        self._plain, self._errors = boards._plain, dict(boards.errors)
        for place, error in boards.errors.items():
            self.statuses[place] = error.status

    @functools.cached_property
    def errors(self) -> dict[int, ProbeError]:
        """What `probe_..` would raise, by the places that have no answer."""
        known = self._errors
        return {place: known.get(place) or board_error(self._plain[place], self.statuses[place]) for place in self._places()}

    def tolist(self) -> list[Optional[int]]:
        """All answers as a list."""
        values: list[Optional[int]] = [*self.values]
        for place in self._places():
            values[place] = None
        return values

    def _places(self) -> list[int]:
        """The places without an answer."""
        return [place for place, it in enumerate(self.statuses) if it] if any(self.statuses) else []

    def _open_places(self, is_verdict: bool) -> list[int]:
        """The places where a table is missing; of verdicts, which don't say so, those of games that go on."""
        if is_verdict:
            return [place for place, it in enumerate(self.values) if it == 0 and not self.statuses[place]]
        return [place for place in self._places() if self.statuses[place] == NOT_COVERED]

    def _set(self, place: int, value: int, error: Optional[ProbeError]) -> None:
        """Another answer to one board."""
        self.statuses[place], self.values[place] = error.status if error else 0, value
        if error:
            self._errors[place] = error

    def __len__(self) -> int:
        return len(self.values)

    @overload
    def __getitem__(self, place: int) -> Optional[int]:
        ...

    @overload
    def __getitem__(self, place: slice) -> list[Optional[int]]:
        ...

    def __getitem__(self, place: Union[int, slice]) -> Union[Optional[int], list[Optional[int]]]:
        if isinstance(place, slice):
            return self.tolist()[place]
        return None if self.statuses[place] else self.values[place]

    def __repr__(self) -> str:
        return f"Replies({self.tolist()!r})"


def ask_boards(call: Any, handle: Any, boards: Boards) -> Replies:
    """What a call of the library over many boards answers."""
    count = len(boards)
    replies = array("i", bytes(8 * count))
    if count:
        room = (ctypes.c_char * (8 * count)).from_buffer(replies)
        status = call(handle, boards._plain, count, room, count)
        del room  # (an array that lends its bytes keeps its size)
        if status:
            raise error_of(status)
    return Replies(replies, boards)
