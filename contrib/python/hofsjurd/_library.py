"""The shared library with its structures and calls, as hofsjurd.h and hofsjurd_folder.h declare them.

It is the file that the environment names by HOFSJURD_LIBRARY, or libhofsjurd.so.1 in this folder (as in a wheel), or that of the folder
that tools/build_c made, or the system's.
"""
from __future__ import annotations

import ctypes
import os
from pathlib import Path
from typing import Any

NAME = "libhofsjurd.so.1"

OK, HANDLE_CLOSED, OUT_OF_SCOPE, NOT_COVERED, OUT_OF_MEMORY = 0, 1, 2, 3, 5
POSITION_FAULTS = (*range(16, 22), *range(32, 39))
GAME_OVER, BAD_MOVE, ILLEGAL_MOVE, AMBIGUOUS_MOVE = 84, 85, 86, 88
# of a file: those of hofsjurd_add, and those of hofsjurd_folder.h
FILE_STATUSES = frozenset((*range(64, 75), *range(1000, 1003)))
FILE_CHANGED = 1002
MOST_MOVES = 256
NO_SQUARE = 64
TEXT_ROOM = 96


class Handle(ctypes.Structure):
    """A set of tables, or a game."""

    _fields_ = [("is_open", ctypes.c_bool), ("seat", ctypes.c_void_p)]


class Reply(ctypes.Structure):
    _fields_ = [("status", ctypes.c_uint32), ("value", ctypes.c_int32)]


class PlainMove(ctypes.Structure):
    _fields_ = [(name, ctypes.c_uint8) for name in ("start", "end", "promotion")]


class PlainRootMove(ctypes.Structure):
    _fields_ = [
        *((name, ctypes.c_uint8) for name in ("start", "end", "promotion", "effect", "state")),
        ("wdl", Reply),
        ("dtz", Reply),
    ]


class PlainBoard(ctypes.Structure):
    _fields_ = [
        *((name, ctypes.c_uint64) for name in ("white", "black", "kings", "queens", "rooks", "bishops", "knights", "pawns")),
        *((name, ctypes.c_uint16) for name in ("halfmove", "fullmove")),
        *((name, ctypes.c_uint8) for name in ("side", "rights", "passed")),
    ]


class Refusal(ctypes.Structure):
    _fields_ = [("status", ctypes.c_uint32), ("error", ctypes.c_int), ("path", ctypes.c_char_p), ("name", ctypes.c_char * 12)]


Teller = ctypes.CFUNCTYPE(ctypes.c_bool, ctypes.c_void_p, ctypes.c_char_p, ctypes.c_char_p, ctypes.c_uint32, ctypes.c_int)


def _path() -> str:
    given = os.environ.get("HOFSJURD_LIBRARY")
    if given:
        return given
    here = Path(__file__).resolve().parent
    found = [it for it in (here / NAME, here.parents[2] / "lib" / NAME) if it.is_file()]
    return str(found[0]) if found else NAME


def _load() -> Any:
    found = ctypes.CDLL(_path())
    text, size, status = ctypes.c_char_p, ctypes.c_size_t, ctypes.c_uint32
    sets, board, move = ctypes.POINTER(Handle), ctypes.POINTER(PlainBoard), ctypes.POINTER(PlainMove)
    # (pointers that the library alone follows, and buffers)
    listing = prober = room = ctypes.c_void_p
    moves = ctypes.POINTER(PlainRootMove)
    calls: list[tuple[str, Any, list[Any]]] = [
        ("hofsjurd_has", Reply, [sets, text, size, ctypes.c_uint8]),
        ("hofsjurd_read_fen", status, [text, size, board]),
        ("hofsjurd_board_moves", Reply, [board, move, size]),
        ("hofsjurd_board_after", status, [board, move, board]),
        ("hofsjurd_board_state", Reply, [board]),
        ("hofsjurd_move_san", Reply, [text, size, move, text, size]),
        ("hofsjurd_read_san", status, [text, size, text, size, move]),
        ("hofsjurd_board_missing", size, [sets, board, text, size]),
        ("hofsjurd_board_dtz_missing", size, [sets, board, text, size]),
        ("hofsjurd_status_name", size, [status, text, size]),
        ("hofsjurd_verdict_name", size, [status, text, size]),
        ("hofsjurd_version", size, [text, size]),
        ("hofsjurd_game_begin", Reply, [sets, sets, text, size, ctypes.c_uint8]),
        ("hofsjurd_game_move", Reply, [sets, sets, move]),
        ("hofsjurd_game_fen", size, [sets, text, size]),
        ("hofsjurd_game_end", None, [sets]),
        ("hofsjurd_listing_add", status, [ctypes.POINTER(listing), text, Teller, ctypes.c_void_p]),
        ("hofsjurd_listing_open_all", status, [listing, Teller, ctypes.c_void_p]),
        ("hofsjurd_listing_has", ctypes.c_bool, [listing, text]),
        ("hofsjurd_listing_largest", ctypes.c_uint, [listing]),
        ("hofsjurd_listing_open_count", size, [listing]),
        ("hofsjurd_listing_free", None, [listing]),
        ("hofsjurd_prober_open", status, [ctypes.POINTER(prober), listing, size]),
        ("hofsjurd_prober_close", None, [prober]),
        ("hofsjurd_prober_set", sets, [prober]),
        ("hofsjurd_prober_refusal", ctypes.POINTER(Refusal), [prober]),
    ]
    calls += [(f"hofsjurd_prober_{it}", Reply, [prober, board]) for it in ("wdl", "dtz", "judge", "determined_wdl", "determined_dtz")]
    calls += [(f"hofsjurd_prober_{it}", Reply, [prober, board, moves, size]) for it in ("root", "determined_root")]
    calls += [(f"hofsjurd_boards_{it}", status, [sets, room, size, room, size]) for it in ("wdl", "dtz", "judge")]
    calls += [(f"hofsjurd_{it}", Reply, [sets, text, size]) for it in ("wdl", "dtz")]
    for name, result, given in calls:
        function = getattr(found, name)
        function.restype, function.argtypes = result, given
    return found


library = _load()


def text_of(call: Any, *given: Any) -> str:
    """The text that a call writes into its caller's room."""
    room = ctypes.create_string_buffer(TEXT_ROOM)
    call(*given, room, len(room))
    return room.value.decode()


def version() -> str:
    """The library's name and version, as "hofsjurd 1.0.0"."""
    return text_of(library.hofsjurd_version)
