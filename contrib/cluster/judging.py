"""Judges a part of a file. Each worker imports this, and opens the tables once.

A part is a stretch of a file of FENs, one a line, or of a CSV file with a column of FENs: the lines that begin in it. Of a PGN file the whole file
is a part. Its result is a file of its own, which is there whole or not at all, so that a part may be done twice.
"""
from __future__ import annotations

import csv
import functools
import os
import re
from collections.abc import Iterator
from itertools import islice
from pathlib import Path
from typing import NamedTuple

import hofsjurd

# Lines that are asked of at once.
TOGETHER = 10_000
FEN_FAULTS, POSITION_FAULTS = range(16, 22), range(32, 39)
OUT_OF_SCOPE = 2
# What a PGN file has: a tag, a comment of either kind, a sign of a variation, a glyph, a move's number, a result, a move.
TOKENS = re.compile(
    r'\[\s*(?P<tag>\w+)\s*"(?P<value>(?:[^"\\]|\\.)*)"\s*\]|\{[^}]*\}|(?m:(?:;.*|^%.*)$)|(?P<sign>[()])|\$\d+|\d+\.+|(?<!\S)\.+'
    r"|(?P<result>1-0|0-1|1/2-1/2|\*)|(?P<move>[^\s(){};\[\]]+)"
)


class Part(NamedTuple):
    """A part of a file, its place in the whole result, and of a CSV file its column."""

    number: int
    path: str
    kind: str
    begin: int
    end: int
    column: int = 0


@functools.lru_cache(maxsize=4)
def tables_of(folder: str) -> hofsjurd.Tablebase:
    """The tables of a folder, mapped once in a process."""
    return hofsjurd.open_tablebase(folder)


def result_path(out: str, number: int) -> Path:
    return Path(out, f"part-{number:06}.txt")


def judge_part(part: Part, tables: str, out: str) -> tuple[int, int]:
    """Writes the result of a part, and tells its number and how many lines it has."""
    base, count, path = tables_of(tables), 0, result_path(out, part.number)
    new = path.with_suffix(f".{os.uname().nodename}.{os.getpid()}.new")
    with open(new, "w") as file:
        lines = lines_of(part) if part.kind != "pgn" else iter(())
        for some in iter(lambda: list(islice(lines, TOGETHER)), []):
            count += file.write("".join(f"{it}\n" for it in judge_lines(base, some))) and len(some)
        for start, moves in games_of(part.path) if part.kind == "pgn" else ():
            file.write(judge_game(base, start, moves) + "\n")
            count += 1
    new.rename(path)
    return part.number, count


def lines_of(part: Part) -> Iterator[str]:
    """The FENs of the lines that begin in a part."""
    with open(part.path, "rb") as file:
        if part.begin:
            file.seek(part.begin - 1)
            file.readline()
        while file.tell() < part.end and (line := file.readline()):
            text = line.decode(errors="replace").rstrip("\r\n")
            yield column_of(text, part.column) if part.kind == "csv" else text


def column_of(text: str, column: int) -> str:
    """A column of a line of CSV; empty where the line has none, so that the line alone is refused."""
    try:
        return next(csv.reader([text]), [])[column]
    except (IndexError, csv.Error):
        return ""


def judge_lines(base: hofsjurd.Tablebase, fens: list[str]) -> list[str]:
    """What `adjudicate probes` prints of each, but for the name behind `Damaged`, which the library doesn't tell. A RefusedTableError for a
    file that can't be read, or is no table: then nothing is told of any."""
    boards = hofsjurd.Boards(fens)
    wdl, dtz, verdicts = base.probe_wdl_many(boards), base.probe_dtz_many(boards), base.judge_many(boards)
    names = ["open", *map(str, hofsjurd.Verdict)]
    if not (any(wdl.statuses) or any(dtz.statuses) or any(verdicts.statuses)):
        return [f"{w}\t{d}\t{names[v]}" for w, d, v in zip(wdl.values, dtz.values, verdicts.values)]
    return [_line(fen, wdl, dtz, verdicts, place, names) for place, fen in enumerate(fens)]


def _line(fen: str, wdl: hofsjurd.Replies, dtz: hofsjurd.Replies, verdicts: hofsjurd.Replies, place: int, names: list[str]) -> str:
    for error in (it.errors.get(place) for it in (wdl, dtz, verdicts)):
        if isinstance(error, hofsjurd.RefusedTableError):
            raise error
    status = wdl.statuses[place]
    if status in FEN_FAULTS:
        return f"refused FEN {wdl.errors[place]}"
    if status in POSITION_FAULTS:
        return f"refused FEN BadPosition {wdl.errors[place]}"
    return f"{_column(wdl, place)}\t{_column(dtz, place)}\t{names[verdicts.values[place]]}"


def _column(replies: hofsjurd.Replies, place: int) -> str:
    if not replies.statuses[place]:
        return str(replies.values[place])
    # (the program names no material where there are too many men)
    told = str(replies.errors[place])
    return f"refused {told.split()[0] if replies.statuses[place] == OUT_OF_SCOPE else told}"


def games_of(path: str) -> Iterator[tuple[str, list[str]]]:
    """The games of a PGN file: the start of each and its moves in algebraic notation, without variations."""
    moves: list[str] = []
    start, depth, has_moves = hofsjurd.START, 0, False
    for token in TOKENS.finditer(Path(path).read_text(errors="replace")):
        if token["tag"]:
            if has_moves:
                yield start, moves
                start, moves, has_moves = hofsjurd.START, [], False
            depth = 0
            start = token["value"] if token["tag"] == "FEN" else start
        elif token["sign"]:
            depth += 1 if token["sign"] == "(" else -1
        elif depth == 0 and token["result"]:
            yield start, moves
            start, moves, has_moves = hofsjurd.START, [], False
        elif depth == 0 and token["move"]:
            moves.append(token["move"])
            has_moves = True
    if has_moves:
        yield start, moves


def judge_game(base: hofsjurd.Tablebase, start: str, moves: list[str]) -> str:
    """What `adjudicate games` prints of a game: its first verdict with the ply, the number of its plies, or what is wrong with it."""
    try:
        game = hofsjurd.Game(base, start)
        for move in moves:
            if game.verdict:
                return f"ruled {game.ply} {game.verdict}"
            game.push_san(move)
    except hofsjurd.PositionError as error:
        return f"refused FEN {'BadPosition ' if error.status in POSITION_FAULTS else ''}{error}"
    except hofsjurd.MoveError:
        return f"refused move {game.ply}"
    return f"ruled {game.ply} {game.verdict}" if game.verdict else f"open {game.ply}"
