#!/usr/bin/env python3
"""Stands between a match manager and a UCI engine, and tells the manager the verdict on the game.

    hofsjurd-uci --tables DIR [OPTIONS] -- ENGINE ARGS                              it judges the game itself, by the module hofsjurd
    hofsjurd-uci --host ADDR,ADDR --game FILE [FILE ..] [OPTIONS] -- ENGINE ARGS    two hosts judge it: the games of these files, in turn
    hofsjurd-uci --host ADDR,ADDR --games DIR,DIR --match DIR --tables DIR | --manifest FILE [OPTIONS] -- ENGINE ARGS
                                                             the same, and each game is entered in the folders of both hosts as it begins

All lines go through as they come, and no move waits for a verdict. Where one stands, the manager is told in the only way that UCI has:
before the engine's next move comes `info string verdict K NAME`, once, and the engine's last score again with CP centipawns in its place:
CP where its side wins, -CP where it loses, 0 for a draw. So the manager's own rules for resigning and draws end the game. K is the ply.

    --string WHEN     whether there is an `info string`: always, never, or unless given wherever neither polyglot nor xboard is above this
                      process: xboard takes the word Draw in any line for a claim, and a claim that it doesn't share loses the game
    --resign CP       the score of a win, 10000 unless given; 0 leaves scores as they are
    --delay N         plies for which a verdict by tables must hold further, 0 to 8; of a FILE its own delay counts
    --log FILE        a line is appended for each verdict: `verdict K NAME`, engine, colour, start and moves, with tabs between
    --key FILE        keys of the hosts' port
    --program FILE    the program, `adjudicate` unless given
    --match DIR       a folder, new or kept, that all wrappers of a match share: two of one game agree on it by a file there

Both engines are wrapped, or one. What fails (a host that is silent, a table that can't be read, a move that isn't legal) is told in the log,
or on standard error without one, and the game goes on without verdicts. It needs Python 3.9 and, with --tables alone, the module hofsjurd.
"""
from __future__ import annotations

import argparse
import collections
import contextlib
import dataclasses
import fcntl
import functools
import os
import queue
import re
import secrets
import signal
import subprocess
import sys
import threading
import time
from pathlib import Path
from typing import Any, Callable, Iterator, NamedTuple, Optional, Union

START = "rnbqkbnr/pppppppp/8/8/8/8/PPPPPPPP/RNBQKBNR w KQkq - 0 1"
SCORE = re.compile(rb"\bscore (?:cp|mate) -?\d+(?: lowerbound| upperbound)?")
# A line that tells a score, and one that tells it of another line of play than the best.
IS_SCORE = re.compile(rb"info (?!string\b).*\bscore ")
OTHER_LINE = re.compile(rb"\bmultipv (?!1\b)")
WINNERS = {"WhiteMates": "white", "TableWhite": "white", "BlackMates": "black", "TableBlack": "black"}
ROOM = 65536
# Seconds that the end of the engine waits for the hosts' last verdict.
LAST_WAIT = 1.0
# Seconds after which a thread lets another one run: no line waits longer for a verdict that is being worked out.
SWITCH = 0.0001


class Place(NamedTuple):
    """A place in a game: its start, and the moves from there."""

    start: str
    moves: list[str]

    @property
    def colour(self) -> str:
        """Who is to move."""
        begins = self.start.split()[1] == "w"
        return "white" if begins == (len(self.moves) % 2 == 0) else "black"

    def precedes(self, other: Place) -> bool:
        """Whether it is an earlier place of the same game, or the same one."""
        return self.start == other.start and self.moves == other.moves[: len(self.moves)]


class Found(NamedTuple):
    """A verdict, its ply, and the place in a game that has it. Hosts may tell it before this wrapper has seen the last move there."""

    ply: int
    name: str
    place: Place

    def is_of(self, place: Place) -> bool:
        """Whether a place is this one, or a later one of the game."""
        return self.ply <= len(place.moves) and self.place.precedes(place)


def place_of(line: str) -> Optional[Place]:
    """The place that a line `position ..` tells."""
    told, _, moves = line.partition(" moves ")
    words = told.split()[1:]
    if words[:1] == ["startpos"]:
        return Place(START, moves.split())
    fields = words[1:7]
    if words[:1] != ["fen"] or len(fields) < 4:
        return None
    return Place(" ".join([*fields, *("0", "1")[len(fields) - 4 :]]), moves.split())


def programs_above() -> list[str]:
    """The names of the processes that have started this one."""
    names, process = [], os.getppid()
    with contextlib.suppress(OSError):
        while process > 1:
            name, _, rest = Path(f"/proc/{process}/stat").read_text().partition("(")[2].rpartition(")")
            names.append(name)
            process = int(rest.split()[1])
    return names


class Log:
    """Lines for the operator."""

    def __init__(self, path: Optional[str]) -> None:
        self.file = os.open(path, os.O_WRONLY | os.O_APPEND | os.O_CREAT, 0o666) if path else None

    def write(self, *columns: str) -> None:
        line = "\t".join(columns) + "\n"
        with contextlib.suppress(OSError):
            os.write(2 if self.file is None else self.file, line.encode(errors="replace"))


# ------------------------------------------------------------------------------------------------------------------------- who judges


class TableJudge:
    """Judges a game by tables, in this process."""

    def __init__(self, tables: str, delay: int) -> None:
        # (where it was installed by `install` without a package, the module stands beside)
        sys.path.append(str(Path(__file__).resolve().parent.parent / "share/hofsjurd_c"))
        import hofsjurd

        self.tables, self.delay = hofsjurd.open_tablebase(tables), delay
        self.make: Callable[..., Any] = hofsjurd.Game
        self.game: Any = None
        self.place = Place("", [])

    def follow(self, place: Place) -> Optional[Found]:
        """The first verdict up to a place. What it can't follow is a ValueError, or another error of hofsjurd's."""
        if self.game is None or not self.place.precedes(place):
            self.game, self.place = None, Place(place.start, [])
            self.game = self.make(self.tables, place.start, delay=self.delay)
        for move in place.moves[self.game.ply :]:
            if self.game.verdict:
                break
            self.game.push(move)
        self.place = Place(place.start, self.game.moves)
        return Found(self.game.ply, str(self.game.verdict), self.place) if self.game.verdict else None

    def end(self, place: Optional[Place]) -> None:
        """The game has ended."""
        self.game = None

    def close(self) -> None:
        """Nothing is left to wait for."""


class Feed:
    """A run of `adjudicate send` for one game, which is fed as moves come. It waits in its own process, so that nothing waits for it."""

    def __init__(self, words: list[str], place: Place, told: Callable[[Feed, int, str], None], log: Log) -> None:
        self.sent, self.place, self.told, self.log = 0, place, told, log
        self.process = subprocess.Popen(words, stdin=subprocess.PIPE, stdout=subprocess.PIPE, stderr=subprocess.DEVNULL)
        self.reader = threading.Thread(target=self._read, daemon=True)
        self.reader.start()

    def _read(self) -> None:
        assert self.process.stdout
        for line in self.process.stdout:
            words = line.decode(errors="replace").split()
            if words[:1] == ["verdict"]:
                self.told(self, int(words[1]), words[2])
            elif words[1:] != ["acked"] and words[:1] != ["open"]:
                self.log.write("refused send", " ".join(words))
        self.process.wait()

    def move(self, moves: list[str]) -> None:
        """Feeds the moves of the game that haven't been fed."""
        assert self.process.stdin
        self.place = Place(self.place.start, moves)
        text = "".join(f"{it}\n" for it in moves[self.sent :])
        self.sent = max(self.sent, len(moves))
        with contextlib.suppress(OSError):  # (it has its verdict, or has given up)
            self.process.stdin.write(text.encode())
            self.process.stdin.flush()

    def end(self) -> None:
        assert self.process.stdin
        with contextlib.suppress(OSError):
            self.process.stdin.close()

    def close(self, end: float) -> None:
        self.reader.join(max(0.0, end - time.monotonic()))
        if self.process.poll() is None:
            self.process.terminate()


class Match:
    """A folder in which wrappers of one match agree on games. Each game has a file N: its start, who sits at either side (a process and
    its engine), the path of the game's file once it is entered, and the one list of its moves, to which both append. The folder has a name
    of its own, made by chance, so that no game of another match is taken for one of this."""

    # games, the last ones, in which a seat is looked for
    RECENT = 64

    def __init__(self, folder: str) -> None:
        self.folder = Path(folder)
        self.folder.mkdir(parents=True, exist_ok=True)
        with self.locked():
            if not (self.folder / "name").exists():
                (self.folder / "name").write_text(secrets.token_hex(4))
        self.name = (self.folder / "name").read_text()

    @contextlib.contextmanager
    def locked(self) -> Iterator[None]:
        with open(self.folder / "lock", "a") as lock:
            fcntl.flock(lock, fcntl.LOCK_EX)
            yield

    def read(self, number: int) -> dict[str, str]:
        lines = (self.folder / str(number)).read_text().split("\n")
        return {word: text for word, _, text in (line.partition(" ") for line in lines) if word}

    def write(self, number: int, seats: dict[str, str]) -> None:
        new = self.folder / f"{number}.new"
        new.write_text("".join(f"{word} {text}\n" for word, text in seats.items()))
        new.rename(self.folder / str(number))

    def sit(self, place: Place, colour: str, engine: str) -> int:
        """The number of the game at a place: one that the opponent's wrapper has begun, or a new one."""
        numbers = sorted((int(it.name) for it in self.folder.iterdir() if it.name.isdigit()), reverse=True)
        free = [it for it in numbers[: self.RECENT] if self._is_free(self.read(it), place, colour)]
        # (an engine rarely plays against one of its own name)
        free.sort(key=lambda it: f" {engine}" in self.read(it).get(_other(colour), ""))
        number = free[0] if free else max(numbers, default=0) + 1
        seats = self.read(number) if free else {"start": place.start, "moves": " ".join(place.moves)}
        self.write(number, {**seats, colour: f"{os.getpid()} {engine}"})
        return number

    @staticmethod
    def _is_free(seats: dict[str, str], place: Place, colour: str) -> bool:
        told = Place(seats["start"], seats["moves"].split())
        process = seats.get(_other(colour), "0").split()[0]
        is_there = process not in ("0", str(os.getpid())) and Path(f"/proc/{process}").exists()
        return not {colour, "over"} & seats.keys() and is_there and (told.precedes(place) or place.precedes(told))

    def extend(self, number: int, place: Place) -> Optional[list[str]]:
        """The list of the game's moves with those up to a place; None where the place is one of another game."""
        seats = self.read(number)
        told = Place(seats["start"], seats["moves"].split())
        if place.precedes(told):
            return told.moves
        if not told.precedes(place):
            return None
        self.write(number, {**seats, "moves": " ".join(place.moves)})
        return place.moves

    def end(self, number: int) -> None:
        """Nobody sits down at the game any more."""
        self.write(number, {**self.read(number), "over": "."})


def _other(colour: str) -> str:
    return "black" if colour == "white" else "white"


class HostJudge:
    """Feeds a game to two hosts, which judge it. Verdicts come when they come."""

    # plies after which a game is entered though the opponent's wrapper hasn't come
    ALONE = 6

    def __init__(self, given: argparse.Namespace, log: Log, told: Callable[[Feed, int, str], None]) -> None:
        self.given, self.log, self.told = given, log, told
        self.files: list[str] = list(given.game)
        self.match = Match(given.match) if given.match else None
        self.engine = "engine"
        self.place: Optional[Place] = None
        self.feed: Optional[Feed] = None
        self.number = 0
        self.feeds: list[Feed] = []

    def follow(self, place: Place) -> None:
        """Feeds the game up to a place."""
        if self.place is None:
            self._begin(place)
        self.place = place
        moves = self._agreed(place)
        if self.feed:
            self.feed.move(moves)

    def _begin(self, place: Place) -> None:
        """Takes the next file; a seat in a game of the match is taken under its lock."""
        if self.match:
            with self.match.locked():
                self.number = self.match.sit(place, place.colour, self.engine)
            return
        if not self.files:
            raise ValueError("no further --game is there for this game")
        path = self.files.pop(0)
        told = Path(path).read_text().splitlines()[1].partition(" ")[2]
        if told != place.start:
            raise ValueError(f"the start of {path} is another one: {told}")
        self._open(path, place.start)

    def _agreed(self, place: Place) -> list[str]:
        """The moves to feed: with a match those of its file, where both wrappers put theirs."""
        if not self.match:
            return place.moves
        with self.match.locked():
            moves = self.match.extend(self.number, place)
            if moves is None:
                raise ValueError(f"game {self.number} of {self.match.folder} is another one")
            seats = self.match.read(self.number)
            if self.feed is None and "file" not in seats and ("white" in seats and "black" in seats or len(moves) >= self.ALONE):
                seats["file"] = self._enter(seats)
                self.match.write(self.number, seats)
        if self.feed is None and "file" in seats:
            self._open(seats["file"], place.start)
        return moves

    def _enter(self, seats: dict[str, str]) -> str:
        """Enters the game in both folders, and tells the path of its file in the first."""
        white, black = (seats.get(it, "0 ?").split(" ", 1)[1] for it in ("white", "black"))
        tail = f" {self.match.name if self.match else ''}.{self.number}"
        name = f"{white} - {black}".encode("ascii", "replace").decode()[: 64 - len(tail)] + tail
        tables = ["--manifest", self.given.manifest] if self.given.manifest else []
        words = [self.given.program, "enter", "--name", name, "--start", seats["start"], "--tables", self.given.tables or ".", *tables]
        words += ["--delay", str(self.given.delay)]
        stamps = [subprocess.run([*words, "--games", it], capture_output=True, text=True) for it in self.given.games]
        stamp = stamps[0].stdout.strip()
        if any(it.returncode or it.stdout.strip() != stamp for it in stamps):
            raise ValueError(f"enter: {[it.stdout.strip() or it.stderr.strip() for it in stamps]}")
        return str(Path(self.given.games[0], f"{stamp}.game"))

    def _open(self, path: str, start: str) -> None:
        key = ["--key", self.given.key] if self.given.key else []
        words = [self.given.program, "send", "--game", path, "--to", self.given.host, *key, "--tries", "1000"]
        self.feed = Feed(words, Place(start, []), self.told, self.log)
        self.feeds = [*(it for it in self.feeds if it.process.poll() is None), self.feed]

    def end(self, place: Optional[Place]) -> None:
        """The game has ended, at a place where it was followed so far. Its last move, which no position has told, is taken as played."""
        with contextlib.suppress(ValueError, OSError):
            if self.feed and place:
                self.feed.move(self._agreed(place))
            if self.match and self.place:
                with self.match.locked():
                    self.match.end(self.number)
        if self.feed:
            self.feed.end()
        self.feed, self.place = None, None

    def close(self) -> None:
        end = time.monotonic() + LAST_WAIT
        for it in self.feeds:
            it.close(end)


# --------------------------------------------------------------------------------------------------------------------- what is followed


class Follower:
    """Follows the game from the lines that go by, in a thread of its own, and keeps the verdict that the manager is to be told."""

    def __init__(self, given: argparse.Namespace, log: Log) -> None:
        self.log = log
        self.engine = "engine"
        self.events: queue.SimpleQueue[Optional[Callable[[], None]]] = queue.SimpleQueue()
        self.judge: Union[HostJudge, TableJudge] = (
            HostJudge(given, log, self._hear_host) if given.host else TableJudge(given.tables, given.delay)
        )
        self.place: Optional[Place] = None  # the last one that the manager told
        self.moved: Optional[str] = None  # the engine's move there
        self.colour = "white"
        self.is_followed, self.is_logged = True, False
        # read by the thread that passes the engine's lines on, which holds it to the place of the search; one object for a game
        self.verdict: Optional[Found] = None
        self.thread = threading.Thread(target=self._run, daemon=True)
        self.thread.start()

    def _run(self) -> None:
        while (event := self.events.get()) is not None:
            try:
                event()
            except Exception as error:  # (whatever it is, the game goes on)
                self.is_followed = False
                where = [self.place.start, " ".join(self._last().moves)] if self.place else []
                self.log.write("refused", f"{type(error).__name__}: {error}", self.engine, *where)

    def at(self, place: Place) -> None:
        """The manager has the engine move at a place."""
        if self.place is None or not self.place.precedes(place):
            self.new_game()
            self.is_followed, self.is_logged, self.verdict = True, False, None
        elif not self._last().precedes(place):
            self.is_logged = self.verdict is not None  # (the engine's move was not played)
        self.place, self.moved, self.colour = place, None, place.colour
        if not self.is_followed:
            return
        if isinstance(self.judge, TableJudge):
            self._found(self.judge.follow(place), is_played=True)
        else:
            self.judge.engine = self.engine
            self.judge.follow(place)

    def moves(self, move: str) -> None:
        """The engine has moved. Tables judge it at once; the hosts are told when the manager has played it."""
        self.moved = move
        if self.is_followed and self.place and isinstance(self.judge, TableJudge):
            self._found(self.judge.follow(self._last()), is_played=False)

    def new_game(self) -> None:
        """The game that was followed has ended."""
        if self.place:
            self.judge.end(self._last() if self.is_followed else None)
        self.place, self.moved = None, None

    def _last(self) -> Place:
        assert self.place
        return Place(self.place.start, [*self.place.moves, *([self.moved] if self.moved else [])])

    def _found(self, verdict: Optional[Found], is_played: bool) -> None:
        """A verdict of the tables'. On what has been played the manager is to be told."""
        if verdict and is_played and self.verdict is None:
            self.verdict = verdict
        if verdict and not self.is_logged:
            self.is_logged = True
            self._write(verdict)

    def _hear_host(self, feed: Feed, ply: int, name: str) -> None:
        """A verdict of the hosts', in the thread that read it."""
        self.events.put(functools.partial(self._found_by_hosts, feed, ply, name))

    def _found_by_hosts(self, feed: Feed, ply: int, name: str) -> None:
        verdict = Found(ply, name, Place(feed.place.start, feed.place.moves[:ply]))
        if isinstance(self.judge, HostJudge) and self.judge.feed is feed:
            self.verdict = verdict
        self._write(verdict)

    def _write(self, verdict: Found) -> None:
        place = verdict.place
        self.log.write(f"verdict {verdict.ply} {verdict.name}", self.engine, self.colour, place.start, " ".join(place.moves))

    def close(self) -> None:
        """Ends the game and waits a little for what is left."""
        ended = threading.Event()
        for event in (self.new_game, ended.set):
            self.events.put(event)
        ended.wait(LAST_WAIT)
        self.judge.close()
        self.events.put(None)
        self.thread.join(LAST_WAIT)


# ----------------------------------------------------------------------------------------------------------------------- lines through


@dataclasses.dataclass
class Search:
    """A search of the engine's: where, and whether its `bestmove` will be one of the game. That of a `go ponder` is once its `ponderhit`
    has come."""

    place: Optional[Place]
    is_moving: bool


class Wrapper:
    """Passes lines on, each way in a thread."""

    def __init__(self, given: argparse.Namespace) -> None:
        self.log = Log(given.log)
        self.follower = Follower(given, self.log)
        self.resign: int = given.resign
        self.tells = given.string == "always" or (given.string == "auto" and not {"polyglot", "xboard"} & set(programs_above()))
        self.engine = subprocess.Popen(given.engine, stdin=subprocess.PIPE, stdout=subprocess.PIPE, bufsize=0)
        self.place: Optional[Place] = None  # of the last line `position`
        self.searches: collections.deque[Search] = collections.deque()  # each has a `bestmove` to come
        self.last = Search(None, is_moving=False)  # the last one of them, also when its `bestmove` has come
        self.told: Optional[Found] = None  # the verdict that the manager has been told
        self.score = b""  # the engine's last line with a score

    def run(self) -> int:
        for file in (0, 1):
            with contextlib.suppress(OSError):
                os.set_blocking(file, True)  # (a manager may have left its own way of reading and writing)
        back = threading.Thread(target=self._from_engine, daemon=True)
        signal.signal(signal.SIGINT, lambda *_: None)  # (the engine gets it too, and knows what to do)
        signal.signal(signal.SIGTERM, lambda *_: self.engine.terminate())
        forth = threading.Thread(target=self._to_engine, daemon=True)
        back.start()
        forth.start()
        back.join()
        status = self.engine.wait()
        self.follower.close()
        return status if status >= 0 else 128 - status

    def _to_engine(self) -> None:
        assert self.engine.stdin
        rest, is_there = b"", True
        with contextlib.suppress(OSError):  # (a terminal that hangs up)
            while is_there and (data := os.read(0, ROOM)):
                # (heard before it is passed on, which takes microseconds: the engine may answer at once)
                *lines, rest = (rest + data).split(b"\n")
                self._hear_lines(lines)
                is_there = self._put(data, self.engine.stdin.fileno())
        self.engine.stdin.close()

    def _hear_lines(self, lines: list[bytes]) -> None:
        for line in lines:
            with self._unharmed():
                self._hear_manager(line.decode(errors="replace").strip())

    @contextlib.contextmanager
    def _unharmed(self) -> Iterator[None]:
        """What goes wrong here is told in the log, and the line goes through as it came."""
        try:
            yield
        except Exception as error:
            self.log.write("refused", f"{type(error).__name__}: {error}", self.follower.engine)

    def _hear_manager(self, line: str) -> None:
        word, _, words = line.partition(" ")
        events = self.follower.events
        if word == "position":
            self.place = place_of(line)
        elif word == "ucinewgame":
            events.put(self.follower.new_game)
        elif word == "go":
            self.last = Search(self.place, is_moving=not {"ponder", "infinite"} & set(words.split()))
            self.searches.append(self.last)
        elif word == "ponderhit":
            self.last.is_moving = True
        if word in ("go", "ponderhit") and self.last.is_moving and self.last.place:
            events.put(functools.partial(self.follower.at, self.last.place))

    def _from_engine(self) -> None:
        assert self.engine.stdout
        rest = b""
        while data := os.read(self.engine.stdout.fileno(), ROOM):
            *lines, rest = (rest + data).split(b"\n")
            text = b"".join(self._before(line) + line + b"\n" for line in lines)
            if not self._put(text, 1):
                self.engine.terminate()
                return
        self._put(rest, 1)

    @staticmethod
    def _put(text: bytes, file: int) -> bool:
        """Writes all of a text; whether that went well."""
        try:
            while text:
                text = text[os.write(file, text) :]
        except OSError:
            return False
        return True

    def _before(self, line: bytes) -> bytes:
        """What the manager gets before a line of the engine's."""
        with self._unharmed():
            if IS_SCORE.match(line) and not OTHER_LINE.search(line):
                self.score = line
            elif line.startswith(b"id name "):
                self.follower.engine = line[8:].decode(errors="replace").strip()
            elif line.startswith(b"bestmove"):
                return self._moved(line)
        return b""

    def _moved(self, line: bytes) -> bytes:
        """What comes before a move of the engine's."""
        move = (line.decode(errors="replace").split() + [""])[1]
        score, self.score = self.score, b""
        search = self.searches.popleft() if self.searches else None
        if not search or not search.is_moving or not search.place:
            return b""
        verdict = self.follower.verdict
        if len(move) in (4, 5) and move[1].isdigit():
            self.follower.events.put(functools.partial(self.follower.moves, move))
        # (the thread that follows may still be with an earlier game)
        return self._announcement(verdict, search.place.colour, score, move) if verdict and verdict.is_of(search.place) else b""

    def _announcement(self, verdict: Found, colour: str, score: bytes, move: str) -> bytes:
        text = b"" if self.told is verdict or not self.tells else f"info string verdict {verdict.ply} {verdict.name}\n".encode()
        self.told = verdict
        if not self.resign or verdict.name == "Stopped":
            return text
        winner = WINNERS.get(verdict.name)
        value = self.resign if winner == colour else -self.resign if winner else 0
        line = score if SCORE.search(score) else f"info depth 1 score cp 0 nodes 0 time 0 pv {move}".encode()
        return text + SCORE.sub(f"score cp {value}".encode(), line) + b"\n"


def arguments() -> argparse.Namespace:
    usage = "hofsjurd-uci --tables DIR | --host ADDR,ADDR .. [OPTIONS] -- ENGINE ARGS; --help tells all"
    words = argparse.ArgumentParser(
        "hofsjurd-uci",
        usage,
        __doc__,
        formatter_class=argparse.RawDescriptionHelpFormatter,
    )
    hidden: dict[str, Any] = {"help": argparse.SUPPRESS}
    for name in ("--tables", "--host", "--match", "--manifest", "--log", "--key"):
        words.add_argument(name, **hidden)
    words.add_argument("--game", nargs="+", default=[], **hidden)
    words.add_argument("--games", type=lambda it: it.split(","), default=[], **hidden)
    words.add_argument("--string", choices=("always", "never", "auto"), default="auto", **hidden)
    words.add_argument("--resign", type=int, default=10000, **hidden)
    words.add_argument("--delay", type=int, default=0, choices=range(9), **hidden)
    words.add_argument("--program", default="adjudicate", **hidden)
    cut = sys.argv.index("--") if "--" in sys.argv else len(sys.argv)
    given = words.parse_args(sys.argv[1:cut])
    given.engine = sys.argv[cut + 1 :]
    if not given.engine:
        words.error("no engine behind --")
    enters = bool(given.match and len(given.games) == 2 and (given.tables or given.manifest))
    if given.host and bool(given.game) == enters:
        words.error("--host goes with --game, or with --games DIR,DIR, --match and --tables or --manifest")
    if not given.host and not given.tables:
        words.error("--tables or --host is missing")
    return given


def main() -> int:
    sys.setswitchinterval(SWITCH)
    given = arguments()
    try:
        wrapper = Wrapper(given)
    except (OSError, ImportError) as error:
        print(f"hofsjurd-uci: {error}", file=sys.stderr)
        return 1
    status = wrapper.run()
    # (a thread may still wait for the manager's next line)
    os._exit(status)


if __name__ == "__main__":
    sys.exit(main())
