#!/usr/bin/env python3
"""The smallest server side of many games: one process that takes games from a folder, enters them at two hosts, feeds their moves and reads
their verdicts.

    feed.py --queue DIR --games DIR,DIR --host ADDR,ADDR --tables DIR [--manifest FILE] [--delay N] [--key FILE] [--wait MS] [--tries N]
            [--program FILE] [--until-done]

A game is a file `NAME.moves` of the queue, which the server of the match writes: the start as FEN in the first line, and a move in coordinates in
each further line, appended as it is played. NAME is the game's name, used once. The feed writes beside it

    NAME.stamp       the stamp by which it was entered in the folders of both hosts (--games); a feed that is started again goes on from there
    NAME.verdict     how it ended: `verdict K VERDICT`, both hosts' word; `disagree ..`; or `refused` and why, and then nobody feeds it any more

and prints a line for each, with the name before it. A server that has read NAME.verdict removes the files of the game. The folder of the queue
belongs to one feed. With --until-done it ends once each game of the queue has its verdict.

The protocol is that of `adjudicate send` (FORMATS, section 8): a move goes to both hosts until both have acknowledged it, and then the next.
It needs Python 3.9 and the program, which enters games and lists tables. No part of it is proved.
"""
from __future__ import annotations

import argparse
import contextlib
import fcntl
import hashlib
import hmac
import os
import select
import socket
import struct
import subprocess
import sys
import tempfile
import time
from pathlib import Path
from typing import IO, Iterator, Optional

MESSAGE = struct.Struct(">2sBB16sBIH")  # head, version, kind, stamp, sender, number, word
HEAD, MOVE, ACK, VERDICT = b"SA", 1, 2, 3
VERDICTS = ("none", "WhiteMates", "BlackMates", "Stalemate", "TableDraw", "TableWhite", "TableBlack", "Stopped")
PROMOTIONS = ("", "q", "r", "b", "n")
TAG = 16
# Seconds between two looks at the queue.
LOOK = 0.05
# Seconds after which the last move is sent again where no further one has come: a verdict may have been lost. Each time twice as long.
QUIET, MOST_QUIET = 1.0, 60.0
# A move's tries last longer and longer, up to so many times --wait.
MOST_WAIT = 8


def word_of(move: str) -> int:
    """The word of a move in a message. A ValueError for a text that is none."""
    squares = ["abcdefgh".index(move[it : it + 1] or " ") + 8 * "12345678".index(move[it + 1 : it + 2] or " ") for it in (0, 2)]
    return squares[0] + 64 * squares[1] + 4096 * PROMOTIONS.index(move[4:])


class Game:
    """A game of the queue: the moves that its file has by now, and what either host has said."""

    def __init__(self, path: Path) -> None:
        self.path, self.name = path, path.stem
        self.stamp = b""
        self.read, self.start = 0, ""
        self.words: list[int] = []
        self.acked = [0, 0]
        self.verdicts: list[Optional[tuple[int, int]]] = [None, None]
        self.sent = -1  # the number of the move that was sent last
        self.tries, self.due = 0, 0.0

    def grow(self) -> bool:
        """Reads what was appended; whether there is a further move. A ValueError for a line that is no move."""
        with open(self.path, "rb") as file:
            file.seek(self.read)
            whole, end, _ = file.read().rpartition(b"\n")
        lines = whole.decode(errors="replace").split("\n") if end else []
        self.read += len(whole) + len(end)
        if lines and not self.start:
            self.start = lines.pop(0)
        for line in lines:
            try:
                self.words.append(word_of(line))
            except ValueError:
                raise ValueError(f"refused move {len(self.words)}") from None
        return bool(lines)

    def number(self) -> int:
        """The number of the move that either host lacks."""
        counts = [count for count, verdict in zip(self.acked, self.verdicts) if verdict is None]
        return min(counts, default=len(self.words))

    def finding(self) -> Optional[str]:
        """How the game has ended, once both hosts have said so."""
        one, other = self.verdicts
        if one is None or other is None:
            return None
        told = [f"{ply} {VERDICTS[code]}" for ply, code in (one, other)]
        return f"verdict {told[0]}" if one == other else f"disagree {' '.join(told)}"


class Seal:
    """Tags of datagrams, where the hosts have keys. The first key seals, and each opens."""

    def __init__(self, path: Optional[str]) -> None:
        self.keys = [bytes.fromhex(line) for line in Path(path).read_text().split()] if path else []

    def sealed(self, message: bytes) -> bytes:
        return message + self._tag(self.keys[0], message) if self.keys else message

    def opened(self, datagram: bytes) -> bytes:
        """The message of a datagram; empty where its tag isn't right."""
        if not self.keys:
            return datagram
        message, tag = datagram[:-TAG], datagram[-TAG:]
        return message if any(hmac.compare_digest(tag, self._tag(key, message)) for key in self.keys) else b""

    @staticmethod
    def _tag(key: bytes, message: bytes) -> bytes:
        return hmac.digest(key, message, "sha256")[:TAG]


class Program:
    """What `adjudicate` does for the feed."""

    def __init__(self, given: argparse.Namespace, manifest: str) -> None:
        self.given, self.manifest = given, manifest

    def stamp(self, game: Game) -> str:
        """The stamp of a game (FORMATS, section 8)."""
        delay = bytes([self.given.delay]) if self.given.delay else b""
        text = f"{game.name}\n{game.start}\n".encode() + Path(self.manifest).read_bytes() + delay
        return hashlib.sha256(text).hexdigest()[:32]

    def enter(self, games: list[Game]) -> list[str]:
        """Enters games in both folders, and tells the stamp of each, or its refusal."""
        text = "".join(f"{it.name}\t{it.start}\t{self.given.delay}\n" for it in games)
        words = [self.given.program, "enter", "--from", "-", "--tables", self.given.tables, "--manifest", self.manifest, "--games"]
        told = [subprocess.run([*words, it], input=text, stdout=subprocess.PIPE, text=True).stdout.splitlines() for it in self.given.games]
        if [len(it) for it in told] != [len(games)] * 2:
            return [f"refused enter {told[0][-1:]} {told[1][-1:]}"] * len(games)
        return [one if one == other else f"refused enter {one}, {other}" for one, other in zip(*told)]


class Feed:
    """All games, over one socket."""

    def __init__(self, given: argparse.Namespace, program: Program) -> None:
        self.given, self.program, self.seal = given, program, Seal(given.key)
        self.queue = Path(given.queue)
        self.wait = given.wait / 1000
        self.hosts = [_address(it) for it in given.host.split(",")]
        self.socket = socket.socket(socket.AF_INET, socket.SOCK_DGRAM)
        self.socket.setsockopt(socket.SOL_SOCKET, socket.SO_RCVBUF, 1 << 22)
        self.socket.setblocking(False)
        self.games: dict[str, Game] = {}
        self.by_stamp: dict[bytes, Game] = {}
        self.ended: set[str] = set()

    def run(self) -> None:
        look = 0.0
        while True:
            now = time.monotonic()
            if now >= look:
                self.look()
                look = now + LOOK
                if self.given.until_done and not self.games:
                    return
            self.send_due(time.monotonic())
            if select.select([self.socket], [], [], max(0.0, min(self.wait, look - time.monotonic())))[0]:
                self.receive()

    def look(self) -> None:
        """Looks at the queue: games that are new, moves that were appended, games that were taken away."""
        there = {it.name[:-6]: it for it in os.scandir(self.queue) if it.name.endswith(".moves")}
        fresh = []
        for name, entry in there.items():
            game = self.games.get(name)
            if game is None and Path(self.queue, f"{name}.verdict").exists():  # (of a feed before this one: it stays as it is)
                self.ended.add(name)
            if name in self.ended:
                continue
            try:
                if game and entry.stat().st_size == game.read:
                    continue
                game = game or Game(Path(entry.path))
                grown = game.grow()
            except FileNotFoundError:  # (it was taken away just now)
                continue
            except (OSError, ValueError) as error:
                self.end(game or Game(Path(entry.path)), str(error))
                continue
            if name not in self.games and game.start:
                fresh.append(game)
            elif grown and game.sent < game.number():
                game.due = 0.0
        for name in self.games.keys() - there.keys():
            self.forget(self.games[name])
        self.ended &= there.keys()
        if fresh:
            self.enter(fresh)

    def enter(self, games: list[Game]) -> None:
        """Enters games that are new, or that a feed before this one had. The stamp stands in the queue first: a game that a host's folder has,
        and this queue hasn't, is another one of that name, whose moves and verdict would be taken for this one's."""
        ours = [it for it in games if self.claim(it)]
        for game, stamp in zip(ours, self.program.enter(ours) if ours else []):
            if stamp != game.stamp.hex():
                self.end(game, stamp if stamp.startswith("refused") else f"refused enter {stamp}")
            else:
                self.games[game.name] = self.by_stamp[game.stamp] = game

    def claim(self, game: Game) -> bool:
        """Whether a game is to be fed: none whose name was used."""
        stamp = self.program.stamp(game)
        game.stamp = bytes.fromhex(stamp)
        if self.beside(game, "stamp").exists():
            return True
        if any(Path(it, f"{stamp}.game").exists() for it in self.given.games):
            self.end(game, "refused used")
            return False
        self.put(game, "stamp", stamp)
        return True

    def send_due(self, now: float) -> None:
        for game in [it for it in self.games.values() if it.due <= now]:
            self.send(game, now)

    def send(self, game: Game, now: float) -> None:
        """Sends the move that a host lacks, or once more the last one, for a verdict that may have been lost."""
        if not game.words:
            game.due = now + QUIET
            return
        number = min(game.number(), len(game.words) - 1)
        game.tries = game.tries + 1 if number == game.sent else 1
        game.sent = number
        is_waiting = game.number() == len(game.words)
        if game.tries > self.given.tries and not is_waiting:
            self.end(game, f"refused lost {number}")
            return
        wait = min(QUIET * 2 ** min(game.tries, 10), MOST_QUIET) if is_waiting else self.wait * min(2 ** (game.tries - 1), MOST_WAIT)
        game.due = now + wait
        message = self.seal.sealed(MESSAGE.pack(HEAD, 1, MOVE, game.stamp, 0, number, game.words[number]))
        for host, address in enumerate(self.hosts):
            if game.verdicts[host] is None and (is_waiting or game.acked[host] <= number):
                with contextlib.suppress(OSError):  # (as if it were lost)
                    self.socket.sendto(message, address)

    def receive(self) -> None:
        """Takes all that has come."""
        with contextlib.suppress(BlockingIOError):
            while True:
                try:
                    message = self.seal.opened(self.socket.recv(128))
                except ConnectionError:  # (a host is down)
                    continue
                if len(message) == MESSAGE.size:
                    self.hear(message)

    def hear(self, message: bytes) -> None:
        head, version, kind, stamp, sender, number, word = MESSAGE.unpack(message)
        game = self.by_stamp.get(stamp)
        if head != HEAD or version != 1 or sender not in (1, 2) or game is None:
            return
        before = game.number()
        if kind == ACK:
            game.acked[sender - 1] = max(game.acked[sender - 1], number)
        elif kind == VERDICT and 0 < word < len(VERDICTS):
            game.verdicts[sender - 1] = (number, word)
        found = game.finding()
        if found:
            self.end(game, found)
        elif game.number() > before:
            now = time.monotonic()
            if game.number() < len(game.words):
                self.send(game, now)
            else:
                game.sent, game.tries, game.due = len(game.words) - 1, 0, now + QUIET

    def close_by_players(self, game: Game) -> None:
        """Here a game would be closed that ends by resignation, agreement, time or repetition. The hosts have no command for that yet: such a
        game stays open there, and the server takes its file from the queue (`forget`)."""

    def forget(self, game: Game) -> None:
        """The server has taken the file away."""
        self.close_by_players(game)
        self.games.pop(game.name, None)
        self.by_stamp.pop(game.stamp, None)

    def end(self, game: Game, finding: str) -> None:
        self.put(game, "verdict", finding)
        self.games.pop(game.name, None)
        self.by_stamp.pop(game.stamp, None)
        self.ended.add(game.name)
        print(f"{game.name} {finding}", flush=True)

    def beside(self, game: Game, what: str) -> Path:
        return self.queue / f"{game.name}.{what}"

    def put(self, game: Game, what: str, text: str) -> None:
        """Writes a file whole, or not at all."""
        new = self.beside(game, f"{what}.new")
        new.write_text(f"{text}\n")
        new.rename(self.beside(game, what))


def _address(text: str) -> tuple[str, int]:
    name, _, port = text.rpartition(":")
    return socket.gethostbyname(name), int(port)


@contextlib.contextmanager
def manifest_of(given: argparse.Namespace) -> Iterator[str]:
    """The path of the manifest: the one that is given, or one that is made of the tables once."""
    if given.manifest:
        yield given.manifest
        return
    with tempfile.NamedTemporaryFile("w", suffix=".txt") as file:
        subprocess.run([given.program, "list", given.tables], stdout=file, check=True)
        yield file.name


def take(lock: IO[str]) -> None:
    """Takes the queue, which has one feed. An OSError where another one has it."""
    try:
        fcntl.flock(lock, fcntl.LOCK_EX | fcntl.LOCK_NB)
    except OSError:
        raise OSError("another feed has this queue") from None


def main() -> int:
    words = argparse.ArgumentParser(usage=__doc__)
    for name in ("--queue", "--host", "--tables"):
        words.add_argument(name, required=True)
    words.add_argument("--games", required=True, type=lambda it: it.split(","))
    words.add_argument("--manifest")
    words.add_argument("--key")
    words.add_argument("--delay", type=int, default=0)
    words.add_argument("--wait", type=int, default=100)
    words.add_argument("--tries", type=int, default=100)
    words.add_argument("--program", default="adjudicate")
    words.add_argument("--until-done", action="store_true")
    given = words.parse_args()
    if len(given.games) != 2 or given.host.count(",") != 1:
        words.error("two folders of games, and two hosts")
    try:
        with open(Path(given.queue) / "lock", "w") as lock, manifest_of(given) as manifest:
            take(lock)
            Feed(given, Program(given, manifest)).run()
    except KeyboardInterrupt:
        return 0
    except (OSError, ValueError, subprocess.CalledProcessError) as error:
        sys.exit(f"feed: {error}")
    return 0


if __name__ == "__main__":
    sys.exit(main())
