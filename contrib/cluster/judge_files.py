#!/usr/bin/env python3
"""Judges the positions and games of many files on the workers of Dask, on one machine or many.

    judge_files.py --tables DIR --out DIR [--scheduler ADDR | --workers N] [--part-size BYTES] [--column NAME] FILE..

A FILE is a CSV file with a header and a column of FENs (.csv; --column, `fen` unless given), a PGN file (.pgn), or has a FEN a line. It is cut into
parts of some --part-size bytes (16,000,000 unless given), a PGN file is one part. Workers judge the parts, each with tables that it maps once, and
write the result of each to DIR/part-NNNNNN.txt, which is there whole or not at all: a line for each position as `adjudicate probes` prints it, for each
game as `adjudicate games` does. What a worker that fails had to do is done again by another one. Started again with the same words, it does the parts
that aren't there yet; DIR/parts.txt has the parts, and other ones are refused. So `cat DIR/part-*.txt` is what one process prints of all files in turn.
A table file that can't be read, or is none, ends the run with its name.

Files, tables and --out have the same path on all machines. With --scheduler ADDR it asks the workers of `dask scheduler`, each started by
`dask worker ADDR --nthreads 1 --nworkers auto`; otherwise it starts N processes here (4 unless given). Each needs the module hofsjurd.
"""
from __future__ import annotations

import argparse
import csv
import os
import sys
import time
from pathlib import Path
from typing import Any, Iterator

HERE = Path(__file__).resolve().parent
sys.path.insert(0, str(HERE))

from hofsjurd import ProbeError  # noqa: E402
from judging import Part, judge_part, result_path  # noqa: E402


def kind_of(path: str) -> str:
    return {".csv": "csv", ".pgn": "pgn"}.get(Path(path).suffix.lower(), "lines")


def parts_of(paths: list[str], size: int, column: str) -> Iterator[Part]:
    """The parts of all files, in order."""
    number = 0
    for path in (str(Path(it).absolute()) for it in paths):
        kind, length, begin, place = kind_of(path), os.path.getsize(path), 0, 0
        if kind == "csv":
            with open(path, "rb") as file:
                names = next(csv.reader([file.readline().decode("utf-8-sig").rstrip("\r\n")]), [])
                begin = file.tell()
            if column not in names:
                raise ValueError(f"{path}: its first line names no column {column}")
            place = names.index(column)
        step = length if kind == "pgn" else size
        for at in range(begin, length, max(step, 1)):
            yield Part(number, path, kind, at, min(at + step, length), place)
            number += 1


def missing_of(parts: list[Part], out: str) -> list[Part]:
    """The parts whose results aren't there. A ValueError where the results there are of other parts."""
    path, told = Path(out, "parts.txt"), "".join(f"{' '.join(map(str, it))}\n" for it in parts)
    if path.exists() and path.read_text() != told:
        raise ValueError(f"{path}: it was begun with other files, or another --part-size or --column")
    path.write_text(told)
    return [it for it in parts if not result_path(out, it.number).exists()]


def run(client: Any, parts: list[Part], tables: str, out: str) -> int:
    """Has the parts judged, and tells how many lines came."""
    from dask.distributed import as_completed  # type: ignore[import]

    client.upload_file(str(HERE / "judging.py"))
    begin = time.monotonic()
    futures = client.map(judge_part, parts, tables=tables, out=out, retries=5, pure=False)
    lines = 0
    for done, (_, (_, count)) in enumerate(as_completed(futures, with_results=True), 1):
        lines += count
        rate = lines / (time.monotonic() - begin)
        print(f"{done} of {len(parts)} parts, {lines} lines, {rate:.0f} a second", file=sys.stderr, flush=True)
    return lines


def main() -> int:
    from dask.distributed import Client, LocalCluster  # type: ignore[import]

    words = argparse.ArgumentParser(usage=__doc__)
    for name in ("--tables", "--out"):
        words.add_argument(name, required=True, type=lambda it: str(Path(it).absolute()))
    words.add_argument("--scheduler")
    words.add_argument("--workers", type=int, default=4)
    words.add_argument("--part-size", type=int, default=16_000_000)
    words.add_argument("--column", default="fen")
    words.add_argument("files", nargs="+")
    given = words.parse_args()
    Path(given.out).mkdir(parents=True, exist_ok=True)
    try:
        parts = missing_of([*parts_of(given.files, given.part_size, given.column)], given.out)
        if given.scheduler:
            with Client(given.scheduler) as client:
                run(client, parts, given.tables, given.out)
        else:
            with LocalCluster(n_workers=given.workers, threads_per_worker=1, dashboard_address=None) as cluster, Client(cluster) as client:
                run(client, parts, given.tables, given.out)
    except (OSError, ValueError, ProbeError) as error:
        sys.exit(f"judge_files: {error}")
    return 0


if __name__ == "__main__":
    sys.exit(main())
