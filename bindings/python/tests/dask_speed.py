"""How long a file of lines takes: by `Schema.import_file`, and by kormaglen.dask with one process and two.

    python tests/dask_speed.py --megabytes 200 --rounds 3

Each writes the blocks into files. Prints seconds of the clock, the best of the rounds, which take turns.
"""

from __future__ import annotations

import argparse
import logging
import os
import shutil
import sys
import tempfile
import time
from typing import Callable, Dict, List

import distributed

sys.path.insert(0, os.path.dirname(os.path.dirname(os.path.abspath(__file__))))

import kormaglen as K
import kormaglen.dask as D
from tests.dask_files import SCHEMA, row


def write_lines(path: str, megabytes: int) -> None:
    """Writes lines of that size, and not much more."""
    lines = "".join(row(number).line + "\n" for number in range(1, 997 * 90)).encode()
    with open(path, "wb") as file:
        for _ in range(-(-megabytes * 10**6 // len(lines))):
            file.write(lines)


def by_dask(path: str, folder: str, workers: int) -> float:
    """The seconds that a cluster of `workers` processes takes. Its start isn't counted."""
    with distributed.LocalCluster(
        n_workers=workers,
        threads_per_worker=1,
        host="127.0.0.1",
        dashboard_address=None,
        local_directory=folder,
        silence_logs=logging.CRITICAL,
    ) as cluster, distributed.Client(cluster) as client:
        client.run(lambda: __import__("kormaglen.dask"))
        start = time.monotonic()
        D.write_blocks(D.read_json_lines(path, SCHEMA), os.path.join(folder, "blocks"))
        took = time.monotonic() - start
    shutil.rmtree(os.path.join(folder, "blocks"))
    return took


def by_one_import(path: str, folder: str) -> float:
    """The seconds of one import in this process."""
    start = time.monotonic()
    with K.Schema(SCHEMA) as schema:
        schema.import_file(path, os.path.join(folder, "block"))
    return time.monotonic() - start


def main() -> None:
    """All of it."""
    parser = argparse.ArgumentParser()
    parser.add_argument("--megabytes", type=int, default=200)
    parser.add_argument("--rounds", type=int, default=3)
    given = parser.parse_args()
    with tempfile.TemporaryDirectory() as folder:
        path = os.path.join(folder, "lines.jsonl")
        write_lines(path, given.megabytes)
        ways: Dict[str, Callable[[], float]] = {
            "Schema.import_file": lambda: by_one_import(path, folder),
            "kormaglen.dask, one process": lambda: by_dask(path, folder, 1),
            "kormaglen.dask, two processes": lambda: by_dask(path, folder, 2),
        }
        times: Dict[str, List[float]] = {way: [] for way in ways}
        for _ in range(given.rounds):
            for way, measure in ways.items():
                times[way].append(measure())
        print(f"{os.path.getsize(path) / 1e6:.0f} MB")
        for way, took in times.items():
            print(f"{way:32}{min(took):8.2f} s  (all: {', '.join(f'{each:.2f}' for each in took)})")


if __name__ == "__main__":
    main()
