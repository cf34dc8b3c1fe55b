"""kormaglen.dask on a cluster of two processes, and by the other schedulers: 100000 documents."""

from __future__ import annotations

import collections
import importlib.util
import logging
import os
import pathlib
import signal
import tempfile
import unittest
from typing import Any, Dict, List, Tuple

import kormaglen as K
from tests.dask_files import SCHEMA, Row, write_rows
from tests.test_dask import IS_THERE as HAS_DASK

if HAS_DASK:
    import dask

    import kormaglen.dask as D

IS_THERE = HAS_DASK and importlib.util.find_spec("distributed") is not None
if IS_THERE:
    import distributed

COUNT = int(os.environ.get("DOCUMENTS", "100000"))
BLOCKSIZE = "512 KiB"


def children(row: Row, parent: str) -> Dict[str, int]:
    """The children of a facet at or above the facets of a line, each once."""
    start = parent.rstrip("/") + "/"
    below = [kind[len(start) :] for kind in row.kinds if kind.startswith(start)]
    return {start + rest.split("/")[0]: 1 for rest in below}


class WithRows(unittest.TestCase):
    """A file of lines, and what one process makes of it."""

    folder: str
    path: str
    rows: List[Row]
    whole: K.Imported
    all_terms: List[Tuple[bytes, int]]

    @classmethod
    def setUpClass(cls) -> None:
        folder = tempfile.TemporaryDirectory()
        cls.addClassCleanup(folder.cleanup)
        cls.folder = folder.name
        cls.path = os.path.join(folder.name, "lines.jsonl")
        cls.rows = write_rows(cls.path, COUNT)
        cls.whole = K.import_lines(SCHEMA, pathlib.Path(cls.path).read_bytes())
        found = set(K.Schema(SCHEMA).terms_of_block(cls.whole.block))
        cls.all_terms = sorted(collections.Counter(each.term for each in found).items())

    def blocks(self, blocksize: Any = BLOCKSIZE) -> Any:
        return D.read_json_lines(self.path, SCHEMA, blocksize)

    def check(self, blocks: Any) -> None:
        """The pieces are the whole."""
        pieces = blocks.compute()
        self.assertEqual(b"".join(piece.block for piece in pieces), self.whole.block)
        self.assertEqual(b"".join(piece.lines._packed for piece in pieces), self.whole.lines._packed)
        refused = [number for number, row in enumerate(self.rows, 1) if not row.is_stored]
        self.assertEqual([each.line for piece in pieces for each in piece.refused], refused)
        self.assertEqual([each.line for each in blocks.refused().compute()], refused)

    def check_counts(self, blocks: Any) -> None:
        """The counts are those of the rows, and the terms those that one process finds."""
        stored = [row for row in self.rows if row.is_stored]
        ages = collections.Counter(row.age for row in stored)
        # (the field in 4 bytes, the code u, the number in 8 bytes: the highest first)
        wanted = [(b"\0\0\0\1u" + age.to_bytes(8, "big"), count) for age, count in sorted(ages.items())]
        self.assertEqual(D.terms(blocks, "age").compute(), wanted)
        found = D.term_documents(blocks, "name").compute()
        self.assertEqual(found, K.terms_of_block(0, 2, self.whole.block))
        self.assertEqual([term.document for term in found], list(range(len(stored))))
        self.assertEqual(D.terms(blocks).compute(), self.all_terms)
        for parent in ("/", "/shop", "/shop/light"):
            counts = collections.Counter(child for row in stored for child in children(row, parent))
            self.assertEqual(D.facet_counts(blocks, "kind", parent).compute(), sorted(counts.items()))


@unittest.skipUnless(HAS_DASK, "there is no dask")
class Schedulers(WithRows):
    """The schedulers of one machine that Dask has by itself."""

    def test_threads(self) -> None:
        with dask.config.set(scheduler="threads", num_workers=2):
            self.check(self.blocks())
            self.check_counts(self.blocks().persist())

    def test_processes(self) -> None:
        with dask.config.set(scheduler="processes", num_workers=2):
            self.check(self.blocks())
            self.check_counts(self.blocks())


@unittest.skipUnless(IS_THERE, "there is no dask, or no distributed")
class Cluster(WithRows):
    """Two workers, which are processes of this machine."""

    cluster: Any
    client: Any

    @classmethod
    def setUpClass(cls) -> None:
        super().setUpClass()
        cls.cluster = distributed.LocalCluster(
            n_workers=2,
            threads_per_worker=1,
            host="127.0.0.1",
            dashboard_address=None,
            local_directory=cls.folder,
            silence_logs=logging.CRITICAL,
        )
        cls.addClassCleanup(cls.cluster.close)
        cls.client = distributed.Client(cls.cluster)
        cls.addClassCleanup(cls.client.close)
        cls.client.wait_for_workers(2)

    def test_the_cluster(self) -> None:
        blocks = self.blocks()
        self.assertGreater(blocks.npartitions, 8)
        self.check(blocks)
        self.check_counts(blocks.persist())
        self.check(self.blocks(None))
        workers = self.client.run(os.getpid)
        self.assertEqual(len(set(workers.values()) - {os.getpid()}), 2)

    def test_documents(self) -> None:
        found = self.blocks().documents().filter(lambda document: document["age"] == [7]).count().compute()
        self.assertEqual(found, sum(row.is_stored and row.age == 7 for row in self.rows))

    def test_files(self) -> None:
        for folder, blocks in (("now", self.blocks()), ("persisted", self.blocks("1 MiB").persist())):
            paths = D.write_blocks(blocks, os.path.join(self.folder, folder))
            written = b"".join(pathlib.Path(path).read_bytes() for path in paths)
            self.assertEqual((len(paths), written), (blocks.npartitions, self.whole.block))
            names = sorted(os.listdir(os.path.join(self.folder, folder)))
            self.assertEqual(names, [os.path.basename(path) for path in paths])

    def test_errors_of_workers(self) -> None:
        path = os.path.join(self.folder, "changing.jsonl")
        pathlib.Path(path).write_bytes(b"{}\n")
        blocks = D.read_json_lines(path, SCHEMA)
        pathlib.Path(path).write_bytes(b"{}\n{}\n")
        with self.assertRaises(D.FileChanged):
            blocks.compute()

    def test_what_a_dead_worker_held(self) -> None:
        # (the last test of the class, which leaves one worker, and another where the machine starts it in time)
        persisted = self.client.persist(self.blocks())
        distributed.wait(persisted)
        before = self.client.run(os.getpid)
        address = min(before)
        held = self.client.has_what()[address]
        self.assertGreater(len(held), 0)
        os.kill(before[address], signal.SIGKILL)
        # (what it held is computed again, by the other one or by the one that takes its place)
        self.check(persisted)
        self.check_counts(persisted)
        self.assertNotIn(before[address], self.client.run(os.getpid).values())


if __name__ == "__main__":
    unittest.main()
