"""kormaglen.dask as code with types uses it: `mypy --strict` passes over this file, and a test runs it."""

from __future__ import annotations

import os
import pathlib
import tempfile
from typing import List, Optional, Tuple

import kormaglen as K
import kormaglen.dask as D

SCHEMA = K.SchemaBuilder().u64("age", indexed=True, stored=True).facet("kind", stored=True).build()


def pieces(path: pathlib.Path) -> Tuple[int, bytes, int, Optional[str]]:
    """What pieces have."""
    blocks: D.StoredBlocks = D.read_json_lines([path, str(path)], SCHEMA, blocksize="1 MiB")
    found: List[D.Piece] = blocks.compute()
    refused: D.RefusedLine = blocks.refused().compute(scheduler="threads")[0]
    fault: Optional[K.JsonFault] = refused.fault
    byte: Optional[int] = refused.byte
    assert fault is None and byte is None
    assert found[0].lines[0].status == K.LineStatus.STORED
    return found[0].first, found[0].block, refused.line, refused.field


def counts(path: pathlib.Path) -> Tuple[List[Tuple[bytes, int]], List[Tuple[str, int]]]:
    """What is counted."""
    blocks = D.read_json_lines(path, SCHEMA, blocksize=None)
    terms: List[Tuple[bytes, int]] = D.terms(blocks, "age").compute()
    facets: List[Tuple[str, int]] = D.facet_counts(blocks, "kind", parent="/shop", split_every=2).compute()
    found: List[K.Term] = D.term_documents(blocks, "age").compute(scheduler="threads")
    assert found[0].document == 0
    return terms, facets


def main() -> None:
    """All of it."""
    with tempfile.TemporaryDirectory() as folder:
        path = pathlib.Path(folder) / "lines.jsonl"
        path.write_text('{"age":36,"kind":"/shop/light"}\n{"age":"x"}\n', encoding="utf-8")
        assert pieces(path)[0] == 1 and pieces(path)[2:] == (2, "age")
        terms, facets = counts(path)
        assert (len(terms), facets) == (1, [("/shop/light", 1)])
        written: List[str] = D.write_blocks(D.read_json_lines(path, SCHEMA), pathlib.Path(folder) / "out")
        assert [os.path.basename(name) for name in written] == ["0.block"]


if __name__ == "__main__":
    main()
