"""Blocks and lines in bounded memory: part by part, and document by document."""

from __future__ import annotations

import contextlib
import io
import os
import struct
from typing import IO, Any, Callable, ContextManager, Iterator, List, NamedTuple, Optional, Tuple, TypeVar

from kormaglen._arguments import Lent, chunk_size as tested_chunk_size, filled, number, within
from kormaglen._import import ImportCounts, Imported
from kormaglen._library import CALLS
from kormaglen._refusals import (
    DocumentFault,
    DocumentRefused,
    LineRefused,
    Status,
    document_refused,
    refused,
)
from kormaglen._sources import Carry, Read, reader_of_block, reader_of_lines, whole_lines

_T = TypeVar("_T")

# How many of the refused lines are kept of the import of a file.
_KEPT = 100

# Imports whole lines, of which the first has this number.
Take = Callable[[bytes, int], Imported]

# Calls with the address and the size of bytes of whole documents.
_Call = Callable[[int, int], _T]


def imports(lines: Any, chunk_size: int, take: Take) -> Iterator[Imported]:
    """`Schema.import_chunks`, where `take` imports whole lines."""
    size = tested_chunk_size(chunk_size)
    return _imports(reader_of_lines(lines, "lines"), size, take)


def _imports(read: Read, size: int, take: Take) -> Iterator[Imported]:
    first = 1
    for piece in whole_lines(read, size):
        part = take(piece, first)
        first += len(part.lines)
        yield part


def import_file(
    lines: Any,
    block: Any,
    on_refused: Optional[Callable[[LineRefused], object]],
    chunk_size: int,
    take: Take,
) -> ImportCounts:
    """`Schema.import_file`, where `take` imports whole lines."""
    if on_refused is not None and not callable(on_refused):
        raise TypeError("on_refused: a callable is wanted")
    if _is_path(lines) and _is_path(block) and os.path.exists(block) and os.path.samefile(lines, block):
        raise ValueError("lines and block are the same file")
    total = stored = size = 0
    kept: List[LineRefused] = []
    with _file(lines, "rb") as source:
        parts = imports(source, chunk_size, take)
        with _file(block, "wb") as target:
            if not callable(getattr(target, "write", None)):
                raise TypeError("block: a path or a binary file is wanted")
            for part in parts:
                _write(target, part.block)
                total, size = total + len(part.lines), size + len(part.block)
                stored += len(part.lines) - len(part.refused)
                kept.extend(part.refused[: _KEPT - len(kept)])
                if on_refused is not None:
                    for each in part.refused:
                        on_refused(each)
    return ImportCounts(total, stored, total - stored, size, tuple(kept))


def _is_path(source: object) -> bool:
    return isinstance(source, (str, os.PathLike))


def _file(source: Any, mode: str) -> ContextManager[Any]:
    """The file of a path, which is closed in the end, or the file that is given, which isn't."""
    if _is_path(source):
        return open(source, mode)
    return contextlib.nullcontext(source)


def _write(target: IO[bytes], block: bytes) -> None:
    """Writes all of it: a file without a buffer may take a part only. What gives no count has taken
    all, but such a file nothing."""
    rest = memoryview(block)
    while rest:
        count: Any = target.write(rest)
        if count == 0 or count is None and isinstance(target, io.RawIOBase):
            raise BlockingIOError("block: the file takes no more bytes")
        rest = rest[
            len(rest) if count is None else within(count, "block: what write() gives", 1, len(rest)) :
        ]


def tested_version(version: object) -> int:
    """A version to read that the library knows. It is asked at once, and not when the first document is
    reached."""
    stored = number(version, "version")
    terms_at(0, stored, 0, 0)
    return stored


def documents(block: Any, chunk_size: int, read: _Call[Tuple[_T, int]]) -> Iterator[_T]:
    """The documents of a block, where `read` gives the one with which bytes begin, and its size."""
    size = tested_chunk_size(chunk_size)
    return _documents(Carry(reader_of_block(block, "block"), size), read)


def _documents(carry: Carry, read: _Call[Tuple[_T, int]]) -> Iterator[_T]:
    while carry.fill(1):
        try:
            with Lent(carry.held, "block") as held:
                document, size = read(held.at + carry.at, carry.left)
        except DocumentRefused as fault:
            if fault.reason == DocumentFault.UNEXPECTED_END and carry.grow():
                continue
            raise document_refused(fault.reason, carry.place) from None
        carry.use(size)
        yield document


def runs(block: Any, chunk_size: int, call: _Call[_T]) -> Iterator[_T]:
    """What the call gives for the documents of a block, about `chunk_size` bytes of them at once."""
    size = tested_chunk_size(chunk_size)
    carry = Carry(reader_of_block(block, "block"), size)
    return (given for given, _ in _runs(carry, size, call))


def _runs(carry: Carry, size: int, call: _Call[_T]) -> Iterator[Tuple[_T, bytes]]:
    """What the call gives for the documents of a block, `size` bytes of them at once, and these bytes.

    Where the bytes end inside a document, or hold none, the call is refused with the place where that
    one begins. Those before are whole.
    """
    while carry.fill(size):
        piece = carry.held[carry.at :]
        try:
            given = _called(piece, call)
        except DocumentRefused as fault:
            if fault.place == 0:
                if fault.reason == DocumentFault.UNEXPECTED_END and carry.grow():
                    continue
                raise document_refused(fault.reason, carry.place) from None
            piece = piece[: fault.place]
            given = _called(piece, call)
        carry.use(len(piece))
        yield given, piece


def _called(piece: bytes, call: _Call[_T]) -> _T:
    with Lent(piece, "block") as held:
        return call(held.at, held.size)


def migrations(source: int, block: Any, target: int, chunk_size: int) -> Iterator[bytes]:
    """`migrate_chunks`."""
    before, after = number(source, "source"), number(target, "target")
    migrated_at(before, 0, 0, after)  # (the library knows both versions)
    return runs(block, chunk_size, lambda at, size: migrated_at(before, at, size, after))


def migrated_at(source: int, at: int, size: int, target: int) -> bytes:
    """migrate_block, of bytes at an address."""
    return filled(
        size, lambda out, out_size: CALLS.kormaglen_migrate_block(source, at, size, target, out, out_size)
    )


class Term(NamedTuple):
    """A term, and the number of its document in the block, from 0.

    >>> terms_of_block(0, 2, bytes.fromhex("8100000000012400000000000000"))[0].term.hex()
    '00000000750000000000000024'
    """

    document: int
    term: bytes


def terms(field: int, block: Any, version: int, chunk_size: int) -> Iterator[Term]:
    """terms."""
    of, stored, size = number(field, "field"), tested_version(version), tested_chunk_size(chunk_size)
    return _terms(of, Carry(reader_of_block(block, "block"), size), stored, size)


def _terms(field: int, carry: Carry, version: int, size: int) -> Iterator[Term]:
    before = 0
    for records, piece in _runs(carry, size, lambda at, length: terms_at(field, version, at, length)):
        for document, term in records_of(records):
            yield Term(before + document, term)
        before += _count(piece, version)


def terms_at(field: int, version: int, at: int, size: int) -> bytes:
    """The records of terms_of_block, of bytes at an address."""
    return filled(
        4 * size,
        lambda out, out_size: CALLS.kormaglen_terms_of_block(field, version, at, size, out, out_size),
    )


def records_of(records: bytes) -> Iterator[Tuple[int, bytes]]:
    """The number of the document and the term of each record."""
    at = 0
    while at < len(records):
        document, length = struct.unpack_from("<QQ", records, at)
        yield document, records[at + 16 : at + 16 + length]
        at += 16 + length


_NONE = b"[]"
_LINE_OF_NONE = 3


def _count(piece: bytes, version: int) -> int:
    """How many whole documents a piece has: by a schema without fields, each of them is a line of two
    braces and a line feed."""
    with Lent(piece, "block") as given, Lent(_NONE, "json") as json:
        answer = CALLS.kormaglen_export_block(json.at, json.size, version, given.at, given.size, None, 0)
    if answer.status not in (Status.OK, Status.TOO_SMALL):
        raise refused(answer)
    return int(answer.bytes) // _LINE_OF_NONE
