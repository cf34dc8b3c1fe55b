"""What is done with a piece where it lies: plain functions of bytes and tuples, which Dask runs in any
thread or process. No module of Dask is used here."""

from __future__ import annotations

import contextlib
import os
import uuid
from typing import Any, Dict, Iterator, List, NamedTuple, Optional, Sequence, Tuple

from fsspec.core import OpenFile
from fsspec.utils import read_block

from kormaglen._blocks import facet_of_text, terms_of_block, text_of_facet
from kormaglen._import import LineAnswers, _Record
from kormaglen._records import count_facets
from kormaglen._schema import Schema

# The size of a file, and when it was changed, as a text; None is what a file system doesn't say.
State = Tuple[Optional[int], Optional[str]]

# What a piece gave: its block, the packed answers of its lines, and those that were refused, by their
# numbers in the piece.
Part = Tuple[bytes, bytes, Tuple[_Record, ...]]

# How many lines a piece has, how many of them are stored, and those that were refused.
Lines = Tuple[int, int, Tuple[_Record, ...]]

# Terms, or children of a facet, in order, each with how many documents have it.
Counts = List[Tuple[bytes, int]]


class FilePart(NamedTuple):
    """A piece of a file: the file system, the path, how the file is compressed, where the piece begins,
    how many bytes it has before it is moved to line feeds (None is all of them), and in which state the
    file was."""

    system: Any
    path: str
    compression: Optional[str]
    start: int
    length: Optional[int]
    state: State


class FileChanged(OSError):
    """A file has another size or another time of change than when its pieces were cut. Nothing is
    stored of a piece then, since pieces of two states would not fit together.

    >>> issubclass(FileChanged, OSError)
    True
    """


def state_of(system: Any, path: str) -> State:
    """In which state a file is."""
    info = system.info(path)
    time = info.get("mtime")
    return info["size"], None if time is None else str(time)


def import_piece(place: FilePart, schema: bytes) -> Part:
    """Reads the lines of a piece of a file, and imports them. A line belongs to the piece in which the
    line feed before it lies."""
    with OpenFile(place.system, place.path, compression=place.compression) as file:
        if place.length is None:
            lines = file.read()
        else:
            lines = read_block(file, place.start, place.length, b"\n")
    # (after it was read, so that a change meanwhile is seen, too)
    if state_of(place.system, place.path) != place.state:
        raise FileChanged(f"{place.path}: the file changed after its pieces were cut")
    with Schema(schema) as by:
        imported = by.import_lines(lines)
    return imported.block, imported.lines._packed, tuple(imported.refused._records)


def block_of(part: Part) -> bytes:
    """The block of a piece."""
    return part[0]


def blocks_of(part: Part) -> List[bytes]:
    """The block of a piece, as a partition of a bag."""
    return [part[0]]


def lines_of(part: Part) -> Lines:
    """What is to be known of the lines of a piece, without its block."""
    lines = len(LineAnswers(part[1]))
    return lines, lines - len(part[2]), part[2]


def first_of(values: Tuple[Any, ...]) -> Any:
    """The first value of a tuple."""
    return values[0]


def moved(records: Sequence[_Record], before: int) -> List[_Record]:
    """The refused lines by their numbers in the whole file, where `before` lines stand before the piece."""
    return [(line + before, row, field, text) for line, row, field, text in records]


def documents_of(part: Part, schema: bytes) -> List[Dict[str, List[Any]]]:
    """The documents of a piece."""
    with Schema(schema) as by:
        return [document.to_dict() for document in by.documents(part[0])]


def write_piece(part: Part, path: str) -> str:
    """Writes the block of a piece into a new file beside the path, which is renamed when it is whole.
    Returns the path."""
    folder, name = os.path.split(path)
    new = os.path.join(folder, f".{name}.{uuid.uuid4().hex}.new")
    try:
        with open(new, "xb") as file:
            file.write(part[0])
            file.flush()
            os.fsync(file.fileno())
        os.replace(new, path)
    except BaseException:
        with contextlib.suppress(FileNotFoundError):
            os.unlink(new)
        raise
    return path


def terms_at(
    part: Part, schema: bytes, field: Optional[int], of_objects: bool
) -> Iterator[Tuple[int, bytes]]:
    """The terms of a field in a piece, each with the number of its document there. Where the field is one
    of JSON objects, and where it is None, which is all fields, they are those that the schema has."""
    if field is not None and not of_objects:
        return ((document, term) for document, term in terms_of_block(field, 2, part[0]))
    # (a term begins with the number of its field)
    start = b"" if field is None else field.to_bytes(4, "big")
    with Schema(schema) as by:
        found = by.terms_of_block(part[0])
    return ((document, term) for document, term in found if term.startswith(start))


def located_terms(
    part: Part, schema: bytes, field: Optional[int], of_objects: bool
) -> Tuple[int, List[Tuple[int, bytes]]]:
    """How many documents a piece has, and the terms of a field there."""
    return lines_of(part)[1], list(terms_at(part, schema, field, of_objects))


def counted_terms(part: Part, schema: bytes, field: Optional[int], of_objects: bool) -> Counts:
    """How many documents of a piece have each term of a field."""
    counts: Dict[bytes, int] = {}
    last: Dict[bytes, int] = {}
    for document, term in terms_at(part, schema, field, of_objects):
        if last.get(term) != document:
            last[term] = document
            counts[term] = counts.get(term, 0) + 1
    return sorted(counts.items())


# A term of a facet has the field's number, the code of the type, and the encoded facet.
_BEFORE_FACET = 5


def counted_facets(part: Part, field: int, parent: bytes) -> Counts:
    """How many documents of a piece have a facet at or below each child of the parent."""
    pairs = ((document, term[_BEFORE_FACET:]) for document, term in terms_of_block(field, 2, part[0]))
    return [(child, documents) for child, documents in count_facets(parent, pairs)]


def added(several: Sequence[Counts]) -> Counts:
    """The counts of several pieces as one."""
    counts: Dict[bytes, int] = {}
    for each in several:
        for key, count in each:
            counts[key] = counts.get(key, 0) + count
    return sorted(counts.items())


def named(counts: Counts) -> List[Tuple[str, int]]:
    """Facets by their texts."""
    return [(text_of_facet(facet), count) for facet, count in counts]


def encoded(parent: str) -> bytes:
    """The encoded facet of a text."""
    return facet_of_text(parent)
