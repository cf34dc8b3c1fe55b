"""The collection: pieces of files, each of which is imported into a block."""

from __future__ import annotations

from typing import Any, List, Mapping, NamedTuple, Optional, Sequence, Tuple, Union

from dask.base import DaskMethodsMixin

from kormaglen._blocks import SchemaOrJson
from kormaglen._fields import Field
from kormaglen._handles import opened
from kormaglen._import import LineAnswers, LineRefusals
from kormaglen._refusals import JsonFault, LineStatus, beginning, fault_of, refused_text
from kormaglen._schema import Schema
from kormaglen.dask import _graphs, _pieces
from kormaglen.dask._files import Paths, cuts, tested_blocksize

_BLOCKSIZE = 1 << 24


class Piece(NamedTuple):
    """A piece of a file: the file's path, the number of its first line there, from 1, the block of its
    documents in version 2, an answer for each line, and those that were refused.

    >>> piece = read_json_lines(PATH, SCHEMA, blocksize=17).compute()[1]
    >>> piece.first, len(piece.block), [line.status.name for line in piece.lines]
    (3, 14, ['STORED'])
    """

    path: str
    first: int
    block: bytes
    lines: LineAnswers
    refused: LineRefusals


class RefusedLine(NamedTuple):
    """A line that was refused: the path of its file, its number there, from 1, why it was, the name of
    the field whose value is refused, or None, and how the line begins: 60 characters at most; and
    `fault` and `byte` of a line that is no JSON object, as `kormaglen.LineRefused` has them, or None.
    Its `str` is a message of one line.

    >>> refused = read_json_lines(PATH, SCHEMA).refused().compute(scheduler="threads")[0]
    >>> refused.line, refused.reason.name, refused.field, refused.text
    (2, 'WRONG_TYPE', 'age', '{"age":"x"}')
    >>> print(RefusedLine("a.jsonl", 4, LineStatus.INVALID_JSON, None, '{"age" 7}', JsonFault.COLON, 7))
    a.jsonl:4: the line is not a JSON object: a colon was expected at byte 7: {"age" 7}
    """

    path: str
    line: int
    reason: LineStatus
    field: Optional[str]
    text: str
    fault: Optional[JsonFault] = None
    byte: Optional[int] = None

    def __str__(self) -> str:
        about = "" if self.field is None else f'field "{self.field}": '
        said = refused_text(self.reason, self.fault, self.byte)
        return f"{self.path}:{self.line}: {about}{said}: {self.text}"


class Place(NamedTuple):
    """Where a piece comes from: the file's path, and whether the piece is the first of it."""

    path: str
    begins: bool


class StoredBlocks(DaskMethodsMixin):
    """A Dask collection of pieces of files of lines, which `read_json_lines` makes.

    It is used as other collections are, also by `dask.compute`, `dask.persist` and a `Client`. By
    default it runs in threads: the library lets others run. What is called with a collection that isn't
    persisted reads the files anew.

    >>> [piece.first for piece in read_json_lines(PATH, SCHEMA, blocksize=17).compute()]
    [1, 3]
    """

    __dask_scheduler__ = staticmethod(_graphs.in_threads)

    def __init__(self, schema: bytes, places: Sequence[Place], parts: _graphs.Layer) -> None:
        self._schema = schema
        self._places = tuple(places)
        self._parts = parts

    def compute(self, **options: Any) -> List[Piece]:
        """A `Piece` for each piece, in the order of the files. The options are those of `dask.compute`.

        >>> [piece.first for piece in read_json_lines(PATH, SCHEMA, blocksize=17).compute()]
        [1, 3]
        """
        (pieces,) = _graphs.compute(self, traverse=False, **options)
        return list(pieces)

    def persist(self, **options: Any) -> StoredBlocks:
        """The collection with its pieces imported, or on a cluster begun to be: what is called with it
        doesn't read the files again. The options are those of `dask.persist`.

        >>> read_json_lines(PATH, SCHEMA, blocksize=17).persist().npartitions
        2
        """
        persisted: StoredBlocks
        (persisted,) = _graphs.persist(self, traverse=False, **options)
        return persisted

    @property
    def npartitions(self) -> int:
        """How many pieces there are.

        >>> read_json_lines(PATH, SCHEMA, blocksize=17).npartitions
        2
        """
        return self._parts.size

    @property
    def schema(self) -> Schema:
        """The schema by which lines are read: a new one with each access.

        >>> [field.name for field in read_json_lines(PATH, SCHEMA).schema.fields]
        ['age']
        """
        return Schema(self._schema)

    @property
    def blocks(self) -> Any:
        """A bag of the blocks, one in each partition: one after the other they are the block of all
        lines.

        >>> blocks = read_json_lines(PATH, SCHEMA, blocksize=17).blocks
        >>> [len(block) for block in blocks.compute(scheduler="threads")]
        [14, 14]
        """
        return _graphs.each(_pieces.blocks_of, self._parts).bag()

    def to_delayed(self) -> List[Any]:
        """A `Delayed` for each piece, of the bytes of its block.

        >>> [block.compute().hex() for block in read_json_lines(PATH, SCHEMA).to_delayed()]
        ['81000000000124000000000000008100000000012400000000000000']
        """
        return _graphs.each(_pieces.block_of, self._parts).delayed()

    def refused(self) -> Any:
        """A bag of the lines that were refused, a `RefusedLine` for each, in the order of the files.

        >>> refused = read_json_lines(PATH, SCHEMA).refused()
        >>> print(refused.compute(scheduler="threads")[0])  # doctest: +ELLIPSIS
        /...:2: field "age": a value is of another kind than the field's: {"age":"x"}
        """
        lines = _graphs.each(_pieces.lines_of, self._parts)
        before = _graphs.before_each(_pieces.first_of, lines, [place.begins for place in self._places])
        numbered = enumerate(zip(lines.keys, self._places))
        rows = [(key, *before.keys, at, place.path) for at, (key, place) in numbered]
        return _graphs.calls(_refused, rows, lines, before).bag()

    def documents(self) -> Any:
        """A bag of the documents, each a `dict` of the names of its fields to the lists of their values,
        as `Document.to_dict` gives it.

        >>> read_json_lines(PATH, SCHEMA).documents().compute(scheduler="threads")
        [{'age': [36]}, {'age': [36]}]
        """
        return _graphs.each(_pieces.documents_of, self._parts, self._schema).bag()

    def __dask_graph__(self) -> Any:
        return self._parts.graph

    def __dask_keys__(self) -> List[_graphs.Key]:
        return self._parts.keys

    def __dask_layers__(self) -> Tuple[str]:
        return (self._parts.name,)

    def __dask_tokenize__(self) -> Any:
        return self._parts.name

    def __dask_postcompute__(self) -> Any:
        return _numbered, (self._places,)

    def __dask_postpersist__(self) -> Any:
        return self._rebuilt, ()

    def _rebuilt(self, graph: Any, *, rename: Optional[Mapping[str, str]] = None) -> StoredBlocks:
        """The collection with another graph, as one that has the results."""
        name = (rename or {}).get(self._parts.name, self._parts.name)
        return StoredBlocks(self._schema, self._places, _graphs.of_results(graph, name, self._parts.size))

    def __repr__(self) -> str:
        files = sum(place.begins for place in self._places)
        return f"<{type(self).__name__} of {files} file{'s'[: files != 1]}, npartitions={self.npartitions}>"

    def _field(self, name: str) -> Field:
        """The field of a name. Errors are those of `Schema.field`."""
        with self.schema as by:
            return by.field(name)


def _numbered(parts: Sequence[_pieces.Part], places: Sequence[Place]) -> List[Piece]:
    """The pieces, with the numbers of their lines."""
    pieces = []
    before = 0
    for (block, packed, records), place in zip(parts, places):
        before = 0 if place.begins else before
        lines = LineAnswers(packed)
        refused = LineRefusals(_pieces.moved(records, before))
        pieces.append(Piece(place.path, before + 1, block, lines, refused))
        before += len(lines)
    return pieces


def _refused(lines: _pieces.Lines, before: Sequence[int], at: int, path: str) -> List[RefusedLine]:
    """The refused lines of a piece, by their numbers in the file."""
    return [
        RefusedLine(path, line, LineStatus(row[0]), field, beginning(text), *fault_of(row))
        for line, row, field, text in _pieces.moved(lines[2], before[at])
    ]


def read_json_lines(
    path: Paths,
    schema: SchemaOrJson,
    blocksize: Union[int, str, None] = _BLOCKSIZE,
    storage_options: Optional[Mapping[str, Any]] = None,
) -> StoredBlocks:
    """A collection of pieces of files of JSON lines, each of which is imported as
    `Schema.import_lines` does it.

    `path` is the path of a file, with `*` for several, or a list of such; what it may begin with, as
    `s3://`, and `storage_options` are those of fsspec. The workers have to see the files by these paths.
    The schema is a `Schema` or what one is made of.

    A piece has about `blocksize` bytes, as a number or a text as "16 MiB", and is moved to line feeds: a
    longer line makes a longer piece, and pieces without a line. With None a file is one piece. A worker
    needs about four times as much memory for each piece that it works on. A file that is compressed, by
    the end of its name, can't be cut: it is read with None.

    Raises at once FileNotFoundError where there is no file, IsADirectoryError for a folder, TypeError
    where an argument is of another type, OverflowError where `blocksize` is below 1, ValueError where it
    is no size or a compressed file is to be cut; and the errors of `Schema`. When the collection is
    computed: `FileChanged` where a file changed meanwhile, MemoryError where memory is refused, and what
    reading the file raises. A line that is refused is no error: `refused` has it.

    >>> read_json_lines(PATH, SCHEMA, blocksize="1 MiB").npartitions
    1
    """
    json = _json_of(schema)
    pieces = cuts(path, tested_blocksize(blocksize), storage_options)
    places = [Place(cut.path, cut.start == 0) for cut in pieces]
    return StoredBlocks(json, places, _graphs.calls(_pieces.import_piece, [(cut, json) for cut in pieces]))


def _json_of(schema: SchemaOrJson) -> bytes:
    """The JSON of a schema, as the library prints it."""
    if isinstance(schema, Schema):
        opened(schema, Schema)
        return schema.to_json().encode()
    with Schema(schema) as by:
        return by.to_json().encode()
