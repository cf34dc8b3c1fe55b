"""What is done by a schema: its documents, and lines and blocks of them."""

from __future__ import annotations

from typing import Any, Callable, Iterator, List, Mapping, Optional, Tuple

import kormaglen._streams as _streams
from kormaglen._arguments import Lent, View, filled, number, text
from kormaglen._document import Document
from kormaglen._fields import HeldSchema
from kormaglen._handles import opened
from kormaglen._import import ImportCounts, Imported, imported, joined
from kormaglen._library import CALLS, LINE_ANSWER_SIZE
from kormaglen._queries import answered, ranges_in, terms_in
from kormaglen._records import (
    FieldValue,
    TermFault,
    schema_terms_at,
    schema_terms_in,
    values_at,
    values_in,
)
from kormaglen._refusals import LineRefused
from kormaglen._types import Block, BlockFile, Buffer, Lines, LinesFile, TextOrBuffer

# How many bytes of lines are read at once.
_LINES = 1 << 20


class Schema(HeldSchema):
    """A schema: its JSON is read once, and serves any number of calls. It doesn't change.

    It is made of its JSON, as tantivy writes it: a `str`, anything with the buffer protocol, or the
    list of the entries. Any thread may use and close it: there is one call at a time, and others wait.
    `copy.copy` makes one of its own for another thread. Two schemas are equal if their fields are. It
    is pickled as its JSON.

    Raises SchemaRefused where the JSON describes no schema, TypeError where an argument is of another
    type, ValueError for a lone surrogate or a list nested too deeply, MemoryError where memory is
    refused. Each call of one that is closed raises Closed.

    >>> with Schema('[{"name":"age","type":"u64","options":{"indexed":true,"stored":true}}]') as schema:
    ...     schema.parse('{"age":36}')["age"]
    [36]
    """

    def document(self, values: Mapping[str, Any]) -> Document:
        """As `Document.from_dict`.

        >>> Schema(SCHEMA).document({"age": 36}).to_json()
        '{"age":[36]}'
        """
        return Document.from_dict(self, values)

    def parse(self, line: TextOrBuffer) -> Document:
        """As `Document.parse`.

        >>> Schema(SCHEMA).parse('{"age":36}').to_json()
        '{"age":[36]}'
        """
        return Document.parse(self, line)

    def read(self, data: Buffer, version: int = 2) -> Tuple[Document, int]:
        """As `Document.read`.

        >>> Schema(SCHEMA).read(b"\\x80")[1]
        1
        """
        return Document.read(self, data, version)

    def import_lines(self, lines: Lines) -> Imported:
        """Stores the documents of lines of JSON, one after the other in version 2, and answers each
        line. A line ends at a line feed, and the last may lack it. A line that is refused stores
        nothing, and the next line follows.

        `lines` are a text, anything with the buffer protocol, a file object of bytes or texts, or an
        iterable of texts and buffers, of which each item is one line or several. The block and 16 bytes
        for each line are held, and while it runs the block twice. Of lines that change meanwhile, what
        is stored is that of a mixture.

        Raises Closed where the schema is closed, TypeError where an argument is of another type,
        ValueError for a lone surrogate, BufferError where bytes aren't contiguous,
        MemoryError where memory is refused, and what a file or an iterable raises.

        >>> imported = Schema(SCHEMA).import_lines('{"age":36}\\n{"age":"x"}\\n')
        >>> [line.status.name for line in imported.lines]
        ['STORED', 'WRONG_TYPE']
        """
        opened(self, Schema)
        parts = list(_streams.imports(lines, _LINES, lambda piece, first: _imported(self, piece, first)))
        return joined(parts) if parts else imported(b"", b"", b"", 1, ())

    def import_chunks(self, lines: Lines, chunk_size: int = 1 << 20) -> Iterator[Imported]:
        """`import_lines` in bounded memory: gives a part for about `chunk_size` bytes of lines each, which
        holds whole lines. The blocks one after the other are the block of all lines. A line larger
        than `chunk_size` makes a larger part.

        Arguments are tested at once. What the lines raise comes when the part is asked for: then the
        parts before stay good. Errors are those of `import_lines`, and OverflowError where `chunk_size`
        is not within 1 and 2^30.

        >>> parts = Schema(SCHEMA).import_chunks(['{"age":1}', '{"age":2}'], chunk_size=1)
        >>> [(part.first, len(part.block)) for part in parts]
        [(1, 14), (2, 14)]
        """
        opened(self, Schema)
        return _streams.imports(lines, chunk_size, lambda piece, first: _imported(self, piece, first))

    def import_file(
        self,
        lines: LinesFile,
        block: BlockFile,
        on_refused: Optional[Callable[[LineRefused], object]] = None,
        chunk_size: int = 1 << 20,
    ) -> ImportCounts:
        """`import_chunks` from one file into another. Each is a path, or a file object; `lines` may
        also be what `import_lines` takes, but a `str` is a path. `on_refused` is called with each line
        that is refused.

        Errors are those of `import_chunks` and of the files. After one, the file has the documents that
        were written before.

        >>> out = io.BytesIO()
        >>> Schema(SCHEMA).import_file([b'{"age":36}'], out).size == len(out.getvalue())
        True
        """
        opened(self, Schema)
        take: _streams.Take = lambda piece, first: _imported(self, piece, first)
        return _streams.import_file(lines, block, on_refused, chunk_size, take)

    def export_block(self, block: Buffer, version: int = 2) -> bytes:
        """The documents of a block, of version 1, 2 or 3, as lines of JSON with the names of the
        schema's fields, each with a line feed.

        Raises DocumentRefused where bytes hold none, VersionRefused for another version, Closed where
        the schema is closed, TypeError where an argument is of another type, OverflowError where the
        version doesn't fit 32 bits, BufferError where the bytes aren't contiguous,
        MemoryError where memory is refused.

        >>> Schema(SCHEMA).export_block(bytes.fromhex("8100000000012400000000000000"))
        b'{"age":[36]}\\n'
        """
        stored = number(version, "version")
        with Lent(block, "block") as given:
            return _exported(self, given.at, given.size, stored)

    def export_chunks(self, block: Block, version: int = 2, chunk_size: int = 1 << 20) -> Iterator[bytes]:
        """`export_block` in bounded memory: gives the lines of about `chunk_size` bytes of the block each.
        The block is anything with the buffer protocol, or a file object of bytes. A document larger
        than `chunk_size` makes a larger part.

        Arguments are tested at once. A document that is refused is reported when it is reached: then
        the parts before stay good. Errors are those of `export_block`, OverflowError where `chunk_size`
        is not within 1 and 2^30, and what a file raises.

        >>> list(Schema(SCHEMA).export_chunks(b"\\x80\\x80", chunk_size=1))
        [b'{}\\n', b'{}\\n']
        """
        opened(self, Schema)
        stored = _streams.tested_version(version)
        return _streams.runs(block, chunk_size, lambda at, size: _exported(self, at, size, stored))

    def documents(self, block: Block, version: int = 2, chunk_size: int = 1 << 16) -> Iterator[Document]:
        """The documents of a block, one at a time. Arguments and errors are those of `export_chunks`.

        >>> [document.to_dict() for document in Schema(SCHEMA).documents(b"\\x80\\x80")]
        [{}, {}]
        """
        opened(self, Schema)
        stored = _streams.tested_version(version)
        return _streams.documents(
            block, chunk_size, lambda at, size: Document._read_at(self, at, size, stored)
        )

    def values_of_block(self, name: str, block: Buffer, version: int = 2) -> List[FieldValue]:
        """The values of the field that has this name in the documents of a block, in their order, each
        with the number of its document from 0. They come as a document's values do, by the kind that is
        stored, whatever type the field has. Values of other fields are tested, and passed over. The name
        is the whole name of a field, and no path.

        Raises FieldRefused where no field has the name, DocumentRefused where bytes hold no document,
        VersionRefused for another version, Closed where the schema is closed, TypeError where an
        argument is of another type, OverflowError where the version doesn't fit 32 bits, ValueError for
        a lone surrogate and for JSON that is nested more deeply than Python reads, BufferError where the
        bytes aren't contiguous, MemoryError where memory is refused.

        >>> schema = Schema(SCHEMA)
        >>> block = schema.import_lines('{"age":36}\\n{}\\n{"age":7}\\n').block
        >>> [(document, age) for document, age in schema.values_of_block("age", block)]
        [(0, 36), (2, 7)]
        """
        given, stored = text(name, "name"), number(version, "version")
        with Lent(block, "block") as lent:
            records = values_at(self, given, name, stored, lent.at, lent.size)
        return list(values_in(records))

    def terms_of_block(
        self,
        block: Buffer,
        version: int = 2,
        on_fault: Optional[Callable[[TermFault], object]] = None,
    ) -> Iterator[_streams.Term]:
        """The terms of all fields that are indexed in the documents of a block, also those of the values
        in JSON objects: the terms of each document, in their order, each with the number of its document
        from 0. They are as those of `terms_of_block`.

        A document may have a value without a term by this schema, as a number in a field of dates. Without
        `on_fault` it is refused. Where `on_fault` is a callable, it is called with a `TermFault` of each
        such document when that is reached, and the terms of the other documents come.

        The library is called at once, and what it refuses is raised then. A term is put together when it
        is asked for. So what is held is in proportion to the block, however long keys are.

        Raises DocumentRefused where bytes hold no document, and without `on_fault` where one has a value
        without a term, VersionRefused for another version, Closed where the schema is closed, TypeError
        where an argument is of another type, OverflowError where the version doesn't fit 32 bits,
        BufferError where the bytes aren't contiguous, MemoryError where memory is refused. What `on_fault`
        raises comes when a term is asked for.

        >>> list(Schema(SCHEMA).terms_of_block(bytes.fromhex("8100000000012400000000000000")))
        [Term(document=0, term=b'\\x00\\x00\\x00\\x00u\\x00\\x00\\x00\\x00\\x00\\x00\\x00$')]
        """
        stored = number(version, "version")
        if on_fault is not None and not callable(on_fault):
            raise TypeError("on_fault: a callable is wanted")
        with Lent(block, "block") as lent:
            records = schema_terms_at(self, stored, on_fault is not None, lent.at, lent.size)
        names = [] if on_fault is None else list(self._kinds())
        return schema_terms_in(records, names, on_fault)

    def terms_of_text(self, path: str, text: str) -> List[bytes]:
        """The terms that a text of a query has at what the path names, in their order. In a field that
        isn't of JSON objects it is the one term of the value that the text writes: a number in decimal,
        true or false, a date by RFC 3339, a facet's path, base64, an address, or the text itself. At a
        path into JSON objects the text has the term of itself, and also those of the number, the truth
        value and the date that it writes.

        Raises FieldRefused where the path names no field, QueryRefused where the field isn't indexed,
        the path ends at a field of JSON objects or has U+0000, or the text is no value of the field's
        type; Closed where the schema is closed, TypeError where an argument is no `str`, ValueError for
        a lone surrogate, MemoryError where memory is refused.

        >>> Schema(SCHEMA).terms_of_text("age", "36")
        [b'\\x00\\x00\\x00\\x00u\\x00\\x00\\x00\\x00\\x00\\x00\\x00$']
        """
        return list(terms_in(answered(self, path, text, CALLS.kormaglen_schema_terms_of_text)))

    def ranges_of_text(self, path: str, text: str) -> List[Tuple[bytes, Optional[bytes]]]:
        """The ranges of terms that a text of a query bounds at what the path names, in their order: the
        terms of each are those from its start on and below its end, which is None where there is no
        end. The text is `*`, or two bounds with ` TO ` between them: `[` and `]` stand by a bound that
        is within the range, `{` and `}` by one that isn't, and `*` is no bound. A field that isn't of
        JSON objects has one range. At a path into JSON objects there is a range for each kind of value
        that both bounds write: dates, numbers below 2^63, truth values, texts, numbers from 2^63 on.

        Errors are those of `terms_of_text`, and QueryRefused also where the text bounds no range or its
        bounds run backwards.

        >>> schema = Schema(SCHEMA)
        >>> [(start, end)] = schema.ranges_of_text("age", "[10 TO 20}")
        >>> [start <= schema.terms_of_text("age", text)[0] < end for text in ("9", "10", "19", "20")]
        [False, True, True, False]
        """
        return list(ranges_in(answered(self, path, text, CALLS.kormaglen_schema_ranges_of_text)))


def _imported(schema: Schema, piece: bytes, first: int) -> Imported:
    """What a piece of whole lines gives. Nobody changes the piece, so the number of its lines stays
    right."""
    packed = bytearray(LINE_ANSWER_SIZE * (piece.count(b"\n") + 1))
    handle, lines = opened(schema, Schema), 0

    def call(at: int, size: int) -> Any:
        nonlocal lines
        answer = CALLS.kormaglen_schema_import_lines(
            handle.ref, given.at, given.size, at, size, rows.at, len(packed) // LINE_ANSWER_SIZE
        )
        lines = answer.lines
        return answer

    with Lent(piece, "lines") as given, View(packed, "answers", writable=True) as rows, handle.lock:
        block = filled(len(piece), call)
    return imported(piece, block, bytes(packed[: lines * LINE_ANSWER_SIZE]), first, list(schema._kinds()))


def _exported(schema: Schema, at: int, size: int, version: int) -> bytes:
    """`Schema.export_block`, of bytes at an address."""
    handle = opened(schema, Schema)
    with handle.lock:
        return filled(
            2 * size,
            lambda out, out_size: CALLS.kormaglen_schema_export_block(
                handle.ref, version, at, size, out, out_size
            ),
        )
