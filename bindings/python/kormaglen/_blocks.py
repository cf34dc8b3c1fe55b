"""Calls over whole blocks, terms and facets, in the order of arguments that the calls of C have."""

from __future__ import annotations

import contextlib
from typing import ContextManager, Iterator, List, Union

import kormaglen._streams as _streams
from kormaglen._arguments import Lent, filled, number, text
from kormaglen._fields import Found
from kormaglen._import import Imported
from kormaglen._library import CALLS
from kormaglen._records import facet_text
from kormaglen._schema import Schema
from kormaglen._streams import Term
from kormaglen._types import Block, Buffer, Json, Lines

SchemaOrJson = Union[Schema, Json]


def _schema(schema: SchemaOrJson) -> ContextManager[Schema]:
    """The schema for one call: an open one stays open, and one that is made of a JSON is closed."""
    if isinstance(schema, Schema):
        return contextlib.nullcontext(schema)
    return Schema(schema)


def import_lines(schema: SchemaOrJson, lines: Lines) -> Imported:
    """As `Schema.import_lines`. The schema is a `Schema` or what one is made of, whose errors come too.

    >>> import_lines(SCHEMA, '{"age":36}').block.hex()
    '8100000000012400000000000000'
    """
    with _schema(schema) as by:
        return by.import_lines(lines)


def export_block(schema: SchemaOrJson, version: int, block: Buffer) -> bytes:
    """As `Schema.export_block`. The schema is a `Schema` or what one is made of, whose errors come too.

    >>> export_block(SCHEMA, 2, bytes.fromhex("8100000000012400000000000000"))
    b'{"age":[36]}\\n'
    """
    number(version, "version")
    with _schema(schema) as by:
        return by.export_block(block, version)


def find_field(schema: SchemaOrJson, path: str) -> Found:
    """As `Schema.find_field`. The schema is a `Schema` or what one is made of, whose errors come too.

    >>> find_field(SCHEMA, "age").field
    0
    """
    with _schema(schema) as by:
        return by.find_field(path)


def migrate_block(source: int, block: Buffer, target: int) -> bytes:
    """The documents of a block, of version 1, 2 or 3, in version 2 or 3. All values of them are kept.

    Raises DocumentRefused where bytes hold none, VersionRefused for another version, TypeError where an
    argument is of another type, OverflowError where a version doesn't fit 32 bits, BufferError where
    the bytes aren't contiguous, MemoryError where memory is refused.

    >>> migrate_block(2, bytes.fromhex("8100000000012400000000000000"), 3).hex()
    '8100000000012400000000000000'
    """
    before, after = number(source, "source"), number(target, "target")
    with Lent(block, "block") as given:
        return _streams.migrated_at(before, given.at, given.size, after)


def migrate_chunks(source: int, block: Block, target: int, chunk_size: int = 1 << 20) -> Iterator[bytes]:
    """`migrate_block` in bounded memory, as `Schema.export_chunks`, whose errors come too.

    >>> list(migrate_chunks(2, b"\\x80\\x80", 3))
    [b'\\x80\\x80']
    """
    return _streams.migrations(source, block, target, chunk_size)


def terms_of_block(field: int, version: int, block: Buffer) -> List[Term]:
    """The terms of the values of a field, by its number, in the documents of a block of version 1, 2 or
    3, in their order, each with the number of its document from 0. Terms are compared as their bytes,
    and so by field, then by type, then by value. A date is cut to the second, as it is indexed, and a
    text is whole.

    Errors are those of `migrate_block`.

    >>> terms_of_block(0, 2, bytes.fromhex("8100000000012400000000000000"))
    [Term(document=0, term=b'\\x00\\x00\\x00\\x00u\\x00\\x00\\x00\\x00\\x00\\x00\\x00$')]
    """
    of, stored = number(field, "field"), number(version, "version")
    with Lent(block, "block") as given:
        records = _streams.terms_at(of, stored, given.at, given.size)
    return [Term(document, term) for document, term in _streams.records_of(records)]


def terms(field: int, block: Block, version: int = 2, chunk_size: int = 1 << 16) -> Iterator[Term]:
    """`terms_of_block` in bounded memory, term by term. The block is anything with the buffer protocol,
    or a file object of bytes.

    Arguments are tested at once. A document that is refused is reported when it is reached: then the
    terms before stay good. Errors are those of `terms_of_block`, OverflowError where `chunk_size` is
    not within 1 and 2^30, and what a file raises.

    >>> [term.document for term in terms(0, bytes.fromhex("80" + "8100000000012400000000000000"))]
    [1]
    """
    return _streams.terms(field, block, version, chunk_size)


def term_of_text(field: int, value: str) -> bytes:
    """The term of a text in a field, by its number. The terms of all texts that begin with it begin
    with this term.

    Raises TypeError where an argument is of another type, OverflowError where the field doesn't fit 32
    bits, ValueError for a lone surrogate.

    >>> term_of_text(1, "ab")
    b'\\x00\\x00\\x00\\x01sab'
    """
    of = number(field, "field")
    with Lent(text(value, "value"), "value") as given:
        return filled(
            given.size + 5,
            lambda at, size: CALLS.kormaglen_term_of_text(of, given.at, given.size, at, size),
        )


def text_of_term(term: Buffer) -> str:
    """The text of a term's value: a text as it is, a number in decimal, `true` or `false`, and a date, a
    facet, bytes and an address as the library's JSON has them. Of a term of a value in a JSON object it
    is the text of that value. `Schema.terms_of_text` reads it.

    Raises Refused where the bytes are no term, or are one of a text or a facet that isn't UTF-8, TypeError
    where it is no buffer, BufferError where the bytes aren't contiguous.

    >>> text_of_term(bytes.fromhex("00000001" "75" "0000000000000024"))
    '36'
    """
    with Lent(term, "term") as given:
        return filled(
            given.size + 16, lambda at, size: CALLS.kormaglen_text_of_term(given.at, given.size, at, size)
        ).decode()


def end_of_prefix(prefix: Buffer) -> bytes:
    """The least bytes above all that begin with a prefix: the terms that begin with it are those from
    the prefix on and below this.

    Raises Refused where no bytes are above them, as for a prefix of bytes 255 alone, TypeError where it
    is no buffer, BufferError where the bytes aren't contiguous.

    >>> end_of_prefix(b"ab")
    b'ac'
    """
    with Lent(prefix, "prefix") as given:
        return filled(
            given.size, lambda at, size: CALLS.kormaglen_end_of_prefix(given.at, given.size, at, size)
        )


def facet_of_text(value: str) -> bytes:
    """The encoded facet that a text as `/first/second` names: its steps with a zero byte between each
    two.

    Raises Refused where the text names none, since it doesn't begin with a slash, TypeError where it is
    no `str`, ValueError for a lone surrogate.

    >>> facet_of_text("/staff/research")
    b'staff\\x00research'
    """
    with Lent(text(value, "value"), "value") as given:
        return filled(
            given.size, lambda at, size: CALLS.kormaglen_facet_of_text(given.at, given.size, at, size)
        )


def text_of_facet(encoded: Buffer) -> str:
    """The text that names an encoded facet.

    Raises Refused where the bytes aren't UTF-8, TypeError where it is no buffer, BufferError where the
    bytes aren't contiguous.

    >>> text_of_facet(b"staff\\x00research")
    '/staff/research'
    """
    return facet_text(encoded)
