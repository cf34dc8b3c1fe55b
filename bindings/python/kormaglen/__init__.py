"""Schemas, stored documents, terms and facets of tantivy 0.26.2, by calls of a library that is proved.
This package tests arguments and hands them over; it needs no other package.

A `Schema` holds a schema, a `Document` one document. A block has documents one after the other, as a
block of a document store has them.

>>> schema = SchemaBuilder().text("name", stored=True).u64("age", indexed=True, stored=True).build()
>>> document = schema.parse('{"name":"Ada","age":36}')
>>> document["age"]
[36]
>>> imported = schema.import_lines('{"name":"Ada","age":36}\\n{"name":"Bob","age":"old"}\\n')
>>> print(imported.refused[0])  # doctest: +ELLIPSIS
line 2: field "age": ...
>>> [each.to_dict() for each in schema.documents(imported.block)]
[{'age': [36], 'name': ['Ada']}]

Whatever the library refuses is a `Refused`, which is a `ValueError`. An argument of another type is a
TypeError, and a number out of its range an OverflowError; neither reaches the library. Want of memory
is a MemoryError. After an error everything is as it was.

Where an argument is bytes, anything with the buffer protocol is taken: bytes, bytearray, memoryview,
mmap, array. Its bytes have to be contiguous, else that is a BufferError. Bytes, and a
memoryview of them, are read where they lie. Of what may change, a copy is read, which is made at the
call's beginning while no other thread of Python runs; the calls that go by parts copy one part at a
time. A file that is mapped must not become shorter meanwhile: then the system ends the process.

A call lets other threads run. A schema or a document may be used and closed by any thread; calls with
the same one wait for each other. In a process that was forked while another thread was in a call, what
that call used can't be used.
"""

from kormaglen._blocks import (
    end_of_prefix,
    export_block,
    facet_of_text,
    find_field,
    import_lines,
    migrate_block,
    migrate_chunks,
    term_of_text,
    terms,
    terms_of_block,
    text_of_facet,
    text_of_term,
)
from kormaglen._builder import STRING, TEXT, Indexing, SchemaBuilder
from kormaglen._document import Document
from kormaglen._fields import Field, Found
from kormaglen._import import ImportCounts, Imported, LineAnswer, LineAnswers, LineRefusals
from kormaglen._library import library_version
from kormaglen._records import FacetCount, FieldValue, TermFault, count_facets
from kormaglen._refusals import (
    Closed,
    DocumentFault,
    DocumentRefused,
    FieldRefused,
    JsonFault,
    LineRefused,
    LineStatus,
    QueryFault,
    QueryRefused,
    Refused,
    SchemaFault,
    SchemaRefused,
    Status,
    VersionRefused,
)
from kormaglen._schema import Schema
from kormaglen._streams import Term
from kormaglen._values import DateTime

__version__ = "0.1.0"

__all__ = [
    "STRING",
    "TEXT",
    "Closed",
    "DateTime",
    "Document",
    "DocumentFault",
    "DocumentRefused",
    "FacetCount",
    "Field",
    "FieldRefused",
    "FieldValue",
    "Found",
    "ImportCounts",
    "Imported",
    "Indexing",
    "JsonFault",
    "LineAnswer",
    "LineAnswers",
    "LineRefusals",
    "LineRefused",
    "LineStatus",
    "QueryFault",
    "QueryRefused",
    "Refused",
    "Schema",
    "SchemaBuilder",
    "SchemaFault",
    "SchemaRefused",
    "Status",
    "Term",
    "TermFault",
    "VersionRefused",
    "count_facets",
    "end_of_prefix",
    "export_block",
    "facet_of_text",
    "find_field",
    "import_lines",
    "library_version",
    "migrate_block",
    "migrate_chunks",
    "term_of_text",
    "terms",
    "terms_of_block",
    "text_of_facet",
    "text_of_term",
]
