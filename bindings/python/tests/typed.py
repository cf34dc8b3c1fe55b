"""The package as code with types uses it: `mypy --strict` passes over this file, and a test runs it."""

from __future__ import annotations

import datetime
import io
import ipaddress
import mmap
from typing import Dict, Iterator, List, Optional, Tuple

import kormaglen as K


def schema() -> K.Schema:
    """A schema of all types."""
    builder = (
        K.SchemaBuilder()
        .text("name", indexing=K.TEXT, stored=True, fast="raw")
        .u64("age", indexed=True, stored=True)
    )
    builder = (
        builder.i64("height", stored=True)
        .bool("sold")
        .date("when", stored=True, precision="nanoseconds")
        .facet("group")
    )
    return (
        builder.bytes("hash", stored=True)
        .json_object("more", stored=True, fast=True)
        .ip_addr("host", stored=True)
        .build()
    )


def values(by: K.Schema) -> Tuple[List[int], Optional[K.DateTime]]:
    """Values of a document."""
    moment = datetime.datetime(2024, 2, 29, tzinfo=datetime.timezone.utc)
    document: K.Document = by.document(
        {
            "age": [36, 37],
            "when": moment,
            "host": ipaddress.ip_address("::1"),
            "hash": b"x",
            "more": {"k": [1, None]},
        }
    )
    ages: List[int] = document["age"]
    whens: List[K.DateTime] = document.get("when", [])
    read, size = by.read(document.write(version=3), version=3)
    assert isinstance(size, int) and read == document
    return ages, whens[0] if whens else None


def streams(by: K.Schema) -> Dict[str, int]:
    """Lines and blocks of each source."""
    imported: K.Imported = by.import_lines(["{}", b'{"age":1}', bytearray(b"{}")])
    parts: Iterator[K.Imported] = by.import_chunks(io.StringIO("{}\n"), chunk_size=100)
    counts: K.ImportCounts = by.import_file(io.BytesIO(b"{}\n"), io.BytesIO(), on_refused=print)
    mapped = mmap.mmap(-1, len(imported.block))
    mapped.write(imported.block)
    documents: List[K.Document] = list(by.documents(mapped))
    found: List[int] = [term.document for term in K.terms(1, io.BytesIO(imported.block))]
    lines: bytes = by.export_block(memoryview(imported.block))
    fields: Tuple[K.Field, ...] = by.fields
    number, rest = by.find_field("more.k")
    assert rest == "k" and fields[number].name == "more"
    ages: List[K.FieldValue] = by.values_of_block("age", imported.block)
    by_schema: Iterator[K.Term] = by.terms_of_block(imported.block)
    assert ages[0].value == 1 and next(by_schema).document == ages[0].document
    facets: List[K.FacetCount] = K.count_facets(b"", ((n, K.facet_of_text("/a")) for n in range(3)))
    assert facets[0].documents == 3
    terms: List[bytes] = by.terms_of_text("age", "1")
    ranges: List[Tuple[bytes, Optional[bytes]]] = by.ranges_of_text("age", "[1 TO 2}")
    assert ranges[0][0] <= terms[0]
    printed: str = K.text_of_term(terms[0])
    assert printed == "1"
    return {
        "parts": len(list(parts)),
        "lines": counts.lines,
        "documents": len(documents),
        "found": len(found),
        "bytes": len(lines),
    }


def refusal(by: K.Schema) -> Tuple[Optional[int], Optional[str], str]:
    """What a refusal has."""
    try:
        by.parse('{"age":"x"}')
    except K.LineRefused as refused:
        assert refused.reason == K.LineStatus.WRONG_TYPE
        return refused.line, refused.field, refused.text
    raise AssertionError("nothing was refused")


def fault(by: K.Schema) -> Tuple[Optional[K.JsonFault], Optional[int]]:
    """What a line that is no JSON object has."""
    answer: K.LineAnswer = by.import_lines('{"age" 7}').lines[0]
    try:
        by.parse('{"age" 7}')
    except K.LineRefused as refused:
        assert (refused.fault, refused.byte) == (answer.fault, answer.byte)
    words: str = "" if answer.fault is None else answer.fault.words
    assert words == "a colon was expected"
    return answer.fault, answer.byte


def main() -> None:
    """All of it."""
    with schema() as by:
        assert values(by)[0] == [36, 37]
        assert streams(by) == {"parts": 1, "lines": 1, "documents": 3, "found": 1, "bytes": 18}
        assert refusal(by) == (None, "age", '{"age":"x"}')
        assert fault(by) == (K.JsonFault.COLON, 7)


if __name__ == "__main__":
    main()
