"""The values of a field, the terms of all, and how many documents have a facet: records that the library
writes."""

from __future__ import annotations

import ipaddress
import struct
from typing import Any, Callable, Dict, Iterable, Iterator, List, NamedTuple, Optional, Sequence, Tuple, Union

from kormaglen._arguments import Lent, copied, filled, type_name, within
from kormaglen._fields import HeldSchema
from kormaglen._handles import opened
from kormaglen._library import CALLS
from kormaglen._refusals import (
    SHOWN,
    DocumentFault,
    Refused,
    Status,
    ValueKind,
    detail_text,
    field_refused,
    pair_refused,
)
from kormaglen._streams import Term
from kormaglen._types import Buffer
from kormaglen._values import DateTime, parsed

# How many bytes of counts are asked for at first.
_ROOM = 256

_MOST = (1 << 64) - 1


class FieldValue(NamedTuple):
    """A value of a field, and the number of its document in the block, from 0.

    >>> Schema(SCHEMA).values_of_block("age", bytes.fromhex("8100000000012400000000000000"))
    [FieldValue(document=0, value=36)]
    """

    document: int
    value: Any


class TermFault(NamedTuple):
    """Why a document has no terms by a schema: its number in the block, from 0, the name of the field
    whose value has none, or None where the schema has no such field, that field's number, and the reason,
    of `DocumentFault`. Its `str` is a message of one line.

    >>> faults = []
    >>> list(Schema(SCHEMA).terms_of_block(bytes.fromhex("8100000000008161"), on_fault=faults.append))
    []
    >>> faults[0].document, faults[0].field, faults[0].reason.name
    (0, 'age', 'WRONG_TYPE')
    """

    document: int
    field: Optional[str]
    field_number: int
    reason: DocumentFault

    def __str__(self) -> str:
        name = self.field_number if self.field is None else f'"{self.field[:SHOWN]}"'
        return f"document {self.document}: field {name}: {detail_text(Status.BAD_DOCUMENT, self.reason)}"


# With a fault it stands where a term has how many bytes it shares with the one before.
_NO_TERMS = (1 << 64) - 1


class FacetCount(NamedTuple):
    """A child of a facet, encoded, and how many documents have a facet at or below it.

    >>> count_facets(b"", [(7, b"staff\\x00research")])
    [FacetCount(child=b'staff', documents=1)]
    """

    child: bytes
    documents: int


def facet_text(encoded: Buffer) -> str:
    """`text_of_facet`."""
    with Lent(encoded, "encoded") as given:
        return filled(
            2 * given.size + 1,
            lambda at, size: CALLS.kormaglen_text_of_facet(given.at, given.size, at, size),
        ).decode()


def _address(octets: bytes) -> Union[ipaddress.IPv4Address, ipaddress.IPv6Address]:
    """An address, of version 4 where it is a mapped one, as a document gives it."""
    address = ipaddress.IPv6Address(octets)
    return address.ipv4_mapped or address


def _signed(number: bytes) -> int:
    return int.from_bytes(number, "little", signed=True)


_READ: Dict[int, Callable[[bytes], Any]] = {
    ValueKind.NULL: lambda _: None,
    ValueKind.TEXT: bytes.decode,
    ValueKind.U64: lambda number: int.from_bytes(number, "little"),
    ValueKind.I64: _signed,
    ValueKind.BOOL: lambda truth: truth == b"\1",
    ValueKind.DATE: lambda nanoseconds: DateTime(_signed(nanoseconds)),
    ValueKind.FACET: facet_text,
    ValueKind.BYTES: bytes,
    ValueKind.IP_ADDR: _address,
    ValueKind.JSON: lambda text: parsed(text.decode()),
}


def values_at(schema: HeldSchema, name: bytes, shown: str, version: int, at: int, size: int) -> bytes:
    """The records of `Schema.values_of_block`, of bytes at an address. The name is shown as a text."""
    handle = opened(schema, HeldSchema)
    try:
        with Lent(name, "name") as of_name, handle.lock:
            return filled(
                3 * size,
                lambda out, out_size: CALLS.kormaglen_schema_values_of_block(
                    handle.ref, of_name.at, of_name.size, version, at, size, out, out_size
                ),
            )
    except Refused as refused:
        raise field_refused(shown) if refused.reason == Status.NO_FIELD else refused from None


def values_in(records: bytes) -> Iterator[FieldValue]:
    """The values of a list of the library's. Raises ValueError for one of a kind that this package has
    no name for."""
    for document, kind, value in _triples_in(records):
        read = _READ.get(kind)
        if read is None:
            raise ValueError(f"a value of kind {kind}: this package is too old for it")
        yield FieldValue(document, read(value))


def _triples_in(records: bytes) -> Iterator[Tuple[int, int, bytes]]:
    """The two numbers and the bytes of each record of a list of the library's. The length of the bytes
    is a third number, which stands before them."""
    at = 0
    while at < len(records):
        document, second, length = struct.unpack_from("<QQQ", records, at)
        at += 24 + length
        yield document, second, records[at - length : at]


def schema_terms_at(schema: HeldSchema, version: int, with_faults: bool, at: int, size: int) -> bytes:
    """The records of `Schema.terms_of_block`, of bytes at an address."""
    handle = opened(schema, HeldSchema)
    with handle.lock:
        return filled(
            4 * size,
            lambda out, out_size: CALLS.kormaglen_schema_terms_of_block(
                handle.ref, version, with_faults, at, size, out, out_size
            ),
        )


def schema_terms_in(
    records: bytes, names: Sequence[str], on_fault: Optional[Callable[[TermFault], object]]
) -> Iterator[Term]:
    """The terms of a list of the library's. Each is put together when it is asked for: of the one before
    it stay the bytes that both share. Faults are handed to `on_fault`, with the names of the fields."""
    last = bytearray()
    for document, shared, rest in _triples_in(records):
        if shared == _NO_TERMS and on_fault is not None:
            on_fault(_fault_in(document, rest, names))
        else:
            last[shared:] = rest
            yield Term(document, bytes(last))


def _fault_in(document: int, record: bytes, names: Sequence[str]) -> TermFault:
    """The fault of a document, of its record of a reason and the number of a field."""
    reason, field = struct.unpack_from("<QQ", record)
    name = names[field] if field < len(names) else None
    return TermFault(document, name, field, DocumentFault(reason))


def count_facets(parent: Buffer, pairs: Iterable[Tuple[int, Buffer]]) -> List[FacetCount]:
    """Counts documents by the children of a facet. Each pair is the number of a document, below 2^64,
    and an encoded facet of it, in any order. There is a count for each child of the parent at or below
    which a facet of the pairs lies, in the order of facets; a document counts once for a child. The
    root is empty.

    Raises Refused where the parent isn't UTF-8, and where a facet isn't: `reason` is then `BAD_PAIRS`, and
    `place` the number of the pair, from 0. Raises TypeError where an argument is of another type,
    OverflowError where the number of a document is out of its range, BufferError where bytes don't lie
    one after the other, MemoryError where memory is refused, and what the iterable raises.

    >>> pairs = [(0, "/shop/shoes"), (1, "/shop/hats/red"), (1, "/shop/hats/blue")]
    >>> counts = count_facets(b"shop", [(document, facet_of_text(text)) for document, text in pairs])
    >>> [(text_of_facet(count.child), count.documents) for count in counts]
    [('/shop/hats', 1), ('/shop/shoes', 1)]
    """
    with Lent(parent, "parent") as above:
        parts = [_record(pair) for pair in pairs]
        try:
            with Lent(b"".join(parts), "pairs") as given:
                records = filled(
                    _ROOM,
                    lambda at, size: CALLS.kormaglen_count_facets(
                        above.at, above.size, given.at, given.size, at, size
                    ),
                )
        except Refused as refused:
            if refused.reason != Status.BAD_PAIRS:
                raise
            raise pair_refused(_pair_at(parts, refused.place)) from None
    return list(_counts_in(records))


def _record(pair: object) -> bytes:
    """The record of a document's number and a facet."""
    if not isinstance(pair, (tuple, list)) or len(pair) != 2:
        raise TypeError(f"pairs: tuples of a number and a facet are wanted, not {type_name(pair)}")
    document = within(pair[0], "pairs: the number of a document", 0, _MOST)
    facet = copied(pair[1], "pairs: a facet", texts=False)
    return struct.pack("<QQ", document, len(facet)) + facet


def _pair_at(parts: List[bytes], place: int) -> int:
    """The number of the pair whose record begins at this byte of all."""
    number = 0
    while place > 0:
        place -= len(parts[number])
        number += 1
    return number


def _counts_in(records: bytes) -> Iterator[FacetCount]:
    """The counts of a list of the library's."""
    at = 0
    while at < len(records):
        documents, length = struct.unpack_from("<QQ", records, at)
        at += 16 + length
        yield FacetCount(records[at - length : at], documents)
