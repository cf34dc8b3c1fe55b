"""Terms and facets of all pieces."""

from __future__ import annotations

from typing import Any, List, Optional, Sequence, Tuple


from kormaglen._arguments import type_name
from kormaglen._streams import Term
from kormaglen.dask import _graphs, _pieces
from kormaglen.dask._blocks import StoredBlocks


def _tested(blocks: object) -> StoredBlocks:
    if not isinstance(blocks, StoredBlocks):
        raise TypeError(f"blocks: a StoredBlocks is wanted, not {type_name(blocks)}")
    return blocks


def _of_field(blocks: StoredBlocks, name: Optional[str]) -> Tuple[bytes, Optional[int], bool]:
    """The arguments by which a piece is asked for the terms of a field, or of all fields."""
    if name is None:
        return blocks._schema, None, False
    field = blocks._field(name)
    return blocks._schema, field.number, field.type == "json_object"


def terms(blocks: StoredBlocks, field: Optional[str] = None, split_every: int = 8) -> Any:
    """The terms of a field, each with how many documents have it: a `Delayed` of a list of pairs, in the
    order of terms. The counts of `split_every` pieces are added at once, and their sums again.

    Without a field the terms are those of `Schema.terms_of_block`, of all indexed fields. They are that,
    too, of a field of JSON objects; of another field they are those of `terms_of_block`, whether it is
    indexed or not.

    Raises at once FieldRefused where no field has the name, TypeError where an argument is of another
    type, OverflowError where `split_every` is below 2. Where a document has a value without a term, as a
    key with U+0000 in JSON objects, DocumentRefused comes when it is computed.

    >>> terms(read_json_lines(PATH, SCHEMA), "age").compute()
    [(b'\\x00\\x00\\x00\\x00u\\x00\\x00\\x00\\x00\\x00\\x00\\x00$', 2)]
    """
    asked = _of_field(_tested(blocks), field)
    counts = _graphs.each(_pieces.counted_terms, blocks._parts, *asked)
    return _graphs.reduced(_pieces.added, counts, split_every).delayed()[0]


def term_documents(blocks: StoredBlocks, field: Optional[str] = None) -> Any:
    """A bag of the terms of a field, or of all, a `Term` for each value, with the number of its document
    from 0 in the block of all pieces, in the order of documents. Which terms there are, and errors, are
    as in `terms`.

    >>> found = term_documents(read_json_lines(PATH, SCHEMA, blocksize=17), "age")
    >>> [term.document for term in found.compute(scheduler="threads")]
    [0, 1]
    """
    asked = _of_field(_tested(blocks), field)
    located = _graphs.each(_pieces.located_terms, blocks._parts, *asked)
    before = _graphs.before_each(_pieces.first_of, located, [False] * located.size)
    rows = [(key, *before.keys, at) for at, key in enumerate(located.keys)]
    return _graphs.calls(_numbered, rows, located, before).bag()


def _numbered(located: Tuple[int, List[Tuple[int, bytes]]], before: Sequence[int], at: int) -> List[Term]:
    """The terms of a piece, by the numbers of documents in all pieces."""
    return [Term(before[at] + document, term) for document, term in located[1]]


def facet_counts(blocks: StoredBlocks, field: str, parent: str = "/", split_every: int = 8) -> Any:
    """How many documents have a facet at or below each child of a facet: a `Delayed` of a list of pairs
    of the child's text and the number, in the order of facets. A document is counted once a child,
    however many of its facets are there. A child that no document has is left out.

    Raises at once FieldRefused where no field has the name, ValueError where it is no field of facets,
    Refused where the parent names no facet, TypeError where an argument is of another type,
    OverflowError where `split_every` is below 2.

    >>> blocks = read_json_lines(FACETS, FACET_SCHEMA)
    >>> facet_counts(blocks, "kind", "/shop").compute()
    [('/shop/garden', 1), ('/shop/light', 2)]
    """
    of = _tested(blocks)._field(field)
    if of.type != "facet":
        raise ValueError(f'field "{field[:60]}": its type is {of.type}, and facets are counted')
    above = _pieces.encoded(parent)
    counts = _graphs.each(_pieces.counted_facets, blocks._parts, of.number, above)
    total = _graphs.reduced(_pieces.added, counts, split_every)
    return _graphs.each(_pieces.named, total).delayed()[0]
