"""The terms and the ranges of terms that texts of queries have."""

from __future__ import annotations

from typing import Any, Callable, Iterator, Optional, Tuple

from kormaglen._arguments import Lent, filled, text
from kormaglen._fields import HeldSchema
from kormaglen._handles import opened
from kormaglen._refusals import FieldRefused, QueryRefused, field_refused, query_refused

# How many bytes of terms or ranges are asked for at first.
_ROOM = 256

# The length of an end that isn't there.
_NO_END = (1 << 64) - 1


def answered(schema: HeldSchema, path: str, value: str, call: Callable[..., Any]) -> bytes:
    """What a call of the library writes for a path and a text, by a schema."""
    named, given = text(path, "path"), text(value, "text")
    handle = opened(schema, HeldSchema)
    try:
        with Lent(named, "path") as at_path, Lent(given, "text") as of_text, handle.lock:
            return filled(
                _ROOM,
                lambda at, size: call(
                    handle.ref, at_path.at, at_path.size, of_text.at, of_text.size, at, size
                ),
            )
    except FieldRefused:
        raise field_refused(path) from None
    except QueryRefused as refused:
        if refused.field_number is None:
            raise
        field = list(schema._kinds())[refused.field_number]
        raise query_refused(refused.reason, refused.place, field) from None


def _number(records: bytes, at: int) -> int:
    return int.from_bytes(records[at : at + 8], "little")


def terms_in(records: bytes) -> Iterator[bytes]:
    """The terms of a list of the library's: each stands after its length."""
    at = 0
    while at < len(records):
        start = at + 8
        at = start + _number(records, at)
        yield records[start:at]


def ranges_in(records: bytes) -> Iterator[Tuple[bytes, Optional[bytes]]]:
    """The ranges of a list of the library's: start and end of each stand after both their lengths."""
    at = 0
    while at < len(records):
        first, length = at + 16, _number(records, at + 8)
        second = first + _number(records, at)
        at = second if length == _NO_END else second + length
        yield records[first:second], None if length == _NO_END else records[second:at]
