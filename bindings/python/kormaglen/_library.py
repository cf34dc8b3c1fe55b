"""The shared library: where it is looked for, its structs and the signatures of its calls."""

from __future__ import annotations

import ctypes
import os
from typing import Any, Dict, List, Tuple

# The oldest library has this name. A library with another number has calls of other signatures.
SONAME = "libkormaglen.so.0"


class Answer(ctypes.Structure):
    """kormaglen_answer."""

    _fields_ = [
        ("status", ctypes.c_uint32),
        ("detail", ctypes.c_uint32),
        ("place", ctypes.c_uint64),
        ("bytes", ctypes.c_uint64),
        ("lines", ctypes.c_uint64),
    ]


class FoundField(ctypes.Structure):
    """kormaglen_found_field."""

    _fields_ = [("field", ctypes.c_uint32), ("rest", ctypes.c_uint64)]


class SchemaStruct(ctypes.Structure):
    """kormaglen_schema. Its type differs from the document's, so that ctypes refuses one in the place
    of the other."""

    _fields_ = [("at", ctypes.c_void_p)]


class DocumentStruct(ctypes.Structure):
    """kormaglen_document."""

    _fields_ = [("at", ctypes.c_void_p)]


# The layout of kormaglen_line_answer for the module struct: status, field, bytes.
LINE_ANSWER = "=IIQ"
LINE_ANSWER_SIZE = 16

_NUMBER = ctypes.c_uint32
_GIVEN = [ctypes.c_void_p, ctypes.c_size_t]
_WRITTEN = [ctypes.c_void_p, ctypes.c_size_t]
_SCHEMA = ctypes.POINTER(SchemaStruct)
_DOCUMENT = ctypes.POINTER(DocumentStruct)

# The arguments of each call and what it returns.
_SIGNATURES: Dict[str, Tuple[List[Any], Any]] = {
    "version": ([], ctypes.c_char_p),
    "status_text": ([_NUMBER], ctypes.c_char_p),
    "detail_text": ([_NUMBER, _NUMBER], ctypes.c_char_p),
    "line_status_text": ([_NUMBER], ctypes.c_char_p),
    "json_fault_text": ([_NUMBER], ctypes.c_char_p),
    "export_block": (_GIVEN + [_NUMBER] + _GIVEN + _WRITTEN, Answer),
    "migrate_block": ([_NUMBER] + _GIVEN + [_NUMBER] + _WRITTEN, Answer),
    "facet_of_text": (_GIVEN + _WRITTEN, Answer),
    "text_of_facet": (_GIVEN + _WRITTEN, Answer),
    "count_facets": (_GIVEN + _GIVEN + _WRITTEN, Answer),
    "terms_of_block": ([_NUMBER, _NUMBER] + _GIVEN + _WRITTEN, Answer),
    "term_of_text": ([_NUMBER] + _GIVEN + _WRITTEN, Answer),
    "text_of_term": (_GIVEN + _WRITTEN, Answer),
    "end_of_prefix": (_GIVEN + _WRITTEN, Answer),
    "schema_open": (_GIVEN + [_SCHEMA], Answer),
    "schema_close": ([_SCHEMA], None),
    "schema_to_json": ([_SCHEMA] + _WRITTEN, Answer),
    "schema_import_lines": ([_SCHEMA] + _GIVEN + _WRITTEN + _WRITTEN, Answer),
    "schema_export_block": ([_SCHEMA, _NUMBER] + _GIVEN + _WRITTEN, Answer),
    "schema_find_field": ([_SCHEMA] + _GIVEN + [ctypes.POINTER(FoundField)], Answer),
    "schema_values_of_block": ([_SCHEMA] + _GIVEN + [_NUMBER] + _GIVEN + _WRITTEN, Answer),
    "schema_terms_of_block": ([_SCHEMA, _NUMBER, _NUMBER] + _GIVEN + _WRITTEN, Answer),
    "schema_terms_of_text": ([_SCHEMA] + _GIVEN + _GIVEN + _WRITTEN, Answer),
    "schema_ranges_of_text": ([_SCHEMA] + _GIVEN + _GIVEN + _WRITTEN, Answer),
    "document_read": ([_NUMBER] + _GIVEN + [_DOCUMENT], Answer),
    "document_parse": ([_SCHEMA] + _GIVEN + [_DOCUMENT], Answer),
    "document_to_json": ([_DOCUMENT, _SCHEMA] + _WRITTEN, Answer),
    "document_write": ([_DOCUMENT, _SCHEMA, _NUMBER] + _WRITTEN, Answer),
    "document_close": ([_DOCUMENT], None),
}


def candidates() -> List[str]:
    """Where the library is looked for, in this order. `KORMAGLEN_SO` names the one and only place."""
    named = os.environ.get("KORMAGLEN_SO")
    if named:
        return [named]
    here = os.path.dirname(os.path.abspath(__file__))
    beside = os.path.join(here, "libkormaglen.so")
    built = os.path.join(here, os.pardir, os.pardir, "out", "libkormaglen.so")
    return [place for place in (beside, os.path.normpath(built)) if os.path.exists(place)] + [SONAME]


def _loaded() -> Tuple[ctypes.CDLL, str]:
    failures = []
    for place in candidates():
        try:
            return ctypes.CDLL(place), place
        except OSError as error:
            failures.append(str(error))
    raise ImportError(
        "the shared library libkormaglen.so is not found: build it with `make` in bindings/, "
        f"or name it in KORMAGLEN_SO ({'; '.join(failures)})"
    ) from None


def _with_signatures() -> Tuple[ctypes.CDLL, str]:
    """The library with the signatures of all calls. One that lacks a call is refused at once, and not
    in the midst of its use."""
    library, place = _loaded()
    for name, (arguments, result) in _SIGNATURES.items():
        try:
            call = getattr(library, "kormaglen_" + name)
        except AttributeError:
            raise ImportError(
                f"the library {place} is too old for this package: it lacks kormaglen_{name}"
            ) from None
        call.argtypes = arguments
        call.restype = result
    return library, place


CALLS, PLACE = _with_signatures()


def library_version() -> str:
    """The version of the shared library that is used, as it says itself. It never fails.

    >>> library_version().split(".")[0]
    '0'
    """
    said: bytes = CALLS.kormaglen_version()
    return said.decode()
