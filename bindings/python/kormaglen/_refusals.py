"""What a call refuses, as exceptions. The words are the library's; here are names for its numbers."""

from __future__ import annotations

import enum
from typing import Any, Callable, Dict, Optional, Tuple, Type, Union

from kormaglen._library import CALLS, Answer

# So much of a refused line is kept and shown.
SHOWN = 60


class _Numbers(enum.IntEnum):
    """Names for numbers of the library. One without a name, as a newer library may have, is called
    after its number."""

    @classmethod
    def _missing_(cls, value: object) -> Optional[_Numbers]:
        if not isinstance(value, int) or isinstance(value, bool) or not 0 <= value < 1 << 32:
            return None
        other = int.__new__(cls, value)
        other._name_, other._value_ = f"UNKNOWN_{value}", value
        return other

    def __reduce_ex__(self, protocol: object) -> Tuple[Any, ...]:
        # Some versions of Python pickle a name, which an unknown number has not in its class.
        return type(self), (self._value_,)


class Status(_Numbers):
    """What a call answers: `kormaglen_status` of the header.

    >>> Status(9).name
    'WRONG_VERSION'
    """

    OK = 0
    TOO_SMALL = 1
    NO_MEMORY = 2
    NOT_UTF8 = 3
    NOT_A_FACET = 4
    INVALID_JSON = 5
    BAD_SCHEMA = 6
    NO_FIELD = 7
    BAD_DOCUMENT = 8
    WRONG_VERSION = 9
    NO_END = 10
    BAD_LINE = 11
    FOREIGN_FIELD = 12
    BAD_QUERY = 13
    BAD_PAIRS = 14
    CLOSED = 15
    BAD_ARGUMENT = 16
    NOT_A_TERM = 17


class SchemaFault(_Numbers):
    """Why a JSON describes no schema: `kormaglen_schema_detail` of the header.

    >>> SchemaFault(2).name
    'SAME_NAME'
    """

    BAD_NAME = 1
    SAME_NAME = 2
    TOO_MANY_FIELDS = 3
    BAD_ENTRY = 4
    FLOAT_FIELD = 5
    NAME = 6
    TYPE = 7
    OPTIONS = 8
    INDEXED = 9
    STORED = 10
    FIELDNORMS = 11
    FAST = 12
    FAST_OF_TEXT = 13
    COERCE = 14
    PRECISION = 15
    INDEXING = 16
    RECORD = 17
    INDEXING_FIELDNORMS = 18
    TOKENIZER = 19
    WITH_TOKENIZER = 20
    EXPAND_DOTS = 21


class DocumentFault(_Numbers):
    """Why bytes hold no document, or, from 15 on, one that has no terms by the schema:
    `kormaglen_document_detail` of the header.

    >>> DocumentFault(1).name
    'UNEXPECTED_END'
    """

    UNEXPECTED_END = 1
    UNKNOWN_TYPE = 2
    UNKNOWN_EXTENSION = 3
    FLOAT = 4
    BAD_NUMBER = 5
    BAD_BOOL = 6
    NOT_UTF8 = 7
    ODD_OBJECT = 8
    DATE_RANGE = 9
    OLD_JSON = 10
    OLD_FLOAT = 11
    KEY_NO_TEXT = 12
    NO_ROOM = 13
    TOO_LONG = 14
    FOREIGN_FIELD = 15
    WRONG_TYPE = 16
    NUL_IN_KEY = 17
    NO_TERM = 18


class ValueKind(_Numbers):
    """Of which kind a stored value is: `kormaglen_value_kind` of the header."""

    NULL = 0
    TEXT = 1
    U64 = 2
    I64 = 3
    BOOL = 4
    DATE = 5
    FACET = 6
    BYTES = 7
    IP_ADDR = 8
    JSON = 9


class LineStatus(_Numbers):
    """What became of a line: `kormaglen_line_status` of the header. All but `STORED` are refusals.

    >>> LineStatus(3).name
    'WRONG_TYPE'
    """

    STORED = 0
    INVALID_JSON = 1
    OVERFLOW = 2
    WRONG_TYPE = 3
    BAD_TEXT = 4
    BAD_BASE64 = 5
    FLOAT = 6
    NO_ROOM = 7

    @property
    def words(self) -> str:
        """What it is called in words.

        >>> LineStatus.STORED.words
        'stored'
        """
        return line_text(self)

    @property
    def of_a_field(self) -> bool:
        """Whether a refusal of this kind is about the value of a field.

        >>> LineStatus.WRONG_TYPE.of_a_field, LineStatus.INVALID_JSON.of_a_field
        (True, False)
        """
        return LineStatus.OVERFLOW <= self <= LineStatus.FLOAT


class JsonFault(_Numbers):
    """Why a line is no JSON object: `kormaglen_json_fault` of the header. From 4 on it is what was
    expected at a byte of the line, which is the line's length where the line ends too early.

    `NOT_UTF8` is 0: whether there is a fault is asked by `is None`.

    >>> JsonFault(8).name
    'COLON'
    """

    NOT_UTF8 = 0
    TOO_DEEP = 1
    NUMBER_TOO_LARGE = 2
    NO_OBJECT = 3
    VALUE = 4
    VALUE_OR_ARRAY_END = 5
    KEY = 6
    KEY_OR_OBJECT_END = 7
    COLON = 8
    COMMA_OR_ARRAY_END = 9
    COMMA_OR_OBJECT_END = 10
    TEXT_END = 11
    STRING_CHARACTER = 12
    ESCAPE = 13
    HEXADECIMAL_DIGIT = 14
    HEXADECIMAL_DIGIT_BELOW_C = 15
    LOW_SURROGATE = 16
    DIGIT = 17
    DIGIT_OR_SIGN = 18
    WORD = 19

    @property
    def words(self) -> str:
        """What it is called in words.

        >>> JsonFault.COLON.words
        'a colon was expected'
        """
        return _words(CALLS.kormaglen_json_fault_text, self) or "unknown fault"

    @property
    def at_a_byte(self) -> bool:
        """Whether a fault of this kind is at a byte of the line, and not of the line as a whole.

        >>> JsonFault.COLON.at_a_byte, JsonFault.NOT_UTF8.at_a_byte
        (True, False)
        """
        return self not in (JsonFault.NOT_UTF8, JsonFault.NO_OBJECT)


class QueryFault(_Numbers):
    """Why a text of a query has no terms, or no ranges of them: `kormaglen_query_detail` of the header.

    >>> QueryFault(5).name
    'BACKWARDS'
    """

    NOT_INDEXED = 1
    PATH_ENDS = 2
    NUL_IN_PATH = 3
    NO_RANGE = 4
    BACKWARDS = 5
    OVERFLOW = 12
    WRONG_TYPE = 13
    BAD_TEXT = 14
    BAD_BASE64 = 15
    FLOAT = 16


Reason = Union[Status, SchemaFault, DocumentFault, LineStatus, QueryFault]


class Refused(ValueError):
    """A call was refused. What it was given stays as it was, and so does what its handles hold.

    `reason` is the most precise name that there is: of `Status`, or of `SchemaFault`, `DocumentFault`,
    `LineStatus` or `QueryFault` in the classes below. A number that this package has no name for is `UNKNOWN_` and
    the number. `place` is the number that the library says where; each class says what it is.

    >>> try:
    ...     facet_of_text("no slash")
    ... except Refused as refused:
    ...     print(refused.reason.name)
    NOT_A_FACET
    """

    def __init__(self, message: str = "", reason: Reason = Status.OK, place: int = 0) -> None:
        super().__init__(message)
        self.reason = reason
        self.place = place


class SchemaRefused(Refused):
    """A JSON describes no schema. `place` is the number of the entry, from 1, or 0 for the whole, and
    `field` its name where it has one.

    >>> try:
    ...     Schema('[{"name":"age","type":"u65","options":{}}]')
    ... except SchemaRefused as refused:
    ...     print(refused.reason.name, refused.place, refused.field)
    TYPE 1 age
    """

    field: Optional[str] = None


class DocumentRefused(Refused):
    """Bytes hold no document, or one that has no terms by the schema. `place` is where in the block the
    document begins, in bytes from 0.

    >>> try:
    ...     migrate_block(2, b"\\x80\\x81", 3)
    ... except DocumentRefused as refused:
    ...     print(refused.reason.name, refused.place)
    UNEXPECTED_END 1
    """


class LineRefused(Refused):
    """A line of JSON has no document. `line` is its number, from 1, or None where there is one alone;
    `field` and `field_number` are the field whose value is refused, or None; `text` is how the line
    begins: 60 characters at most. `place` is the field's number, or 0.

    Where the line is no JSON object, `fault` says why, and `byte` how many bytes of it come before that
    place, in UTF-8; it is None where the whole line is wrong. Where it is refused for another reason,
    both are None.

    >>> schema = Schema('[{"name":"age","type":"u64","options":{"indexed":true,"stored":true}}]')
    >>> try:
    ...     schema.parse('{"age":"x"}')
    ... except LineRefused as refused:
    ...     print(refused.reason.name, refused.field, refused.field_number, refused.text)
    WRONG_TYPE age 0 {"age":"x"}
    >>> try:
    ...     schema.parse('{"age" 7}')
    ... except LineRefused as refused:
    ...     print(refused.reason.name, refused.fault.name, refused.byte)
    ...     print(refused)
    INVALID_JSON COLON 7
    the line is not a JSON object: a colon was expected at byte 7: {"age" 7}
    """

    line: Optional[int] = None
    field: Optional[str] = None
    field_number: Optional[int] = None
    fault: Optional[JsonFault] = None
    byte: Optional[int] = None
    text: str = ""


class QueryRefused(Refused):
    """A text of a query has no terms, or no ranges of them. `field` and `field_number` are the field
    that the path names, or None where the text is no range; `place` is the field's number, or 0.

    >>> schema = Schema('[{"name":"age","type":"u64","options":{"indexed":true,"stored":true}}]')
    >>> try:
    ...     schema.ranges_of_text("age", "[20 TO 10]")
    ... except QueryRefused as refused:
    ...     print(refused.reason.name, refused.field, refused.field_number)
    BACKWARDS age 0
    """

    field: Optional[str] = None
    field_number: Optional[int] = None


class FieldRefused(Refused, LookupError):
    """A path or a name names no field of the schema, or a document has a field that its schema doesn't
    have; `place` is then its number.

    >>> schema = Schema('[{"name":"age","type":"u64","options":{"indexed":true,"stored":true}}]')
    >>> try:
    ...     schema.find_field("size")
    ... except FieldRefused as refused:
    ...     print(refused.reason.name)
    NO_FIELD
    """


class VersionRefused(Refused):
    """There is no such version of the store, or it is one that is read and not written. `place` is 0.

    >>> try:
    ...     migrate_block(2, b"", 1)
    ... except VersionRefused as refused:
    ...     print(refused.reason.name)
    WRONG_VERSION
    """


class Closed(Refused):
    """A schema or a document was closed, and holds nothing. `place` is 0.

    >>> schema = Schema("[]")
    >>> schema.close()
    >>> try:
    ...     schema.to_json()
    ... except Closed as refused:
    ...     print(refused)
    the schema is closed
    """


_KINDS: Dict[Status, Type[Refused]] = {
    Status.INVALID_JSON: SchemaRefused,
    Status.BAD_SCHEMA: SchemaRefused,
    Status.BAD_DOCUMENT: DocumentRefused,
    Status.BAD_LINE: LineRefused,
    Status.NO_FIELD: FieldRefused,
    Status.FOREIGN_FIELD: FieldRefused,
    Status.WRONG_VERSION: VersionRefused,
    Status.CLOSED: Closed,
}


def _words(call: Callable[..., Any], *numbers: int) -> str:
    """The library's words for a number."""
    said: bytes = call(*numbers)
    return said.decode("utf-8", "replace")


def status_text(status: int) -> str:
    """The library's words for a status."""
    return _words(CALLS.kormaglen_status_text, status)


def detail_text(status: int, detail: int) -> str:
    """The library's words for a detail of a status, or for the status where it has none."""
    return _words(CALLS.kormaglen_detail_text, status, detail) or status_text(status)


def line_text(status: int) -> str:
    """The library's words for what became of a line."""
    return _words(CALLS.kormaglen_line_status_text, status)


def refused_text(status: int, fault: Optional[JsonFault], byte: Optional[int]) -> str:
    """The library's words for why a line has no document, and the byte where it is no JSON object."""
    why = "" if fault is None else f": {fault.words}"
    return line_text(status) + why + ("" if byte is None else f" at byte {byte}")


def document_refused(detail: int, place: int) -> DocumentRefused:
    """That no document begins at a place of a block, or one that has no terms."""
    words = detail_text(Status.BAD_DOCUMENT, detail)
    return DocumentRefused(f"the document at byte {place}: {words}", DocumentFault(detail), place)


def schema_refused(answer: Answer, field: Optional[str]) -> SchemaRefused:
    """That a JSON describes no schema."""
    words = detail_text(answer.status, answer.detail)
    entry = (
        f"entry {answer.place}" + ("" if field is None else f' ("{field[:SHOWN]}")') + ": "
        if answer.place
        else ""
    )
    bad = answer.status == Status.BAD_SCHEMA
    reason: Reason = SchemaFault(answer.detail) if bad else Status.INVALID_JSON
    error = SchemaRefused(f"schema: {entry}{words}", reason, answer.place)
    error.field = field
    return error


# What the library answers of a line: its status; the number of the field that is refused, or why it is no
# JSON object; and the size of its document, or the byte where it is no JSON object.
LineRow = Tuple[int, int, int]


def field_of(row: LineRow) -> Optional[int]:
    """The number of the field whose value is refused, or None."""
    return row[1] if LineStatus(row[0]).of_a_field else None


def fault_of(row: LineRow) -> Tuple[Optional[JsonFault], Optional[int]]:
    """Why a line is no JSON object, and at which byte: each of them or None."""
    if row[0] != LineStatus.INVALID_JSON:
        return None, None
    fault = JsonFault(row[1])
    return fault, row[2] if fault.at_a_byte else None


def line_refused(
    row: LineRow, text: bytes, line: Optional[int] = None, field: Optional[str] = None
) -> LineRefused:
    """That a line has no document. The text is the line, or as much of it as is shown; the field is its
    name."""
    number, (fault, byte), shown = field_of(row), fault_of(row), beginning(text)
    head = "" if line is None else f"line {line}: "
    about = "" if field is None else f'field "{field[:SHOWN]}": '
    said = refused_text(row[0], fault, byte)
    error = LineRefused(f"{head}{about}{said}: {shown}", LineStatus(row[0]), number or 0)
    error.line, error.field, error.field_number, error.text = line, field, number, shown
    error.fault, error.byte = fault, byte
    return error


def beginning(line: bytes) -> str:
    """The first characters of a line."""
    return line[: 4 * SHOWN].decode("utf-8", "replace")[:SHOWN]


def query_refused(detail: int, place: int, field: Optional[str] = None) -> QueryRefused:
    """That a text of a query has no terms, or no ranges. The field is its name, where it is known."""
    reason = QueryFault(detail)
    about = "" if field is None else f'field "{field[:SHOWN]}": '
    error = QueryRefused(f"{about}{detail_text(Status.BAD_QUERY, detail)}", reason, place)
    error.field = field
    error.field_number = None if reason == QueryFault.NO_RANGE else place
    return error


def pair_refused(pair: int) -> Refused:
    """That the facet of a pair isn't UTF-8."""
    return Refused(f"pair {pair}: the facet is not UTF-8", Status.BAD_PAIRS, pair)


def field_refused(name: str) -> FieldRefused:
    """That a name is no field's."""
    return FieldRefused(f'no field has the name "{name[:SHOWN]}"', Status.NO_FIELD)


def closed(what: str) -> Closed:
    """That a schema or a document was closed."""
    return Closed(f"the {what} is closed", Status.CLOSED)


def refused(answer: Answer) -> Exception:
    """The exception of an answer that isn't OK. What is known besides (a line, a name) has constructors
    of its own above."""
    if answer.status == Status.NO_MEMORY:
        return MemoryError(status_text(answer.status))
    if answer.status == Status.BAD_DOCUMENT:
        return document_refused(answer.detail, answer.place)
    if answer.status == Status.BAD_QUERY:
        return query_refused(answer.detail, answer.place)
    reason = Status(answer.status)
    return _KINDS.get(reason, Refused)(status_text(answer.status), reason, answer.place)
