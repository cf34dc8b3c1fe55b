"""One document, held by the library."""

from __future__ import annotations

from typing import (
    TYPE_CHECKING,
    Any,
    Callable,
    Dict,
    ItemsView,
    Iterator,
    KeysView,
    List,
    Mapping,
    Optional,
    Tuple,
    Type,
    TypeVar,
    ValuesView,
)

from kormaglen._arguments import Lent, filled, number, type_name
from kormaglen._fields import HeldSchema
from kormaglen._handles import Handle, Held, opened
from kormaglen._library import CALLS, DocumentStruct
from kormaglen._refusals import (
    SHOWN,
    Closed,
    FieldRefused,
    Refused,
    Status,
    closed,
    field_refused,
    line_refused,
    refused,
)
from kormaglen._types import Buffer, TextOrBuffer
from kormaglen._values import parsed, printed, read_values, written_values

if TYPE_CHECKING:
    from kormaglen._schema import Schema
else:
    Schema = HeldSchema  # (the module of that class needs this one)

# How many bytes of a document are asked for at first.
_FIRST_SIZE = 1024

_D = TypeVar("_D", bound="Document")


class Document(Held, Mapping[str, List[Any]]):
    """A document of a schema: a mapping of the names of fields to the lists of their values. It is made
    by `from_dict`, `parse` and `read`, or by the calls of a `Schema` that have nearly the same names,
    and doesn't change.

    A value is in Python, by the type of its field: text a `str`, or a `dict` where it has its tokens;
    u64 and i64 an `int`; bool a `bool`; date a `DateTime`; facet its text as `/first/second`; bytes
    `bytes`; json_object a `dict`; ip_addr an `IPv4Address` or `IPv6Address`. Of a value that isn't of
    its field's type, as a document that was read may have it, it is what its JSON reads as.

    Each access reads the document anew, so `to_dict()` is the faster way to many fields. Any thread may
    use and close it: there is one call at a time. Two documents are equal if their schemas, their
    values and the bytes that are stored of them are, and a document is equal to a mapping of the same
    values. It can be copied and pickled if all its values are stored; else that is a ValueError.

    >>> document = Schema(SCHEMA).parse('{"age":36}')
    >>> document["age"]
    [36]
    >>> document.write(version=2).hex()
    '8100000000012400000000000000'
    """

    _what = "document"
    _by: Optional[Schema] = None

    def __init__(self) -> None:
        raise TypeError("a Document is made by Document.from_dict, Document.parse or Document.read")

    @classmethod
    def from_dict(cls: Type[_D], schema: Schema, values: Mapping[str, Any]) -> _D:
        """The document of a mapping of names to a value each, or to a list or a tuple of values. Values
        are as a document gives them, and as their JSON: a date may be a `datetime` with a time zone or
        a text of RFC 3339, bytes anything with the buffer protocol or base64.

        Raises LineRefused where the library refuses a value, as a number that doesn't fit its field or
        any float. Raises FieldRefused where a name is no field's, TypeError where a value has no JSON,
        ValueError for a datetime without a time zone, NaN, a lone surrogate or values nested too
        deeply, Closed where the schema is closed, MemoryError where memory is refused.

        >>> Document.from_dict(Schema(SCHEMA), {"age": [1, 2**64 - 1]})["age"]
        [1, 18446744073709551615]
        """
        opened(schema, HeldSchema, "schema")
        if not isinstance(values, Mapping):
            raise TypeError(f"values: a mapping is wanted, not {type_name(values)}")
        kinds = schema._kinds()
        plain: Dict[str, List[Any]] = {}
        for name, value in values.items():
            if not isinstance(name, str):
                raise TypeError(f"values: the name of a field is a str, not {type_name(name)}")
            if name not in kinds:
                raise field_refused(name)
            plain[name] = written_values(kinds[name], value, name)
        return cls.parse(schema, printed(plain, "values"))

    @classmethod
    def parse(cls: Type[_D], schema: Schema, line: TextOrBuffer) -> _D:
        """The document of a JSON object. Keys that name no field are passed over.

        Raises LineRefused where it is no JSON object or a value is refused, Closed where the schema is
        closed, TypeError where an argument is of another type, ValueError for a lone surrogate,
        MemoryError where memory is refused.

        >>> Document.parse(Schema(SCHEMA), b'{"age":[7,8],"other":1}')["age"]
        [7, 8]
        """
        opened(schema, HeldSchema, "schema")
        with Lent(line, "line", texts=True) as given:
            document, answer = cls._made(
                schema, lambda own, by: CALLS.kormaglen_document_parse(by, given.at, given.size, own)
            )
            if answer.status == Status.BAD_LINE:
                row = (answer.detail, answer.place, answer.bytes)
                raise line_refused(row, given.bytes_at(0, 4 * SHOWN), None, schema._about(row))
        if answer.status != Status.OK:
            raise refused(answer)
        return document

    @classmethod
    def read(cls: Type[_D], schema: Schema, data: Buffer, version: int = 2) -> Tuple[_D, int]:
        """The document with which the bytes begin, of version 1, 2 or 3, and how many bytes it takes.
        Whatever follows is not looked at.

        Raises DocumentRefused where none begins there, VersionRefused for another version, Closed where
        the schema is closed, TypeError where an argument is of another type, OverflowError where the
        version doesn't fit 32 bits, BufferError where the bytes aren't contiguous,
        MemoryError where memory is refused.

        >>> document, size = Document.read(Schema(SCHEMA), bytes.fromhex("8100000000012400000000000000ff"))
        >>> document["age"], size
        ([36], 14)
        """
        opened(schema, HeldSchema, "schema")
        stored = number(version, "version")
        with Lent(data, "data") as given:
            return cls._read_at(schema, given.at, given.size, stored)

    @classmethod
    def _read_at(cls: Type[_D], schema: Schema, at: int, size: int, version: int) -> Tuple[_D, int]:
        """`read`, of bytes at an address."""
        document, answer = cls._made(
            schema, lambda own, by: CALLS.kormaglen_document_read(version, at, size, own)
        )
        if answer.status != Status.OK:
            raise refused(answer)
        return document, answer.bytes

    @classmethod
    def _made(cls: Type[_D], schema: Schema, call: Callable[[Any, Any], Any]) -> Tuple[_D, Any]:
        """A new document that a call opens, and what the call answers. Locks are taken in this order
        everywhere: the document's, the schema's."""
        by, own = opened(schema, HeldSchema, "schema"), Handle(DocumentStruct())
        with own.lock, by.lock:
            answer = call(own.ref, by.ref)
        document = cls.__new__(cls)
        document._handle, document._by = own, schema
        return document, answer

    @property
    def schema(self) -> Schema:
        """The schema by which the document was made. Raises Closed where the document has none, since
        it was never made.

        >>> Schema(SCHEMA).parse("{}").schema == Schema(SCHEMA)
        True
        """
        if self._by is None:
            raise closed(self._what)
        return self._by

    def to_json(self) -> str:
        """The document as JSON: the names of the fields in byte order, each with an array of its
        values. Values of fields that the schema doesn't have are left out. It is in one line, without a
        line feed.

        Raises Closed where the document or its schema is closed, MemoryError where memory is refused.

        >>> Schema(SCHEMA).parse('{"age":36}').to_json()
        '{"age":[36]}'
        """
        own, by = opened(self, Document), opened(self._by, HeldSchema, "schema")
        with own.lock, by.lock:
            return filled(
                _FIRST_SIZE, lambda at, size: CALLS.kormaglen_document_to_json(own.ref, by.ref, at, size)
            ).decode()

    def write(self, version: int = 2) -> bytes:
        """The bytes of the document in version 2 or 3: the values of stored fields.

        Raises FieldRefused where the document has a value of a field that the schema doesn't have,
        VersionRefused for another version, Closed where the document or its schema is closed, TypeError
        or OverflowError where the version is no number of 32 bits, MemoryError where memory is refused.

        >>> Schema(SCHEMA).parse('{"age":36}').write().hex()
        '8100000000012400000000000000'
        """
        stored = number(version, "version")
        own, by = opened(self, Document), opened(self._by, HeldSchema, "schema")
        with own.lock, by.lock:
            return filled(
                _FIRST_SIZE,
                lambda at, size: CALLS.kormaglen_document_write(own.ref, by.ref, stored, at, size),
            )

    def to_dict(self) -> Dict[str, List[Any]]:
        """The values of all fields that have some. Changing it doesn't change the document.

        Raises Closed where the document or its schema is closed, ValueError where values are nested
        more deeply than Python reads, MemoryError where memory is refused.

        >>> Schema(SCHEMA).parse('{"age":36}').to_dict()
        {'age': [36]}
        """
        values = parsed(self.to_json())
        kinds = self.schema._kinds()
        return {name: read_values(kinds[name], of_field) for name, of_field in values.items()}

    def __getitem__(self, name: str) -> List[Any]:
        values = parsed(self.to_json())[name]
        return read_values(self.schema._kinds()[name], values)

    def __iter__(self) -> Iterator[str]:
        return iter(parsed(self.to_json()))

    def __len__(self) -> int:
        return len(parsed(self.to_json()))

    def keys(self) -> KeysView[str]:
        """The names of the fields that have values. Errors are those of `to_dict`.

        >>> list(Schema(SCHEMA).parse('{"age":36}').keys())
        ['age']
        """
        return self.to_dict().keys()

    def items(self) -> ItemsView[str, List[Any]]:
        """The names with their values. Errors are those of `to_dict`.

        >>> list(Schema(SCHEMA).parse('{"age":36}').items())
        [('age', [36])]
        """
        return self.to_dict().items()

    def values(self) -> ValuesView[List[Any]]:
        """The lists of values. Errors are those of `to_dict`.

        >>> list(Schema(SCHEMA).parse('{"age":36}').values())
        [[36]]
        """
        return self.to_dict().values()

    def __eq__(self, other: object) -> bool:
        if self is other:
            return True
        try:
            if isinstance(other, Document):
                return self._parts() == other._parts()
            if isinstance(other, Mapping):
                return self.to_dict() == dict(other)
        except (Closed, FieldRefused):
            return False
        return NotImplemented

    __hash__ = None  # type: ignore[assignment]

    def _parts(self) -> Tuple[Schema, str, bytes]:
        return self.schema, self.to_json(), self.write(3)

    def __reduce__(self) -> Tuple[Any, ...]:
        schema, text, stored = self._parts()
        read, _ = Document.read(schema, stored, 3)
        if read.to_json() != text:
            raise ValueError(
                "the document is not copied or pickled: values of it are not stored, and would be lost"
            )
        state = {name: value for name, value in vars(self).items() if name not in ("_handle", "_by")}
        return _restored, (type(self), schema, stored), state or None

    def __repr__(self) -> str:
        try:
            text = self.to_json()
        except Refused:
            return f"<{type_name(self)}, closed>"
        return f"<{type_name(self)} {text[:100]}{'...' if len(text) > 100 else ''}>"


def _restored(kind: Type[_D], schema: Schema, stored: bytes) -> _D:
    """The document of a pickle."""
    return kind.read(schema, stored, 3)[0]
