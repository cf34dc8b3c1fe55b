"""A schema, held by the library: its JSON and its fields."""

from __future__ import annotations

import json as _json
from typing import Any, Dict, NamedTuple, Optional, Tuple

from kormaglen._arguments import Lent, copied, filled, text, type_name
from kormaglen._handles import Handle, Held, opened
from kormaglen._library import CALLS, FoundField, SchemaStruct
from kormaglen._refusals import (
    Closed,
    LineRow,
    Status,
    field_of,
    field_refused,
    refused,
    schema_refused,
)
from kormaglen._types import Json
from kormaglen._values import printed


class Field(NamedTuple):
    """A field of a schema: its number from 0, its name, the name of its type as the schema's JSON has
    it, and its options, all of them.

    >>> Schema(SCHEMA).field("age")[:3]
    (0, 'age', 'u64')
    """

    number: int
    name: str
    type: str
    options: Dict[str, Any]


class Found(NamedTuple):
    """The field that a path names: its number, and the rest of the path, which leads into the field's
    JSON objects.

    >>> Schema(SCHEMA).find_field("age")
    Found(field=0, rest='')
    """

    field: int
    rest: str


class HeldSchema(Held):
    """What a schema says of itself. `Schema` adds what is done by it."""

    _what = "schema"
    _names: Optional[Dict[str, str]] = None

    def __init__(self, json: Json) -> None:
        if self._handle is not None:
            raise ValueError("a schema is opened once")
        given = printed(list(json), "json") if isinstance(json, (list, tuple)) else json
        handle = Handle(SchemaStruct())
        with Lent(given, "json", texts=True) as lent, handle.lock:
            answer = CALLS.kormaglen_schema_open(lent.at, lent.size, handle.ref)
        if answer.status in (Status.INVALID_JSON, Status.BAD_SCHEMA):
            raise schema_refused(answer, _name_of_entry(given, answer.place))
        if answer.status != Status.OK:
            raise refused(answer)
        self._names = None
        self._handle = handle

    def to_json(self) -> str:
        """The schema's JSON with all options written out. Equal schemas have the same. Raises Closed
        where the schema is closed, MemoryError where memory is refused.

        >>> Schema("[]").to_json()
        '[]'
        """
        handle = opened(self, HeldSchema)
        with handle.lock:
            return filled(
                1024, lambda at, size: CALLS.kormaglen_schema_to_json(handle.ref, at, size)
            ).decode()

    @property
    def fields(self) -> Tuple[Field, ...]:
        """The fields in order. Raises Closed where the schema is closed, MemoryError where memory is
        refused.

        >>> [field.name for field in Schema(SCHEMA).fields]
        ['age']
        """
        entries = _json.loads(self.to_json())
        return tuple(
            Field(at, entry["name"], entry["type"], entry["options"]) for at, entry in enumerate(entries)
        )

    def field(self, name: str) -> Field:
        """The field of a name. Raises FieldRefused where none has it, TypeError where it is no `str`,
        Closed where the schema is closed, MemoryError where memory is refused.

        >>> Schema(SCHEMA).field("age").options["stored"]
        True
        """
        text(name, "name")
        for field in self.fields:
            if field.name == name:
                return field
        raise field_refused(name)

    def find_field(self, path: str) -> Found:
        """The field that a path of a query names, as `author.name`: that of the whole path, or of the
        part before the last dot that names one.

        Raises FieldRefused where there is none, TypeError where the path is no `str`, ValueError for a
        lone surrogate, Closed where the schema is closed.

        >>> Schema(SCHEMA).find_field("age").field
        0
        """
        given = text(path, "path")
        found = FoundField()
        handle = opened(self, HeldSchema)
        with Lent(given, "path") as lent, handle.lock:
            answer = CALLS.kormaglen_schema_find_field(handle.ref, lent.at, lent.size, found)
        if answer.status == Status.NO_FIELD:
            raise field_refused(path)
        if answer.status != Status.OK:
            raise refused(answer)
        return Found(found.field, given[found.rest :].decode())

    def _kinds(self) -> Dict[str, str]:
        """The names of the fields in order, each with the name of its type. They are kept, since a
        schema doesn't change."""
        kinds = self._names
        if kinds is None or self.closed:
            kinds = {field.name: field.type for field in self.fields}
            self._names = kinds
        return kinds

    def _about(self, row: LineRow) -> Optional[str]:
        """The name of the field that a refusal of a line is about, or None."""
        field = field_of(row)
        return None if field is None else list(self._kinds())[field]

    def __eq__(self, other: object) -> bool:
        if not isinstance(other, HeldSchema):
            return NotImplemented
        if self is other:
            return True
        try:
            return self.to_json() == other.to_json()
        except Closed:
            return False

    def __hash__(self) -> int:
        return hash(self.to_json())

    def __reduce__(self) -> Tuple[Any, ...]:
        state = {name: value for name, value in vars(self).items() if name not in ("_handle", "_names")}
        return type(self), (self.to_json(),), state or None

    def __repr__(self) -> str:
        try:
            kinds = self._kinds()
        except Closed:
            return f"<{type_name(self)}, closed>"
        shown = ", ".join(f"{name} {kind}" for name, kind in list(kinds.items())[:10])
        return f"<{type_name(self)} {shown}{', ...' if len(kinds) > 10 else ''}>"


def _name_of_entry(json: Any, entry: int) -> Optional[str]:
    """The name of an entry, from 1, of a JSON that describes no schema, where it has one."""
    try:
        name = _json.loads(copied(json, "json"))[entry - 1]["name"] if entry else None
    except (ValueError, TypeError, LookupError, RecursionError):
        return None
    return name if isinstance(name, str) else None
