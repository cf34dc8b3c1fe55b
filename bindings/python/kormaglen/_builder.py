"""A schema that is built field by field."""

from __future__ import annotations

from typing import Any, Dict, List, NamedTuple, Optional, Union

from kormaglen._arguments import type_name
from kormaglen._schema import Schema
from kormaglen._values import printed

# (the builder has a method `bool`, so the type has another name in it)
Flag = bool
Fast = Union[bool, str]


class Indexing(NamedTuple):
    """How a text is indexed: by which tokenizer, whether field norms are kept, and what is kept of each
    term: `basic` (the documents), `freq` (how often it stands there, too) or `position` (and where).

    >>> Indexing(tokenizer="en_stem").record
    'basic'
    """

    tokenizer: str = "default"
    record: str = "basic"
    fieldnorms: bool = True


# As tantivy's options of these names: a text as one token, and a text word by word.
STRING = Indexing("raw", "basic")
TEXT = Indexing("default", "position")


def _indexing(given: Optional[Indexing]) -> Optional[Dict[str, Any]]:
    if given is None:
        return None
    if not isinstance(given, Indexing):
        raise TypeError(f"indexing: an Indexing is wanted, not {type_name(given)}")
    return given._asdict()


def _fast(given: Fast) -> Any:
    """`fast` of a text or a JSON object: a truth value, or the name of the tokenizer for it."""
    return {"with_tokenizer": given} if isinstance(given, str) else given


class SchemaBuilder:
    """The fields of a schema, one by one. Each call adds a field and returns the builder. The options
    have tantivy's names and defaults; whether they describe a field is said by `build`.

    >>> builder = SchemaBuilder().text("name", indexing=TEXT, stored=True).u64("age", stored=True)
    >>> schema = builder.build()
    >>> [field.name for field in schema.fields]
    ['name', 'age']
    """

    def __init__(self) -> None:
        self._entries: List[Dict[str, Any]] = []

    def _add(self, name: str, kind: str, **options: Any) -> SchemaBuilder:
        """Adds an entry. An option that is None is left out, as the library takes it for not given."""
        given = {key: value for key, value in options.items() if value is not None}
        self._entries.append({"name": name, "type": kind, "options": given})
        return self

    def text(
        self,
        name: str,
        *,
        indexing: Optional[Indexing] = None,
        stored: Flag = False,
        fast: Fast = False,
        coerce: Flag = False,
    ) -> SchemaBuilder:
        """Adds a field of texts. Without `indexing` it isn't indexed. `fast` may be the name of a
        tokenizer. Raises TypeError where `indexing` is another type.

        >>> schema = SchemaBuilder().text("name", indexing=STRING).build()
        >>> schema.field("name").options["indexing"]["tokenizer"]
        'raw'
        """
        return self._add(
            name, "text", indexing=_indexing(indexing), stored=stored, fast=_fast(fast), coerce=coerce
        )

    def u64(
        self,
        name: str,
        *,
        indexed: Flag = False,
        stored: Flag = False,
        fast: Flag = False,
        fieldnorms: Optional[Flag] = None,
        coerce: Flag = False,
    ) -> SchemaBuilder:
        """Adds a field of whole numbers from 0 to 2^64 - 1. `fieldnorms` are as `indexed` where they
        aren't given; `coerce` reads them from texts, too.

        >>> SchemaBuilder().u64("age", indexed=True).build().field("age").options["fieldnorms"]
        True
        """
        return self._add(
            name, "u64", indexed=indexed, stored=stored, fast=fast, fieldnorms=fieldnorms, coerce=coerce
        )

    def i64(
        self,
        name: str,
        *,
        indexed: Flag = False,
        stored: Flag = False,
        fast: Flag = False,
        fieldnorms: Optional[Flag] = None,
        coerce: Flag = False,
    ) -> SchemaBuilder:
        """Adds a field of whole numbers from -2^63 to 2^63 - 1. `fieldnorms` are as `indexed` where
        they aren't given; `coerce` reads them from texts, too.

        >>> SchemaBuilder().i64("height", stored=True).build().field("height").type
        'i64'
        """
        return self._add(
            name, "i64", indexed=indexed, stored=stored, fast=fast, fieldnorms=fieldnorms, coerce=coerce
        )

    def bool(
        self,
        name: str,
        *,
        indexed: Flag = False,
        stored: Flag = False,
        fast: Flag = False,
        fieldnorms: Optional[Flag] = None,
        coerce: Flag = False,
    ) -> SchemaBuilder:
        """Adds a field of truth values. `fieldnorms` are as `indexed` where they aren't given; `coerce`
        reads them from texts, too.

        >>> SchemaBuilder().bool("sold", stored=True).build().field("sold").type
        'bool'
        """
        return self._add(
            name, "bool", indexed=indexed, stored=stored, fast=fast, fieldnorms=fieldnorms, coerce=coerce
        )

    def date(
        self,
        name: str,
        *,
        indexed: Flag = False,
        stored: Flag = False,
        fast: Flag = False,
        fieldnorms: Optional[Flag] = None,
        precision: str = "seconds",
    ) -> SchemaBuilder:
        """Adds a field of moments. `precision` is that of the fast field: `seconds`, `milliseconds`,
        `microseconds` or `nanoseconds`. `fieldnorms` are as `indexed` where they aren't given.

        >>> SchemaBuilder().date("born", stored=True).build().field("born").options["precision"]
        'seconds'
        """
        norms = indexed if fieldnorms is None else fieldnorms
        return self._add(
            name, "date", indexed=indexed, stored=stored, fast=fast, fieldnorms=norms, precision=precision
        )

    def facet(self, name: str, *, stored: Flag = False) -> SchemaBuilder:
        """Adds a field of facets. It is always indexed, and fast.

        >>> SchemaBuilder().facet("group", stored=True).build().field("group").type
        'facet'
        """
        return self._add(name, "facet", stored=stored)

    def bytes(
        self,
        name: str,
        *,
        indexed: Flag = False,
        stored: Flag = False,
        fast: Flag = False,
        fieldnorms: Optional[Flag] = None,
    ) -> SchemaBuilder:
        """Adds a field of bytes. `fieldnorms` are as `indexed` where they aren't given.

        >>> SchemaBuilder().bytes("hash", stored=True).build().field("hash").type
        'bytes'
        """
        return self._add(name, "bytes", indexed=indexed, stored=stored, fast=fast, fieldnorms=fieldnorms)

    def json_object(
        self,
        name: str,
        *,
        indexing: Optional[Indexing] = None,
        stored: Flag = False,
        fast: Fast = False,
        expand_dots_enabled: Flag = False,
    ) -> SchemaBuilder:
        """Adds a field of JSON objects. Without `indexing` its texts aren't indexed. `fast` may be the
        name of a tokenizer. Raises TypeError where `indexing` is another type.

        >>> schema = SchemaBuilder().json_object("more", stored=True).build()
        >>> schema.field("more").options["expand_dots_enabled"]
        False
        """
        index, quick = _indexing(indexing), _fast(fast)
        return self._add(
            name,
            "json_object",
            indexing=index,
            stored=stored,
            fast=quick,
            expand_dots_enabled=expand_dots_enabled,
        )

    def ip_addr(
        self,
        name: str,
        *,
        indexed: Flag = False,
        stored: Flag = False,
        fast: Flag = False,
        fieldnorms: Optional[Flag] = None,
    ) -> SchemaBuilder:
        """Adds a field of IP addresses of both versions. `fieldnorms` are as `indexed` where they
        aren't given.

        >>> SchemaBuilder().ip_addr("host", stored=True).build().field("host").type
        'ip_addr'
        """
        norms = indexed if fieldnorms is None else fieldnorms
        return self._add(name, "ip_addr", indexed=indexed, stored=stored, fast=fast, fieldnorms=norms)

    def to_json(self) -> str:
        """The JSON of the fields so far, as `build` hands it to the library. Raises TypeError where an
        option has no JSON.

        >>> SchemaBuilder().facet("group").to_json()
        '[{"name":"group","type":"facet","options":{"stored":false}}]'
        """
        return printed(self._entries, "the fields")

    def build(self) -> Schema:
        """The schema of the fields so far. The builder stays as it is, and can be used further.

        Raises SchemaRefused where the fields make none, as with two of one name or an option that is no
        truth value, TypeError where an option has no JSON, ValueError for a lone surrogate, MemoryError
        where memory is refused.

        >>> schema = SchemaBuilder().facet("group").build()
        >>> schema == Schema('[{"name":"group","type":"facet","options":{"stored":false}}]')
        True
        """
        return Schema(self.to_json())

    def __repr__(self) -> str:
        names = ", ".join(str(entry["name"]) for entry in self._entries[:10])
        return f"<{type_name(self)} {names}{', ...' if len(self._entries) > 10 else ''}>"
