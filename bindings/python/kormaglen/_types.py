"""Names for the types of arguments, for type checkers. When the package runs they say nothing:
what is given is tested then."""

from __future__ import annotations

from typing import TYPE_CHECKING, Any, Iterable, Mapping, Sequence, Union

if TYPE_CHECKING:
    import os

    from _typeshed import ReadableBuffer, SupportsRead, SupportsWrite

    # Anything with the buffer protocol. (Python itself has a name for it from 3.12 on.)
    Buffer = ReadableBuffer
    TextOrBuffer = Union[str, Buffer]
    # A schema's JSON, as a text or as the list of its entries.
    Json = Union[TextOrBuffer, Sequence[Mapping[str, Any]]]
    # What holds documents, and what holds lines.
    Block = Union[Buffer, SupportsRead[Buffer]]
    Lines = Union[TextOrBuffer, SupportsRead[TextOrBuffer], Iterable[TextOrBuffer]]
    # Files by their paths, or open ones.
    LinesFile = Union[Lines, "os.PathLike[str]"]
    BlockFile = Union[str, "os.PathLike[str]", SupportsWrite[Buffer]]
else:
    Buffer = TextOrBuffer = Json = Block = Lines = LinesFile = BlockFile = Any
