"""What became of lines that were imported, line by line."""

from __future__ import annotations

import struct
from typing import Any, Iterator, List, NamedTuple, Optional, Sequence, Tuple, TypeVar

from kormaglen._library import LINE_ANSWER, LINE_ANSWER_SIZE
from kormaglen._refusals import (
    SHOWN,
    JsonFault,
    LineRefused,
    LineRow,
    LineStatus,
    fault_of,
    field_of,
    line_refused,
)

_T = TypeVar("_T")


class LineAnswer(NamedTuple):
    """What became of a line: `LineStatus.STORED`, or why it was refused; how many bytes its document
    takes in the block, 0 where it was refused; the number of the field whose value was refused, or None;
    and `fault` and `byte` of a line that is no JSON object, as `LineRefused` has them, or None.

    >>> import_lines(SCHEMA, '{"age":"x"}').lines[0].field
    0
    >>> answer = import_lines(SCHEMA, '{"age" 7}').lines[0]
    >>> answer.fault.name, answer.byte, answer.size
    ('COLON', 7, 0)
    """

    status: LineStatus
    size: int
    field: Optional[int]
    fault: Optional[JsonFault] = None
    byte: Optional[int] = None


class _Rows(Sequence[_T]):
    """A sequence whose items are made when they are asked for."""

    def _at(self, index: int) -> _T:
        raise NotImplementedError

    def __getitem__(self, index: Any) -> Any:
        if isinstance(index, slice):
            return [self._at(each) for each in range(*index.indices(len(self)))]
        try:
            return self._at(range(len(self))[index])
        except IndexError:
            raise IndexError(f"{index} is out of range: there are {len(self)}") from None

    def __eq__(self, other: object) -> bool:
        if not isinstance(other, (list, tuple, _Rows)):
            return NotImplemented
        return len(self) == len(other) and all(one == another for one, another in zip(self, other))

    __hash__ = None  # type: ignore[assignment]

    def __repr__(self) -> str:
        more = ", ..." if len(self) > 3 else ""
        return "[" + ", ".join(repr(each) for each in self[:3]) + more + "]"


class LineAnswers(_Rows[LineAnswer]):
    """A `LineAnswer` for each line, in order. It takes 16 bytes a line.

    >>> len(import_lines(SCHEMA, '{"age":1}').lines)
    1
    """

    def __init__(self, packed: bytes = b"") -> None:
        self._packed = packed

    def __len__(self) -> int:
        return len(self._packed) // LINE_ANSWER_SIZE

    def _at(self, index: int) -> LineAnswer:
        row: Any = struct.unpack_from(LINE_ANSWER, self._packed, index * LINE_ANSWER_SIZE)
        return _answer(row)

    def __iter__(self) -> Iterator[LineAnswer]:
        return map(_answer, _unpacked(self._packed))


def _unpacked(packed: bytes) -> Iterator[Any]:
    """What the library answers of each line, as a `LineRow`."""
    return struct.iter_unpack(LINE_ANSWER, packed)


def _answer(row: LineRow) -> LineAnswer:
    status = LineStatus(row[0])
    if status == LineStatus.STORED:
        return LineAnswer(status, row[2], None)
    return LineAnswer(status, 0, field_of(row), *fault_of(row))


# A line that was refused: its number, what the library answers of it, the name of the field, and how it
# begins. (All of it is plain, so that it is pickled without the name of a class.)
_Record = Tuple[int, LineRow, Optional[str], bytes]


class LineRefusals(_Rows[LineRefused]):
    """A `LineRefused` for each line that was refused, in order, to look at or to raise.

    >>> import_lines(SCHEMA, '{"age":1}\\n{"age":"x"}').refused[0].line
    2
    """

    def __init__(self, records: Sequence[_Record] = ()) -> None:
        self._records = records

    def __len__(self) -> int:
        return len(self._records)

    def _at(self, index: int) -> LineRefused:
        line, row, name, text = self._records[index]
        return line_refused(row, text, line, name)


class Imported(NamedTuple):
    """What lines gave: a block of their documents in version 2, an answer for each line, those that
    were refused, and the number of the first line, which is 1 but for later parts.

    >>> import_lines(SCHEMA, '{"age":1}').block.hex()
    '8100000000010100000000000000'
    """

    block: bytes
    lines: LineAnswers
    refused: LineRefusals
    first: int


class ImportCounts(NamedTuple):
    """What an import of a file gave: how many lines there were, how many were stored and how many
    refused, the size of the block in bytes, and the first 100 that were refused.

    >>> Schema(SCHEMA).import_file(["{}"], io.BytesIO())[:4]
    (1, 1, 0, 1)
    """

    lines: int
    stored: int
    refused: int
    size: int
    refusals: Tuple[LineRefused, ...]


def imported(piece: bytes, block: bytes, packed: bytes, first: int, names: Sequence[str]) -> Imported:
    """What the lines of a piece gave. How a line begins is kept of those that were refused alone."""
    records: List[_Record] = []
    if any(status for status, _, _ in _unpacked(packed)):
        start = 0
        for line, row in enumerate(_unpacked(packed), first):
            if row[0] != LineStatus.STORED:
                field = field_of(row)
                name = None if field is None else names[field]
                records.append((line, row, name, _line_at(piece, start)))
            start = piece.find(b"\n", start) + 1
    return Imported(block, LineAnswers(packed), LineRefusals(records), first)


def _line_at(piece: bytes, start: int) -> bytes:
    """How the line begins that begins at a place."""
    return piece[start : start + 4 * SHOWN].split(b"\n", 1)[0]


def joined(parts: List[Imported]) -> Imported:
    """The parts as one."""
    if len(parts) == 1:
        return parts[0]
    block = b"".join(part.block for part in parts)
    packed = b"".join(part.lines._packed for part in parts)
    records = [record for part in parts for record in part.refused._records]
    return Imported(block, LineAnswers(packed), LineRefusals(records), 1)
