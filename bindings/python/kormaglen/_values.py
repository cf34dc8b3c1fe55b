"""The values of a document in Python, and as the JSON that the library reads and prints."""

from __future__ import annotations

import base64
import binascii
import datetime
import functools
import ipaddress
import json
import math
import re
from typing import Any, Callable, List, Mapping, Optional, Tuple

from kormaglen._arguments import copied, integer, is_buffer, type_name, within

_EPOCH = datetime.datetime(1970, 1, 1, tzinfo=datetime.timezone.utc)
_BILLION = 1_000_000_000
_LEAST, _MOST = -(1 << 63), (1 << 63) - 1
# As the library prints a date: at UTC, and the fraction without zeros at its end.
_PRINTED = re.compile(r"(\d{4})-(\d\d)-(\d\d)T(\d\d):(\d\d):(\d\d)(?:\.(\d{1,9}))?Z", re.ASCII)


def _nanoseconds(moment: datetime.datetime) -> int:
    """The nanoseconds since 1970 of a `datetime` of any year that has a time zone."""
    since = moment - _EPOCH
    # (other packages have datetimes with nanoseconds, and so have their differences)
    finer = integer(getattr(since, "nanoseconds", 0), "nanoseconds")
    return (since.days * 86400 + since.seconds) * _BILLION + since.microseconds * 1000 + finer


@functools.total_ordering
class DateTime:
    """A moment in nanoseconds since 1970 at UTC, from 1677 to 2262, as the library keeps it. A
    `datetime` has no nanoseconds, so one that is made of a `DateTime` could be another moment.

    It doesn't change. It can be compared with others and with a `datetime` that has a time zone, and is
    equal to one of the same moment.

    Raises TypeError where the nanoseconds are no integer, OverflowError where they don't fit 64 bits
    with a sign.

    >>> DateTime(1_500_000_001)
    DateTime('1970-01-01T00:00:01.500000001Z')
    >>> DateTime(1_500_000_000).to_datetime()
    datetime.datetime(1970, 1, 1, 0, 0, 1, 500000, tzinfo=datetime.timezone.utc)
    """

    _nanoseconds: int = 0

    def __init__(self, nanoseconds: int) -> None:
        object.__setattr__(self, "_nanoseconds", within(nanoseconds, "nanoseconds", _LEAST, _MOST))

    @classmethod
    def from_datetime(cls, moment: datetime.datetime) -> DateTime:
        """The moment of a `datetime` that has a time zone.

        Raises TypeError where it is none, ValueError where it has no time zone, OverflowError where it
        is before 1677 or after 2262.

        >>> DateTime.from_datetime(datetime.datetime(1970, 1, 1, tzinfo=datetime.timezone.utc)).nanoseconds
        0
        """
        if not isinstance(moment, datetime.datetime):
            raise TypeError(f"moment: a datetime is wanted, not {type_name(moment)}")
        if moment.utcoffset() is None:
            raise ValueError(f"moment: {moment} has no time zone, so it is no moment")
        return cls(_nanoseconds(moment))

    @classmethod
    def from_text(cls, text: str) -> DateTime:
        """The moment of a text as `str` gives it: a date at UTC by RFC 3339. A field of dates takes
        more texts than this.

        Raises TypeError where it is no `str`, ValueError where it is another text, OverflowError where
        it is before 1677 or after 2262.

        >>> DateTime.from_text("1970-01-01T00:00:00.000000007Z").nanoseconds
        7
        """
        if not isinstance(text, str):
            raise TypeError(f"text: a str is wanted, not {type_name(text)}")
        parts = _PRINTED.fullmatch(text)
        if parts is None:
            raise ValueError(f"text: {text[:60]!r} is not a date as 1970-01-01T00:00:00Z")
        year, month, day, hour, minute, second = (int(part) for part in parts.groups()[:6])
        moment = datetime.datetime(year, month, day, hour, minute, second, tzinfo=datetime.timezone.utc)
        return cls(_nanoseconds(moment) + int((parts[7] or "").ljust(9, "0")))

    @property
    def nanoseconds(self) -> int:
        """How many nanoseconds after the beginning of 1970 at UTC the moment is; a negative number is
        before it.

        >>> DateTime(-7).nanoseconds
        -7
        """
        return self._nanoseconds

    def to_datetime(self) -> datetime.datetime:
        """The same moment as a `datetime` at UTC. Raises ValueError where it has nanoseconds that make
        no whole microsecond: those would be lost.

        >>> DateTime(1_000).to_datetime().microsecond
        1
        """
        microseconds, left = divmod(self._nanoseconds, 1000)
        if left:
            raise ValueError(f"{self}: a datetime has no nanoseconds")
        return _EPOCH + datetime.timedelta(microseconds=microseconds)

    def __str__(self) -> str:
        seconds, fraction = divmod(self._nanoseconds, _BILLION)
        moment = _EPOCH + datetime.timedelta(seconds=seconds)
        digits = f".{fraction:09d}".rstrip("0") if fraction else ""
        return moment.strftime("%Y-%m-%dT%H:%M:%S") + digits + "Z"

    def __repr__(self) -> str:
        return f"DateTime({str(self)!r})" if type(self) is DateTime else f"<{type_name(self)} {self}>"

    def __setattr__(self, name: str, value: object) -> None:
        raise AttributeError("a DateTime doesn't change")

    def __reduce__(self) -> Tuple[Any, ...]:
        return type(self), (self._nanoseconds,)

    def _exact(self, other: object) -> Optional[int]:
        """The moment of another value in nanoseconds, or None where it is no moment. One of any year is
        compared, too."""
        if isinstance(other, DateTime):
            return other._nanoseconds
        if isinstance(other, datetime.datetime) and other.utcoffset() is not None:
            return _nanoseconds(other)
        return None

    def __eq__(self, other: object) -> bool:
        moment = self._exact(other)
        if moment is None:
            return NotImplemented
        return self._nanoseconds == moment

    def __lt__(self, other: object) -> bool:
        moment = self._exact(other)
        if moment is None:
            return NotImplemented
        return self._nanoseconds < moment

    def __hash__(self) -> int:
        # What is equal has the same hash, also a datetime.
        return hash(self._nanoseconds) if self._nanoseconds % 1000 else hash(self.to_datetime())


def _bytes_of(text: str) -> bytes:
    return base64.b64decode(text, validate=True)


_READ: Mapping[str, Callable[[str], Any]] = {
    "date": DateTime.from_text,
    "bytes": _bytes_of,
    "ip_addr": ipaddress.ip_address,
}


def read_value(kind: str, value: Any) -> Any:
    """What the JSON of a value is in Python, by the type of its field. What another type of value
    printed stays as it is."""
    read = _READ.get(kind)
    if read is None or not isinstance(value, str):
        return value
    try:
        return read(value)
    except (ValueError, OverflowError, binascii.Error):
        return value


def read_values(kind: str, values: List[Any]) -> List[Any]:
    """`read_value` of each."""
    return [read_value(kind, value) for value in values]


def parsed(text: str) -> Any:
    """The value of a JSON that the library printed. Raises ValueError where it is nested more deeply
    than Python's module json reads."""
    try:
        return json.loads(text)
    except RecursionError:
        raise ValueError(
            "the JSON is nested more deeply than Python reads: to_json() gives it as a text"
        ) from None


def printed(value: Any, what: str) -> str:
    """The JSON of plain values. Raises ValueError where they are nested too deeply or in themselves,
    TypeError where one has no JSON."""
    try:
        return json.dumps(value, ensure_ascii=False, separators=(",", ":"), allow_nan=False)
    except RecursionError:
        raise ValueError(f"{what}: the values are nested more deeply than Python writes") from None


def _json_tree(value: Any, name: str) -> Any:
    """A value inside a JSON object, where it is one of JSON's. Python's module json would print a key
    that is no text as another one."""
    if isinstance(value, Mapping):
        for key in value:
            if not isinstance(key, str):
                raise TypeError(f'field "{name}": a key is a str, not {type_name(key)}')
        return {key: _json_tree(inner, name) for key, inner in value.items()}
    if isinstance(value, (list, tuple)):
        return [_json_tree(inner, name) for inner in value]
    if value is None or isinstance(value, (str, bool, int)):
        return value
    if isinstance(value, float):
        if not math.isfinite(value):
            raise ValueError(f'field "{name}": {value} is no number of JSON')
        return value
    if hasattr(type(value), "__index__"):
        return integer(value, f'field "{name}"')
    raise TypeError(f'field "{name}": JSON has no value for {type_name(value)}')


def _written(kind: str, value: Any, name: str) -> Any:
    """The JSON value that the library reads as this value. Whether it fits the field is the library's
    to say."""
    if kind == "date":
        if isinstance(value, datetime.datetime):
            return str(DateTime.from_datetime(value))
        if isinstance(value, DateTime):
            return str(value)
    if kind == "ip_addr" and isinstance(value, (ipaddress.IPv4Address, ipaddress.IPv6Address)):
        return str(value)
    if kind == "bytes" and is_buffer(value):
        return base64.b64encode(copied(value, f'field "{name}"', texts=False)).decode()
    return _json_tree(value, name)


def written_values(kind: str, value: Any, name: str) -> List[Any]:
    """The JSON of a field's value, or of its values where it is a list or a tuple.

    Raises TypeError where a value has no JSON, ValueError for a datetime without a time zone, NaN or
    values nested too deeply.
    """
    try:
        many = value if isinstance(value, (list, tuple)) else [value]
        return [_written(kind, each, name) for each in many]
    except RecursionError:
        raise ValueError(f'field "{name}": the values are nested too deeply') from None
