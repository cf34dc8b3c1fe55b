"""The values that the fuzzer hands over: for each kind of argument fitting ones, broken ones and ones of
other types."""

from __future__ import annotations

import array
import ctypes
import datetime
import enum
import io
import ipaddress
import json
import mmap
import random
import threading
from typing import Any, Callable, Dict, List, Optional

import kormaglen as K
from tests.common import ENTRIES, SCHEMA, TOKENS

LINES = [
    b'{"name":"Ada","age":36,"group":"/staff/research"}',
    b'{"age":"x"}',
    b"",
    b"{}",
    '{"name":["a","é"],"word":[1,true,null],"more":{"k":[1,{"l":"m"}],"n":null},"hash":"AAEC"}'.encode(),
    b'{"when":"2020-02-29T12:00:00.123456789Z","host":["::1","10.0.0.1"],"sold":true,"height":-7}',
    b'{"secret":9}',
    TOKENS.encode(),
]
BLOCK = K.import_lines(SCHEMA, LINES).block
# A number in the field of dates, which has no term.
FAULT = b"\x81\4\0\0\0\2" + bytes(8)
BLOCKS = [BLOCK, K.migrate_block(2, BLOCK, 3), BLOCK + FAULT, b"\x80", b"", b'\x81\x07\0\0\0\x08{"a":1}']
TERMS = [
    b"\0\0\0\0sAda",
    b"\0\0\0\1u\0\0\0\0\0\0\0\x24",
    b"\0\0\0\2d\x80\0\0\0\0\0\0\0",
    b"\0\0\0\3hstaff\0research",
    b"\0\0\0\4b\0\1\2",
    b"\0\0\0\5p" + b"\0" * 15 + b"\1",
    b"\0\0\0\6ja\1b\0i\x80\0\0\0\0\0\0\7",
]

NUMBERS: List[Any] = [
    0,
    1,
    2,
    3,
    4,
    7,
    11,
    -1,
    255,
    2**31 - 1,
    2**31,
    2**32 - 1,
    2**32,
    2**32 + 2,
    2**63,
    2**64,
    2**64 + 2,
    -(2**31),
    -(2**64),
    10**5000,
    True,
    False,
    2.0,
    1e300,
    float("nan"),
    None,
    "2",
    b"2",
]


class Lying(bytes):
    """Bytes that say another length."""

    def __len__(self) -> int:
        return 10**9


class LyingText(str):
    """A text that says another length and another UTF-8."""

    def __len__(self) -> int:
        return 10**9

    def encode(self, *_: Any, **__: Any) -> bytes:
        return b"\xff" * 3


class Index:
    """A number by `__index__`, or none."""

    def __init__(self, given: Any) -> None:
        self.given = given

    def __index__(self) -> int:
        if isinstance(self.given, BaseException):
            raise self.given
        return self.given


class Kind(enum.IntEnum):
    """A number of a type of its own."""

    TWO = 2
    LARGE = 2**40


class OddFile:
    """A file whose `read` and `write` give what they like."""

    def __init__(self, given: Any) -> None:
        self.given, self.left = given, 3

    def read(self, _: int = -1) -> Any:
        self.left -= 1
        if self.left < 0:
            return b""
        if isinstance(self.given, BaseException):
            raise self.given
        return self.given

    def write(self, _: Any) -> Any:
        return self.given


class Racing:
    """Bytearrays that a thread changes all the time: each byte for a moment, and their size where nobody
    holds them."""

    def __init__(self) -> None:
        self.arrays = [
            bytearray(BLOCK * 20),
            bytearray(b"\n".join(LINES) * 20),
            bytearray(LINES[4]),
            bytearray(SCHEMA),
        ]
        self._good = [bytes(each) for each in self.arrays]
        self._stop = threading.Event()
        self._thread = threading.Thread(target=self._run, daemon=True)
        self._thread.start()

    def _run(self) -> None:
        rng = random.Random(1)
        while not self._stop.is_set():
            for each, good in zip(self.arrays, self._good):
                at = rng.randrange(len(good))
                try:
                    each[at] = rng.choice((0, 34, 92, 125, 128, 129, 195, 255))
                    each[at] = good[at]
                    if rng.random() < 0.01:
                        each.append(0)
                        each.pop()
                except (BufferError, IndexError):
                    pass
            self._stop.wait(0.0005)

    def stop(self) -> None:
        """Ends the thread."""
        self._stop.set()
        self._thread.join()


def _released(data: bytes) -> memoryview:
    view = memoryview(data)
    view.release()
    return view


def _mapped(data: bytes, closed: bool = False) -> mmap.mmap:
    mapped = mmap.mmap(-1, max(len(data), 1))
    mapped.write(data or b"\0")
    if closed:
        mapped.close()
    return mapped


def _wide(data: bytes) -> "array.array[int]":
    return array.array("I", data + bytes(-len(data) % 4))


class Values:
    """Draws arguments. `racing` has bytearrays that change meanwhile."""

    def __init__(self, seed: int, racing: Racing) -> None:
        self.rng = random.Random(seed)
        self.racing = racing
        self._kept: Dict[Any, K.Schema] = {}
        self.closed = K.Schema(SCHEMA)
        self.closed.close()

    def kept(self, json: Any = SCHEMA) -> K.Schema:
        """A schema that many calls share. (A call may have closed it: then it is another one.)"""
        if json not in self._kept or self._kept[json].closed:
            self._kept[json] = K.Schema(json)
        return self._kept[json]

    def other(self) -> K.Schema:
        """A schema with another type of one name."""
        return self.kept('[{"name":"age","type":"text","options":{"stored":true}}]')

    def chance(self, share: float) -> bool:
        """True in this share of all cases."""
        return self.rng.random() < share

    def mutated(self, data: bytes) -> bytes:
        """The bytes with some changed, left out or put in."""
        given = bytearray(data)
        for _ in range(self.rng.choice((0, 0, 1, 1, 2, 5))):
            at = self.rng.randrange(len(given) + 1)
            which = self.rng.randrange(4)
            if which == 0:
                given[at:at] = bytes(self.rng.choices(range(256), k=self.rng.randrange(4)))
            elif which == 1:
                del given[at : at + self.rng.randrange(6)]
            elif which == 2 and at < len(given):
                given[at] = self.rng.choice(
                    (0, 10, 34, 92, 123, 125, 128, 129, 255, self.rng.randrange(256))
                )
            else:
                given = given[:at]
        return bytes(given)

    def data(self) -> bytes:
        """Bytes of any meaning."""
        which = self.rng.randrange(6)
        if which == 0:
            return bytes(self.rng.choices(range(256), k=self.rng.choice((0, 1, 5, 30, 300))))
        if which == 1:
            return self.mutated(b"\n".join(self.rng.choices(LINES, k=self.rng.randrange(1, 9))))
        if which == 2:
            return self.mutated(self.rng.choice(LINES))
        if which == 3:
            return self.mutated(SCHEMA)
        return self.mutated(self.rng.choice(BLOCKS) * self.rng.choice((1, 1, 3, 40)))

    def of(self, good: List[bytes], times: int = 1) -> bytes:
        """One of these, several times or changed, or bytes of any meaning."""
        if self.chance(0.15):
            return self.data()
        given = self.rng.choice(good) * self.rng.choice((1, times))
        return given if self.chance(0.6) else self.mutated(given)

    def buffer(self, data: Optional[bytes] = None) -> Any:
        """A buffer of any kind, or what nearly is one."""
        given = self.data() if data is None else data
        if self.chance(0.5):
            return self.rng.choice((bytes, bytearray, memoryview, Lying))(given)
        makers: List[Callable[[bytes], Any]] = [
            lambda d: array.array("b", d),
            _wide,
            _mapped,
            lambda d: memoryview(d)[::2],
            lambda d: memoryview(d)[1:],
            lambda d: memoryview(b"x" + d)[1:][::-1],
            _released,
            lambda d: _mapped(d, True),
            lambda d: memoryview(_wide(d)),
            lambda d: ctypes.create_string_buffer(d, len(d)),
            lambda d: memoryview(d + bytes(-len(d) % 2)).cast("B", [2, (len(d) + 1) // 2]) if d else b"",
            lambda d: self.rng.choice(self.racing.arrays),
        ]
        return self.rng.choice(makers)(given)

    def text(self) -> Any:
        """A text of any kind."""
        plain = [
            "age",
            "more.a",
            "more.a\\.b",
            "/staff/research",
            "/",
            "",
            "é\0\U0001f600",
            "name",
            "no slash",
            "x" * 5000,
        ]
        odd: List[Any] = ["\ud800", "a\udfff", LyingText("age"), LyingText("/a"), b"age", None, 5]
        if self.chance(0.2):
            return self.rng.choice(odd)
        if self.chance(0.1):
            return self.data().decode("utf-8", "surrogateescape")
        return self.rng.choice(plain)

    def path(self) -> Any:
        """A path that names an indexed field, or a text of any kind."""
        return self.text() if self.chance(0.4) else self.rng.choice(["age", "age", "group"])

    def query(self) -> Any:
        """A text of a query, or one of any kind."""
        plain = ["*", "36", "7", "[1 TO 36}", "{36 TO *]", "[2 TO 1]", "/a/b", "[/a TO /b]"]
        return self.text() if self.chance(0.3) else self.rng.choice(plain)

    def pairs(self) -> Any:
        """Pairs of a number and a facet, mostly."""
        facets = [b"a", b"a\0b", b"a\0c\0d", b"b", b""]
        pairs: List[Any] = [
            (self.number(), self.buffer(self.of(facets))) if self.chance(0.3) else (7, self.rng.choice(facets))
            for _ in range(self.rng.randrange(4))
        ]
        if self.chance(0.05):
            pairs.append(self.rng.choice([(1,), 7, "ab", None, (1, b"a", 2)]))
        return self.rng.choice([pairs, tuple(pairs), iter(pairs)])

    def number(self) -> Any:
        """A number of any size, or what is none."""
        if self.chance(0.7):
            return self.rng.choice((1, 2, 2, 3, 3))
        if self.chance(0.2):
            errors = [ValueError("index"), TypeError("index"), OverflowError("index")]
            return Index(self.rng.choice([0, 2, 2**32 + 2, -1, "2", *errors]))
        return self.rng.choice([*NUMBERS, Kind.TWO, Kind.LARGE, self.rng.randrange(2**33)])

    def source(self, good: List[bytes], times: int = 1) -> Any:
        """Lines, or a block: a buffer, a file or an iterable."""
        data = self.of(good, times)
        if self.chance(0.5):
            return self.buffer(data)
        text = data.decode("utf-8", "replace")
        closed_file = io.BytesIO(data)
        closed_file.close()
        return self.rng.choice(
            [
                lambda: text,
                lambda: io.BytesIO(data),
                lambda: io.StringIO(text),
                lambda: data.split(b"\n"),
                lambda: iter(text.split("\n")),
                lambda: [self.buffer(), self.text(), self.number()],
                lambda: closed_file,
                lambda: OddFile(
                    self.rng.choice(
                        [
                            None,
                            5,
                            b"x",
                            "{}",
                            "\ud800",
                            [],
                            OSError("odd"),
                            ValueError("odd"),
                            memoryview(b"ab")[::2],
                        ]
                    )
                ),
            ]
        )()

    def schema(self) -> Any:
        """A schema in any state, or a JSON of one."""

        class Bare(K.Schema):
            """A subclass that opens nothing."""

            def __init__(self) -> None:
                pass

        if self.chance(0.6):
            return self.kept()
        return self.rng.choice(
            [
                lambda: K.Schema(SCHEMA),
                lambda: K.Schema(ENTRIES),
                self.kept,
                self.kept,
                lambda: self.closed,
                self.other,
                lambda: self.kept("[]"),
                lambda: K.Schema.__new__(K.Schema),
                lambda: object.__new__(K.Schema),
                Bare,
            ]
        )()

    def document(self) -> Any:
        """A document in any state."""

        def closed() -> K.Document:
            document = self.kept().parse("{}")
            document.close()
            return document

        def orphan() -> K.Document:
            schema = K.Schema(SCHEMA)
            document = schema.parse('{"age":1}')
            schema.close()
            return document

        if self.chance(0.6):
            return self.kept().parse(self.rng.choice(LINES[3:]))
        return self.rng.choice(
            [
                lambda: self.kept().parse(self.rng.choice(LINES[3:])),
                lambda: self.kept().read(BLOCK)[0],
                lambda: self.kept("[]").read(BLOCK)[0],
                lambda: self.other().read(BLOCK)[0],
                lambda: K.Document.__new__(K.Document),
                closed,
                orphan,
            ]
        )()

    def mapping(self) -> Any:
        """Values by name, of any kind."""
        names = [entry["name"] for entry in ENTRIES] + ["none", "", 5, "\ud800"]
        return {self.rng.choice(names): self.value(2) for _ in range(self.rng.randrange(4))}

    def value(self, depth: int) -> Any:
        """A value of a field."""
        if depth and self.chance(0.3):
            return [self.value(depth - 1) for _ in range(self.rng.randrange(3))]
        if depth and self.chance(0.2):
            return {
                self.rng.choice(["k", "é", "text", "tokens", 5]): self.value(depth - 1)
                for _ in range(self.rng.randrange(3))
            }
        moment = datetime.datetime(2020, 2, 29, tzinfo=self.rng.choice([None, datetime.timezone.utc]))
        return self.rng.choice(
            [
                self.text,
                self.number,
                self.buffer,
                lambda: moment,
                lambda: K.DateTime(self.rng.randrange(-(2**63), 2**63)),
                lambda: 1.5,
                lambda: ipaddress.ip_address(self.rng.randrange(2**32)),
                lambda: self.rng.randrange(-(2**64), 2**65),
                object,
            ]
        )()

    def anything(self) -> Any:
        """A value of any type."""
        plain: Dict[str, Any] = {"age": 1}
        return self.rng.choice(
            [
                self.buffer,
                self.text,
                self.number,
                self.schema,
                self.document,
                lambda: self.source(LINES),
                self.mapping,
                lambda: json.loads(SCHEMA),
                lambda: plain,
                object,
                lambda: [],
                lambda: K.Schema,
                lambda: len,
                lambda: K.Indexing(),
                lambda: K.SchemaBuilder(),
            ]
        )()
