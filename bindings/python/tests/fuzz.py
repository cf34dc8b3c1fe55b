"""Calls every public name of the package with arguments of every type and state, for some seconds, and
prints how often each was called.

    python tests/fuzz.py --seconds 60 --seed 1

Under the address sanitizer:

    export LD_PRELOAD=$(gcc -print-file-name=libasan.so) ASAN_OPTIONS=detect_leaks=0 PYTHONMALLOC=malloc
    python tests/fuzz.py --seconds 60

The names come from `kormaglen.__all__` and the classes, so that a new one is called, too. What is tested:
only exceptions that are documented come; the input stays as it was; a number is taken as it is or refused;
and memory stays within 5 percent over the second half.
"""

from __future__ import annotations

import argparse
import collections
import copy
import ctypes
import datetime
import enum
import gc
import inspect
import os
import pickle
import sys
import tempfile
import time
from typing import Any, Callable, Dict, Iterator, List, Tuple

sys.path.insert(0, os.path.dirname(os.path.dirname(os.path.abspath(__file__))))

import kormaglen as K
from tests.common import SCHEMA, own_members
from tests.fuzz_values import BLOCKS, LINES, TERMS, Racing, Values

DOCUMENTED = (ValueError, TypeError, OverflowError, BufferError, MemoryError)
# What a mapping, a sequence and the files that were handed over raise besides.
BESIDES: Dict[str, Tuple[type, ...]] = {
    "Document.__getitem__": (KeyError,),
    "LineAnswers.__getitem__": (IndexError,),
    "LineRefusals.__getitem__": (IndexError,),
    "Schema.import_file": (OSError,),
    "Schema.import_lines": (OSError,),
    "Schema.import_chunks": (OSError,),
    "Schema.export_chunks": (OSError,),
    "Schema.documents": (OSError,),
    "import_lines": (OSError,),
    "migrate_chunks": (OSError,),
    # (what the iterable raises: a memoryview of two dimensions has no items)
    "count_facets": (NotImplementedError,),
    "terms": (OSError,),
}
# Calls of Python's own that our classes answer.
SPECIAL: Dict[str, Callable[..., Any]] = {
    "__eq__": lambda one, other: one == other,
    "__lt__": lambda one, other: one < other,
    "__hash__": lambda one: hash(one),
    "__repr__": lambda one: repr(one),
    "__str__": lambda one: str(one),
    "__len__": lambda one: len(one),
    "__iter__": lambda one: list(one),
    "__getitem__": lambda one, key: one[key],
    "__contains__": lambda one, key: key in one,
    "__reduce__": lambda one: pickle.loads(pickle.dumps(one)),
    "__reduce_ex__": lambda one: (copy.copy(one), copy.deepcopy(one)),
    "__enter__": lambda one: one.__enter__(),
    "__exit__": lambda one: one.__exit__(None, None, None),
}


def targets() -> Iterator[Tuple[str, Callable[..., Any], Any]]:
    """Each public name with how it is called, and the class whose instance comes first, or None."""
    for name in K.__all__:
        value = getattr(K, name)
        if not inspect.isclass(value):
            if callable(value):
                yield name, value, None
            continue
        yield name, value, None
        plain = issubclass(value, (enum.Enum, tuple))
        own = own_members(value)
        for member in sorted({*own, *dir(value)}):
            if member in SPECIAL and not plain and (member != "__lt__" or member in own):
                yield f"{name}.{member}", SPECIAL[member], value
            elif member in own and not member.startswith("_"):
                static = inspect.getattr_static(value, member)
                if isinstance(static, property):
                    yield f"{name}.{member}", static.__get__, value
                elif isinstance(static, (staticmethod, classmethod)):
                    yield f"{name}.{member}", getattr(value, member), None
                else:
                    yield f"{name}.{member}", static, value


def snapshot(value: Any) -> Any:
    """What an input has, to see that it stays so: the bytes of a buffer, or a copy of plain values."""
    try:
        return bytes(memoryview(value))
    except (TypeError, ValueError, BufferError):
        pass
    if isinstance(value, (list, dict)):
        try:
            return pickle.dumps(value)
        except Exception:
            return None
    return None


class Fuzzer:
    """One run."""

    def __init__(self, seed: int) -> None:
        self.racing = Racing()
        self.values = Values(seed, self.racing)
        self.counts: Dict[str, List[int]] = collections.defaultdict(lambda: [0, 0])
        self.targets = list(targets())
        # Those that reach the library are called more often.
        library = [
            each
            for each in self.targets
            if each[2] in (K.Schema, K.Document) or inspect.isfunction(each[1]) and each[2] is None
        ]
        self.drawn = self.targets + library * 5

    def instance(self, kind: type) -> Any:
        """An instance of a class, in any state."""
        values = self.values
        if kind is K.Schema:
            return values.schema()
        if kind is K.Document:
            return values.document()
        imported = K.import_lines(
            K.Schema('[{"name":"age","type":"text","options":{"stored":true}}]'), b'{"age":5}\n{}\n'
        )
        ready: Dict[type, Callable[[], Any]] = {
            K.DateTime: lambda: values.rng.choice(
                [K.DateTime(values.rng.randrange(-(2**63), 2**63)), object.__new__(K.DateTime)]
            ),
            K.SchemaBuilder: lambda: K.SchemaBuilder().text("name"),
            K.LineAnswers: lambda: imported.lines,
            K.LineRefusals: lambda: imported.refused,
        }
        if kind in ready:
            return ready[kind]()
        if issubclass(kind, enum.Enum):
            return values.rng.choice(list(kind))
        if issubclass(kind, BaseException):
            return kind("message")
        return kind(*range(len(inspect.signature(kind).parameters)))

    def argument(self, name: str) -> Any:
        """An argument for a parameter: mostly of its kind."""
        values = self.values
        by_name: Dict[str, Callable[[], Any]] = {
            "schema": lambda: values.schema() if values.chance(0.7) else values.buffer(values.of([SCHEMA])),
            "version": values.number,
            "source": values.number,
            "target": values.number,
            "field": values.number,
            "chunk_size": values.number,
            "nanoseconds": values.number,
            "block": lambda: values.source(BLOCKS, 30),
            "lines": lambda: values.source([LINES[0], b"\n".join(LINES)], 1),
            "data": lambda: values.buffer(values.of(BLOCKS, 3)),
            "line": lambda: values.buffer(values.of(LINES)),
            "json": lambda: values.buffer(values.of([SCHEMA, b"[]"])),
            "encoded": values.buffer,
            "parent": lambda: values.buffer(values.of([b"", b"a"])),
            "pairs": values.pairs,
            "prefix": values.buffer,
            "term": lambda: values.buffer(values.of(TERMS)),
            "values": values.mapping,
            "path": values.path,
            "name": values.text,
            "value": values.text,
            "text": values.query,
            "moment": lambda: datetime.datetime(
                values.rng.choice([1, 1677, 2024, 9999]), 1, 1, tzinfo=datetime.timezone.utc
            ),
            "indexing": lambda: values.rng.choice([None, K.TEXT]),
            "on_refused": lambda: values.rng.choice([None, lambda _: None]),
            "on_fault": lambda: values.rng.choice([None, str, lambda _: None]),
        }
        if name not in by_name or values.chance(0.12):
            return values.anything()
        return by_name[name]()

    def arguments(self, call: Callable[..., Any], given: int) -> List[Any]:
        """Arguments for a call, after those that are given; now and then one too few or too many."""
        try:
            names = [
                p.name for p in inspect.signature(call).parameters.values() if p.kind is not p.VAR_KEYWORD
            ][given:]
        except (TypeError, ValueError):
            names = ["value"]
        if self.values.chance(0.5):
            rare = ("chunk_size", "on_refused", "on_fault", "names", "module")
            names = [name for name in names if name not in rare]
        if self.values.chance(0.03):
            names = names[:-1] if self.values.chance(0.5) else names + ["more"]
        return [self.argument(name) for name in names]

    def once(self) -> None:
        """One call of one name."""
        name, call, kind = self.values.rng.choice(self.drawn)
        first = [] if kind is None else [self.instance(kind)]
        rest = self.arguments(call, len(first)) if not _is_getter(call) else []
        if inspect.isclass(call) and issubclass(call, enum.Enum):
            rest = rest[:1]
        if name == "Schema.import_file" and self.values.chance(0.5):
            rest[1:2] = ["block"]
        keywords = [] if inspect.isclass(call) or not inspect.isfunction(call) else _keyword_only(call)
        named = {key: rest.pop() for key in reversed(keywords) if len(rest) > 0}
        before = [snapshot(each) for each in rest]
        self.counts[name][0] += 1
        try:
            result = call(*first, *rest, **named)
            if isinstance(result, Iterator):
                result = [each for each, _ in zip(result, range(300))]
        except DOCUMENTED:
            self.counts[name][1] += 1
        except BESIDES.get(name.split("|", 1)[0], ()):
            self.counts[name][1] += 1
        else:
            check_numbers(name, rest, result)
        for each, had in zip(rest, before):
            if (
                had is not None
                and not any(each is racing for racing in self.racing.arrays)
                and snapshot(each) not in (had, None)
            ):
                raise AssertionError(f"{name}: the input {each!r:.100} is another one after the call")


def _is_getter(call: Any) -> bool:
    return getattr(call, "__name__", "") == "__get__"


def _keyword_only(call: Callable[..., Any]) -> List[str]:
    return [p.name for p in inspect.signature(call).parameters.values() if p.kind is p.KEYWORD_ONLY]


def plain_number(value: Any) -> int:
    """The number that an argument is, which must be one if the call was answered."""
    if isinstance(value, (bool, float, str, bytes)) or value is None:
        raise AssertionError(f"{value!r} was taken for a number")
    return value if isinstance(value, int) else value.__index__()


def check_numbers(name: str, given: List[Any], result: Any) -> None:
    """What was answered is the answer to the very numbers that were given."""
    places = {
        "export_block": [1],
        "migrate_block": [0, 2],
        "migrate_chunks": [0, 2],
        "terms_of_block": [1],
        "terms": [2],
        "Schema.read": [1],
        "Schema.export_block": [1],
        "Schema.export_chunks": [1],
        "Schema.documents": [1],
        "Schema.values_of_block": [2],
        "Schema.terms_of_block": [1],
        "Document.write": [0],
        "Document.read": [2],
    }
    for place in places.get(name, []):
        if place < len(given):
            version = plain_number(given[place])
            assert version in (1, 2, 3), (name, version)
    if name in ("terms_of_block", "terms"):
        field = plain_number(given[0])
        assert 0 <= field < 2**32, (name, field)
        assert all(term.term[:4] == field.to_bytes(4, "big") for term in result), (name, field)
    if name == "term_of_text":
        assert result[:4] == plain_number(given[0]).to_bytes(4, "big")
    if name == "DateTime":
        assert result.nanoseconds == plain_number(given[0])


def resident() -> int:
    """The resident memory in bytes, after what can be given back was."""
    gc.collect()
    ctypes.CDLL(None).malloc_trim(0)
    with open("/proc/self/statm", encoding="ascii") as file:
        return int(file.read().split()[1]) * os.sysconf("SC_PAGE_SIZE")


def run(seconds: float, seed: int) -> int:
    """Runs for this number of seconds; returns how many calls there were."""
    fuzzer = Fuzzer(seed)
    began, calls, middle, next_sample = time.monotonic(), 0, 0, seconds / 2
    samples: List[int] = []
    while (passed := time.monotonic() - began) < seconds:
        for _ in range(100):
            fuzzer.once()
            calls += 1
        if passed >= next_sample:
            samples.append(resident())
            middle = middle or calls
            next_sample += seconds / 20
    fuzzer.racing.stop()
    for name, (count, refused) in sorted(fuzzer.counts.items()):
        print(f"{name:40} {count:8} calls {refused:8} refused")
    samples.append(resident())
    print(
        f"{calls} calls, {calls - middle} of them in the second half; "
        f"resident {samples[0]} bytes, then {samples[-1]}"
    )
    uncalled = {name for name, _, _ in fuzzer.targets} - set(fuzzer.counts)
    assert not uncalled or calls < 20_000, f"never called: {sorted(uncalled)}"
    # The address sanitizer keeps what was freed, so its memory grows; and a short run ends before Python has
    # made all that it keeps.
    measured = seconds >= 20 and "ASAN_OPTIONS" not in os.environ
    assert not measured or samples[-1] <= samples[0] * 1.05, f"memory grew: {samples}"
    return calls


def main() -> None:
    """The command."""
    parser = argparse.ArgumentParser(
        description="Calls every public name with arguments of every type and state."
    )
    parser.add_argument("--seconds", type=float, default=60)
    parser.add_argument("--seed", type=int, default=1)
    given = parser.parse_args()
    with tempfile.TemporaryDirectory() as folder:
        os.chdir(folder)  # (names that are taken for paths make files here)
        run(given.seconds, given.seed)
        os.chdir("/")


if __name__ == "__main__":
    main()
