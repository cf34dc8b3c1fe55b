"""What several tests use."""

from __future__ import annotations

import inspect
import json
import os
import subprocess
import sys
from typing import Any, Dict, List, Optional, Tuple

HERE = os.path.dirname(os.path.abspath(__file__))
PACKAGE = os.path.dirname(HERE)

# A field of each of the nine types, all stored, and two that aren't.
ENTRIES: List[Dict[str, Any]] = [
    {"name": "name", "type": "text", "options": {"stored": True}},
    {"name": "age", "type": "u64", "options": {"indexed": True, "stored": True}},
    {"name": "height", "type": "i64", "options": {"indexed": False, "stored": True}},
    {"name": "sold", "type": "bool", "options": {"indexed": False, "stored": True}},
    {"name": "when", "type": "date", "options": {"indexed": True, "fieldnorms": True, "stored": True}},
    {"name": "group", "type": "facet", "options": {"stored": True}},
    {"name": "hash", "type": "bytes", "options": {"indexed": False, "fast": False, "stored": True}},
    {"name": "more", "type": "json_object", "options": {"stored": True, "fast": False}},
    {
        "name": "host",
        "type": "ip_addr",
        "options": {"indexed": False, "fieldnorms": False, "fast": False, "stored": True},
    },
    {"name": "secret", "type": "u64", "options": {"indexed": True, "stored": False}},
    {"name": "word", "type": "text", "options": {"stored": True, "coerce": True}},
]
SCHEMA = json.dumps(ENTRIES).encode()

# One document in version 2, by docs/FORMATS.md: one pair, field 1 in 4 bytes, code 1 (u64), 36 in 8 bytes.
AGE_36 = bytes.fromhex("81" "01000000" "01" "2400000000000000")
EMPTY = b"\x80"

# Lines that are no JSON objects, by RFC 8259: the number in the header of why, the byte at which, if it is
# one, and the library's words. The last four are cut off, so that the byte is the line's length.
FAULTS: List[Tuple[bytes, int, Optional[int], str]] = [
    (b'{"age" 7}', 8, 7, "a colon was expected"),
    ('{"é" 7}'.encode(), 8, 6, "a colon was expected"),
    (b'{"\xff":1}', 0, None, "it is not UTF-8"),
    (b"null", 3, None, "it is JSON, but no object"),
    (b'{"age":' + b"[" * 127 + b"]" * 127 + b"}", 1, 133, "the list nests too deep"),
    (b'{"age":1e999}', 2, 7, "the number is too large"),
    (b'{"age":1} {', 11, 10, "the end of the text was expected"),
    (b'{"age":', 4, 7, "a value was expected"),
    (b'{"age":1\r', 10, 9, "a comma or } was expected"),
    (b'{"age":"\xc3\xa9', 12, 10, "a character or the closing quote was expected"),
    (b"", 4, 0, "a value was expected"),
]

# A text with its one token.
TOKENS = json.dumps(
    {
        "name": {
            "text": "a b",
            "tokens": [
                {"offset_from": 0, "offset_to": 1, "position": 0, "text": "a", "position_length": 1}
            ],
        }
    }
)


def run(code: str, *arguments: str, timeout: int = 300) -> "subprocess.CompletedProcess[str]":
    """Runs a program in a process of its own, so that a crash is an exit status."""
    path = os.pathsep.join([PACKAGE, os.environ.get("PYTHONPATH", "")])
    return subprocess.run(
        [sys.executable, "-c", code, *arguments],
        env={**os.environ, "PYTHONPATH": path},
        capture_output=True,
        text=True,
        timeout=timeout,
        check=False,
    )


def own_members(kind: type) -> List[str]:
    """The methods and properties that a class has of the package, and not of Python's classes. (`dir`
    leaves out those of an enum.)"""
    found = []
    for member in sorted({name for base in kind.__mro__ for name in vars(base)}):
        owner = next(base for base in kind.__mro__ if member in vars(base))
        value = inspect.getattr_static(kind, member)
        if owner.__module__.startswith("kormaglen") and (
            isinstance(value, (staticmethod, classmethod, property)) or inspect.isfunction(value)
        ):
            found.append(member)
    return found
