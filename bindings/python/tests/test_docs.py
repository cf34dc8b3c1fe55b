"""The docstrings: each public name has one, with an example that runs."""

from __future__ import annotations

import datetime
import doctest
import inspect
import io
import importlib
import pkgutil
import re
import subprocess
import sys
import tempfile
import typing
import unittest
import os
from typing import Any, Dict, Iterator, Tuple

import kormaglen as K
from tests.common import PACKAGE, own_members, run

SMALL = '[{"name":"age","type":"u64","options":{"indexed":true,"stored":true}}]'
NAMES: Dict[str, Any] = {**vars(K), "SCHEMA": SMALL, "io": io, "datetime": datetime}


def public() -> Iterator[Tuple[str, Any]]:
    """Every public name, and those of the classes' methods and properties that are the package's own."""
    for name in K.__all__:
        value = getattr(K, name)
        yield name, value
        if inspect.isclass(value):
            for member in own_members(value):
                if not member.startswith("_"):
                    yield f"{name}.{member}", inspect.getattr_static(value, member)


class Docs(unittest.TestCase):
    """Docstrings and their examples."""

    def test_each_name_has_an_example(self) -> None:
        for name, value in public():
            if isinstance(value, K.Indexing) or _of_python(value):
                continue
            with self.subTest(name):
                self.assertIn(">>>", value.__doc__ or "")

    def test_examples(self) -> None:
        for module in pkgutil.iter_modules(K.__path__):
            if module.ispkg:
                continue  # (kormaglen.dask, which test_dask.py tests where Dask is there)
            done = doctest.testmod(importlib.import_module(f"kormaglen.{module.name}"), extraglobs=NAMES)
            self.assertEqual(done.failed, 0, module.name)
        self.assertEqual(doctest.testmod(K).failed, 0)

    def test_types_at_run_time(self) -> None:
        for _, value in public():
            if inspect.isfunction(value):
                typing.get_type_hints(value)

    def test_the_typed_program(self) -> None:
        self.assertEqual(run("from tests.typed import main; main()").returncode, 0)

    def test_the_page(self) -> None:
        with open(os.path.join(PACKAGE, "README.md"), encoding="utf-8") as file:
            blocks = re.findall(r"```python\n(.*?)```", file.read(), re.S)
        with tempfile.TemporaryDirectory() as folder:
            with open(os.path.join(folder, "people.jsonl"), "wb") as lines:
                lines.write(b'{"name":"Cleo","age":7}\n[]\n')
            done = subprocess.run(
                [sys.executable, "-c", "\n".join(blocks) + "print(counts[:4])"],
                env={**os.environ, "PYTHONPATH": PACKAGE},
                cwd=folder,
                capture_output=True,
                text=True,
                check=True,
            )
        first, second, refused, fault, term, counts = done.stdout.splitlines()
        about = "a value is of another kind than the field's"
        self.assertEqual(first, 'line 2: field "age": ' + about + ': {"name":"Bob","age":"old"}')
        self.assertEqual(second, "['Ada'] [36]")
        about = "it is JSON, but no object"
        self.assertEqual(refused, f"line 2: the line is not a JSON object: {about}: []")
        self.assertEqual(fault, 'document 0: field "added": a value is not of its field\'s type')
        self.assertEqual(term, "1 2024-05-01T12:00:00Z")
        # One pair in 1 byte, of "Cleo" in 4 + 1 + 1 + 4 bytes and of 7 in 4 + 1 + 8.
        self.assertEqual(counts, "(2, 1, 1, 24)")

    def test_the_example(self) -> None:
        program = os.path.join(PACKAGE, "examples", "people.py")
        done = subprocess.run(
            [sys.executable, program],
            env={**os.environ, "PYTHONPATH": PACKAGE},
            capture_output=True,
            text=True,
            check=True,
        )
        # The lines that the examples in C and Rust print, too: the sizes by docs/FORMATS.md.
        for line in (
            '{"age":[36],"group":["/staff/research"],"name":["Ada"]}',
            '{"name":["Alan","Adam"]}',
            '{"age":[7],"more":[{"tags":["new",true]}],"name":["Cleo"]}',
            "document 1: Adam",
            "document 0: Ada",
            "field 3, path 'tags'",
            "field 1, path ''",
            '{"age":[41],"name":["Dora"]} takes 24 bytes',
            "/staff/research takes 14 bytes",
        ):
            self.assertIn(line, done.stdout.split("\n"))


def _of_python(value: Any) -> bool:
    """Whether a member comes from a class of Python's, as those of a NamedTuple or of a Mapping."""
    inner = value.fget if isinstance(value, property) else getattr(value, "__func__", value)
    return not str(getattr(inner, "__module__", "")).startswith("kormaglen")


if __name__ == "__main__":
    unittest.main()
