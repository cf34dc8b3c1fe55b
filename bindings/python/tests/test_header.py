"""The numbers and the calls of the header `kormaglen.h`, which the repository has beside this package."""

from __future__ import annotations

import ctypes
import enum
import os
import re
import unittest
from typing import Dict, Type

import kormaglen as K
from kormaglen import _library, _records, _refusals
from tests.common import PACKAGE

HEADER = os.environ.get("KORMAGLEN_HEADER", os.path.join(PACKAGE, os.pardir, "kormaglen.h"))

ENUMS: Dict[str, Type[enum.IntEnum]] = {
    "kormaglen_status": K.Status,
    "kormaglen_schema_detail": K.SchemaFault,
    "kormaglen_document_detail": K.DocumentFault,
    "kormaglen_line_status": K.LineStatus,
    "kormaglen_json_fault": K.JsonFault,
    "kormaglen_query_detail": K.QueryFault,
    "kormaglen_value_kind": _refusals.ValueKind,
}
PREFIXES = {
    "kormaglen_status": "KORMAGLEN_",
    "kormaglen_schema_detail": "KORMAGLEN_SCHEMA_",
    "kormaglen_document_detail": "KORMAGLEN_DOCUMENT_",
    "kormaglen_line_status": "KORMAGLEN_LINE_",
    "kormaglen_json_fault": "KORMAGLEN_JSON_",
    "kormaglen_query_detail": "KORMAGLEN_QUERY_",
    "kormaglen_value_kind": "KORMAGLEN_VALUE_",
}
# The package makes a handle for one call instead.
BY_A_HANDLE = {"import_lines", "find_field"}


@unittest.skipUnless(os.path.exists(HEADER), "the header is not here")
class Header(unittest.TestCase):
    """What the header says is what the package takes for granted."""

    def setUp(self) -> None:
        with open(HEADER, encoding="utf-8") as file:
            self.text = re.sub(r"/\*.*?\*/", "", file.read(), flags=re.DOTALL)

    def test_numbers(self) -> None:
        for name, kind in ENUMS.items():
            found = re.search(rf"enum {name} {{(.*?)}}", self.text, re.DOTALL)
            assert found is not None
            numbers = dict(re.findall(rf"{PREFIXES[name]}(\w+) = (\d+)", found[1]))
            self.assertGreater(len(numbers), 3)
            known = {member.name: str(member.value) for member in kind}
            self.assertEqual({each: known.get(each) for each in numbers}, numbers)

    def test_calls(self) -> None:
        declared = re.findall(r"^\w[\w *]*?\bkormaglen_(\w+)\(([^)]*)\)", self.text, re.MULTILINE)
        self.assertGreater(len(declared), 15)
        for name, parameters in declared:
            if name in BY_A_HANDLE:
                continue
            with self.subTest(name):
                arguments, _ = _library._SIGNATURES[name]
                wanted = [] if parameters.strip() == "void" else parameters.split(",")
                self.assertEqual(len(arguments), len(wanted))
                for argument, parameter in zip(arguments, wanted):
                    kinds = {"uint32_t": ctypes.c_uint32, "size_t": ctypes.c_size_t}
                    self.assertEqual(
                        kinds.get(parameter.split()[0]), argument if argument in kinds.values() else None
                    )

    def test_the_record_of_a_fault(self) -> None:
        self.assertRegex(self.text, r"(?m)^#define KORMAGLEN_NO_TERMS UINT64_MAX$")
        self.assertEqual(_records._NO_TERMS, 2**64 - 1)

    def test_structs(self) -> None:
        for name, struct in (
            ("kormaglen_answer", _library.Answer),
            ("kormaglen_found_field", _library.FoundField),
        ):
            found = re.search(rf"typedef struct {name} {{(.*?)}}", self.text, re.DOTALL)
            assert found is not None
            members = re.findall(r"uint(\d+)_t (\w+);", found[1])
            known = [(str(8 * ctypes.sizeof(kind)), each) for each, kind in struct._fields_]
            self.assertEqual(known, members)


if __name__ == "__main__":
    unittest.main()
