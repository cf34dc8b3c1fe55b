"""Values and terms of blocks by a schema, and counts of facets."""

from __future__ import annotations

import ipaddress
import unittest
from typing import Any, Iterator, List, Tuple

import kormaglen as K
from tests.common import AGE_36, EMPTY, SCHEMA

# The code and the bytes of a value, by docs/FORMATS.md, and what it is in Python.
VALUES: List[Tuple[bytes, Any]] = [
    (b"\x0b", None),
    (b"\x00\x81a", "a"),
    (b"\x01" + b"\xff" * 8, 2**64 - 1),
    (b"\x02\xfe" + b"\xff" * 7, -2),
    (b"\x09\x01", True),
    (b"\x09\x00", False),
    (b"\x05" + b"\xff" * 8, K.DateTime(-1)),
    (b"\x03\x83a\0b", "/a/b"),
    (b"\x04\x82\0\xff", b"\0\xff"),
    (b"\x0a\x01" + bytes(15), ipaddress.ip_address("::1")),
    (b"\x0a\x04\x03\x02\x01\xff\xff" + bytes(10), ipaddress.ip_address("1.2.3.4")),
    (b"\x07\0\x81x\x80", {"text": "x", "tokens": []}),
    (b"\x0c\x82\x0b\0\x81y", [None, "y"]),
    (b"\x0d\x82\0\x81k\x0b", {"k": None}),
]
INDEXED = """[{"name":"age","type":"u64","options":{"indexed":true,"stored":true}},
{"name":"more","type":"json_object","options":{"stored":true,"fast":false,"indexing":{}}}]"""
DATED = """[{"name":"added","type":"date","options":{"indexed":true,"fieldnorms":true,"stored":true}},
{"name":"more","type":"json_object","options":{"stored":true,"fast":false,"indexing":{}}}]"""
# A field with a value, by docs/FORMATS.md, that has no term by INDEXED, the field's number, and the reason.
FAULTS: List[Tuple[bytes, int, K.DocumentFault]] = [
    (b"\x02\0\0\0\0\x81a", 2, K.DocumentFault.FOREIGN_FIELD),
    (b"\0\0\0\0\0\x81a", 0, K.DocumentFault.WRONG_TYPE),
    (b"\x01\0\0\0\x0d\x82\0\x81\0\0\x81v", 1, K.DocumentFault.NUL_IN_KEY),
    (b"\x01\0\0\0\x04\x81v", 1, K.DocumentFault.NO_TERM),
]


class Values(unittest.TestCase):
    """The values of a field."""

    def test_each_kind(self) -> None:
        with K.Schema(SCHEMA) as schema:
            for stored, value in VALUES:
                with self.subTest(value=value):
                    # A document without a pair, and one with a value of another field before.
                    block = EMPTY + b"\x82" + b"\x01\0\0\0\x0b" + b"\0\0\0\0" + stored
                    found = schema.values_of_block("name", block)
                    self.assertEqual(found, [(1, value)])
                    self.assertIs(type(found[0].value), type(value))

    def test_as_documents_have_them(self) -> None:
        with K.Schema(SCHEMA) as schema:
            document = schema.document(
                {"name": ["a", "b"], "age": 36, "height": -7, "sold": True, "when": K.DateTime(7), "group": "/a"}
            )
            document = schema.document(
                {**document.to_dict(), "hash": b"x", "more": {"k": [1, None]}, "host": ["::1", "10.0.0.1"]}
            )
            block = EMPTY + document.write()
            for name, values in document.to_dict().items():
                self.assertEqual(schema.values_of_block(name, block), [(1, value) for value in values])

    def test_each_version(self) -> None:
        with K.Schema(SCHEMA) as schema:
            third = K.migrate_block(2, EMPTY + AGE_36, 3)
            self.assertEqual(schema.values_of_block("age", third, 3), [(1, 36)])
            self.assertEqual(schema.values_of_block("age", EMPTY + AGE_36, version=1), [(1, 36)])
            with self.assertRaises(K.VersionRefused):
                schema.values_of_block("age", AGE_36, 4)

    def test_what_is_refused(self) -> None:
        schema = K.Schema(SCHEMA)
        for name in ("", "none", "more.k"):
            with self.assertRaisesRegex(K.FieldRefused, f'"{name}"'):
                schema.values_of_block(name, EMPTY)
        with self.assertRaises(K.DocumentRefused) as caught:
            schema.values_of_block("name", EMPTY + AGE_36[:-1])
        self.assertEqual((caught.exception.reason, caught.exception.place), (K.DocumentFault.UNEXPECTED_END, 1))
        with self.assertRaises(TypeError):
            schema.values_of_block(b"age", EMPTY)  # type: ignore[arg-type]
        with self.assertRaises(TypeError):
            schema.values_of_block("age", "block")  # type: ignore[arg-type]
        schema.close()
        with self.assertRaises(K.Closed):
            schema.values_of_block("age", EMPTY)


class Terms(unittest.TestCase):
    """The terms of all fields."""

    def test_all_fields(self) -> None:
        with K.Schema(INDEXED) as schema:
            block = EMPTY + schema.parse('{"age":258,"more":{"k":[7,"v"]}}').write()
            below = b"\0\0\0\x01jk\0"
            wanted = [
                (1, b"\0\0\0\0u\0\0\0\0\0\0\x01\x02"),
                (1, below + b"i\x80\0\0\0\0\0\0\x07"),
                (1, below + b"sv"),
            ]
            self.assertEqual(list(schema.terms_of_block(block)), wanted)
            self.assertEqual(list(schema.terms_of_block(K.migrate_block(2, block, 3), 3)), wanted)
            self.assertEqual(list(schema.terms_of_block(b"", on_fault=self.fail)), [])

    def test_terms_that_begin_alike(self) -> None:
        # The field, the code of JSON objects, the keys with a byte 1 between two, a zero byte, the code of
        # the type, and the value: of a number its eight bytes from the highest on, with the sign turned.
        of_more = b"\0\0\0\x01j"
        inner = of_more + b"key\x01inner\0"
        document = [
            inner + b"i\x80\0\0\0\0\0\0\x07",
            inner + b"i\x80\0\0\0\0\0\0\x07",
            inner + b"i\x80\0\0\0\0\0\x01\x07",
            inner + b"svalue",
            inner + b"sval",
            inner + b"svalues",
            of_more + b"key\x01inners\0o\0\0\0\0\0\0\0\x01",
            of_more + b"keys\0s",
        ]
        line = '{"more":{"key":{"inner":[7,7,263,"value","val","values"],"inners":true},"keys":""}}'
        with K.Schema(INDEXED) as schema:
            block = schema.import_lines([line, "{}", line]).block
            found = list(schema.terms_of_block(block))
            self.assertEqual(found, [(number, term) for number in (0, 2) for term in document])
            for path, text in (("more.key.inner", "263"), ("more.key.inners", "true"), ("more.keys", "")):
                self.assertTrue(set(schema.terms_of_text(path, text)) & set(document), path)

    def test_terms_are_made_at_the_call(self) -> None:
        schema = K.Schema(INDEXED)
        block = bytearray(AGE_36[:1] + bytes(4) + AGE_36[5:]) * 2
        plain, handed = schema.terms_of_block(block), schema.terms_of_block(block, on_fault=self.fail)
        block.clear()
        schema.close()
        term = b"\0\0\0\0u\0\0\0\0\0\0\0\x24"
        for found in (plain, handed):
            self.assertEqual(list(found), [(0, term), (1, term)])

    def test_what_is_refused(self) -> None:
        schema = K.Schema(INDEXED)
        for pair, field, reason in FAULTS:
            block = EMPTY + b"\x81" + pair
            with self.assertRaisesRegex(K.DocumentRefused, "^the document at byte 1: ") as caught:
                schema.terms_of_block(block)
            self.assertEqual((caught.exception.reason, caught.exception.place), (reason, 1))
            faults: List[K.TermFault] = []
            self.assertEqual(list(schema.terms_of_block(block, on_fault=faults.append)), [])
            name = ["age", "more", None][field]
            self.assertEqual(faults, [(1, name, field, reason)])
            self.assertIs(type(faults[0]), K.TermFault)
            self.assertIs(type(faults[0].reason), K.DocumentFault)
            words = str(caught.exception).split(": ", 1)[1]
            shown = "2" if name is None else f'"{name}"'
            self.assertEqual(str(faults[0]), f"document 1: field {shown}: {words}")
        for on_fault in (None, self.fail):
            with self.assertRaises(K.VersionRefused):
                schema.terms_of_block(EMPTY, 0, on_fault)
            # (one that can't be read ends both)
            with self.assertRaises(K.DocumentRefused) as caught:
                schema.terms_of_block(EMPTY + AGE_36[:-1], on_fault=on_fault)
            self.assertEqual(
                (caught.exception.reason, caught.exception.place), (K.DocumentFault.UNEXPECTED_END, 1)
            )
        for other in (1, True, "print", b"", []):
            with self.assertRaisesRegex(TypeError, "^on_fault: "):
                schema.terms_of_block(EMPTY, 2, other)  # type: ignore[arg-type]
        schema.close()
        for on_fault in (None, self.fail):
            with self.assertRaises(K.Closed):
                schema.terms_of_block(EMPTY, on_fault=on_fault)


class Faults(unittest.TestCase):
    """A block of three documents, of which the middle one has a number in a field of dates."""

    # The code of a date is 5, that of a number with a sign 2.
    FIRST = bytes.fromhex("81" "00000000" "05" "0000000000000000")
    MIDDLE = bytes.fromhex("81" "00000000" "02" "c02e326600000000")
    LAST = bytes.fromhex("81" "00000000" "05" "00ca9a3b00000000")
    # Of a date the nanoseconds, from the highest byte on, with the sign turned: of 0, and of 10^9.
    TERMS = [
        (0, b"\0\0\0\0d\x80\0\0\0\0\0\0\0"),
        (2, b"\0\0\0\0d\x80\0\0\0\x3b\x9a\xca\0"),
    ]
    FAULT = (1, "added", 0, K.DocumentFault.WRONG_TYPE)

    def setUp(self) -> None:
        self.schema = K.Schema(DATED)

    def test_it_is_refused(self) -> None:
        for version in (1, 2, 3):
            with self.assertRaises(K.DocumentRefused) as caught:
                # (a date is in nanoseconds from version 2 on, and in microseconds before)
                self.schema.terms_of_block(self.FIRST + self.MIDDLE + self.LAST, version)
            self.assertEqual(
                (caught.exception.reason, caught.exception.place), (K.DocumentFault.WRONG_TYPE, len(self.FIRST))
            )

    def test_it_is_handed_over(self) -> None:
        events: List[Any] = []
        found = self.schema.terms_of_block(self.FIRST + self.MIDDLE + self.LAST, on_fault=events.append)
        self.assertEqual(events, [])
        for term in found:
            events.append(term)
        self.assertEqual(events, [self.TERMS[0], self.FAULT, self.TERMS[1]])

    def test_of_lines(self) -> None:
        lines = (
            '{"added":"1970-01-01T00:00:00Z"}',
            '{"added":1714564800}',
            '{"added":"1970-01-01T00:00:01.5Z"}',
        )
        block = self.schema.import_lines(lines).block
        self.assertTrue(block.startswith(self.FIRST + self.MIDDLE))
        faults: List[K.TermFault] = []
        self.assertEqual(list(self.schema.terms_of_block(block, on_fault=faults.append)), self.TERMS)
        self.assertEqual(faults, [self.FAULT])

    def test_a_document_with_a_fault_has_no_terms(self) -> None:
        # The number 7 at the key k, which has a term, before a text in the field of dates.
        numbers = b"\x01\0\0\0\x0d\x82\0\x81k\x01\7\0\0\0\0\0\0\0"
        whole, faulty = b"\x81" + numbers, b"\x82" + numbers + b"\0\0\0\0\0\x81a"
        term = b"\0\0\0\x01jk\0i\x80\0\0\0\0\0\0\x07"
        faults: List[K.TermFault] = []
        block = faulty + whole + faulty + faulty + whole
        found = list(self.schema.terms_of_block(block, on_fault=faults.append))
        self.assertEqual(found, [(1, term), (4, term)])
        self.assertEqual([fault[:2] for fault in faults], [(0, "added"), (2, "added"), (3, "added")])

    def test_what_a_callable_raises(self) -> None:
        def fails(fault: K.TermFault) -> None:
            raise LookupError(fault.document)

        found = self.schema.terms_of_block(self.FIRST + self.MIDDLE + self.LAST, on_fault=fails)
        self.assertEqual(next(found), self.TERMS[0])
        with self.assertRaisesRegex(LookupError, "^1$"):
            next(found)
        self.assertEqual(list(found), [])


class Counts(unittest.TestCase):
    """Documents that are counted by facets."""

    PAIRS = [(1, b"a\0b"), (2, b"a\0b\0c"), (1, b"a\0d"), (1, b"a\0b\0x"), (3, b"a"), (4, b"e\0f")]

    def test_children(self) -> None:
        self.assertEqual(K.count_facets(b"a", self.PAIRS), [(b"a\0b", 2), (b"a\0d", 1)])
        self.assertEqual(K.count_facets(b"", iter(self.PAIRS)), [(b"a", 3), (b"e", 1)])
        self.assertEqual(K.count_facets(b"g", self.PAIRS), [])
        self.assertEqual(K.count_facets(b"", []), [])
        self.assertEqual(K.count_facets(bytearray(b""), [(2**64 - 1, memoryview(b"a"))]), [(b"a", 1)])
        many = [(each, str(each).encode()) for each in range(1000)]
        self.assertEqual(len(K.count_facets(b"", many)), 1000)

    def test_what_is_refused(self) -> None:
        with self.assertRaises(K.Refused) as caught:
            K.count_facets(b"\xff", self.PAIRS)
        self.assertEqual(caught.exception.reason, K.Status.NOT_UTF8)
        for before in range(3):
            with self.assertRaisesRegex(K.Refused, f"^pair {before}: ") as caught:
                K.count_facets(b"", self.PAIRS[:before] + [(7, b"\xff"), (7, b"\xff")])
            self.assertEqual((caught.exception.reason, caught.exception.place), (K.Status.BAD_PAIRS, before))
        for pair in (7, "ab", (1,), (1, "a"), ("1", b"a"), (1.0, b"a"), (True, b"a"), None):
            with self.assertRaises(TypeError):
                K.count_facets(b"", [pair])  # type: ignore[list-item]
        for number in (-1, 2**64):
            with self.assertRaisesRegex(OverflowError, "^pairs: the number of a document: "):
                K.count_facets(b"", [(number, b"a")])
        with self.assertRaises(TypeError):
            K.count_facets("a", self.PAIRS)  # type: ignore[arg-type]
        with self.assertRaises(TypeError):
            K.count_facets(b"", 7)  # type: ignore[arg-type]
        with self.assertRaises(BufferError):
            K.count_facets(b"", [(1, memoryview(b"abcd")[::2])])

    def test_an_iterable_that_fails(self) -> None:
        def pairs() -> Iterator[Tuple[int, bytes]]:
            yield 1, b"a"
            raise LookupError("here")

        with self.assertRaisesRegex(LookupError, "here"):
            K.count_facets(b"", pairs())


if __name__ == "__main__":
    unittest.main()
