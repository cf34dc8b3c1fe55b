"""Schemas: their JSON, the builder, fields, equality and refusals."""

from __future__ import annotations

import json
import pickle
import unittest
from typing import Any, List

import kormaglen as K
from tests.common import ENTRIES, FAULTS, SCHEMA


class Building(unittest.TestCase):
    """A schema by the builder is that of its JSON."""

    def equal(self, builder: K.SchemaBuilder, *entries: Any) -> None:
        self.assertEqual(builder.build(), K.Schema(json.dumps(entries)))

    def test_each_type(self) -> None:
        B = K.SchemaBuilder
        plain = {"indexed": False, "stored": False}
        self.equal(B().text("f"), {"name": "f", "type": "text", "options": {}})
        self.equal(B().u64("f"), {"name": "f", "type": "u64", "options": plain})
        self.equal(B().i64("f"), {"name": "f", "type": "i64", "options": plain})
        self.equal(B().bool("f"), {"name": "f", "type": "bool", "options": plain})
        self.equal(B().date("f"), {"name": "f", "type": "date", "options": {**plain, "fieldnorms": False}})
        self.equal(B().facet("f"), {"name": "f", "type": "facet", "options": {"stored": False}})
        self.equal(B().bytes("f"), {"name": "f", "type": "bytes", "options": {**plain, "fast": False}})
        self.equal(
            B().json_object("f"),
            {"name": "f", "type": "json_object", "options": {"stored": False, "fast": False}},
        )
        self.equal(
            B().ip_addr("f"),
            {"name": "f", "type": "ip_addr", "options": {**plain, "fast": False, "fieldnorms": False}},
        )

    def test_each_option(self) -> None:
        B = K.SchemaBuilder
        indexing = {"record": "freq", "fieldnorms": False, "tokenizer": "en_stem"}
        given = K.Indexing("en_stem", "freq", False)
        all_set = {"indexed": True, "stored": True, "fast": True, "fieldnorms": True}
        self.equal(
            B().text("f", indexing=given, stored=True, fast="raw", coerce=True),
            {
                "name": "f",
                "type": "text",
                "options": {
                    "indexing": indexing,
                    "stored": True,
                    "fast": {"with_tokenizer": "raw"},
                    "coerce": True,
                },
            },
        )
        for kind in ("u64", "i64", "bool"):
            call = getattr(B(), kind)
            self.equal(
                call("f", indexed=True, stored=True, fast=True, fieldnorms=False, coerce=True),
                {"name": "f", "type": kind, "options": {**all_set, "fieldnorms": False, "coerce": True}},
            )
            self.equal(
                getattr(B(), kind)("f", indexed=True),
                {
                    "name": "f",
                    "type": kind,
                    "options": {"indexed": True, "stored": False, "fieldnorms": True},
                },
            )

    def test_each_option_of_other_types(self) -> None:
        B = K.SchemaBuilder
        indexing = {"record": "freq", "fieldnorms": False, "tokenizer": "en_stem"}
        given = K.Indexing("en_stem", "freq", False)
        all_set = {"indexed": True, "stored": True, "fast": True, "fieldnorms": True}
        self.equal(
            B().date("f", indexed=True, stored=True, fast=True, precision="nanoseconds"),
            {"name": "f", "type": "date", "options": {**all_set, "precision": "nanoseconds"}},
        )
        self.equal(B().facet("f", stored=True), {"name": "f", "type": "facet", "options": {"stored": True}})
        self.equal(
            B().bytes("f", indexed=True, stored=True, fast=True),
            {"name": "f", "type": "bytes", "options": all_set},
        )
        self.equal(
            B().ip_addr("f", indexed=True, stored=True, fast=True),
            {"name": "f", "type": "ip_addr", "options": all_set},
        )
        self.equal(
            B().json_object("f", indexing=given, stored=True, fast="raw", expand_dots_enabled=True),
            {
                "name": "f",
                "type": "json_object",
                "options": {
                    "indexing": indexing,
                    "stored": True,
                    "fast": {"with_tokenizer": "raw"},
                    "expand_dots_enabled": True,
                },
            },
        )

    def test_the_named_indexings(self) -> None:
        self.assertEqual(tuple(K.STRING), ("raw", "basic", True))
        self.assertEqual(tuple(K.TEXT), ("default", "position", True))

    def test_refusals(self) -> None:
        with self.assertRaises(K.SchemaRefused) as caught:
            K.SchemaBuilder().u64("a").text("a").build()
        self.assertEqual(caught.exception.reason, K.SchemaFault.SAME_NAME)
        with self.assertRaises(K.SchemaRefused):
            K.SchemaBuilder().u64("a", stored=1).build()
        with self.assertRaises(TypeError):
            K.SchemaBuilder().text("a", indexing="raw")
        with self.assertRaises(TypeError):
            K.SchemaBuilder().u64("a", stored=object()).build()
        with self.assertRaises(K.SchemaRefused):
            K.SchemaBuilder().u64(None).build()


class Fields(unittest.TestCase):
    """What a schema says of itself."""

    def test_fields(self) -> None:
        schema = K.Schema(SCHEMA)
        self.assertEqual(
            [(f.name, f.type) for f in schema.fields], [(e["name"], e["type"]) for e in ENTRIES]
        )
        self.assertEqual([f.number for f in schema.fields], list(range(11)))
        # By the table of options, with every default written out.
        self.assertEqual(
            schema.field("when").options,
            {"indexed": True, "fieldnorms": True, "stored": True, "fast": False, "precision": "seconds"},
        )
        with self.assertRaises(K.FieldRefused):
            schema.field("nothing")
        with self.assertRaises(LookupError):
            schema.field("nothing")

    def test_find_field(self) -> None:
        schema = K.Schema(ENTRIES)
        self.assertEqual(schema.find_field("more.a.b"), (7, "a.b"))
        self.assertEqual(schema.find_field("age"), (1, ""))
        self.assertEqual(K.find_field(SCHEMA, "more.é"), (7, "é"))
        self.assertEqual(K.find_field(schema, "age"), (1, ""))
        with self.assertRaises(K.FieldRefused) as caught:
            schema.find_field("nothing")
        self.assertEqual(caught.exception.reason, K.Status.NO_FIELD)
        with self.assertRaises(TypeError):
            schema.find_field(b"age")

    def test_terms_of_text(self) -> None:
        schema = K.Schema(SCHEMA)
        # The number of the field with its highest byte first, the letter of the type, and the value's bytes.
        self.assertEqual(schema.terms_of_text("age", "258"), [b"\0\0\0\x01u\0\0\0\0\0\0\x01\x02"])
        self.assertEqual(schema.terms_of_text("group", "/a/b"), [b"\0\0\0\x05ha\0b"])

    def test_terms_below_json(self) -> None:
        # A text that is a number has the term of both, of a signed number with its highest bit turned.
        below = b"\0\0\0\0ja\x01b\0"
        with K.SchemaBuilder().json_object("j", indexing=K.STRING).build() as schema:
            self.assertEqual(
                schema.terms_of_text("j.a.b", "7"), [below + b"s7", below + b"i\x80\0\0\0\0\0\0\x07"]
            )
            ranges = schema.ranges_of_text("j.a.b", "[7 TO 9]")
            self.assertEqual(len(ranges), 2)
            for text, places in (("6", []), ("7", [0, 1]), ("9", [0, 1]), ("89", [1])):
                within = {
                    place
                    for place, (start, end) in enumerate(ranges)
                    for term in schema.terms_of_text("j.a.b", text)
                    if start <= term and (end is None or term < end)
                }
                self.assertEqual(sorted(within), places, text)

    def test_ranges_of_text(self) -> None:
        schema = K.Schema(SCHEMA)
        for text, numbers in (
            ("*", [9, 10, 19, 20, 21]),
            ("[10 TO 20]", [10, 19, 20]),
            ("[10 TO 20}", [10, 19]),
            ("{10 TO *]", [19, 20, 21]),
            ("{* TO 10}", [9]),
        ):
            [(start, end)] = schema.ranges_of_text("age", text)
            terms = {number: schema.terms_of_text("age", str(number))[0] for number in (9, 10, 19, 20, 21)}
            found = [
                number for number, term in terms.items() if start <= term and (end is None or term < end)
            ]
            self.assertEqual(found, numbers, text)

    def test_refused_queries(self) -> None:
        schema = K.Schema(SCHEMA)
        rows = [
            ("height", "[1 TO 2]", K.QueryFault.NOT_INDEXED, "height", 2),
            ("age", "[x TO 2]", K.QueryFault.WRONG_TYPE, "age", 1),
            ("age", "[2 TO 1]", K.QueryFault.BACKWARDS, "age", 1),
            ("group", "[a TO *]", K.QueryFault.BAD_TEXT, "group", 5),
            ("age", "1", K.QueryFault.NO_RANGE, None, None),
        ]
        for path, text, reason, field, number in rows:
            with self.subTest(text), self.assertRaises(K.QueryRefused) as caught:
                schema.ranges_of_text(path, text)
            error = caught.exception
            self.assertEqual((error.reason, error.field, error.field_number), (reason, field, number))
            self.assertEqual(error.place, number or 0)
        with K.SchemaBuilder().json_object("j", indexing=K.STRING).build() as other:
            for path, fault in (("j", K.QueryFault.PATH_ENDS), ("j.\0", K.QueryFault.NUL_IN_PATH)):
                for call in (other.terms_of_text, other.ranges_of_text):
                    with self.assertRaises(K.QueryRefused) as refused:
                        call(path, "*")
                    self.assertEqual((refused.exception.reason, refused.exception.field), (fault, "j"))
        for call in (schema.terms_of_text, schema.ranges_of_text):
            with self.assertRaisesRegex(K.FieldRefused, "nothing"):
                call("nothing", "*")
            with self.assertRaisesRegex(TypeError, "^text: "):
                call("age", b"1")  # type: ignore[arg-type]
            with self.assertRaisesRegex(TypeError, "^path: "):
                call(1, "1")  # type: ignore[arg-type]

    def test_equality(self) -> None:
        one, other = K.Schema(SCHEMA), K.Schema(json.dumps(ENTRIES, indent=2))
        self.assertEqual(one, other)
        self.assertEqual(hash(one), hash(other))
        self.assertEqual(one.to_json(), other.to_json())
        self.assertNotEqual(one, K.Schema("[]"))
        self.assertNotEqual(one, "[]")
        self.assertEqual(K.Schema(one.to_json()), one)
        other.close()
        self.assertNotEqual(one, other)

    def test_repr(self) -> None:
        self.assertEqual(repr(K.Schema("[]")), "<Schema >")
        self.assertEqual(repr(K.SchemaBuilder().facet("g").build()), "<Schema g facet>")

    def test_a_context(self) -> None:
        with K.Schema(SCHEMA) as schema:
            self.assertFalse(schema.closed)
        self.assertTrue(schema.closed)
        for call in (
            lambda: schema.parse("{}"),
            lambda: schema.import_lines(""),
            lambda: schema.import_chunks(""),
            lambda: schema.documents(b""),
        ):
            with self.assertRaisesRegex(ValueError, "the schema is closed"):
                call()
        with self.assertRaises(K.Closed):
            with schema:
                pass
        schema.close()

    def test_a_document_of_a_closed_schema(self) -> None:
        schema = K.Schema(SCHEMA)
        document = schema.parse("{}")
        schema.close()
        for call in (document.to_json, document.write, document.to_dict, lambda: list(document)):
            with self.assertRaisesRegex(K.Closed, "the schema is closed"):
                call()
        self.assertEqual(repr(document), "<Document, closed>")


class Messages(unittest.TestCase):
    """Refusals: what they say and have."""

    def test_a_schema(self) -> None:
        entries: List[Any] = [
            {"name": f"f{i}", "type": "facet", "options": {"stored": True}} for i in range(4)
        ]
        entries.append({"name": "when", "type": "date", "options": {"indexed": True, "stored": True}})
        with self.assertRaises(K.SchemaRefused) as caught:
            K.Schema(entries)
        self.assertEqual((caught.exception.place, caught.exception.field), (5, "when"))
        self.assertEqual(caught.exception.reason, K.SchemaFault.FIELDNORMS)
        self.assertEqual(
            str(caught.exception), 'schema: entry 5 ("when"): "fieldnorms": true or false is wanted'
        )

    def test_a_schema_that_is_no_json(self) -> None:
        for given in ("", "x", b"\xff", "[", b"[" * 10_000):
            with self.assertRaises(K.SchemaRefused) as caught:
                K.Schema(given)
            self.assertEqual(
                (caught.exception.reason, caught.exception.place, caught.exception.field),
                (K.Status.INVALID_JSON, 0, None),
            )
            self.assertEqual(str(caught.exception), "schema: the schema is not JSON")
        with self.assertRaises(K.SchemaRefused) as caught:
            K.Schema("{}")
        self.assertEqual((caught.exception.reason, caught.exception.place), (K.SchemaFault.BAD_ENTRY, 0))

    def test_a_line(self) -> None:
        imported = K.import_lines(SCHEMA, '{}\n{}\n{"age":"x"}\n[]\n')
        age, whole = imported.refused
        self.assertEqual(
            str(age), 'line 3: field "age": a value is of another kind than the field\'s: {"age":"x"}'
        )
        self.assertEqual(
            (age.line, age.field, age.field_number, age.text, age.place), (3, "age", 1, '{"age":"x"}', 1)
        )
        self.assertEqual(age.reason, K.LineStatus.WRONG_TYPE)
        self.assertEqual((age.fault, age.byte), (None, None))
        no_object = "line 4: the line is not a JSON object: it is JSON, but no object: []"
        self.assertEqual(str(whole), no_object)
        self.assertEqual((whole.line, whole.field, whole.field_number, whole.place), (4, None, None, 0))

    def test_a_line_that_is_no_json_object(self) -> None:
        schema = K.Schema(SCHEMA)
        for line, number, byte, words in FAULTS:
            with self.subTest(line), self.assertRaises(K.LineRefused) as caught:
                schema.parse(line)
            refused = caught.exception
            self.assertEqual(refused.reason, K.LineStatus.INVALID_JSON)
            self.assertEqual((refused.fault, refused.byte, refused.field_number), (number, byte, None))
            self.assertEqual((refused.field, refused.line, refused.place), (None, None, 0))
            assert refused.fault is not None
            self.assertEqual((refused.fault.words, refused.fault.at_a_byte), (words, byte is not None))
            place = "" if byte is None else f" at byte {byte}"
            said = f"the line is not a JSON object: {words}{place}: {refused.text}"
            self.assertEqual(str(refused), said)
        with self.assertRaises(K.LineRefused) as caught:
            schema.parse('{"é" 7}')
        self.assertEqual((caught.exception.fault, caught.exception.byte), (K.JsonFault.COLON, 6))

    def test_words_of_faults(self) -> None:
        self.assertEqual(len({fault.words for fault in K.JsonFault}), len(K.JsonFault))
        self.assertNotIn("", {fault.words for fault in K.JsonFault})
        self.assertEqual((K.JsonFault(99).name, K.JsonFault(99).words), ("UNKNOWN_99", "unknown fault"))

    def test_a_long_line(self) -> None:
        with self.assertRaises(K.LineRefused) as caught:
            K.Schema(SCHEMA).parse("é" * 1000)
        self.assertEqual(caught.exception.text, "é" * 60)
        self.assertIsNone(caught.exception.line)

    def test_a_document(self) -> None:
        with self.assertRaises(K.DocumentRefused) as caught:
            K.Schema(SCHEMA).export_block(b"\x80\x80\x81")
        self.assertEqual(
            (caught.exception.reason, caught.exception.place), (K.DocumentFault.UNEXPECTED_END, 2)
        )
        self.assertEqual(str(caught.exception), "the document at byte 2: the bytes end too early")
        # Field 0, code 6: a float.
        with self.assertRaises(K.DocumentRefused) as caught:
            K.migrate_block(2, b"\x81\0\0\0\0\x06", 3)
        self.assertEqual((caught.exception.reason, caught.exception.place), (K.DocumentFault.FLOAT, 0))

    def test_a_version(self) -> None:
        for version in (0, 4, 2**31, 2**32 - 1):
            for call in (
                lambda: K.export_block(SCHEMA, version, b""),
                lambda: K.migrate_block(version, b"", 2),
                lambda: K.migrate_block(2, b"", version),
                lambda: K.terms_of_block(0, version, b""),
                lambda: K.Schema(SCHEMA).read(b"\x80", version),
                lambda: K.Schema(SCHEMA).parse("{}").write(version),
            ):
                with self.assertRaises(K.VersionRefused) as caught:
                    call()
                self.assertEqual(caught.exception.reason, K.Status.WRONG_VERSION)

    def test_others(self) -> None:
        with self.assertRaises(K.Refused) as caught:
            K.facet_of_text("a")
        self.assertEqual(
            (caught.exception.reason, str(caught.exception)),
            (K.Status.NOT_A_FACET, "a facet's text begins with /"),
        )
        with self.assertRaises(K.Refused) as caught:
            K.end_of_prefix(b"\xff\xff")
        self.assertEqual(caught.exception.reason, K.Status.NO_END)
        with self.assertRaises(K.Refused) as caught:
            K.text_of_facet(b"\xff")
        self.assertEqual(caught.exception.reason, K.Status.NOT_UTF8)
        for given in (b"", b"\0\0\0\0x", b"\0\0\0\0u\0", b"\0\0\0\0s\xff", b"\0\0\0\0ja\0"):
            with self.assertRaises(K.Refused) as caught:
                K.text_of_term(given)
            self.assertEqual(
                (caught.exception.reason, str(caught.exception)),
                (K.Status.NOT_A_TERM, "the bytes are no term"),
            )

    def test_they_are_pickled(self) -> None:
        for refused in (
            K.import_lines(SCHEMA, '{"age":"x"}').refused[0],
            K.import_lines(SCHEMA, '{"age" 7}').refused[0],
            K.Closed("the schema is closed", K.Status.CLOSED),
        ):
            other = pickle.loads(pickle.dumps(refused))
            self.assertEqual(
                (type(other), str(other), vars(other)), (type(refused), str(refused), vars(refused))
            )

    def test_all_are_value_errors(self) -> None:
        for kind in (
            K.SchemaRefused,
            K.DocumentRefused,
            K.LineRefused,
            K.FieldRefused,
            K.VersionRefused,
            K.Closed,
        ):
            self.assertTrue(issubclass(kind, K.Refused))
        self.assertTrue(issubclass(K.Refused, ValueError))

    def test_a_number_without_a_name(self) -> None:
        from kormaglen._refusals import document_refused, line_refused

        for refused in (document_refused(99, 7), line_refused((99, 8, 7), b"x")):
            self.assertEqual((refused.reason, refused.reason.name), (99, "UNKNOWN_99"))
            self.assertEqual(pickle.loads(pickle.dumps(refused)).reason, refused.reason)
        line = line_refused((99, 8, 7), b"x")
        self.assertEqual((line.field_number, line.fault, line.byte), (None, None, None))
        line = line_refused((1, 99, 7), b"x")
        self.assertEqual((line.fault, line.byte, line.field_number), (99, 7, None))
        self.assertEqual(str(line), "the line is not a JSON object: unknown fault at byte 7: x")
        self.assertEqual(pickle.loads(pickle.dumps(line)).fault, line.fault)
        for value in (-1, 2**32, None, "x"):
            with self.assertRaises(ValueError):
                K.Status(value)


if __name__ == "__main__":
    unittest.main()
