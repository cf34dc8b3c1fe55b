"""The values of each type: from Python into a document and back, and the bytes that are stored, by
docs/FORMATS.md."""

from __future__ import annotations

import datetime
import enum
import ipaddress
import pickle
import unittest
from typing import Any, Dict

import kormaglen as K
from tests.common import AGE_36, SCHEMA

UTC = datetime.timezone.utc


class RoundTrips(unittest.TestCase):
    """What goes in comes out."""

    def setUp(self) -> None:
        self.schema = K.Schema(SCHEMA)

    def check(self, name: str, given: Any, wanted: Any, stored: str = "") -> None:
        """The value of a field, and what follows the field's number in its document in version 2."""
        document = self.schema.document({name: given})
        self.assertEqual(document[name], wanted)
        self.assertEqual([type(value) for value in document[name]], [type(value) for value in wanted])
        for version in (2, 3):
            read, size = self.schema.read(document.write(version), version)
            self.assertEqual((read, size), (document, len(document.write(version))))
        if stored:
            field = self.schema.field(name).number
            self.assertEqual(document.write().hex(), "81" + field.to_bytes(4, "little").hex() + stored)

    def test_text(self) -> None:
        self.check("name", "Ada", ["Ada"], "00" "83" "416461")
        self.check("name", "", [""], "00" "80")
        self.check("name", ["a", "é\0\U0001f600"], ["a", "é\0\U0001f600"])
        self.check("word", ["1", "true"], ["1", "true"])

    def test_a_text_with_its_tokens(self) -> None:
        tokens = {
            "text": "a",
            "tokens": [
                {"offset_from": 0, "offset_to": 1, "position": 0, "position_length": 1, "text": "a"}
            ],
        }
        document = self.schema.document({"name": tokens})
        self.assertEqual(document["name"], [tokens])
        # As a pair's value it is written as its text.
        self.assertEqual(document.write().hex(), "81" "00000000" "00" "81" "61")

    def test_numbers(self) -> None:
        self.check("age", 36, [36], "01" "2400000000000000")
        self.check("age", [0, 2**53 + 1, 2**64 - 1], [0, 2**53 + 1, 2**64 - 1])
        self.check("height", -1, [-1], "02" "ffffffffffffffff")
        self.check("height", [-(2**63), 2**63 - 1], [-(2**63), 2**63 - 1])

        class Number(enum.IntEnum):
            SEVEN = 7

        class Index:
            def __index__(self) -> int:
                return 7

        self.check("age", [Number.SEVEN, Index()], [7, 7])
        self.check("more", {"k": Index()}, [{"k": 7}])

    def test_truth_values(self) -> None:
        self.check("sold", True, [True], "09" "01")
        self.check("sold", [False], [False], "09" "00")

    def test_dates(self) -> None:
        self.check(
            "when",
            datetime.datetime(1970, 1, 1, 0, 0, 1, tzinfo=UTC),
            [K.DateTime(10**9)],
            "05" "00ca9a3b00000000",
        )
        self.check("when", K.DateTime(-1), [K.DateTime(-1)], "05" "ffffffffffffffff")
        self.check(
            "when",
            [K.DateTime(-(2**63)), K.DateTime(2**63 - 1)],
            [K.DateTime(-(2**63)), K.DateTime(2**63 - 1)],
        )
        self.check("when", "1970-01-01T02:00:00.0000000010+02:00", [K.DateTime(1)])
        zone = datetime.timezone(datetime.timedelta(hours=5, minutes=30))
        self.check("when", datetime.datetime(1970, 1, 1, 5, 30, 0, 7, zone), [K.DateTime(7000)])

    def test_facets(self) -> None:
        self.check("group", "/a/b", ["/a/b"], "03" "83" "610062")
        self.check("group", "/", ["/"], "03" "80")
        self.check("group", "/a\\/b", ["/a\\/b"])

    def test_bytes(self) -> None:
        self.check("hash", b"\0\xff", [b"\0\xff"], "04" "82" "00ff")
        self.check("hash", [bytearray(b"a"), memoryview(b"xbx")[1:2], b""], [b"a", b"b", b""])
        self.check("hash", "AP8=", [b"\0\xff"])

    def test_json_objects(self) -> None:
        # Entries stand in byte order of the keys: a list of a null and a truth value, and a number.
        self.check("more", {"b": 1, "a": [None, True]}, [{"a": [None, True], "b": 1}])
        # An object of twice one entry, the key a text with its code, and a number of type i64.
        self.check("more", {"k": 5}, [{"k": 5}], "0d" "82" "00" "81" "6b" "02" "0500000000000000")
        self.check(
            "more", [{}, {"k": 2**64 - 1}, {"k": -(2**63)}], [{}, {"k": 2**64 - 1}, {"k": -(2**63)}]
        )
        self.check(
            "more",
            {"k": ("x", {"d": "2020-01-01T00:00:00+01:00"})},
            [{"k": ["x", {"d": "2020-01-01T00:00:00+01:00"}]}],
        )

    def test_ip_addresses(self) -> None:
        # An address of version 4 is stored as ::ffff:a.b.c.d, as a number with its lowest byte first.
        stored = "0a" "0100007f" "ffff" + "00" * 10
        self.check("host", ipaddress.ip_address("127.0.0.1"), [ipaddress.IPv4Address("127.0.0.1")], stored)
        mapped = ipaddress.ip_address("::ffff:127.0.0.1")
        self.check("host", mapped, [ipaddress.IPv4Address("127.0.0.1")], stored)
        self.check(
            "host",
            ["::1", "2001:db8::1"],
            [ipaddress.IPv6Address("::1"), ipaddress.IPv6Address("2001:db8::1")],
        )

    def test_no_values(self) -> None:
        document = self.schema.document({"name": [], "age": ()})
        self.assertEqual((dict(document), len(document), list(document)), ({}, 0, []))
        self.assertEqual(document.write(), b"\x80")

    def test_all_at_once(self) -> None:
        values: Dict[str, Any] = {
            "name": ["Ada"],
            "age": [36],
            "height": [-2],
            "sold": [True],
            "when": [K.DateTime(0)],
            "group": ["/a"],
            "hash": [b"x"],
            "more": [{"k": [1]}],
            "host": [ipaddress.ip_address("10.0.0.1")],
            "secret": [7],
            "word": ["w"],
        }
        document = self.schema.document(values)
        self.assertEqual(document, values)
        self.assertEqual(self.schema.document(document), document)
        self.assertEqual(sorted(document), sorted(values))
        self.assertIn("age", document)
        self.assertNotIn("none", document)
        self.assertEqual(document.get("none", "d"), "d")
        with self.assertRaises(KeyError):
            document["none"]


class Refusals(unittest.TestCase):
    """Nothing is cut or rounded."""

    def setUp(self) -> None:
        self.schema = K.Schema(SCHEMA)

    def refused(self, name: str, value: Any, reason: K.LineStatus) -> None:
        with self.subTest(name=name, value=repr(value)[:50]):
            with self.assertRaises(K.LineRefused) as caught:
                self.schema.document({name: value})
            self.assertEqual((caught.exception.reason, caught.exception.field), (reason, name))

    def test_numbers(self) -> None:
        for value in (-1, 2**64, 10**30, 1.0, 1.5, 1e300, 2.0**53):
            self.refused("age", value, K.LineStatus.OVERFLOW)
        for value in (2**63, -(2**63) - 1, 0.5):
            self.refused("height", value, K.LineStatus.OVERFLOW)
        self.refused("more", {"k": 1.5}, K.LineStatus.FLOAT)
        self.refused("more", {"k": 2**64}, K.LineStatus.FLOAT)
        self.refused("word", 1.5, K.LineStatus.FLOAT)
        for value in (float("nan"), float("inf"), -float("inf")):
            for name, given in (("age", value), ("more", {"k": [value]})):
                with self.assertRaises(ValueError):
                    self.schema.document({name: given})

    def test_other_kinds(self) -> None:
        self.refused("age", "36", K.LineStatus.WRONG_TYPE)
        self.refused("age", True, K.LineStatus.WRONG_TYPE)
        self.refused("age", None, K.LineStatus.WRONG_TYPE)
        self.refused("sold", 1, K.LineStatus.WRONG_TYPE)
        self.refused("name", 1, K.LineStatus.WRONG_TYPE)
        # By the table of values from JSON a text that has not the shape of a date is a mismatch of types,
        # and one out of range a bad text.
        self.refused("when", "yesterday", K.LineStatus.WRONG_TYPE)
        self.refused("when", "3000-01-01T00:00:00Z", K.LineStatus.BAD_TEXT)
        self.refused("group", "a", K.LineStatus.BAD_TEXT)
        self.refused("hash", "***", K.LineStatus.BAD_BASE64)
        self.refused("host", "1.2.3", K.LineStatus.BAD_TEXT)
        self.refused("host", ipaddress.ip_address("fe80::1%eth0"), K.LineStatus.BAD_TEXT)

    def test_what_has_no_json(self) -> None:
        import decimal

        for name, value in (
            ("name", b"bytes"),
            ("age", decimal.Decimal(1)),
            ("age", 1j),
            ("more", {1: 2}),
            ("more", {"k": b""}),
            ("more", {"k": {None: 1}}),
            ("when", datetime.date(1970, 1, 1)),
            ("more", {"k": datetime.datetime.now(UTC)}),
            ("name", object()),
            ("host", b"\x7f\0\0\1"),
        ):
            with self.subTest(name=name, value=repr(value)[:50]):
                with self.assertRaises(TypeError):
                    self.schema.document({name: value})

    def test_datetimes(self) -> None:
        with self.assertRaisesRegex(ValueError, "no time zone"):
            self.schema.document({"when": datetime.datetime(1970, 1, 1)})
        with self.assertRaises(OverflowError):
            self.schema.document({"when": datetime.datetime(3000, 1, 1, tzinfo=UTC)})

    def test_names(self) -> None:
        with self.assertRaises(K.FieldRefused):
            self.schema.document({"nothing": 1})
        with self.assertRaises(TypeError):
            self.schema.document({1: 1})
        with self.assertRaises(TypeError):
            self.schema.document([("age", 1)])

    def test_surrogates(self) -> None:
        for values in ({"name": "\ud800"}, {"more": {"\udfff": 1}}, {"more": {"k": ["\ud800"]}}):
            with self.assertRaises(ValueError):
                self.schema.document(values)

    def test_depth(self) -> None:
        deep: Any = []
        for _ in range(100_000):
            deep = [deep]
        with self.assertRaises(ValueError):
            self.schema.document({"more": {"k": deep}})
        itself: Dict[str, Any] = {}
        itself["k"] = itself
        with self.assertRaises(ValueError):
            self.schema.document({"more": itself})

    def test_a_stored_value_nested_deeply(self) -> None:
        # A list of one list, 100 000 times, and in it a null.
        data = b"\x81" + b"\x07\0\0\0" + b"\x0d\x82\x00\x81k" + b"\x0c\x81" * 100_000 + b"\x0b"
        try:
            document, _ = self.schema.read(data)
        except (K.DocumentRefused, MemoryError):
            return
        with self.assertRaises(ValueError):
            document.to_dict()


class Moments(unittest.TestCase):
    """K.DateTime."""

    def test_texts(self) -> None:
        for nanoseconds, text in (
            (0, "1970-01-01T00:00:00Z"),
            (-1, "1969-12-31T23:59:59.999999999Z"),
            (1_500_000_000, "1970-01-01T00:00:01.5Z"),
            (951_782_400 * 10**9, "2000-02-29T00:00:00Z"),
            (2**63 - 1, "2262-04-11T23:47:16.854775807Z"),
            (-(2**63), "1677-09-21T00:12:43.145224192Z"),
        ):
            self.assertEqual(str(K.DateTime(nanoseconds)), text)
            self.assertEqual(K.DateTime.from_text(text).nanoseconds, nanoseconds)

    def test_datetimes(self) -> None:
        moment = datetime.datetime(2024, 2, 29, 23, 59, 59, 999999, tzinfo=UTC)
        self.assertEqual(K.DateTime.from_datetime(moment).to_datetime(), moment)
        self.assertEqual(K.DateTime.from_datetime(moment), moment)
        self.assertEqual(hash(K.DateTime.from_datetime(moment)), hash(moment))
        self.assertLess(K.DateTime(1), datetime.datetime(1970, 1, 1, 0, 0, 0, 1, UTC))
        self.assertGreater(K.DateTime(1), datetime.datetime(1, 1, 1, tzinfo=UTC))
        self.assertNotEqual(K.DateTime(0), datetime.datetime(1970, 1, 1))
        self.assertNotEqual(K.DateTime(0), 0)
        with self.assertRaises(ValueError):
            K.DateTime(1).to_datetime()
        with self.assertRaises(ValueError):
            K.DateTime.from_datetime(datetime.datetime(1970, 1, 1))

    def test_datetimes_with_nanoseconds(self) -> None:
        class Since(datetime.timedelta):
            nanoseconds = 5

        class Finer(datetime.datetime):
            def __sub__(self, other: Any) -> Any:
                return Since(microseconds=1)

        self.assertEqual(K.DateTime.from_datetime(Finer(1970, 1, 1, tzinfo=UTC)).nanoseconds, 1005)

    def test_ranges(self) -> None:
        for value in (2**63, -(2**63) - 1, 10**5000):
            with self.assertRaises(OverflowError):
                K.DateTime(value)
        for other in (True, 1.0, "1", None):
            with self.assertRaises(TypeError):
                K.DateTime(other)
        for text in (
            "",
            "1970-01-01",
            "1970-13-01T00:00:00Z",
            "1970-01-01T00:00:00+00:00",
            "١970-01-01T00:00:00Z",
        ):
            with self.assertRaises(ValueError):
                K.DateTime.from_text(text)

    def test_it_stays(self) -> None:
        moment = K.DateTime(5)
        with self.assertRaises(AttributeError):
            moment.nanoseconds = 6
        self.assertEqual(pickle.loads(pickle.dumps(moment)), moment)
        self.assertEqual(len({moment, K.DateTime(5), K.DateTime(6)}), 2)


class ForeignValues(unittest.TestCase):
    """Documents that were stored by another schema."""

    def test_a_value_of_another_type(self) -> None:
        schema = K.Schema(
            '[{"name":"when","type":"date","options":{"indexed":true,"fieldnorms":true,"stored":true}}]'
        )
        # A text "x" and a number in a field of dates.
        document, _ = schema.read(
            bytes.fromhex("82" "00000000" "00" "81" "78" "00000000" "01" "0500000000000000")
        )
        self.assertEqual(document["when"], ["x", 5])

    def test_a_field_that_the_schema_lacks(self) -> None:
        document, _ = K.Schema("[]").read(AGE_36)
        self.assertEqual(document.to_dict(), {})
        with self.assertRaises(K.FieldRefused) as caught:
            document.write()
        self.assertEqual((caught.exception.reason, caught.exception.place), (K.Status.FOREIGN_FIELD, 1))
        with self.assertRaises(ValueError):
            pickle.dumps(document)
        self.assertEqual(document, document)


if __name__ == "__main__":
    unittest.main()
