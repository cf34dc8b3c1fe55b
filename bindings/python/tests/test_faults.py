"""Faults of the first package. Each test fails there, some by the end of the process: those run in
processes of their own."""

from __future__ import annotations

import array
import copy
import gc
import mmap
import pickle
import threading
import unittest
from typing import Any, Callable, List

import kormaglen as K
from tests.common import AGE_36, SCHEMA, TOKENS, run

BEGIN = """
import kormaglen as K
from tests.common import SCHEMA
schema = K.Schema(SCHEMA)
document = schema.parse('{"age":36}')
other = schema.parse('{"name":["x","y"]}')
def refused(call, *kinds):
    try:
        call()
    except kinds as error:
        print(type(error).__name__)
    else:
        print("no error")
"""


class WrongHandles(unittest.TestCase):
    """A handle of the wrong kind reached the library, and the process ended by a signal."""

    def check(self, call: str) -> None:
        done = run(BEGIN + f"refused(lambda: {call}, TypeError)")
        self.assertEqual((done.returncode, done.stdout.strip()), (0, "TypeError"), done.stderr[-300:])

    def test_the_document_of_a_document(self) -> None:
        self.check("K.Document.parse(document, '{}')")
        self.check("K.Document.read(document, b'')")
        self.check("K.Document.from_dict(document, {})")

    def test_methods_of_the_other_class(self) -> None:
        for call in (
            "K.Schema.find_field(document, 'age')",
            "K.Schema.terms_of_text(document, 'age', '1')",
            "K.Schema.values_of_block(document, 'age', b'')",
            "K.Schema.terms_of_block(document, b'')",
            "K.Schema.ranges_of_text(document, 'age', '*')",
            "K.Schema.import_lines(document, b'{}')",
            "K.Schema.export_block(document, b'')",
            "K.Schema.to_json(document)",
            "K.Document.to_json(schema)",
            "K.Document.write(schema, 2)",
        ):
            with self.subTest(call):
                self.check(call)

    def test_a_version_that_is_a_handle(self) -> None:
        self.check("document.write(other)")
        self.check("document.write(schema)")


class CutNumbers(unittest.TestCase):
    """A number was cut to 32 bits."""

    NUMBERS = (-1, 1 << 32, (1 << 32) + 2, 1 << 64, -(1 << 31), 10**5000)

    def refuses(self, kind: Any, call: Callable[[Any], object], *values: Any) -> None:
        for value in values:
            with self.subTest(value=str(type(value))):
                with self.assertRaises(kind):
                    call(value)

    def test_versions(self) -> None:
        calls: List[Callable[[Any], object]] = [
            lambda n: K.export_block(SCHEMA, n, AGE_36),
            lambda n: K.migrate_block(n, AGE_36, 2),
            lambda n: K.migrate_block(2, AGE_36, n),
            lambda n: K.terms_of_block(0, n, AGE_36),
            lambda n: K.terms(0, AGE_36, n),
            lambda n: K.Schema(SCHEMA).read(AGE_36, n),
            lambda n: K.Schema(SCHEMA).parse("{}").write(n),
            lambda n: K.Schema(SCHEMA).documents(AGE_36, n),
            lambda n: K.Schema(SCHEMA).export_block(AGE_36, n),
            lambda n: K.Schema(SCHEMA).values_of_block("age", AGE_36, n),
            lambda n: K.Schema(SCHEMA).terms_of_block(AGE_36, n),
        ]
        for call in calls:
            self.refuses(OverflowError, call, *self.NUMBERS)
            self.refuses(TypeError, call, True, 2.0, "2", None, b"2")

    def test_fields(self) -> None:
        for call in (
            lambda n: K.terms_of_block(n, 2, AGE_36),
            lambda n: K.term_of_text(n, "a"),
            lambda n: K.terms(n, AGE_36),
        ):
            self.refuses(OverflowError, call, *self.NUMBERS)
            self.refuses(TypeError, call, True, 1.0, "1", None)

    def test_the_name_of_the_argument(self) -> None:
        with self.assertRaisesRegex(OverflowError, "^version: 4294967298 is not within 0 and 4294967295$"):
            K.export_block(SCHEMA, (1 << 32) + 2, AGE_36)
        with self.assertRaisesRegex(OverflowError, "^field: -1 "):
            K.terms_of_block(-1, 2, AGE_36)
        with self.assertRaisesRegex(TypeError, "^field: an integer is wanted, not bool$"):
            K.terms_of_block(False, 2, AGE_36)

    def test_an_index(self) -> None:
        class Two:
            def __index__(self) -> int:
                return 2

        self.assertEqual(K.export_block(SCHEMA, Two(), AGE_36), b'{"age":[36]}\n')


class OtherThreads(unittest.TestCase):
    """A handle that was collected on another thread was never freed, and one that was used there refused."""

    def test_use_and_close(self) -> None:
        schema = K.Schema(SCHEMA)
        said: List[Any] = []

        def use() -> None:
            said.append(schema.parse('{"age":36}').write())
            schema.close()

        thread = threading.Thread(target=use)
        thread.start()
        thread.join()
        self.assertEqual(said, [AGE_36])
        self.assertTrue(schema.closed)

    def test_collected_on_another_thread(self) -> None:
        code = """
import gc, resource, sys, threading
import kormaglen as K
from tests.common import SCHEMA
schema = K.Schema(SCHEMA)
line = '{"name":"%s"}' % ("x" * 100000)
def drop(documents):
    documents.clear()
def rounds(count):
    for _ in range(count):
        documents = [schema.parse(line) for _ in range(100)]
        thread = threading.Thread(target=drop, args=(documents,))
        thread.start()
        thread.join()
    gc.collect()
    return resource.getrusage(resource.RUSAGE_SELF).ru_maxrss
first = rounds(3)
print(rounds(30) - first)
"""
        done = run(code)
        self.assertEqual(done.returncode, 0, done.stderr)
        # 3000 documents of 100 kB would take 300 MB. (The unit is KiB.)
        self.assertLess(int(done.stdout), 20_000)


class Inputs(unittest.TestCase):
    """Only bytes were taken, and of a subclass the length that it says."""

    LINE = b'{"age":36}'

    def test_each_kind_of_buffer(self) -> None:
        mapped = mmap.mmap(-1, len(self.LINE))
        mapped.write(self.LINE)
        inputs: List[Any] = [
            self.LINE,
            bytearray(self.LINE),
            memoryview(self.LINE),
            memoryview(b"no" + self.LINE + b"no")[2:-2],
            memoryview(self.LINE).toreadonly(),
            array.array("B", self.LINE),
            array.array("H", self.LINE),
            mapped,
            self.LINE.decode(),
        ]
        schema = K.Schema(SCHEMA)
        for given in inputs:
            with self.subTest(type(given)):
                self.assertEqual(schema.parse(given).write(), AGE_36)
                self.assertEqual(schema.import_lines(given).block, AGE_36)
        self.assertEqual(K.Schema(bytearray(SCHEMA)), K.Schema(SCHEMA.decode()))

    def test_a_false_length(self) -> None:
        code = (
            BEGIN
            + """
class Lying(bytes):
    def __len__(self):
        return 10**9
print(schema.parse(Lying(b'{"age":36}')).write().hex(), K.migrate_block(2, Lying(b"\\x80"), 3).hex())
"""
        )
        done = run(code)
        self.assertEqual(
            (done.returncode, done.stdout.strip()), (0, AGE_36.hex() + " 80"), done.stderr[-300:]
        )

    def test_bytes_that_lie_apart(self) -> None:
        for call in (
            lambda given: K.Schema(SCHEMA).parse(given),
            lambda given: K.migrate_block(2, given, 3),
        ):
            with self.assertRaisesRegex(BufferError, "^(line|block): "):
                call(memoryview(self.LINE)[::2])
            released = memoryview(self.LINE)
            released.release()
            with self.assertRaisesRegex(ValueError, "^(line|block): "):
                call(released)

    def test_a_lone_surrogate(self) -> None:
        for call in (
            K.Schema,
            K.facet_of_text,
            K.Schema(SCHEMA).parse,
            K.Schema(SCHEMA).find_field,
            lambda t: K.Schema(SCHEMA).values_of_block(t, b""),
            lambda t: K.Schema(SCHEMA).terms_of_text(t, "1"),
            lambda t: K.Schema(SCHEMA).ranges_of_text("age", t),
            lambda t: K.term_of_text(0, t),
        ):
            with self.assertRaises(ValueError):
                call("/\ud800")

    def test_a_bytearray_is_free_after_a_call(self) -> None:
        given = bytearray(b'{"age":x}')
        for _ in range(2):
            with self.assertRaises(K.LineRefused):
                K.Schema(SCHEMA).parse(given)
            given.extend(b" ")


class Copies(unittest.TestCase):
    """Copies and pickles failed in a finalizer."""

    def test_a_schema(self) -> None:
        schema = K.Schema(SCHEMA)
        for other in (copy.copy(schema), copy.deepcopy(schema), pickle.loads(pickle.dumps(schema))):
            self.assertIsNot(other, schema)
            self.assertEqual(other, schema)
            self.assertEqual(hash(other), hash(schema))
            other.close()
        self.assertFalse(schema.closed)

    def test_a_document(self) -> None:
        document = K.Schema(SCHEMA).parse('{"age":36,"name":"Ada","group":"/a/b"}')
        for other in (copy.copy(document), copy.deepcopy(document), pickle.loads(pickle.dumps(document))):
            self.assertEqual(other, document)
            other.close()
        self.assertEqual(document["age"], [36])

    def test_what_would_lose_values(self) -> None:
        schema = K.Schema(SCHEMA)
        with self.assertRaisesRegex(ValueError, "not stored"):
            pickle.dumps(schema.parse('{"secret":7}'))
        with self.assertRaisesRegex(ValueError, "not stored"):
            copy.copy(schema.parse(TOKENS))

    def test_closed_ones(self) -> None:
        schema = K.Schema(SCHEMA)
        document = schema.parse("{}")
        document.close()
        for call in (copy.copy, copy.deepcopy, pickle.dumps):
            with self.assertRaises(K.Closed):
                call(document)
        schema.close()
        for call in (copy.copy, copy.deepcopy, pickle.dumps):
            with self.assertRaises(K.Closed):
                call(schema)


class HalfMade(unittest.TestCase):
    """A value without a handle is a closed one, and its finalizer is silent."""

    def test_new_without_init(self) -> None:
        for each in (K.Schema.__new__(K.Schema), object.__new__(K.Schema)):
            self.assertTrue(each.closed)
            each.close()
            for call in (
                each.to_json,
                lambda: each.parse("{}"),
                lambda: each.find_field("a"),
                lambda: each.values_of_block("a", b""),
                lambda: each.terms_of_block(b""),
                lambda: each.terms_of_text("a", "b"),
                lambda: each.ranges_of_text("a", "*"),
                each.__enter__,
                lambda: hash(each),
            ):
                with self.assertRaises(K.Closed):
                    call()
            self.assertEqual(repr(each), "<Schema, closed>")
        document = K.Document.__new__(K.Document)
        with self.assertRaises(K.Closed):
            document.to_json()
        with self.assertRaises(K.Closed):
            document.schema
        self.assertFalse(document == {})

    def test_an_init_that_failed(self) -> None:
        kept: List[K.Schema] = []

        class Kept(K.Schema):
            def __init__(self, json: Any) -> None:
                kept.append(self)
                super().__init__(json)

        with self.assertRaises(K.SchemaRefused):
            Kept("{}")
        self.assertTrue(kept[0].closed)
        with self.assertRaises(K.Closed):
            kept[0].to_json()
        kept.clear()
        gc.collect()

    def test_a_subclass_without_init(self) -> None:
        class Bare(K.Schema):
            def __init__(self) -> None:
                pass

        with self.assertRaises(K.Closed):
            Bare().find_field("age")

    def test_a_second_init(self) -> None:
        schema = K.Schema(SCHEMA)
        with self.assertRaises(ValueError):
            schema.__init__("[]")
        self.assertEqual(len(schema.fields), 11)

    def test_the_end_of_the_interpreter(self) -> None:
        code = """
import sys
import kormaglen as K
from tests.common import SCHEMA
schema = K.Schema(SCHEMA)
document = schema.parse('{"age":36}')
cycle = [schema, document]
cycle.append(cycle)
sys.kept = cycle
import builtins
builtins.kept = [K.Schema(SCHEMA)]
"""
        done = run(code)
        self.assertEqual((done.returncode, done.stdout, done.stderr), (0, "", ""))


if __name__ == "__main__":
    unittest.main()
