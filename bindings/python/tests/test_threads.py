"""Threads, processes, and what happens in the midst of a call."""

from __future__ import annotations

import array
import gc
import io
import mmap
import multiprocessing
import os
import signal
import sys
import threading
import time
import unittest
from typing import Any, Callable, List

import kormaglen as K
from kormaglen._arguments import Lent, View
from tests.common import AGE_36, SCHEMA, run


def in_threads(count: int, work: Callable[[int], None]) -> List[BaseException]:
    """Runs the work on this number of threads, and returns what they raised."""
    errors: List[BaseException] = []

    def guarded(number: int) -> None:
        try:
            work(number)
        except BaseException as error:
            errors.append(error)

    threads = [threading.Thread(target=guarded, args=(number,)) for number in range(count)]
    for thread in threads:
        thread.start()
    for thread in threads:
        thread.join()
    return errors


def ages(schema: K.Schema, document: K.Document) -> Any:
    """What a process answers that was handed a schema and a document."""
    return os.getpid(), schema.find_field("age").field, document["age"], document.write()


def refusal(schema: K.Schema) -> None:
    """What a process raises."""
    schema.parse('{"age":"x"}')


class Threads(unittest.TestCase):
    """One handle on several threads."""

    def test_one_schema_on_two_threads(self) -> None:
        schema = K.Schema(SCHEMA)

        def work(number: int) -> None:
            for at in range(300):
                age = at * 2 + number
                document = schema.parse('{"age":%d,"name":"%s"}' % (age, "x" * (at * number)))
                assert document["age"] == [age]
                assert schema.import_lines('{"age":%d}' % age).block[6:14] == age.to_bytes(8, "little")
                assert schema.export_block(AGE_36) == b'{"age":[36]}\n'
                assert schema.find_field("more.k") == (7, "k")
                assert schema.terms_of_text("age", str(age))[0][5:] == age.to_bytes(8, "big")

        self.assertEqual(in_threads(2, work), [])

    def test_one_document_on_many_threads(self) -> None:
        schema = K.Schema(SCHEMA)
        document = schema.parse('{"age":36,"name":"Ada"}')
        before = document.write()

        def work(_: int) -> None:
            for _ in range(100):
                assert document.write() == before and document["name"] == ["Ada"]

        self.assertEqual(in_threads(16, work), [])

    def test_closing_while_others_call(self) -> None:
        for _ in range(50):
            schema = K.Schema(SCHEMA)
            document = schema.parse('{"age":36}')

            def work(number: int) -> None:
                try:
                    for _ in range(20):
                        if number == 0:
                            time.sleep(0)
                            document.close()
                            schema.close()
                        assert document.write() == AGE_36
                        assert schema.import_lines('{"age":36}').block == AGE_36
                except K.Closed:
                    pass

            self.assertEqual(in_threads(4, work), [])
            self.assertTrue(schema.closed and document.closed)

    def test_the_interpreter_runs_meanwhile(self) -> None:
        schema = K.Schema(SCHEMA)
        # One line of 64 MB takes the library a while.
        line = b'{"name":"' + b"x" * (1 << 26) + b'"}'
        done = threading.Event()
        seen = 0

        def work() -> None:
            schema.parse(line)
            done.set()

        thread = threading.Thread(target=work)
        thread.start()
        while not done.is_set():
            seen += 1
            time.sleep(0.0005)
        thread.join()
        # Were the lock held, this thread would sleep for nearly all of the call.
        self.assertGreater(seen, 10)

    def test_two_schemas_at_the_same_time(self) -> None:
        one, other = K.Schema(SCHEMA), K.Schema(SCHEMA)
        documents = [one.parse('{"age":1}'), other.parse('{"age":2}')]

        def work(number: int) -> None:
            for _ in range(200):
                assert (documents[0] == documents[1]) is False
                assert documents[number] == documents[number]
                assert (documents[number] == documents[1 - number]) is False

        self.assertEqual(in_threads(2, work), [])


RACE = """
import ctypes, threading, time
import kormaglen as K
from tests.common import SCHEMA
schema = K.Schema(SCHEMA)
line = '{"name":"%s","group":["/a\\\\u0041/b"],"hash":"AAECAwQ=","more":{"k":[1,"v"]}}'
line = (line % ("é\\\\u0000x" * 200)).encode()
block = schema.import_lines(line).block * 20
pairs = [(bytearray(line), line), (bytearray(block), block)]
move, stop = ctypes.CDLL(None).memmove, time.monotonic() + 4
def change(given, good):
    # (these calls of C run beside others, as the interpreter's lock is not held)
    there = (ctypes.c_char * len(given)).from_buffer(given)
    bad = bytes((byte * 7 + 3) % 256 if at % 50 == 0 else byte for at, byte in enumerate(good))
    while time.monotonic() < stop:
        move(there, bad, len(good))
        move(there, good, len(good))
for pair in pairs:
    threading.Thread(target=change, args=pair).start()
calls = [
    lambda: schema.parse(pairs[0][0]).to_json(), lambda: schema.import_lines(pairs[0][0]),
    lambda: schema.export_block(pairs[1][0]), lambda: K.migrate_block(2, pairs[1][0], 3),
    lambda: K.terms_of_block(0, 2, pairs[1][0]), lambda: list(schema.terms_of_block(pairs[1][0], 2, str)),
    lambda: [each.to_dict() for each in schema.documents(pairs[1][0])],
]
while time.monotonic() < stop:
    for call in calls:
        try:
            call()
        except (ValueError, MemoryError):
            pass
print("whole")
"""


class Changes(unittest.TestCase):
    """Input that other threads change: the library relies on it that it stays."""

    def test_what_may_change_is_copied(self) -> None:
        data = bytes(100)
        for given in (data, memoryview(data), memoryview(data)[10:]):
            with View(given, "given") as view, Lent(given, "given") as lent:
                self.assertEqual((lent.at, lent.size), (view.at, view.size))
        changing = bytearray(data)
        mapped = mmap.mmap(-1, 100)
        for given in (
            changing,
            memoryview(changing),
            memoryview(changing).toreadonly(),
            array.array("b", data),
            mapped,
        ):
            with View(given, "given") as view, Lent(given, "given") as lent:
                self.assertNotEqual(lent.at, view.at)
                self.assertEqual(lent.size, view.size)
        with Lent(changing, "given"):
            changing.append(0)

    def test_a_race(self) -> None:
        done = run(RACE)
        self.assertEqual((done.returncode, done.stdout.strip()), (0, "whole"), done.stderr[-300:])


class InTheMidst(unittest.TestCase):
    """Finalizers, handlers and iterators that run during a call on the same thread."""

    def test_an_iterator_that_closes(self) -> None:
        schema = K.Schema(SCHEMA)

        def lines() -> Any:
            yield "{}"
            schema.close()
            yield "{}"

        with self.assertRaises(K.Closed):
            schema.import_lines(lines())

    def test_a_callback_that_closes(self) -> None:
        schema = K.Schema(SCHEMA)
        with self.assertRaises(K.Closed):
            schema.import_file(["x", "x"], io.BytesIO(), on_refused=lambda _: schema.close(), chunk_size=1)

    def test_a_mapping_that_closes(self) -> None:
        schema = K.Schema(SCHEMA)

        class Closing(dict):
            def items(self) -> Any:
                schema.close()
                return super().items()

        with self.assertRaises(K.Closed):
            schema.document(Closing(age=1))

    def test_a_version_that_closes(self) -> None:
        schema = K.Schema(SCHEMA)
        document = schema.parse("{}")

        class Closing:
            def __index__(self) -> int:
                document.close()
                return 2

        with self.assertRaises(K.Closed):
            document.write(Closing())

    @unittest.skipIf(sys.version_info < (3, 12), "__buffer__ is of Python 3.12")
    def test_a_buffer_that_closes(self) -> None:
        schema = K.Schema(SCHEMA)

        class Closing:
            def __buffer__(self, flags: int) -> memoryview:
                schema.close()
                return memoryview(b"{}")

        with self.assertRaises(K.Closed):
            schema.parse(Closing())

    def test_finalizers_in_a_call(self) -> None:
        schema = K.Schema(SCHEMA)
        gc.set_threshold(1)
        try:
            for _ in range(300):
                cycle: List[Any] = [schema.parse('{"age":1}'), K.Schema("[]")]
                cycle.append(cycle)
                schema.import_lines('{"age":1}\n{"age":"x"}')
        finally:
            gc.set_threshold(700)

    def test_a_handler_that_closes(self) -> None:
        schema = K.Schema(SCHEMA)

        def handler(*_: Any) -> None:
            schema.close()

        before = signal.signal(signal.SIGALRM, handler)
        try:
            signal.setitimer(signal.ITIMER_REAL, 0.05)
            with self.assertRaises(K.Closed):
                end = time.monotonic() + 10
                while time.monotonic() < end:
                    schema.import_lines('{"age":1}\n' * 100)
        finally:
            signal.signal(signal.SIGALRM, before)


def calls_of(schema: K.Schema, line: bytearray, block: bytearray) -> List[Callable[[], Any]]:
    """Calls that are lent buffers and take locks."""
    return [
        lambda: schema.parse(line),
        lambda: schema.import_lines(line),
        lambda: schema.export_block(block),
        lambda: list(schema.documents(block)),
        lambda: schema.read(block)[0].write(),
        lambda: K.migrate_block(2, block, 3),
    ]


class Interrupted(Exception):
    """What a handler raises."""


class Interrupts(unittest.TestCase):
    """A handler that raises in the midst of anything: what was lent is given back, and no lock stays
    taken."""

    def test_a_handler_that_raises(self) -> None:
        schema = K.Schema(SCHEMA)
        line, block = bytearray(b'{"age":36}'), bytearray(AGE_36 * 3)
        self.assertGreater(self.interrupted(calls_of(schema, line, block)), 10)
        gc.collect()
        line.append(10)
        block.append(0x80)
        self.assertEqual(in_threads(1, lambda _: self.assertEqual(schema.parse(line)["age"], [36])), [])

    def interrupted(self, calls: List[Callable[[], Any]]) -> int:
        """Makes the calls for two seconds, while a handler raises. Returns how often it did."""
        armed, seen = False, 0

        def handler(*_: Any) -> None:
            nonlocal armed
            if armed:
                armed = False
                raise Interrupted

        before = signal.signal(signal.SIGALRM, handler)
        # (what is raised in a finalizer is printed, and goes no further)
        printing, sys.unraisablehook = sys.unraisablehook, lambda _: None
        try:
            end = time.monotonic() + 2
            while time.monotonic() < end:
                for call in calls:
                    try:
                        armed = True
                        signal.setitimer(signal.ITIMER_REAL, 1e-6 * (1 + seen % 97))
                        call()
                        call()
                        armed = False
                    except Interrupted:
                        seen += 1
        finally:
            signal.setitimer(signal.ITIMER_REAL, 0)
            signal.signal(signal.SIGALRM, before)
            sys.unraisablehook = printing
        return seen


class Processes(unittest.TestCase):
    """Schemas, documents and refusals travel to other processes."""

    def test_spawn(self) -> None:
        schema = K.Schema(SCHEMA)
        document = schema.parse('{"age":36}')
        with multiprocessing.get_context("spawn").Pool(1) as pool:
            process, *rest = pool.apply(ages, (schema, document))
            self.assertNotEqual(process, os.getpid())
            self.assertEqual(rest, [1, [36], AGE_36])
            with self.assertRaises(K.LineRefused) as caught:
                pool.apply(refusal, (schema,))
            self.assertEqual(
                (caught.exception.field, caught.exception.reason), ("age", K.LineStatus.WRONG_TYPE)
            )

    def test_fork(self) -> None:
        code = """
import os, threading
import kormaglen as K
from tests.common import SCHEMA
schema = K.Schema(SCHEMA)
ready = threading.Event()
def hold():
    with schema._handle.lock:
        ready.set()
        threading.Event().wait(20)
threading.Thread(target=hold, daemon=True).start()
ready.wait()
if os.fork() == 0:
    del schema  # (its lock is held by a thread that isn't here: the finalizer must not wait)
    os._exit(7)
print(os.waitstatus_to_exitcode(os.wait()[1]))
"""
        done = run(code, timeout=15)
        self.assertEqual(done.stdout.strip(), "7", done.stderr)


if __name__ == "__main__":
    unittest.main()
