"""Memory: what goes by parts takes as much as a part, and what is given up is given back.

The files have 50 MB. KORMAGLEN_TEST_MB names another size, as 1024.
"""

from __future__ import annotations

import os
import tempfile
import unittest

import kormaglen as K
from kormaglen._arguments import filled
from kormaglen._library import Answer
from tests.common import run

MEGABYTES = int(os.environ.get("KORMAGLEN_TEST_MB", "50"))

WRITE = """
import sys
size, at = int(sys.argv[2]) << 20, 0
with open(sys.argv[1], "wb") as file:
    number = 0
    while at < size:
        line = b'{"name":"%s","age":%d,"group":"/a/b%d"}\\n' % (b"word " * 20, number, number % 7)
        at += file.write(line if number % 10 else b'{"age":"x"}\\n')
        number += 1
"""

# Prints by how many KiB the most memory grew, from after a small run of the same to after the large one.
MEASURE = """
import io, mmap, resource, sys
import kormaglen as K
from tests.common import SCHEMA
def peak():
    return resource.getrusage(resource.RUSAGE_SELF).ru_maxrss
schema = K.Schema(SCHEMA)
lines_path, block_path, what = sys.argv[1:]
def small():
    lines = b'{"name":"a","age":1}\\n' * 150000
    block = io.BytesIO()
    schema.import_file(io.BytesIO(lines), block)
    for _ in schema.documents(block.getvalue()): pass
    for _ in schema.export_chunks(block.getvalue()): pass
    for _ in K.terms(0, block.getvalue()): pass
small()
first = peak()
count = 0
if what == "import":
    print(schema.import_file(lines_path, block_path).lines, file=sys.stderr)
else:
    with open(block_path, "rb") as file:
        call = {
            "documents": lambda: schema.documents(file),
            "export": lambda: schema.export_chunks(file),
            "terms": lambda: K.terms(0, file),
            "migrate": lambda: K.migrate_chunks(2, file, 3),
        }[what]
        for each in call():
            count += 1
print(peak() - first)
"""


class Bounded(unittest.TestCase):
    """Streams over large files."""

    def test_streams(self) -> None:
        with tempfile.TemporaryDirectory() as folder:
            lines, block = os.path.join(folder, "lines"), os.path.join(folder, "block")
            done = run(WRITE, lines, str(MEGABYTES))
            self.assertEqual(done.returncode, 0, done.stderr)
            for what in ("import", "documents", "export", "terms", "migrate"):
                with self.subTest(what):
                    done = run(MEASURE, lines, block, what, timeout=3600)
                    self.assertEqual(done.returncode, 0, done.stderr)
                    # A part of 1 MiB has 8000 lines: their answers and refusals, and the block twice.
                    self.assertLess(int(done.stdout), 12_000, what)


# Prints how many KiB a process took at most for the terms of one key over numbers, of which each is looked
# at, and none is kept.
LONG_KEY = """
import resource, sys
import kormaglen as K
schema = K.Schema('[{"name":"more","type":"json_object","options":{"stored":true,"fast":false,"indexing":{}}}]')
letters, count = int(sys.argv[1]), int(sys.argv[2])
key, line = "k" * letters, '{"more":{"%s":[%s]}}' % ("k" * letters, ",".join(map(str, range(count))))
block = schema.import_lines(line).block
head = b"\\0\\0\\0\\0j" + key.encode() + b"\\0i\\x80"
number = 0
for document, term in schema.terms_of_block(block, on_fault=print):
    assert document == 0 and term[letters + 8 :] == number.to_bytes(7, "big"), term[letters:]
    assert number % 1000 or term.startswith(head)
    number += 1
assert number == count, number
print(resource.getrusage(resource.RUSAGE_SELF).ru_maxrss)
"""


class LongKeys(unittest.TestCase):
    """The terms of one key over half as many numbers as it has letters."""

    def test_memory_is_in_proportion_to_the_block(self) -> None:
        def most(letters: int, count: int) -> int:
            done = run(LONG_KEY, str(letters), str(count))
            self.assertEqual(done.returncode, 0, done.stderr)
            return int(done.stdout)

        alone = most(0, 0)
        for letters in (5_000, 10_000, 20_000, 40_000):
            with self.subTest(letters):
                # A letter and half a number take 6 bytes of the block and some 15 of the records. The terms
                # would take 785 MB of the last.
                self.assertLess((most(letters, letters // 2) - alone) * 1024, 100 * letters + (1 << 20))


LEAK = """
import gc, resource
import kormaglen as K
from tests.common import SCHEMA
import os
def resident():
    with open("/proc/self/statm") as file:
        return int(file.read().split()[1]) * os.sysconf("SC_PAGE_SIZE")
schema = K.Schema(SCHEMA)
block = schema.import_lines('{"name":"x","age":7}\\n' * 100).block
fault = schema.import_lines('{"when":7}\\n' * 100).block
def attempt(call):
    try:
        call()
    except (ValueError, TypeError, OverflowError, BufferError):
        pass
def once():
    for call in (
        lambda: K.Schema(SCHEMA), lambda: K.Schema("{"), lambda: schema.parse('{"age":"x"}'),
        lambda: schema.parse('{"age":1}').write(3), lambda: schema.export_block(block),
        lambda: schema.export_block(block[:-1]), lambda: K.terms_of_block(1, 2, block),
        lambda: list(schema.documents(block)), lambda: schema.import_lines("x\\n" * 10),
        lambda: next(schema.terms_of_block(block)), lambda: list(schema.terms_of_block(fault, on_fault=str)),
        lambda: schema.terms_of_block(fault),
        lambda: schema.parse(5), lambda: schema.read(block, 9),
        lambda: schema.export_block(memoryview(block)[::2]),
        lambda: schema.document({"age": [1, 2], "more": {"k": 1}}).to_dict(),
    ):
        attempt(call)
for _ in range(300):
    once()
gc.collect()
first = resident()
for _ in range(3000):
    once()
gc.collect()
print(resident() - first, first)
"""


LIMITED = """
import resource
import kormaglen as K
from tests.common import SCHEMA
schema = K.Schema(SCHEMA)
line = b'{"name":"' + b"x" * (60 << 20) + b'"}'
text = line.decode()
with open("/proc/self/statm") as file:
    used = int(file.read().split()[0]) * resource.getpagesize()
before = resource.getrlimit(resource.RLIMIT_AS)
resource.setrlimit(resource.RLIMIT_AS, (used + (30 << 20), before[1]))
seen = 0
for call in (lambda: schema.parse(line), lambda: schema.import_lines(line), lambda: K.term_of_text(0, text)):
    try:
        call()
    except MemoryError:
        seen += 1
resource.setrlimit(resource.RLIMIT_AS, before)
print(seen, schema.parse('{"age":36}')["age"])
"""


class Limits(unittest.TestCase):
    """Where memory is refused."""

    def test_want_of_memory(self) -> None:
        done = run(LIMITED)
        self.assertEqual((done.returncode, done.stdout.strip()), (0, "3 [36]"), done.stderr)

    def test_an_answer_that_never_fits(self) -> None:
        sizes = []

        def call(_: int, size: int) -> Answer:
            sizes.append(size)
            return Answer(status=K.Status.TOO_SMALL, bytes=size + 1)

        with self.assertRaises(BufferError):
            filled(10, call)
        self.assertEqual(sizes, list(range(10, 18)))
        with self.assertRaises(MemoryError):
            filled(10, lambda _, size: Answer(status=K.Status.TOO_SMALL, bytes=2**64 - 1))


class Leaks(unittest.TestCase):
    """What is given up, also after errors."""

    def test_many_calls(self) -> None:
        done = run(LEAK)
        self.assertEqual(done.returncode, 0, done.stderr)
        grown, first = map(int, done.stdout.split())
        self.assertLess(grown, first // 20)


if __name__ == "__main__":
    unittest.main()
