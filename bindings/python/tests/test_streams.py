"""Lines and blocks in parts: what is given in parts of any size is what is given as a whole."""

from __future__ import annotations

import array
import gzip
import io
import mmap
import os
import pathlib
import tempfile
import unittest
from typing import Any, Iterator, List

import kormaglen as K
from tests.common import AGE_36, EMPTY, FAULTS, SCHEMA

LINES = '{"age":36}\n{"age":"x"}\n\n{}\n{"name":["a","é"],"age":[1,2]}'
# The second and the third line are refused. The fifth has its pairs in byte order of the names: age is
# field 1, name field 0.
FIFTH = bytes.fromhex(
    "84"
    "01000000"
    "01"
    "0100000000000000"
    "01000000"
    "01"
    "0200000000000000"
    "00000000"
    "00"
    "81"
    "61"
    "00000000"
    "00"
    "82"
    "c3a9"
)
BLOCK = AGE_36 + EMPTY + FIFTH
STORED = K.LineStatus.STORED


class Short(io.RawIOBase):
    """A file that gives and takes a byte at a time."""

    def __init__(self, data: bytes = b"") -> None:
        super().__init__()
        self.data, self.at, self.written = data, 0, bytearray()

    def read(self, size: int = -1) -> bytes:
        self.at += 1
        return self.data[self.at - 1 : self.at]

    def write(self, data: Any) -> int:
        self.written += bytes(data[:1])
        return 1


class Importing(unittest.TestCase):
    """import_lines, import_chunks and import_file."""

    def setUp(self) -> None:
        self.schema = K.Schema(SCHEMA)

    def check(self, imported: K.Imported) -> None:
        self.assertEqual(imported.block, BLOCK)
        self.assertEqual([line.status for line in imported.lines], [STORED, 3, 1, STORED, STORED])
        self.assertEqual([line.size for line in imported.lines], [len(AGE_36), 0, 0, 1, len(FIFTH)])
        self.assertEqual([line.field for line in imported.lines], [None, 1, None, None, None])
        self.assertEqual([(r.line, r.text) for r in imported.refused], [(2, '{"age":"x"}'), (3, "")])

    def sources(self) -> Iterator[Any]:
        data = LINES.encode()
        mapped = mmap.mmap(-1, len(data))
        mapped.write(data)
        yield from (LINES, data, bytearray(data), memoryview(data), array.array("B", data), mapped)
        yield from (
            io.BytesIO(data),
            io.StringIO(LINES, newline=""),
            Short(data),
            gzip.open(io.BytesIO(gzip.compress(data))),
        )
        yield from (
            LINES.split("\n"),
            data.split(b"\n"),
            data.splitlines(keepends=True),
            (line for line in LINES.split("\n")),
        )
        yield ['{"age":36}\n{"age":"x"}', "\n", b'{}\n{"name":["a","\xc3\xa9"],"age":[1,2]}\n']

    def test_each_source(self) -> None:
        for source in self.sources():
            with self.subTest(type(source)):
                self.check(self.schema.import_lines(source))
        self.check(K.import_lines(SCHEMA, LINES))
        self.check(K.import_lines(self.schema, LINES))

    def test_each_size(self) -> None:
        for size in (1, 2, 7, 10, 11, 12, 50, 1000):
            for source in self.sources():
                parts = list(self.schema.import_chunks(source, chunk_size=size))
                firsts = [part.first for part in parts]
                counts = [len(part.lines) for part in parts]
                self.assertEqual(firsts, [1 + sum(counts[:at]) for at in range(len(parts))])
                self.assertEqual(b"".join(part.block for part in parts), BLOCK)
                self.assertEqual([r.line for part in parts for r in part.refused], [2, 3])
                if size == 1:
                    self.assertIn(len(parts), (3, 5))  # (three items of the last source)

    def check_faults(self, part: K.Imported) -> None:
        """Stored lines, with one that is no JSON object after each."""
        self.assertEqual([row.size for row in part.lines], len(FAULTS) * [len(AGE_36), 0])
        self.assertEqual({row.field for row in part.lines}, {None})
        self.assertEqual({(row.fault, row.byte) for row in part.lines[::2]}, {(None, None)})
        wanted = [(number, byte) for _, number, byte, _ in FAULTS]
        self.assertEqual([(row.fault, row.byte) for row in part.lines[1::2]], wanted)
        self.assertEqual([(each.fault, each.byte) for each in part.refused], wanted)
        for at, (each, (_, _, byte, words)) in enumerate(zip(part.refused, FAULTS), 1):
            place = "" if byte is None else f" at byte {byte}"
            head = f"line {2 * at}: the line is not a JSON object: "
            self.assertEqual(str(each), f"{head}{words}{place}: {each.text}")

    def test_faults(self) -> None:
        lines = b"".join(b'{"age":36}\n' + line + b"\n" for line, *_ in FAULTS)
        self.check_faults(self.schema.import_lines(lines))
        self.check_faults(self.schema.import_lines(lines.splitlines(keepends=True)))
        for size in (1, 2, 17, 100, 1000):
            parts = list(self.schema.import_chunks(io.BytesIO(lines), chunk_size=size))
            self.check_faults(
                K.Imported(
                    b"".join(part.block for part in parts),
                    K.LineAnswers(b"".join(part.lines._packed for part in parts)),
                    K.LineRefusals([record for part in parts for record in part.refused._records]),
                    1,
                )
            )
            seen: List[K.LineRefused] = []
            counts = self.schema.import_file(io.BytesIO(lines), io.BytesIO(), seen.append, size)
            wanted = [(2 * at, number, byte) for at, (_, number, byte, _) in enumerate(FAULTS, 1)]
            self.assertEqual([(each.line, each.fault, each.byte) for each in seen], wanted)
            self.assertEqual([str(each) for each in counts.refusals], [str(each) for each in seen])

    def test_nothing(self) -> None:
        for source in ("", b"", [], io.BytesIO()):
            imported = self.schema.import_lines(source)
            self.assertEqual(
                (imported.block, list(imported.lines), list(imported.refused), imported.first),
                (b"", [], [], 1),
            )
            self.assertEqual(list(self.schema.import_chunks(source)), [])

    def test_line_feeds(self) -> None:
        self.assertEqual([line.status for line in self.schema.import_lines("{}\r\n\n").lines], [STORED, 1])
        self.assertEqual(
            len(self.schema.import_lines("{}").lines), len(self.schema.import_lines("{}\n").lines)
        )
        self.assertEqual(len(self.schema.import_lines(["", "{}"]).lines), 2)

    def test_what_is_no_source(self) -> None:
        for source in (None, 1, 1.5, object(), True, {"{}": 1}):
            for call in (self.schema.import_lines, self.schema.import_chunks):
                with self.assertRaises(TypeError):
                    call(source)
        for items in ([1], [None], [["{}"]]):
            with self.assertRaises(TypeError):
                self.schema.import_lines(items)

        class Odd:
            def read(self, size: int) -> Any:
                return 5

        with self.assertRaises(TypeError):
            self.schema.import_lines(Odd())

    def test_errors_of_a_file(self) -> None:
        class Broken:
            def read(self, size: int) -> bytes:
                raise OSError("broken")

        with self.assertRaisesRegex(OSError, "broken"):
            self.schema.import_lines(Broken())

    def test_sizes(self) -> None:
        for size in (0, -1, 2**31, 2**64):
            with self.assertRaises(OverflowError):
                self.schema.import_chunks("", chunk_size=size)
        for other in (True, 1.0, None, "1"):
            with self.assertRaises(TypeError):
                self.schema.import_chunks("", chunk_size=other)

    def test_files(self) -> None:
        with tempfile.TemporaryDirectory() as folder:
            lines, block = os.path.join(folder, "lines"), pathlib.Path(folder) / "block"
            pathlib.Path(lines).write_bytes(LINES.encode())
            seen: List[K.LineRefused] = []
            counts = self.schema.import_file(lines, block, on_refused=seen.append, chunk_size=5)
            self.assertEqual(counts[:4], (5, 3, 2, len(BLOCK)))
            self.assertEqual([(r.line, r.field) for r in counts.refusals], [(2, "age"), (3, None)])
            self.assertEqual([r.line for r in seen], [2, 3])
            self.assertEqual(block.read_bytes(), BLOCK)
            for target in (io.BytesIO(), Short()):
                self.schema.import_file(io.BytesIO(LINES.encode()), target)
                self.assertEqual(
                    bytes(target.getvalue() if isinstance(target, io.BytesIO) else target.written), BLOCK
                )
            for lines_given, block_given in ((lines, 5), (lines, None), (5, block)):
                with self.assertRaises(TypeError):
                    self.schema.import_file(lines_given, block_given)
            with self.assertRaises(TypeError):
                self.schema.import_file(lines, block, on_refused=1)
            with self.assertRaises(OverflowError):
                self.schema.import_file(lines, block, chunk_size=0)
            self.assertEqual(block.read_bytes(), BLOCK)
            with self.assertRaises(ValueError):
                self.schema.import_file(str(block), block)
            self.assertEqual(block.read_bytes(), BLOCK)
            with self.assertRaises(FileNotFoundError):
                self.schema.import_file(os.path.join(folder, "none"), block)
            self.assertEqual(block.read_bytes(), BLOCK)

    def test_a_file_that_takes_nothing(self) -> None:
        class Full(io.RawIOBase):
            def write(self, data: Any) -> Any:
                return self.said

            said: Any = None

        full = Full()
        for said, kind in (
            (None, BlockingIOError),
            (0, BlockingIOError),
            (10**9, OverflowError),
            ("1", TypeError),
        ):
            full.said = said
            with self.assertRaises(kind):
                self.schema.import_file("{}".split(), full)

    def test_no_more_than_a_hundred_refusals_are_kept(self) -> None:
        counts = self.schema.import_file(["x"] * 250, io.BytesIO(), chunk_size=30)
        self.assertEqual((counts.refused, len(counts.refusals), counts.refusals[-1].line), (250, 100, 100))

    def test_sequences(self) -> None:
        lines = self.schema.import_lines(LINES).lines
        self.assertEqual((lines[-1], lines[1:3]), (lines[4], [lines[1], lines[2]]))
        self.assertEqual(lines, list(lines))
        for index in (5, -6):
            with self.assertRaises(IndexError):
                lines[index]
        with self.assertRaises(TypeError):
            lines["0"]


class Exporting(unittest.TestCase):
    """Blocks: whole, in chunks, and document by document."""

    JSON = '{"age":[36]}\n{}\n{"age":[1,2],"name":["a","é"]}\n'.encode()

    def setUp(self) -> None:
        self.schema = K.Schema(SCHEMA)

    def blocks(self, block: bytes) -> Iterator[Any]:
        mapped = mmap.mmap(-1, len(block))
        mapped.write(block)
        yield from (
            block,
            bytearray(block),
            memoryview(block),
            mapped,
            io.BytesIO(block),
            Short(block),
            gzip.open(io.BytesIO(gzip.compress(block))),
        )

    def test_export(self) -> None:
        self.assertEqual(self.schema.export_block(BLOCK), self.JSON)
        self.assertEqual(K.export_block(SCHEMA, 2, BLOCK), self.JSON)
        for size in (1, 3, 14, 15, 16, 1000):
            for block in self.blocks(BLOCK):
                self.assertEqual(b"".join(self.schema.export_chunks(block, chunk_size=size)), self.JSON)

    def test_documents(self) -> None:
        for size in (1, 3, 14, 15, 16, 1000):
            for block in self.blocks(BLOCK):
                documents = list(self.schema.documents(block, chunk_size=size))
                self.assertEqual([d.write() for d in documents], [AGE_36, EMPTY, FIFTH])
                self.assertEqual(documents[2].to_dict(), {"age": [1, 2], "name": ["a", "é"]})

    def test_terms(self) -> None:
        # The field in 4 bytes, the code u, the number in 8 bytes: each with the highest first.
        wanted = [
            (number, bytes.fromhex("00000001" "75" "00000000000000" + "%02x" % age))
            for number, age in ((0, 36), (2, 1), (2, 2))
        ]
        self.assertEqual(K.terms_of_block(1, 2, BLOCK), wanted)
        for size in (1, 3, 14, 15, 16, 1000):
            for block in self.blocks(BLOCK):
                self.assertEqual(list(K.terms(1, block, chunk_size=size)), wanted)
        self.assertEqual([t.term for t in K.terms(0, BLOCK)], [b"\0\0\0\0sa", b"\0\0\0\0s\xc3\xa9"])
        self.assertEqual(list(K.terms(9, BLOCK)), [])

    def test_migrate(self) -> None:
        block = self.schema.document({"more": {"k": 1}}).write() + BLOCK
        # In version 3 an object has the number of its entries, and a key no code.
        third = bytes.fromhex("81" "07000000" "0d" "81" "81" "6b" "02" "0100000000000000") + BLOCK
        self.assertEqual(K.migrate_block(2, block, 3), third)
        for size in (1, 3, 14, 30, 1000):
            for given in self.blocks(block):
                self.assertEqual(b"".join(K.migrate_chunks(2, given, 3, chunk_size=size)), third)
        self.assertEqual(K.migrate_block(3, third, 2), block)
        self.assertEqual(b"".join(K.migrate_chunks(3, third, 2, 7)), block)

    def test_a_block_that_is_cut(self) -> None:
        place = len(AGE_36) + 1
        for cut in range(1, len(FIFTH)):
            for block in self.blocks(BLOCK[:-cut]):
                documents = self.schema.documents(block, chunk_size=4)
                self.assertEqual([next(documents).write(), next(documents).write()], [AGE_36, EMPTY])
                with self.assertRaises(K.DocumentRefused) as caught:
                    next(documents)
                self.assertEqual(
                    (caught.exception.reason, caught.exception.place),
                    (K.DocumentFault.UNEXPECTED_END, place),
                )

    def test_a_bad_document(self) -> None:
        for bad in (b"\x81\0\0\0\0\x06", b"\x81\0\0\0\0\x63\0\0\0\0\0\0\0\0\0"):
            block = AGE_36 * 3 + bad + AGE_36 * 50
            for size in (1, 20, 42, 43, 1000):
                for call in (
                    lambda: self.schema.export_chunks(block, chunk_size=size),
                    lambda: K.migrate_chunks(2, block, 3, chunk_size=size),
                    lambda: K.terms(1, block, chunk_size=size),
                    lambda: self.schema.documents(block, chunk_size=size),
                ):
                    given, count = call(), 0
                    with self.assertRaises(K.DocumentRefused) as caught:
                        for _ in given:
                            count += 1
                    self.assertEqual(caught.exception.place, 42)
                    self.assertGreaterEqual(count, 1)

    def test_arguments_are_tested_at_once(self) -> None:
        for call in (
            self.schema.documents,
            self.schema.export_chunks,
            lambda block: K.terms(0, block),
            lambda block: K.migrate_chunks(2, block, 3),
        ):
            for block in ("text", None, 5, ["x"], {}):
                with self.assertRaises(TypeError):
                    call(block)
            with self.assertRaises(BufferError):
                call(memoryview(BLOCK)[::2])
        for call in (
            lambda version: self.schema.documents(b"", version),
            lambda version: self.schema.export_chunks(b"", version),
            lambda version: K.terms(0, b"", version),
            lambda version: K.migrate_chunks(version, b"", 2),
            lambda version: K.migrate_chunks(2, b"", version),
        ):
            for version in (0, 4, 2**32 - 1):
                with self.assertRaises(K.VersionRefused):
                    call(version)
        with self.assertRaises(TypeError):
            list(self.schema.documents(io.StringIO("text")))

    def test_a_document_larger_than_a_chunk(self) -> None:
        large = self.schema.document({"name": "x" * 300_000}).write()
        block = AGE_36 + large + AGE_36
        self.assertEqual(
            [len(d.write()) for d in self.schema.documents(io.BytesIO(block), chunk_size=64)],
            [14, len(large), 14],
        )
        self.assertEqual([t.document for t in K.terms(1, io.BytesIO(block), chunk_size=64)], [0, 2])

    def test_what_changes_between_two_parts(self) -> None:
        block = bytearray(AGE_36 * 10)
        documents = self.schema.documents(block, chunk_size=14)
        next(documents)
        block.clear()  # (it isn't lent between two parts)
        self.assertEqual(len(list(documents)), 0)
        schema = K.Schema(SCHEMA)
        given = schema.documents(AGE_36 * 2)
        next(given)
        schema.close()
        with self.assertRaises(K.Closed):
            next(given)

    def test_closing_in_midst(self) -> None:
        for iterator in (
            self.schema.documents(BLOCK),
            self.schema.import_chunks(LINES, 1),
            K.terms(1, BLOCK),
        ):
            next(iterator)
            iterator.close()


class Facets(unittest.TestCase):
    """Facets, terms of texts and ends of prefixes."""

    def test_facets(self) -> None:
        for text, encoded in (
            ("/", b""),
            ("/a", b"a"),
            ("/a/b", b"a\0b"),
            ("/a\\/b", b"a/b"),
            ("/é", "é".encode()),
        ):
            self.assertEqual(K.facet_of_text(text), encoded)
            self.assertEqual(K.text_of_facet(encoded), text)
        self.assertEqual(K.text_of_facet(bytearray(b"a\0b")), "/a/b")
        for given in (b"/a", None, 5):
            with self.assertRaises(TypeError):
                K.facet_of_text(given)
        for other in ("/a", None, 5):
            with self.assertRaises(TypeError):
                K.text_of_facet(other)

    def test_the_texts_of_terms(self) -> None:
        for term, text in (
            (b"\0\0\1\2s\xc3\xa9", "é"),
            (b"\0\0\0\0s", ""),
            (b"\0\0\0\0u\xff\xff\xff\xff\xff\xff\xff\xff", "18446744073709551615"),
            (b"\0\0\0\0i\x7f\xff\xff\xff\xff\xff\xff\xff", "-1"),
            (b"\0\0\0\0o\0\0\0\0\0\0\0\1", "true"),
            (b"\0\0\0\0d\x80\0\0\0\0\0\0\0", "1970-01-01T00:00:00Z"),
            (b"\0\0\0\0ha\0b/c", "/a/b\\/c"),
            (b"\0\0\0\0b\0\1", "AAE="),
            (b"\0\0\0\0p" + b"\0" * 10 + b"\xff\xff\x7f\0\0\1", "127.0.0.1"),
            (b"\0\0\0\0p" + b"\0" * 15 + b"\1", "::1"),
            (b"\0\0\0\0ja\1b\0i\x80\0\0\0\0\0\0\7", "7"),
        ):
            self.assertEqual(K.text_of_term(term), text)
        self.assertEqual(K.text_of_term(bytearray(b"\0\0\0\0sa")), "a")
        for other in ("a", None, 5):
            with self.assertRaises(TypeError):
                K.text_of_term(other)

    def test_terms_and_prefixes(self) -> None:
        self.assertEqual(K.term_of_text(258, "é"), b"\0\0\x01\x02s\xc3\xa9")
        self.assertEqual(K.end_of_prefix(b"a"), b"b")
        self.assertEqual(K.end_of_prefix(b"a\xff\xff"), b"b")
        self.assertEqual(K.end_of_prefix(memoryview(b"\x00")), b"\x01")


if __name__ == "__main__":
    unittest.main()
