"""kormaglen.dask within one process: where files are cut, what is refused, and what is written."""

from __future__ import annotations

import contextlib
import doctest
import gzip
import importlib
import importlib.util
import inspect
import os
import pathlib
import pickle
import pickletools
import pkgutil
import random
import subprocess
import sys
import tempfile
import unittest
from typing import Any, List, Tuple
from unittest import mock

import kormaglen as K
from tests.common import EMPTY, FAULTS, HERE, PACKAGE, run
from tests.dask_files import SCHEMA, write_bytes

IS_THERE = all(map(importlib.util.find_spec, ("dask", "fsspec", "toolz")))
if IS_THERE:
    import dask

    import kormaglen.dask as D
    from kormaglen.dask import _pieces

AGE_SCHEMA = '[{"name":"age","type":"u64","options":{"indexed":true,"stored":true}}]'
AGE_TERM = bytes.fromhex("00000000" "75" "0000000000000024")
STORED_AGE = bytes.fromhex("81" "00000000" "01" "2400000000000000")

# Where the repository has the page, and what compares it.
PAGE = ("..", "..", "docs", "ENGINES.md")
COMPARE = ("..", "sqlite", "tests", "page.py")

# Lines, and whether they have a document, by docs/FORMATS.md and RFC 8259.
LINES: List[Tuple[bytes, bool]] = [
    (b'{"age":36}', True),
    (b"{}", True),
    (b"{}\r", True),
    (b'{"age":"x"}', False),
    (b"", False),
    (b"\r", False),
    (b"\0", False),
    (b"{}\0", False),
    (b"\xff", False),
    (b'{"\xff":1}', False),
    (b"[]", False),
    (b"1", False),
]


class WithoutDask(unittest.TestCase):
    """Where Dask is missing, the package is there, and the module says what is missing."""

    def test_the_package(self) -> None:
        code = "import sys; sys.modules['dask'] = None; import kormaglen; print(kormaglen.__version__)"
        self.assertEqual(run(code).returncode, 0)
        code = "import kormaglen, sys; sys.exit(any(it in sys.modules for it in ('dask', 'fsspec')))"
        self.assertEqual(run(code).returncode, 0)

    def test_the_module(self) -> None:
        for missing in ("dask", "fsspec", "toolz"):
            done = run(f"import sys; sys.modules['{missing}'] = None; import kormaglen.dask")
            self.assertEqual(done.returncode, 1)
            said = done.stderr.strip().split("\n")[-1]
            wanted = "ImportError: kormaglen.dask wants Dask with its bags (Debian: python3-dask): "
            wanted += "the package "
            self.assertTrue(said.startswith(wanted) and said.endswith(" is missing"), said)
            if IS_THERE:
                self.assertEqual(said, f"{wanted}{missing} is missing")


class InAFolder(unittest.TestCase):
    """A test with a folder, in which Dask uses the calling thread alone."""

    def setUp(self) -> None:
        stack = contextlib.ExitStack()
        self.folder = stack.enter_context(tempfile.TemporaryDirectory())
        stack.enter_context(dask.config.set(scheduler="sync"))
        self.addCleanup(stack.close)

    def file(self, name: str, data: bytes) -> str:
        return write_bytes(self.folder, name, data)


@unittest.skipUnless(IS_THERE, "there is no dask")
class Reading(InAFolder):
    """read_json_lines."""

    def check_file(self, lines: List[Tuple[bytes, bool]], last_feed: bool, blocksizes: List[Any]) -> None:
        """Whatever the size of pieces is, they have the lines of the file."""
        data = b"\n".join(line for line, _ in lines) + (b"\n" if last_feed and lines else b"")
        path = self.file("lines.jsonl", data)
        with K.Schema(AGE_SCHEMA) as schema:
            whole = schema.import_lines(data)
        # (a last line without anything is none)
        count = len(lines) - (not last_feed and bool(lines) and not lines[-1][0])
        refused = [number for number, (_, is_stored) in enumerate(lines[:count], 1) if not is_stored]
        for blocksize in blocksizes:
            with self.subTest(data=data, blocksize=blocksize):
                blocks = D.read_json_lines(path, AGE_SCHEMA, blocksize)
                pieces = blocks.compute()
                self.assertEqual(b"".join(piece.block for piece in pieces), whole.block)
                self.assertEqual([answer for piece in pieces for answer in piece.lines], whole.lines)
                counts = [len(piece.lines) for piece in pieces]
                firsts = [1 + sum(counts[:at]) for at in range(len(counts))]
                self.assertEqual([piece.first for piece in pieces], firsts)
                self.assertEqual([each.line for piece in pieces for each in piece.refused], refused)
                told = blocks.refused().compute()
                self.assertEqual([each.line for each in told], refused)
                wanted = [(each.text, each.fault, each.byte) for each in whole.refused]
                self.assertEqual([(each.text, each.fault, each.byte) for each in told], wanted)

    def test_each_blocksize(self) -> None:
        random_ = random.Random(5)
        for _ in range(40):
            lines = [random_.choice(LINES) for _ in range(random_.randrange(9))]
            size = sum(len(line) + 1 for line, _ in lines)
            self.check_file(lines, random_.random() < 0.5, [*range(1, size + 2), None])

    def test_each_line_alone(self) -> None:
        for line in LINES:
            for last_feed in (False, True):
                self.check_file([line], last_feed, [1, 2, None])
                self.check_file([line, line], last_feed, [1, 5, None])

    def test_a_line_longer_than_what_is_read_at_once(self) -> None:
        long = b'{"other":"' + b"x" * 200_000 + b'"}'
        lines = [LINES[3], (long, True), LINES[3], (long, True), LINES[0]]
        self.check_file(lines, True, [1000, 65536, 200_000, None])

    def test_values(self) -> None:
        path = self.file("a.jsonl", b'{"age":36}\n{"age":"x"}\r\n{}')
        first, second, third = D.read_json_lines(path, AGE_SCHEMA, 11).compute()
        self.assertEqual((first.path, first.first, first.block), (path, 1, STORED_AGE))
        self.assertEqual([line.status for line in first.lines], [0, 3])
        # (the third line begins after the line feed at byte 23, which lies in the third piece)
        self.assertEqual((second.first, second.block, list(second.lines)), (3, b"", []))
        stored = K.LineAnswer(K.LineStatus.STORED, 1, None)
        self.assertEqual((third.first, third.block, list(third.lines)), (3, EMPTY, [stored]))
        (refused,) = D.read_json_lines(path, AGE_SCHEMA, 11).refused().compute()
        wanted = (path, 2, K.LineStatus.WRONG_TYPE, "age", '{"age":"x"}\r', None, None)
        self.assertEqual(refused, wanted)
        about = "a value is of another kind than the field's"
        self.assertEqual(str(refused), f'{path}:2: field "age": {about}: {{"age":"x"}}\r')

    def test_faults(self) -> None:
        path = self.file("a.jsonl", b"".join(b'{"age":36}\n' + line + b"\n" for line, *_ in FAULTS))
        for blocksize in (1, 20, 100, None):
            blocks = D.read_json_lines(path, AGE_SCHEMA, blocksize)
            pieces, told = dask.compute(blocks, blocks.refused())
            rows = [row for piece in pieces for row in piece.lines]
            self.assertEqual([row.size for row in rows], len(FAULTS) * [len(STORED_AGE), 0])
            wanted = [(number, byte) for _, number, byte, _ in FAULTS]
            self.assertEqual([(row.fault, row.byte) for row in rows[1::2]], wanted)
            self.assertEqual([(each.fault, each.byte) for each in told], wanted)
            self.assertEqual({(each.reason, each.field) for each in told}, {(1, None)})
            for at, (each, (_, _, byte, words)) in enumerate(zip(told, FAULTS), 1):
                place = "" if byte is None else f" at byte {byte}"
                said = f"the line is not a JSON object: {words}{place}: {each.text}"
                self.assertEqual(str(each), f"{path}:{2 * at}: {said}")
                self.assertEqual(pickle.loads(pickle.dumps(each)), each)

    def test_several_files(self) -> None:
        counts = (("a", 3), ("b", 0), ("c", 2))
        names = [self.file(f"{name}.jsonl", b"{}\nx\n" * count) for name, count in counts]
        for path in (names, os.path.join(self.folder, "*.jsonl"), tuple(map(pathlib.Path, names))):
            for blocksize in (1, 4, 100, None):
                refused = D.read_json_lines(path, AGE_SCHEMA, blocksize).refused().compute()
                wanted = [(names[0], 2), (names[0], 4), (names[0], 6), (names[2], 2), (names[2], 4)]
                self.assertEqual([(each.path, each.line) for each in refused], wanted)
        twice = D.read_json_lines([names[0], names[0]], AGE_SCHEMA, 4).refused().compute()
        self.assertEqual([each.line for each in twice], [2, 4, 6, 2, 4, 6])

    def test_an_empty_file(self) -> None:
        blocks = D.read_json_lines(self.file("empty", b""), AGE_SCHEMA)
        self.assertEqual([tuple(piece)[1:3] for piece in blocks.compute()], [(1, b"")])
        self.assertEqual(blocks.refused().compute(), [])
        self.assertEqual(D.terms(blocks, "age").compute(), [])
        self.assertEqual(blocks.documents().compute(), [])

    def test_paths_that_are_refused_at_once(self) -> None:
        for path, error in (
            (os.path.join(self.folder, "none"), FileNotFoundError),
            (os.path.join(self.folder, "*.none"), FileNotFoundError),
            ([self.file("a", b""), os.path.join(self.folder, "none")], FileNotFoundError),
            (self.folder, IsADirectoryError),
            ([], ValueError),
            ("", (IsADirectoryError, FileNotFoundError)),
            (5, TypeError),
            (None, TypeError),
            (b"a", TypeError),
            ([None], TypeError),
        ):
            for blocksize in (10, None):
                with self.subTest(path=path), self.assertRaises(error):
                    D.read_json_lines(path, AGE_SCHEMA, blocksize)

    def test_blocksizes_that_are_refused_at_once(self) -> None:
        path = self.file("a", b"{}")
        for blocksize in (0, -1, "0", "-5 MiB", 2**62 + 1):
            with self.assertRaisesRegex(OverflowError, "blocksize"):
                D.read_json_lines(path, AGE_SCHEMA, blocksize)
        for blocksize in (1.5, True, b"1", [1]):
            with self.assertRaisesRegex(TypeError, "blocksize"):
                D.read_json_lines(path, AGE_SCHEMA, blocksize)
        for blocksize in ("", "MiB", "x", "1 elephant", "1e999", "nan"):
            with self.assertRaisesRegex(ValueError, "blocksize"):
                D.read_json_lines(path, AGE_SCHEMA, blocksize)
        self.assertEqual(D.read_json_lines(path, AGE_SCHEMA, "1 B").npartitions, 2)

    def test_schemas_that_are_refused_at_once(self) -> None:
        path = self.file("a", b"{}")
        with self.assertRaises(K.SchemaRefused):
            D.read_json_lines(path, "[{}]")
        with self.assertRaises(TypeError):
            D.read_json_lines(path, 5)
        closed = K.Schema(AGE_SCHEMA)
        closed.close()
        with self.assertRaises(K.Closed):
            D.read_json_lines(path, closed)

    def test_schemas(self) -> None:
        path = self.file("a", b'{"age":36}')
        with K.Schema(AGE_SCHEMA) as schema:
            built = K.SchemaBuilder().u64("age", indexed=True, stored=True).build()
            several = (AGE_SCHEMA, AGE_SCHEMA.encode(), schema, built)
            names = {D.read_json_lines(path, each).blocks.name for each in several}
            self.assertEqual(len(names), 1)
            self.assertEqual(D.read_json_lines(path, schema).schema, schema)
            self.assertFalse(schema.closed)

    def test_compressed_files(self) -> None:
        path = self.file("a.jsonl.gz", gzip.compress(b"{}\nx\n{}"))
        with self.assertRaisesRegex(ValueError, "compressed by gzip can't be cut; blocksize=None"):
            D.read_json_lines(path, AGE_SCHEMA)
        (piece,) = D.read_json_lines(path, AGE_SCHEMA, blocksize=None).compute()
        self.assertEqual((piece.block, [each.line for each in piece.refused]), (EMPTY + EMPTY, [2]))
        cut = self.file("cut.jsonl.gz", gzip.compress(b"{}\nx\n{}")[:-5])
        with self.assertRaises(EOFError):
            D.read_json_lines(cut, AGE_SCHEMA, blocksize=None).compute()
        with self.assertRaises(OSError):
            D.read_json_lines(self.file("other.gz", b"{}\n"), AGE_SCHEMA, blocksize=None).compute()
        # (by its name it isn't compressed, and so its bytes are no lines of JSON)
        renamed = D.read_json_lines(self.file("renamed", gzip.compress(b"{}")), AGE_SCHEMA)
        self.assertEqual(renamed.blocks.compute(), [b""])
        self.assertGreater(len(renamed.refused().compute()), 0)

    def test_a_file_that_changes(self) -> None:
        path = self.file("a", b"{}\n" * 5)
        blocks = D.read_json_lines(path, AGE_SCHEMA, 4)
        self.assertEqual(b"".join(blocks.blocks.compute()), EMPTY * 5)
        for change in (lambda: self.file("a", b"{}\n" * 6), lambda: os.utime(path, (1, 1))):
            blocks = D.read_json_lines(path, AGE_SCHEMA, 4)
            change()
            with self.assertRaisesRegex(D.FileChanged, "changed after its pieces were cut"):
                blocks.compute()
        os.unlink(path)
        with self.assertRaises(FileNotFoundError):
            blocks.compute()


@unittest.skipUnless(IS_THERE, "there is no dask")
class Collections(InAFolder):
    """A StoredBlocks as Dask uses it."""

    def blocks(self, blocksize: int = 11) -> Any:
        path = self.file("a", b'{"age":36}\n{"age":"x"}\n{}\n{"age":[36,36]}\n')
        return D.read_json_lines(path, AGE_SCHEMA, blocksize)

    def test_protocol(self) -> None:
        blocks = self.blocks()
        self.assertTrue(dask.is_dask_collection(blocks))
        self.assertEqual(repr(dask.compute(blocks, 5)), repr((blocks.compute(), 5)))
        path, firsts = os.path.join(self.folder, "a"), [piece.first for piece in blocks.compute()]
        same, other = (D.read_json_lines(path, AGE_SCHEMA, size) for size in (11, 12))
        self.assertEqual(dask.base.tokenize(blocks), dask.base.tokenize(same))
        self.assertNotEqual(dask.base.tokenize(blocks), dask.base.tokenize(other))
        several = (blocks.persist(), dask.persist(blocks)[0])
        os.unlink(path)
        for persisted in several:
            self.assertEqual([piece.first for piece in persisted.compute()], firsts)
            self.assertEqual([each.line for each in persisted.refused().compute()], [2])
            self.assertEqual(D.terms(persisted, "age").compute(), [(AGE_TERM, 2)])
        renamed = blocks.__dask_postpersist__()[0](blocks.__dask_graph__(), rename={"nothing": "other"})
        self.assertEqual(renamed.__dask_keys__(), blocks.__dask_keys__())
        self.assertEqual(repr(blocks), "<StoredBlocks of 1 file, npartitions=4>")

    def test_optimized_together(self) -> None:
        blocks = self.blocks()
        pieces, terms, refused = dask.compute(blocks, D.terms(blocks, "age"), blocks.refused())
        self.assertEqual((len(pieces), terms, [each.line for each in refused]), (4, [(AGE_TERM, 2)], [2]))
        (optimized,) = dask.optimize(blocks)
        self.assertEqual(optimized.compute()[0].block, STORED_AGE)

    def test_blocks(self) -> None:
        blocks = self.blocks()
        parts = [STORED_AGE, EMPTY + bytes.fromhex("82" + 2 * "00000000012400000000000000")]
        self.assertEqual([block for block in blocks.blocks.compute() if block], parts)
        self.assertEqual([block for block in dask.compute(*blocks.to_delayed()) if block], parts)
        self.assertEqual(blocks.blocks.npartitions, blocks.npartitions)
        self.assertEqual(blocks.documents().compute(), [{"age": [36]}, {}, {"age": [36, 36]}])

    def test_what_crosses_processes(self) -> None:
        blocks = self.blocks(13)
        graph = dict(blocks.refused().__dask_graph__())
        graph.update(D.terms(blocks, "age").__dask_graph__())
        graph.update(D.term_documents(blocks, "age").__dask_graph__())
        final = ("kormaglen-refused", "kormaglen-numbered")
        keys = [key for key in graph if not key[0].startswith(final)]
        self.assertGreater(len(keys), 10)
        for result in dask.get(graph, keys):
            given = [name.name for name, _, _ in pickletools.genops(pickle.dumps(result))]
            self.assertFalse({"GLOBAL", "STACK_GLOBAL", "REDUCE"} & set(given), result)
            self.assertEqual(pickle.loads(pickle.dumps(result)), result)
        for result in (blocks.compute()[0], blocks.refused().compute()[0], D.FileChanged("a")):
            self.assertEqual(str(pickle.loads(pickle.dumps(result))), str(result))

    def test_no_state(self) -> None:
        for name in ("_blocks", "_counts", "_files", "_graphs", "_pieces", "_writing"):
            module = importlib.import_module(f"kormaglen.dask.{name}")
            for each, value in vars(module).items():
                if not each.startswith("__"):
                    self.assertNotIsInstance(value, (dict, list, set, bytearray, K.Schema), each)


@unittest.skipUnless(IS_THERE, "there is no dask")
class Counting(InAFolder):
    """terms, term_documents and facet_counts."""

    FACETS = [
        b'{"kind":["/shop/light","/shop/light/led","/shop/light"]}',
        b'{"kind":"/shop/light/led"}',
        b'{"kind":"shop"}',
        b'{"kind":["/shop","/garden/chair"]}',
        b"{}",
        b'{"kind":["/shop/lights","/shop/a\\\\/b/c"]}',
    ]

    def blocks(self, lines: List[bytes], blocksize: Any) -> Any:
        return D.read_json_lines(self.file("lines", b"\n".join(lines)), SCHEMA, blocksize)

    def test_terms(self) -> None:
        # The field in 4 bytes, the code s, the text.
        ada, bob = (b"\0\0\0\0s" + name for name in (b"Ada", b"Bob"))
        lines = [b'{"name":["Bob","Ada","Bob"]}', b'{"name":5}', b'{"age":1}', b'{"name":"Bob"}']
        for blocksize in (1, 10, 30, 1000, None):
            blocks = self.blocks(lines, blocksize)
            self.assertEqual(D.terms(blocks, "name").compute(), [(ada, 1), (bob, 2)])
            for split in (2, 3, 1000):
                self.assertEqual(D.terms(blocks, "name", split_every=split).compute(), [(ada, 1), (bob, 2)])
            found = D.term_documents(blocks, "name").compute()
            self.assertEqual(found, [(0, bob), (0, ada), (0, bob), (2, bob)])
            self.assertIsInstance(found[0], K.Term)

    def test_terms_of_all_fields(self) -> None:
        # (in objects the path, a zero byte, the code and the value: that of i64 is counted from -2^63)
        seven = b"\0\0\0\3jsize\0i" + (2**63 + 7).to_bytes(8, "big")
        red = b"\0\0\0\3jred\0o" + (1).to_bytes(8, "big")
        age, shop = b"\0\0\0\1u" + (5).to_bytes(8, "big"), b"\0\0\0\2hshop"
        lines = [b'{"more":{"size":[7,7],"red":true}}', b'{"age":5,"kind":"/shop"}', b'{"more":{"size":7}}', b"[]"]
        for blocksize in (1, 40, None):
            blocks = self.blocks(lines, blocksize)
            self.assertEqual(D.terms(blocks, "more").compute(), [(red, 1), (seven, 2)])
            self.assertEqual(D.terms(blocks).compute(), [(age, 1), (shop, 1), (red, 1), (seven, 2)])
            found = D.term_documents(blocks).compute()
            self.assertEqual(found, [(0, red), (0, seven), (0, seven), (1, age), (1, shop), (2, seven)])
        nul = self.blocks([b'{"more":{"a\\u0000b":1}}'], None)
        with self.assertRaisesRegex(K.DocumentRefused, "U\\+0000"):
            D.terms(nul).compute()
        self.assertEqual(D.terms(nul, "name").compute(), [])

    def test_facets(self) -> None:
        for blocksize in (1, 40, 100, None):
            blocks = self.blocks(self.FACETS, blocksize)
            for parent, wanted in (
                ("/", [("/garden", 1), ("/shop", 4)]),
                ("/shop", [("/shop/a\\/b", 1), ("/shop/light", 2), ("/shop/lights", 1)]),
                ("/shop/light", [("/shop/light/led", 2)]),
                ("/shop/light/led", []),
                ("/sho", []),
                ("/nothing", []),
            ):
                for split in (2, 8):
                    self.assertEqual(D.facet_counts(blocks, "kind", parent, split).compute(), wanted, parent)
            self.assertEqual(D.facet_counts(blocks, "kind").compute()[1], ("/shop", 4))

    def test_what_is_refused_at_once(self) -> None:
        blocks = self.blocks([b"{}"], None)
        for count in (D.terms, D.term_documents, D.facet_counts):
            with self.assertRaises(K.FieldRefused):
                count(blocks, "nothing")
            for field in (5, b"name", ["name"]):
                with self.assertRaises(TypeError):
                    count(blocks, field)
            for other in (None, b"\x80", [b"\x80"], blocks.blocks):
                with self.assertRaisesRegex(TypeError, "a StoredBlocks is wanted"):
                    count(other, "name")
        for split in (1, 0, -1):
            with self.assertRaises(OverflowError):
                D.terms(blocks, "name", split)
        with self.assertRaises(TypeError):
            D.facet_counts(blocks, "kind", "/", 2.0)
        with self.assertRaisesRegex(ValueError, '"name": its type is text'):
            D.facet_counts(blocks, "name")
        with self.assertRaises(K.Refused):
            D.facet_counts(blocks, "kind", "shop")
        with self.assertRaises(TypeError):
            D.facet_counts(blocks, "kind", b"/shop")


@unittest.skipUnless(IS_THERE, "there is no dask")
class Writing(InAFolder):
    """write_blocks."""

    def blocks(self, count: int = 12) -> Any:
        return D.read_json_lines(self.file("lines", b'{"age":36}\n' * count), AGE_SCHEMA, 11)

    def test_a_folder(self) -> None:
        for count in (1, 2, 10, 11, 12, 101):
            folder = pathlib.Path(self.folder, f"new{count}", "blocks")
            paths = D.write_blocks(self.blocks(count), folder)
            digits = len(str(count - 1))
            self.assertEqual(paths, [str(folder / f"{number:0{digits}}.block") for number in range(count)])
            self.assertEqual(sorted(os.listdir(folder)), [os.path.basename(path) for path in paths])
            self.assertEqual(b"".join(pathlib.Path(path).read_bytes() for path in paths), STORED_AGE * count)

    def test_a_pattern(self) -> None:
        paths = D.write_blocks(self.blocks(2), os.path.join(self.folder, "people-*.bin"))
        self.assertEqual([os.path.basename(path) for path in paths], ["people-0.bin", "people-1.bin"])
        before = os.getcwd()
        os.chdir(self.folder)
        try:
            (path,) = D.write_blocks(self.blocks(1), "a*b")
            self.assertEqual(path, os.path.join(os.path.realpath(self.folder), "a0b"))
        finally:
            os.chdir(before)

    def test_later(self) -> None:
        folder = os.path.join(self.folder, "out")
        written = D.write_blocks(self.blocks(3), folder, compute=False)
        self.assertEqual(os.listdir(folder), [])
        self.assertEqual(written[1].compute(), os.path.join(folder, "1.block"))
        self.assertEqual(os.listdir(folder), ["1.block"])
        # (a piece that is computed again gives the same file)
        self.assertEqual(len(dask.compute(*written)), 3)
        self.assertEqual(sorted(os.listdir(folder)), ["0.block", "1.block", "2.block"])

    def test_what_is_refused_at_once(self) -> None:
        folder = os.path.join(self.folder, "out")
        D.write_blocks(self.blocks(2), folder)
        for path in (folder, os.path.join(folder, "*.block"), os.path.join(folder, "*")):
            if path.endswith("*"):
                D.write_blocks(self.blocks(1), path)
            with self.assertRaises(FileExistsError):
                D.write_blocks(self.blocks(1), path)
        patterns = (os.path.join(folder, "**"), os.path.join(folder, "*", "a"), "a*b*")
        for path in (*patterns, "s3://bucket/a", "file:///a"):
            with self.assertRaises(ValueError):
                D.write_blocks(self.blocks(1), path)
        for path in (5, None, b"a"):
            with self.assertRaises(TypeError):
                D.write_blocks(self.blocks(1), path)
        with self.assertRaises(TypeError):
            D.write_blocks([b"\x80"], folder)
        with self.assertRaises(OSError):
            D.write_blocks(self.blocks(1), self.file("file", b""))

    def test_a_file_that_can_t_be_written(self) -> None:
        for name in ("fsync", "replace"):
            folder = os.path.join(self.folder, name)
            written = D.write_blocks(self.blocks(1), folder, compute=False)
            with mock.patch.object(_pieces.os, name, side_effect=OSError("full")):
                with self.assertRaisesRegex(OSError, "full"):
                    written[0].compute()
            self.assertEqual(os.listdir(folder), [])
        os.rmdir(folder)
        with self.assertRaises(FileNotFoundError):
            written[0].compute()


@unittest.skipUnless(IS_THERE, "there is no dask")
class Docs(InAFolder):
    """Docstrings and their examples."""

    def test_each_name_has_an_example(self) -> None:
        for name in D.__all__:
            value = getattr(D, name)
            self.assertIn(">>>", value.__doc__ or "", name)
            for member, inner in vars(value).items() if inspect.isclass(value) else ():
                if not member.startswith("_") and not hasattr(tuple, member) and callable(inner):
                    self.assertIn(">>>", inner.__doc__ or "", f"{name}.{member}")

    def test_the_typed_program(self) -> None:
        done = run("from tests.typed_dask import main; main()")
        self.assertEqual(done.returncode, 0, done.stderr)

    def test_the_walk(self) -> None:
        program, printed = (os.path.join(HERE, name) for name in ("dask_walk.py", "dask_walk.out"))
        environment = {**os.environ, "PYTHONPATH": PACKAGE}
        done = subprocess.run(
            [sys.executable, program], cwd=self.folder, env=environment, capture_output=True, check=False
        )
        self.assertEqual(done.stdout.decode(), pathlib.Path(printed).read_text("utf-8"), done.stderr.decode())
        page, compare = (os.path.join(PACKAGE, *path) for path in (PAGE, COMPARE))
        if os.path.exists(page):
            subprocess.run([sys.executable, compare, page, program, printed, "python", "output"], check=True)

    def test_examples(self) -> None:
        people = self.file("people.jsonl", b'{"age":36}\n{"age":"x"}\n{"age":36}\n')
        lines = b'{"kind":["/shop/light","/shop/light/led"]}\n{"kind":["/shop/light","/shop/garden"]}\n'
        names = {
            **vars(D),
            "PATH": people,
            "SCHEMA": AGE_SCHEMA,
            "FACETS": self.file("facets.jsonl", lines),
            "FACET_SCHEMA": '[{"name":"kind","type":"facet","options":{"stored":true}}]',
            "os": os,
        }
        tried = 0
        for name in ["", *(f".{module.name}" for module in pkgutil.iter_modules(D.__path__))]:
            module = importlib.import_module(f"kormaglen.dask{name}")
            done = doctest.testmod(module, extraglobs=names)
            self.assertEqual(done.failed, 0, module.__name__)
            tried += done.attempted
        self.assertGreater(tried, 20)



if __name__ == "__main__":
    sys.exit(unittest.main())
