"""Compares the extension with the C library's import of a whole file, and queries over an index of terms with scans:
compare.py EXTENSION LINES BLOCK QUERIES. LINES is what make_lines.py prints, BLOCK what c/import_file.c makes of its documents.

Each document is stored alone, and all of them have to be the block. Each is read back and has to have the values of its line, as JSON and one by
one; so have random dates and addresses. Facets are counted as in the lines. By a schema in which a field has another type, the documents with a value
there have a fault, and the others their terms. Then the terms go to a table without rowids, and random ranges, prefixes, facets and paths into JSON
objects have to find as many documents there as are found by a scan of what SQLite's JSON functions read from the documents."""

import json
import random
import re
import sqlite3
import sys
import time

# The values of documents: whole paths without the numbers of lists, as `more.by.tags`.
LEAVES = """
CREATE TABLE leaf AS
SELECT document.id, replace(substr(CASE typeof(tree.key) WHEN 'integer' THEN tree.path ELSE tree.fullkey END, 3), 'more[0]', 'more') AS path,
    tree.type, CASE tree.type WHEN 'true' THEN 'true' WHEN 'false' THEN 'false' ELSE tree.atom END AS atom
FROM document, json_tree(kormaglen_json(:schema, 2, document.stored)) AS tree WHERE tree.atom IS NOT NULL
"""

TERMS = """
INSERT OR IGNORE INTO term SELECT of.term, document.id FROM document, kormaglen_terms(:schema, 2, document.stored) AS of
"""

COUNTS = """
SELECT facet, documents FROM kormaglen_facet_counts(:parent,
    (SELECT kormaglen_facet_pairs(document.id, value) FROM document, kormaglen_values(:schema, 2, stored, 'kind')))
"""

BY_RANGES = """
SELECT count(DISTINCT id) FROM kormaglen_query_ranges(:schema, :path, :text) AS range, term WHERE term.term >= range.start AND term.term < range.end
"""
BY_BOUNDS = """
SELECT count(DISTINCT id) FROM term
WHERE term >= kormaglen_range_start(:schema, :path, :text) AND term < kormaglen_range_end(:schema, :path, :text)
"""
BY_FACET = """
SELECT count(DISTINCT id) FROM term
WHERE term >= kormaglen_term(:schema, :path, :text) AND term < kormaglen_range_end(:schema, :path, rtrim(:text, '/') || '/*')
"""
BY_TERMS = "SELECT count(DISTINCT id) FROM kormaglen_query_terms(:schema, :path, :text) AS of JOIN term ON term.term = of.term"

SCAN = "SELECT count(DISTINCT id) FROM leaf WHERE path = :path AND "

NUMBERS = ["price", "change", "more.size"]
TEXTS = ["name", "more.by.who", "more.by.tags", "more.any"]
FACETS = ["/shop", "/shop/light", "/garden", "/garden/chair", "/shop/lights", "/a\\/b", "/nowhere", "/"]
STARTS = ["l", "la", "lamp", "Lamp la", "1", "é", "棚", "tab", "tabl", "x"]


def range_of_numbers(random_: random.Random) -> tuple[str, str, str, str]:
    path = random_.choice(NUMBERS)
    low, high = sorted(random_.randrange(0 if path == "price" else -300, 1000) for _ in range(2))
    opens, closes = random_.choice("[{"), random_.choice("]}")
    high += 1
    test = f"type = 'integer' AND atom {'>=' if opens == '[' else '>'} {low} AND atom {'<=' if closes == ']' else '<'} {high}"
    if path.startswith("more"):
        # (at a path into JSON objects a bound is a text, too, and the documents have numbers alone)
        if str(low) > str(high):
            low, high, test = 10, 20, f"type = 'integer' AND atom {'>=' if opens == '[' else '>'} 10 AND atom {'<=' if closes == ']' else '<'} 20"
        return BY_RANGES, path, f"{opens}{low} TO {high}{closes}", test
    return random_.choice([BY_BOUNDS, BY_RANGES]), path, f"{opens}{low} TO {high}{closes}", test


def prefix(random_: random.Random) -> tuple[str, str, str, str]:
    path, start = random_.choice(TEXTS), random_.choice(STARTS)
    return random_.choice([BY_BOUNDS, BY_RANGES]), path, start + "*", f"type = 'text' AND substr(atom, 1, {len(start)}) = '{start}'"


def facet(random_: random.Random) -> tuple[str, str, str, str]:
    text = random_.choice(FACETS)
    below = text.rstrip("/") + "/"
    return BY_FACET, "kind", text, f"(atom = '{text}' OR substr(atom, 1, {len(below)}) = '{below}')"


def term(random_: random.Random) -> tuple[str, str, str, str]:
    path, text = random_.choice(TEXTS + ["sold"]), random_.choice(["lamp", "7", "10", "true", "false", "a b", "Lamp"])
    if path in ("name", "sold") and (path == "sold") != (text in ("true", "false")):
        path = "more.any"
    return BY_TERMS, path, text, f"CAST(atom AS TEXT) = '{text}'"


def connect(extension: str) -> sqlite3.Connection:
    db = sqlite3.connect(":memory:")
    db.enable_load_extension(True)
    db.load_extension(extension)
    return db


def store_all(db: sqlite3.Connection, schema: str, lines: list[str], block: bytes) -> None:
    db.execute("CREATE TABLE document(id INTEGER PRIMARY KEY, stored BLOB)")
    start = time.monotonic()
    rows = ((schema, line) for line in lines)
    db.executemany("INSERT INTO document(stored) VALUES (kormaglen_store(?, ?))", rows)
    took = time.monotonic() - start
    stored = b"".join(row[0] for row in db.execute("SELECT stored FROM document ORDER BY id"))
    if stored != block:
        sys.exit("the stored documents are not the block")
    (faults,) = db.execute("SELECT count(kormaglen_check(2, stored)) FROM document").fetchone()
    texts = db.execute("SELECT kormaglen_json(?, 2, stored) FROM document ORDER BY id", (schema,))
    for line, (text,) in zip(lines, texts):
        values = {name: value if isinstance(value, list) else [value] for name, value in json.loads(line).items()}
        if json.loads(text) != {name: value for name, value in values.items() if value}:
            sys.exit(f"{line}\n  is read back as\n  {text}")
    if faults > 0:
        sys.exit("a document is corrupt")
    print(f"{len(lines)} documents, {len(block)} bytes: as imported at once, and read back; stored in {took:.1f} s")


def plain(kind: str, value: object) -> object:
    """A value of kormaglen_values as JSON has it."""
    return {"bool": bool, "json": json.loads}.get(kind, lambda it: it)(value)


def values_of_line(line: str, name: str) -> list[object]:
    values = json.loads(line).get(name, [])
    return values if isinstance(values, list) else [values]


def compare_values(db: sqlite3.Connection, schema: str, lines: list[str]) -> None:
    """The values of each field, and the first one alone."""
    all_values = "SELECT document.id, kind, value FROM document, kormaglen_values(:schema, 2, stored, :name) ORDER BY document.id"
    first_values = "SELECT id, kormaglen_value(:schema, 2, stored, :name) FROM document ORDER BY id"
    count = 0
    for name in [field["name"] for field in json.loads(schema)]:
        given = {"schema": schema, "name": name}
        kinds: dict[int, str] = {}
        values: dict[int, list[object]] = {}
        for id_, kind, value in db.execute(all_values, given):
            kinds.setdefault(id_, kind)
            values.setdefault(id_, []).append(plain(kind, value))
        for line, (id_, first) in zip(lines, db.execute(first_values, given)):
            want, got = values_of_line(line, name), values.get(id_, [])
            if got != want or [plain(kinds[id_], first) if want else first] != (want[:1] or [None]):
                sys.exit(f"{line}\n  has in {name} the values\n  {got}, of which the first is {first}")
            count += len(want)
    print(f"{count} values, as in the lines")


TEXTS_SCHEMA = """[{"name":"date","type":"date","options":{"indexed":false,"fieldnorms":false,"stored":true}},
{"name":"host","type":"ip_addr","options":{"indexed":false,"fieldnorms":false,"fast":false,"stored":true}}]"""


def random_document(random_: random.Random) -> tuple[str, bytes]:
    """A document that has a date or an address alone, often one with zeros. (docs/FORMATS.md has the codes.)"""
    if random_.random() < 0.5:
        nanoseconds = random_.randrange(-(2**63), 2**63) // 10 ** random_.randrange(10) * 10 ** random_.randrange(10)
        return "date", b"\x81\0\0\0\0\5" + (nanoseconds % 2**64).to_bytes(8, "little")
    groups = [random_.choice([0, 0, 1, random_.randrange(2**16)]) for _ in range(8)]
    if random_.random() < 0.3:
        groups[:6] = [0, 0, 0, 0, 0, random_.choice([0, 0xFFFF])]
    number = sum(group << (16 * at) for at, group in enumerate(reversed(groups)))
    return "host", b"\x81\1\0\0\0\x0a" + number.to_bytes(16, random_.choice(["little", "big"]))


def compare_texts(db: sqlite3.Connection, count: int) -> None:
    """Dates and addresses are printed as the library prints them in JSON."""
    random_ = random.Random(8)
    for _ in range(count):
        name, stored = random_document(random_)
        got, text = db.execute("SELECT kormaglen_value(?1, 2, ?2, ?3), kormaglen_json(?1, 2, ?2)", (TEXTS_SCHEMA, stored, name)).fetchone()
        if [got] != json.loads(text)[name]:
            sys.exit(f"{stored.hex()} is\n  {got} in place of\n  {text}")
    print(f"{count} random dates and addresses, as the JSON has them")


def compare_counts(db: sqlite3.Connection, schema: str, lines: list[str]) -> None:
    """Facets by documents, as counted in the lines."""
    for parent in ("/", "/shop", "/shop/light", "/garden", "/a\\/b", "/nowhere"):
        start = parent.rstrip("/") + "/"
        want: dict[str, int] = {}
        for line in lines:
            below = [kind[len(start) :] for kind in values_of_line(line, "kind") if kind.startswith(start) and kind != start]
            # (a step ends at a slash that has no backslash before it)
            for child in {start + re.split(r"(?<!\\)/", rest)[0] for rest in below}:
                want[child] = want.get(child, 0) + 1
        got = db.execute(COUNTS, {"parent": parent, "schema": schema}).fetchall()
        if dict(got) != want or len(got) != len(want):
            sys.exit(f"below {parent}: {got}\n  in place of {want}")
    print("counts of facets, as in the lines")


def compare_faults(db: sqlite3.Connection, schema: str, lines: list[str]) -> None:
    """Prices of another type: one fault of each document that has some, and the terms of all others."""
    sql = "SELECT document.id, field, term, value, fault FROM document, kormaglen_terms(?, 2, stored, TRUE) ORDER BY document.id"
    priced = {number for number, line in enumerate(lines, 1) if values_of_line(line, "price")}
    without = [row for row in db.execute(sql, (schema,)) if row[0] not in priced]
    rows = db.execute(sql, (schema.replace('"u64"', '"i64"'),)).fetchall()
    faults = [row for row in rows if row[4] is not None]
    if faults != [(number, "price", None, None, "a value is not of its field's type") for number in sorted(priced)]:
        sys.exit(f"{len(faults)} documents without terms, in place of {len(priced)}")
    if [row for row in rows if row[4] is None] != without:
        sys.exit("another document's terms differ")
    print(f"{len(faults)} documents without terms, as in the lines")


def index_all(db: sqlite3.Connection, schema: str) -> None:
    db.execute("CREATE TABLE term(term BLOB, id INTEGER, PRIMARY KEY (term, id)) WITHOUT ROWID")
    start = time.monotonic()
    for step in (LEAVES, TERMS):
        db.execute(step, {"schema": schema})
    db.execute("CREATE INDEX by_path ON leaf(path)")
    (terms,) = db.execute("SELECT count(*) FROM term").fetchone()
    print(f"{terms} terms, in {time.monotonic() - start:.1f} s")


def expect_index(db: sqlite3.Connection, sql: str, given: dict[str, str]) -> None:
    plan = [row[3] for row in db.execute("EXPLAIN QUERY PLAN " + sql, given)]
    if not any("SEARCH term USING PRIMARY KEY (term" in step for step in plan):
        sys.exit(f"{sql}\n  is planned as\n  {plan}")


def compare_queries(db: sqlite3.Connection, schema: str, count: int) -> None:
    random_ = random.Random(7)
    found, by_index, by_scan = 0, 0.0, 0.0
    for number in range(count):
        sql, path, text, test = (range_of_numbers, prefix, facet, term)[number % 4](random_)
        given = {"schema": schema, "path": path, "text": text}
        expect_index(db, sql, given)
        start = time.monotonic()
        (got,) = db.execute(sql, given).fetchone()
        middle = time.monotonic()
        (want,) = db.execute(SCAN + test, {"path": path}).fetchone()
        by_index, by_scan = by_index + middle - start, by_scan + time.monotonic() - middle
        if got != want:
            sys.exit(f"{path}: {text}: {got} documents by terms, {want} by a scan with {test}")
        found += got
    print(f"{count} queries agree, {found} documents found; {1000 * by_index / count:.2f} ms by terms, {1000 * by_scan / count:.2f} ms by a scan")


def main() -> None:
    extension, lines_file, block_file, count = sys.argv[1:]
    with open(lines_file, encoding="utf-8") as file:
        schema, *lines = file.read().rstrip("\n").split("\n")
    with open(block_file, "rb") as file:
        block = file.read()
    db = connect(extension)
    store_all(db, schema, lines, block)
    compare_values(db, schema, lines)
    compare_texts(db, len(lines))
    compare_counts(db, schema, lines)
    compare_faults(db, schema, lines)
    index_all(db, schema)
    compare_queries(db, schema, int(count))


if __name__ == "__main__":
    main()
