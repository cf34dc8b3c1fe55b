"""Compares the extension with the C library's import of a whole file, and queries over an index of terms with scans:
compare.py LINES BLOCK QUERIES. LINES is what ../sqlite/tests/make_lines.py prints, BLOCK what ../c/import_file.c makes of its documents.

Each document is stored alone, and all of them have to be the block. Each is read back and has to have the values of its line, as JSON and field by
field. By a schema in which a field has another type, the documents with a value there have a fault, and the others their terms. Then the terms go to
a table, and random ranges, prefixes, facets and paths into JSON objects have to find as many documents there as a scan of the lines' values does, with
the table's index in the plan."""

import json
import random
import re
import sys
import time
from collections import defaultdict
from collections.abc import Callable, Iterator

from session import Session

Leaf = tuple[int, object]
Query = tuple[str, str, str, Callable[[object], bool]]

BY_RANGES = "SELECT count(DISTINCT id) FROM kormaglen_query_ranges(?, ?, ?) AS r JOIN term AS t ON t.term >= r.start AND t.term < r.end"
BY_BOUNDS = "SELECT count(DISTINCT id) FROM term WHERE term >= kormaglen_range_start(?, ?, ?) AND term < kormaglen_range_end(?, ?, ?)"
BY_FACET = "SELECT count(DISTINCT id) FROM term WHERE term >= kormaglen_term(?, ?, ?) AND term < kormaglen_range_end(?, ?, rtrim(?, '/') || '/*')"
BY_TERMS = "SELECT count(DISTINCT id) FROM kormaglen_query_terms(?, ?, ?) AS q JOIN term AS t ON t.term = q.term"

NUMBERS = ["price", "change", "more.size"]
TEXTS = ["name", "more.by.who", "more.by.tags", "more.any"]
FACETS = ["/shop", "/shop/light", "/garden", "/garden/chair", "/shop/lights", "/a\\/b", "/nowhere", "/"]
STARTS = ["l", "la", "lamp", "Lamp la", "1", "é", "棚", "tab", "tabl", "x"]


def leaves(path: str, value: object) -> Iterator[tuple[str, object]]:
    """The values of a line with their paths, which have no numbers of lists."""
    if isinstance(value, dict):
        for key, inner in value.items():
            yield from leaves(f"{path}.{key}" if path else key, inner)
    elif isinstance(value, list):
        for inner in value:
            yield from leaves(path, inner)
    else:
        yield path, value


def is_number(value: object) -> bool:
    return isinstance(value, int) and not isinstance(value, bool)


def is_within(opens: str, low: object, high: object, closes: str) -> Callable[[object], bool]:
    return lambda value: (value >= low if opens == "[" else value > low) and (value <= high if closes == "]" else value < high)


def range_of_numbers(random_: random.Random) -> Query:
    path = random_.choice(NUMBERS)
    low, high = sorted(random_.randrange(0 if path == "price" else -300, 1000) for _ in range(2))
    opens, closes = random_.choice("[{"), random_.choice("]}")
    high += 1
    sql = random_.choice([BY_BOUNDS, BY_RANGES])
    if path.startswith("more"):
        # (at a path into JSON objects a bound is a text, too, and a range of texts runs from the lower one)
        if str(low) > str(high):
            low, high = 10, 20
        sql = BY_RANGES
    inside = is_within(opens, low, high, closes)
    return sql, path, f"{opens}{low} TO {high}{closes}", lambda value: is_number(value) and inside(value)


def range_of_dates(random_: random.Random) -> Query:
    low, high = sorted(f"20{random_.randrange(10, 26)}-{random_.randrange(1, 13):02}-01T00:00:00Z" for _ in range(2))
    closes = "]" if low == high else random_.choice("]}")
    return random_.choice([BY_BOUNDS, BY_RANGES]), "added", f"[{low} TO {high}{closes}", is_within("[", low, high, "]" if closes == "]" else "}")


def prefix(random_: random.Random) -> Query:
    path, start = random_.choice(TEXTS), random_.choice(STARTS)
    return random_.choice([BY_BOUNDS, BY_RANGES]), path, start + "*", lambda value: isinstance(value, str) and value.startswith(start)


def facet(random_: random.Random) -> Query:
    text = random_.choice(FACETS)
    return BY_FACET, "kind", text, lambda value: value == text or value.startswith(text.rstrip("/") + "/")


def term(random_: random.Random) -> Query:
    path, text = random_.choice(TEXTS + ["sold"]), random_.choice(["lamp", "7", "10", "true", "false", "a b", "Lamp"])
    if path in ("name", "sold") and (path == "sold") != (text in ("true", "false")):
        path = "more.any"
    return BY_TERMS, path, text, lambda value: (str(value).lower() if isinstance(value, bool) else str(value)) == text


def expect(what: str, got: object, want: object) -> None:
    if got != want:
        sys.exit(f"{what}: {got} in place of {want}")


def store_all(session: Session, schema: str, lines_file: str) -> None:
    session.ask("DROP EXTENSION IF EXISTS kormaglen CASCADE; CREATE EXTENSION kormaglen")
    session.ask("CREATE TABLE line(id serial, json text); CREATE TABLE schema(json text)")
    session.ask("INSERT INTO schema VALUES (?)", schema)
    session.ask(f"\\copy line(json) FROM PROGRAM 'tail -n +2 {lines_file}' WITH (FORMAT csv, QUOTE e'\\x01', DELIMITER e'\\x02')\nSELECT 1")
    session.ask("CREATE TABLE document AS SELECT id, kormaglen_store((SELECT json FROM schema), json) AS stored FROM line ORDER BY id")
    session.ask("VACUUM ANALYZE document")


def compare_stored(session: Session, schema: str, lines: list[dict[str, object]], block: bytes) -> None:
    stored = [bytes.fromhex(row[0]) for row in session.ask("SELECT encode(stored, 'hex') FROM document ORDER BY id")]
    expect("documents", len(stored), len(lines))
    if b"".join(stored) != block:
        sys.exit("the stored documents are not the block")
    expect("corrupt documents", session.one("SELECT count(kormaglen_check(2, stored)) FROM document"), "0")
    texts = session.ask("SELECT kormaglen_json(?, 2, stored) FROM document ORDER BY id", schema)
    for line, (text,) in zip(lines, texts, strict=True):
        values = {name: value if isinstance(value, list) else [value] for name, value in line.items()}
        expect(str(line), json.loads(text), {name: value for name, value in values.items() if value})
    print(f"{len(lines)} documents, {len(block)} bytes: as imported at once, and read back")


def compare_values(session: Session, schema: str) -> None:
    """The values of each field, and the first one in its type, are those of the JSON."""
    others = """SELECT count(*), count(*) FILTER (WHERE ARRAY(SELECT value FROM kormaglen_values(s, 2, stored, field))
            IS DISTINCT FROM ARRAY(SELECT json_array_elements_text(json -> field))
        OR kormaglen_value(s, 2, stored, field) IS DISTINCT FROM json -> field ->> 0)
        FROM document, (VALUES (?)) AS schema(s), kormaglen_json(s, 2, stored) AS json,
            unnest(ARRAY['name', 'price', 'change', 'kind', 'added', 'sold', 'more']) AS field"""
    ((count, wrong),) = session.ask(others, schema)
    expect("fields with other values than the JSON", wrong, "0")
    types = """SELECT count(*) FROM document, (VALUES (?)) AS schema(s), kormaglen_json(s, 2, stored) AS json
        WHERE kormaglen_bigint(s, 2, stored, 'price') IS DISTINCT FROM (json #>> '{price,0}')::bigint
        OR kormaglen_bigint(s, 2, stored, 'change') IS DISTINCT FROM (json #>> '{change,0}')::bigint
        OR kormaglen_boolean(s, 2, stored, 'sold') IS DISTINCT FROM (json #>> '{sold,0}')::boolean
        OR kormaglen_timestamptz(s, 2, stored, 'added') IS DISTINCT FROM (json #>> '{added,0}')::timestamptz
        OR kormaglen_bytea(s, 2, stored, 'kind') IS DISTINCT FROM kormaglen_facet(json #>> '{kind,0}')"""
    expect("documents with another first value", session.one(types, schema), "0")
    print(f"{count} fields have the values of the JSON")


def compare_faults(session: Session, schema: str, priced: set[int]) -> None:
    """Prices of another type: one fault of each document that has some, and the terms of all others."""
    faults = "SELECT id, field, term, value, fault FROM document, kormaglen_terms(?, 2, stored, true) WHERE fault IS NOT NULL ORDER BY id"
    other = schema.replace('"u64"', '"i64"')
    want = [[str(number), "price", None, None, "a value is not of its field's type"] for number in sorted(priced)]
    if session.ask(faults, other) != want:
        sys.exit(f"there are not {len(want)} documents without terms")
    terms = """SELECT count(*), md5(string_agg(concat(id, field, term), '' ORDER BY id, n)) FROM document,
        kormaglen_terms(?, 2, stored, true) WITH ORDINALITY AS of(field, term, value, fault, n)
        WHERE fault IS NULL AND kormaglen_value(?, 2, stored, 'price') IS NULL"""
    expect("terms of the others", session.ask(terms, other, other), session.ask(terms, schema, schema))
    print(f"{len(want)} documents without terms, as in the lines")


def index_all(session: Session) -> None:
    start = time.monotonic()
    session.ask("""CREATE TABLE term AS SELECT DISTINCT t.term, id
        FROM document, kormaglen_terms((SELECT json FROM schema), 2, stored) AS t""")
    session.ask("ALTER TABLE term ADD PRIMARY KEY (term, id)")
    session.ask("VACUUM ANALYZE term")
    print(f"{session.one('SELECT count(*) FROM term')} terms, in {time.monotonic() - start:.1f} s")


def expect_index(session: Session, sql: str, arguments: list[str]) -> None:
    plan = [row[0].strip() for row in session.ask("EXPLAIN (COSTS OFF) " + sql, *arguments)]
    if not any("using term_pkey on term" in step for step in plan) or not any(re.match(r"Index Cond: \(+term ", step) for step in plan):
        sys.exit(f"{sql} {arguments[1:]}\n  is planned as\n  " + "\n  ".join(plan))


def compare_queries(session: Session, schema: str, by_path: dict[str, list[Leaf]], count: int) -> None:
    random_ = random.Random(7)
    found, took = 0, 0.0
    for number in range(count):
        sql, path, text, test = (range_of_numbers, prefix, facet, term, range_of_dates)[number % 5](random_)
        arguments = [schema, path, text] * (sql.count("?") // 3)
        expect_index(session, sql, arguments)
        start = time.monotonic()
        got = int(session.one(sql, *arguments))
        took += time.monotonic() - start
        expect(f"{path}: {text}: documents", got, len({number for number, value in by_path[path] if test(value)}))
        found += got
    print(f"{count} queries agree, {found} documents found; {1000 * took / count:.2f} ms by terms")


def compare_counts(session: Session, by_path: dict[str, list[Leaf]]) -> None:
    """The counts of facets, over the index, are those of the lines; also by workers."""
    sql = """SELECT kormaglen_facet_counts(?, id, substr(term, 6)) FROM term
        WHERE term >= kormaglen_term((SELECT json FROM schema), 'kind', '/')
        AND term < kormaglen_range_end((SELECT json FROM schema), 'kind', '/*')"""
    for parent in ("/", "/shop", "/garden", "/nowhere"):
        below: dict[str, set[int]] = defaultdict(set)
        for number, value in by_path["kind"]:
            steps = value.replace("\\/", "\0").split("/")[1:]
            if value.startswith(parent.rstrip("/") + "/") and value != "/":
                child = "/".join(steps[: len(parent.rstrip("/").split("/"))]).replace("\0", "\\/")
                below["/" + child].add(number)
        expect(f"counts below {parent}", json.loads(session.one(sql, parent)), {child: len(numbers) for child, numbers in below.items()})
    print("facets are counted as in the lines")


def compare_workers(session: Session, schema: str) -> None:
    sql = """SELECT count(kormaglen_check(2, stored)), md5(string_agg(md5(kormaglen_json(?, 2, stored)::text), '' ORDER BY id)),
        kormaglen_facet_counts('/', id, kormaglen_bytea(?, 2, stored, 'kind')) FROM document WHERE kormaglen_bigint(?, 2, stored, 'price') < 500"""
    count = "SELECT count(*), sum(length(kormaglen_json(?, 2, stored)::text)) FROM document WHERE kormaglen_bigint(?, 2, stored, 'price') < 500"
    session.ask("SET max_parallel_workers_per_gather = 0")
    want = session.ask(sql, schema, schema, schema), session.ask(count, schema, schema)
    session.ask("SET max_parallel_workers_per_gather = 2; ALTER TABLE document SET (parallel_workers = 2)")
    plan = "\n".join(row[0] for row in session.ask("EXPLAIN (ANALYZE, COSTS OFF, TIMING OFF) " + count, schema, schema))
    if "Workers Launched: 2" not in plan or "Parallel Seq Scan on document" not in plan:
        sys.exit(f"no workers:\n{plan}")
    expect("by workers", (session.ask(sql, schema, schema, schema), session.ask(count, schema, schema)), want)
    print("two workers give what one process does")


def main() -> None:
    lines_file, block_file, count = sys.argv[1:]
    with open(lines_file, encoding="utf-8") as file:
        schema, *texts = file.read().rstrip("\n").split("\n")
    with open(block_file, "rb") as file:
        block = file.read()
    lines = [json.loads(text) for text in texts]
    by_path: dict[str, list[Leaf]] = defaultdict(list)
    for number, line in enumerate(lines, 1):
        for path, value in leaves("", line):
            by_path[path].append((number, value))
    session = Session()
    store_all(session, schema, lines_file)
    compare_stored(session, schema, lines, block)
    compare_values(session, schema)
    compare_faults(session, schema, {number for number, _ in by_path["price"]})
    index_all(session)
    compare_queries(session, schema, by_path, int(count))
    compare_counts(session, by_path)
    compare_workers(session, schema)
    session.close()


if __name__ == "__main__":
    main()
