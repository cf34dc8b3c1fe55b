"""Compares the extension's answers with the shared rows of the repository: rows.py EXTENSION CRATES. The rows of the program `schemadoc` say what is
stored of a line and what is printed of that, and its values are read one by one, too; those of `document_cases` say which terms and ranges texts of
queries have; those of `cases`, how facets are encoded. All rows stand in the folders of these crates, in `stdin` and `stdout`."""

import base64
import json
import re
import sqlite3
import sys

# The rows' words for refusals, and what the extension says of them.
REFUSALS = {
    "InvalidJson": "not a JSON object",
    "OverflowError": "does not fit the field's type",
    "TypeError": "of another kind than the field's",
    "ParseError": "a date is out of its range, or a text is not an address or a facet",
    "InvalidBase64": "not base64",
    "FloatNumber": "not whole, or does not fit 64 bits",
    "UnknownPath": "the path names no field",
    "NotIndexed": "the field is not indexed",
    "PathEnds": "the path ends at a field of JSON objects",
    "NulInPath": "U+0000",
    "WrongRange": "a range is * or two bounds",
    "NoRange": "a range is * or two bounds",
    "Backwards": "run backwards",
    "WrongText": 'field "',
}


def connect(extension: str) -> sqlite3.Connection:
    db = sqlite3.connect(":memory:")
    db.enable_load_extension(True)
    db.load_extension(extension)
    return db


def rows_of(crate: str) -> list[tuple[str, str]]:
    """The lines of a crate's input, each with its answer."""
    with open(crate + "/stdin", "rb") as given, open(crate + "/stdout", "rb") as wanted:
        lines, answers = given.read().split(b"\n"), wanted.read().split(b"\n")
    return [(line.decode("utf-8", "surrogateescape"), answer.decode()) for line, answer in zip(lines, answers)]


def ask(db: sqlite3.Connection, sql: str, *arguments: object) -> str:
    """The values of all rows in hexadecimal, or the refusal."""
    try:
        values = [value for row in db.execute(sql, arguments).fetchall() for value in row]
    except sqlite3.OperationalError as error:
        return f"error {error}"
    return " ".join(value.hex() if isinstance(value, bytes) else str(value) for value in values)


def expect(what: str, got: str, want: str) -> None:
    """Of a refusal its name has to fit the words."""
    if got == want:
        return
    if got.startswith("error ") and want.startswith("error "):
        names = re.findall(r"\w+", want)
        if any(name in REFUSALS and REFUSALS[name] in got for name in names):
            return
    sys.exit(f"{what}\n  {got}\n  in place of\n  {want}")


def in_json(kind: str, value: object) -> object:
    """A value of kormaglen_values as JSON has it."""
    if kind == "bytes":
        return base64.b64encode(value).decode()
    if kind == "u64":
        return int(value)
    return {"bool": bool, "json": json.loads}.get(kind, lambda it: it)(value)


def compare_values(db: sqlite3.Connection, schema: str, blob: bytes, text: str) -> None:
    """The values of each field one by one, in each version."""
    newer = db.execute("SELECT kormaglen_migrate(2, ?, 3)", (blob,)).fetchone()[0]
    for name, want in json.loads(text).items():
        for version, stored in ((2, blob), (3, newer)):
            rows = db.execute("SELECT kind, value FROM kormaglen_values(?, ?, ?, ?)", (schema, version, stored, name)).fetchall()
            if [in_json(*row) for row in rows] != want:
                sys.exit(f"{text}\n  has in {name} the values\n  {rows}")


def compare_documents(db: sqlite3.Connection, crate: str, with_values: bool = True) -> int:
    """Each document as it is stored and printed, and the values of its fields as SQLite has them where these are wanted."""
    with open(crate + "/stdin", "rb") as given, open(crate + "/stdout", "rb") as wanted:
        schema, *lines = given.read().decode().split("\n")
        answers = wanted.read().decode().split("\n")
    count = 0
    for line, answer in zip(lines, answers):
        if not answer:
            continue
        count += 1
        if answer.startswith("error"):
            expect(line, ask(db, "SELECT kormaglen_store(?, ?)", schema, line), answer)
            continue
        stored, text = answer.split(" ", 1)
        blob = bytes.fromhex(stored)
        expect(line, ask(db, "SELECT kormaglen_store(?, ?)", schema, line), stored)
        expect(line, ask(db, "SELECT kormaglen_json(?, 2, ?)", schema, blob), text)
        expect(line, ask(db, "SELECT kormaglen_check(2, ?)", blob), "None")
        if with_values:
            compare_values(db, schema, blob, text)
        expect(line, ask(db, "SELECT kormaglen_migrate(3, kormaglen_migrate(2, ?, 3), 2)", blob), stored)
        for end in range(len(blob)):
            got = ask(db, "SELECT kormaglen_check(2, ?)", blob[:end])
            if got != "the bytes end too early":
                sys.exit(f"{stored}, cut at byte {end}: {got}")
    return count


def compare_queries(db: sqlite3.Connection, crate: str, schema: str) -> int:
    count = 0
    for line, answer in rows_of(crate):
        kind, *words = line.split("\t")
        if kind != "terms" or words[1] != "indexed":
            continue
        if words[0] == "text" and len(words) == 4:
            sql = "SELECT term FROM kormaglen_query_terms(?, ?, ?)"
            # (the row has the list after a refusal; and its terms in another order, which no contract names)
            got = " ".join(sorted(ask(db, sql, schema, *map(json.loads, words[2:])).split(" ")))
            want = " ".join(sorted(answer.removesuffix(", none").split(" ")))
            if answer.startswith("error"):
                got, want = ask(db, sql, schema, *map(json.loads, words[2:])), answer
        elif words[0] in ("range", "ranges"):
            path, text = map(json.loads, words[2:])
            if text.endswith("*") and text != "*":
                continue
            got, want = ask(db, 'SELECT start, "end" FROM kormaglen_query_ranges(?, ?, ?)', schema, path, text), answer
            if words[0] == "range" and want.startswith("error NoRange"):
                # (a path into JSON objects, which has ranges)
                continue
        else:
            continue
        count += 1
        expect(line, got, want)
    return count


def compare_facets(db: sqlite3.Connection, crate: str) -> int:
    count = 0
    for line, answer in rows_of(crate):
        if not line.startswith("facet\ttext\t") or answer.startswith("error"):
            continue
        decoder = json.JSONDecoder()
        encoded, end = decoder.raw_decode(answer)
        printed, _ = decoder.raw_decode(answer[end + 1 :])
        count += 1
        blob = encoded.encode()
        expect(line, ask(db, "SELECT kormaglen_facet(?)", json.loads(line.split("\t")[2])), blob.hex())
        expect(line, ask(db, "SELECT kormaglen_facet_text(?)", blob), printed)
    return count


def indexed_schema(crates: str) -> str:
    """The schema that the word `indexed` stands for in the rows."""
    with open(crates + "/case_words/src/schemas.rt", encoding="utf-8") as source:
        found = re.search(r'const INDEXED: &str =\s*r#"(.*?)"#', source.read(), re.S)
    return found.group(1) if found else sys.exit("no schema `indexed`")


def main() -> None:
    extension, crates = sys.argv[1:]
    db = connect(extension)
    documents = compare_documents(db, crates + "/schemadoc")
    queries = compare_queries(db, crates + "/document_cases", indexed_schema(crates))
    facets = compare_facets(db, crates + "/cases")
    print(f"shared rows: {documents} documents, {queries} texts of queries and {facets} facets agree")


if __name__ == "__main__":
    main()
