"""Compares the extension's answers with the shared rows of the repository: shared_rows.py CRATES. What the rows are, and how an answer is compared
with them, is in ../sqlite/tests/rows.py: a session takes the place of SQLite's connection there."""

import pathlib
import re
import sqlite3
import sys

from session import Refused, Session

sys.path.insert(0, str(pathlib.Path(__file__).resolve().parents[2] / "sqlite/tests"))
import rows

BYTEA = re.compile(r"\\x((?:[0-9a-f]{2})*)")


class Cursor:
    def __init__(self, answer: list[list[object]]) -> None:
        self.answer = answer

    def fetchall(self) -> list[list[object]]:
        return self.answer


class Connection:
    def __init__(self) -> None:
        self.session = Session()
        self.session.ask("DROP EXTENSION IF EXISTS kormaglen CASCADE; CREATE EXTENSION kormaglen")

    def execute(self, sql: str, arguments: tuple[object, ...]) -> Cursor:
        try:
            answer = self.session.ask(sql, *arguments)
        except Refused as error:
            raise sqlite3.OperationalError(str(error)) from error
        return Cursor([[self.value(text) for text in row] for row in answer])

    @staticmethod
    def value(text: str | None) -> object:
        """A bytea is printed as \\x and its digits, which no text of the rows is."""
        found = BYTEA.fullmatch(text or "")
        return bytes.fromhex(found[1]) if found else text


def rows_with_texts(crate: str) -> list[tuple[str, str]]:
    """The rows but those with the character U+0000, which PostgreSQL's texts have not."""
    return [row for row in ALL_ROWS(crate) if "\\u0000" not in row[0]]


ALL_ROWS = rows.rows_of
rows.rows_of = rows_with_texts


def main() -> None:
    (crates,) = sys.argv[1:]
    db = Connection()
    # (values have other types here: compare.py has them)
    documents = rows.compare_documents(db, crates + "/schemadoc", with_values=False)
    queries = rows.compare_queries(db, crates + "/document_cases", rows.indexed_schema(crates))
    facets = rows.compare_facets(db, crates + "/cases")
    print(f"shared rows: {documents} documents, {queries} texts of queries and {facets} facets agree")


if __name__ == "__main__":
    main()
