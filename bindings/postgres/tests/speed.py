"""What a document costs by the extension beside the calls of the C library: speed.py CALLS LINES ROUNDS. CALLS is the program of calls.c, LINES what
../sqlite/tests/make_lines.py prints. Prints nanoseconds of the processor for each document, the best of the rounds, in which both take turns: by the
calls, and by a statement in a server's process, less what the same statement takes that only asks for a length."""

import json
import pathlib
import subprocess
import sys

from session import Session

LINE, DOCUMENT = "SELECT sum(octet_length(line)) FROM one", "SELECT sum(length(stored)) FROM one"
STATEMENTS = {
    "store": ("SELECT sum(length(kormaglen_store(?, line))) FROM one", LINE),
    "store, schema by a subquery": ("SELECT sum(length(kormaglen_store((SELECT json FROM schema), line))) FROM one", LINE),
    "store, 100 more fields": ("SELECT sum(length(kormaglen_store((SELECT json FROM longer), line))) FROM one", LINE),
    "json": ("SELECT count(kormaglen_json(?, 2, stored)) FROM one", DOCUMENT),
    "json, as jsonb": ("SELECT count(kormaglen_json(?, 2, stored)::jsonb) FROM one", DOCUMENT),
    "value": ("SELECT count(kormaglen_value(?, 2, stored, 'price')) FROM one", DOCUMENT),
    "bigint": ("SELECT count(kormaglen_bigint(?, 2, stored, 'price')) FROM one", DOCUMENT),
    "price by the JSON": ("SELECT count(kormaglen_json(?, 2, stored) #>> '{price,0}') FROM one", DOCUMENT),
    "check": ("SELECT count(kormaglen_check(2, stored)) FROM one", DOCUMENT),
    "migrate": ("SELECT sum(length(kormaglen_migrate(2, stored, 3))) FROM one", DOCUMENT),
    "terms": ("SELECT count(term) FROM one, kormaglen_terms(?, 2, stored)", DOCUMENT),
}


def processor_time(session: Session) -> int:
    """Nanoseconds that the server's process has run."""
    return int(pathlib.Path(f"/proc/{session.pid}/schedstat").read_text().split()[0])


def took(session: Session, sql: str, schema: str) -> int:
    start = processor_time(session)
    session.ask(sql, *[schema] * sql.count("?"))
    return processor_time(session) - start


def main() -> None:
    calls, lines_file, rounds = sys.argv[1:]
    with open(lines_file, encoding="utf-8") as file:
        schema = file.readline().rstrip("\n")
    session = Session()
    session.ask("SET client_min_messages = warning; DROP EXTENSION IF EXISTS kormaglen CASCADE; DROP TABLE IF EXISTS one, schema, longer")
    session.ask("CREATE EXTENSION kormaglen; CREATE TABLE one(line text, stored bytea); CREATE TABLE schema(json text)")
    session.ask("INSERT INTO schema VALUES (?)", schema)
    more = json.dumps(json.loads(schema) + [{"name": f"more{i}", "type": "u64", "options": {"indexed": True, "stored": True}} for i in range(100)])
    session.ask("CREATE TABLE longer AS SELECT ? AS json", more)
    session.ask(f"\\copy one(line) FROM PROGRAM 'tail -n +2 {lines_file}' WITH (FORMAT csv, QUOTE e'\\x01', DELIMITER e'\\x02')\nSELECT 1")
    session.ask("UPDATE one SET stored = kormaglen_store(?, line)", schema)
    session.ask("VACUUM FULL ANALYZE one")
    session.ask("SET max_parallel_workers_per_gather = 0; SET jit = off")
    count = int(session.one("SELECT count(*) FROM one"))
    by_calls: dict[str, float] = {}
    best: dict[str, float] = {}
    for _ in range(int(rounds)):
        printed = subprocess.run([calls, lines_file, "3"], check=True, capture_output=True, text=True).stdout
        for name, nanoseconds in (line.split() for line in printed.splitlines()):
            by_calls[name] = min(by_calls.get(name, 1e18), float(nanoseconds))
        for sql in {each for pair in STATEMENTS.values() for each in pair}:
            best[sql] = min(best.get(sql, 1e18), took(session, sql, schema) / count)
    print(f"nanoseconds for each of {count} documents")
    for name, (sql, less) in STATEMENTS.items():
        figure = best[sql] - best[less]
        beside = f"{by_calls[name]:10.0f} by the calls from C, {figure / by_calls[name]:.2f} times" if name in by_calls else ""
        print(f"{name:28}{figure:8.0f}{beside}")


if __name__ == "__main__":
    main()
