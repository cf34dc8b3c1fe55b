"""The extension where things go wrong: stress.py PART NUMBER.

    long NUMBER       documents of one key, of up to NUMBER letters, over half as many numbers; memory grows in proportion to them
    refused NUMBER    this number of calls that are refused; the memory of the server's process stays as it is
    broken NUMBER     statements, until this number were broken off, by a time limit or by another session
    limited NUMBER    statements with a limit on the process's memory, in this number of steps of 256 KiB above what it has
    large NUMBER      values of this number of megabytes, and results that are longer than values may be
    random NUMBER     this number of calls with random arguments

A statement gives what it gives by itself, or ends with an error that fits, and the session goes on. Ends with 1 where that is not so."""

import json
import os
import pathlib
import random
import subprocess
import sys
import time

from session import Refused, Session

SCHEMA = json.dumps([
    {"name": "name", "type": "text", "options": {"indexing": {}, "stored": True}},
    {"name": "price", "type": "u64", "options": {"indexed": True, "stored": True}},
    {"name": "kind", "type": "facet", "options": {"stored": True}},
    {"name": "more", "type": "json_object", "options": {"indexing": {}, "stored": True, "fast": False}},
])
LINE = '{"name":["Lamp","lamp"],"price":20,"kind":"/shop/light","more":{"size":[1,2],"red":true}}'

CANCELED, OUT_OF_MEMORY, TOO_LONG = "57014", "53200", "54000"

# What is refused, each with its SQLSTATE. `s` is the schema, `d` a document.
REFUSED = [
    ("kormaglen_store(s, '{\"price\":\"' || i || '\"}')", "22P02"),
    ("kormaglen_store(s, '{\"price\":-' || i + 1 || '}')", "22003"),
    ("kormaglen_store(s, '{\"price\" ' || i || '}')", "22P02"),
    ("kormaglen_store(s, '[' || i || ']')", "22P02"),
    ("kormaglen_store(substr(s, 2), '{}')", "22P02"),
    ("kormaglen_store(replace(s, 'u64', 'u65'), '{}')", "22023"),
    ("kormaglen_json(s, 4, d)", "22023"),
    ("kormaglen_json(s, 2, d || '\\x00')", "XX001"),
    ("kormaglen_json(s, 2, substr(d, 1, length(d) - 1))", "XX001"),
    ("kormaglen_value(s, 2, substr(d, 1, length(d) - 1), 'name')", "XX001"),
    ("kormaglen_value(s, 2, d, 'nothing')", "42704"),
    ("kormaglen_bigint(s, 2, d, 'name')", "42804"),
    ("kormaglen_migrate(2, d || d, 3)", "XX001"),
    ("kormaglen_require(2, d || d)", "23514"),
    ("kormaglen_facet('shop')", "22P02"),
    ("kormaglen_facet_text('\\xFF')", "22021"),
    ("kormaglen_field(s, 'nothing')", "42704"),
    ("kormaglen_term(s, 'price', 'x')", "22P02"),
    ("kormaglen_term_text('\\x00000000')", "22P03"),
    ("kormaglen_term(s, 'more.size', '1')", "21000"),
    ("kormaglen_range_end(s, 'price', '[2 TO 1]')", "22023"),
    ("(SELECT count(*) FROM kormaglen_terms(s, 2, '\\x81'))", "XX001"),
    ("(SELECT count(*) FROM kormaglen_terms(s, 2, d || d, true))", "XX001"),
    ("(SELECT count(*) FROM kormaglen_terms(replace(s, 'u64', 'i64'), 2, d))", "42804"),
    ("(SELECT count(*) FROM kormaglen_query_ranges(s, 'price', '1*'))", "22023"),
    ("(SELECT kormaglen_facet_counts('/', n, '\\xFF') FROM generate_series(1, 3) AS n)", "22P03"),
    ("'\\x81'::bytea::stored_document", "23514"),
]

# Statements over a table of documents, which take some milliseconds.
STATEMENTS = [
    "SELECT count(DISTINCT kormaglen_store(s, line)) FROM given, lines",
    "SELECT sum(length(kormaglen_json(s, 2, stored)::text)) FROM given, documents",
    "SELECT count(kormaglen_check(2, stored)), sum(length(kormaglen_migrate(2, stored, 3))) FROM documents",
    "SELECT count(*), sum(length(term)), sum(length(value)) FROM given, documents, kormaglen_terms(s, 2, stored)",
    "SELECT field, fault, count(*) FROM given, documents, kormaglen_terms(replace(s, 'u64', 'i64'), 2, stored, true) GROUP BY field, fault",
    """SELECT count(*), sum(length(term)) FROM given, kormaglen_terms(s, 2, kormaglen_store(s, format('{"more":{"%s":%s}}', repeat('k', 2000),
        (SELECT json_agg(i) FROM generate_series(1, 1000) AS i))))""",
    "SELECT sum(kormaglen_bigint(s, 2, stored, 'price')), max(kormaglen_value(s, 2, stored, 'more')) FROM given, documents",
    "SELECT kormaglen_facet_counts('/', id, kormaglen_bytea(s, 2, stored, 'kind')) FROM given, documents",
    "SELECT count(*) FROM given, lines, kormaglen_query_ranges(s, 'more.size', '[1 TO ' || id || ']')",
    """SELECT count(DISTINCT kormaglen_store(replace(s, ' "name"', ' "name' || id % 7 || '"'), replace(line, 'name', 'name' || id % 7)))
        FROM given, lines""",
]


def die(why: str) -> None:
    sys.exit(f"stress: {why}")


def open_session(documents: int = 2000) -> Session:
    session = Session()
    session.ask("SET client_min_messages = warning; DROP EXTENSION IF EXISTS kormaglen CASCADE; DROP TABLE IF EXISTS given, lines, documents")
    session.ask("CREATE EXTENSION kormaglen; SET jit = off; SET max_parallel_workers_per_gather = 0")
    session.ask("CREATE TABLE given AS SELECT ? AS s, kormaglen_store(?, ?)::bytea AS d", SCHEMA, SCHEMA, LINE)
    session.ask("CREATE TABLE lines AS SELECT id, replace(?, ':20', ':' || id) AS line FROM generate_series(1, ?) AS id", LINE, documents)
    session.ask("CREATE TABLE documents AS SELECT id, kormaglen_store(s, line)::bytea AS stored FROM given, lines")
    session.ask("VACUUM ANALYZE")
    return session


def status(session: Session, key: str) -> int:
    """A figure of the process's memory, in KiB."""
    for line in pathlib.Path(f"/proc/{session.pid}/status").read_text().splitlines():
        if line.startswith(key + ":"):
            return int(line.split()[1])
    return die(f"no {key}")


def expect_few_schemas(session: Session) -> None:
    """At most four schemas are kept that no statement has."""
    kept = int(session.one("SELECT count(*) FROM pg_backend_memory_contexts WHERE name = 'kormaglen schema'"))
    if kept > 4:
        die(f"{kept} schemas are kept")


def expect_flat(grown: int, most: int) -> None:
    """Memory grows by at most `most` KiB, but for valgrind's own, which finds leaks itself."""
    if grown > most and "valgrind" not in os.environ.get("WRAPPER", ""):
        die("memory grew")


def run_long(number: int) -> None:
    sql = """SELECT count(*), sum(length(term)), sum(value::integer), count(fault) FROM given,
        kormaglen_terms(s, 2, kormaglen_store(s, format('{"more":{"%s":%s}}', repeat('k', ?), (SELECT json_agg(i) FROM generate_series(0, ? - 1) AS i))))"""
    open_session(documents=1).close()
    for letters in (number // 8, number // 4, number // 2, number):
        numbers = letters // 2
        session = Session()
        session.ask("SET jit = off; SELECT kormaglen_version()")
        before = status(session, "VmHWM")
        # (a term is the field, a code, the key, a zero byte, a code and the number)
        want = [numbers, numbers * (letters + 4 + 1 + 1 + 1 + 8), numbers * (numbers - 1) // 2, 0]
        got = session.ask(sql, letters, numbers)
        if got != [[str(each) for each in want]]:
            die(f"a key of {letters} letters over {numbers} numbers: {got} in place of {want}")
        grown = status(session, "VmHWM") - before
        print(f"a key of {letters} letters over {numbers} numbers: memory grew by {grown} KiB at most")
        expect_flat(grown, 8192 + letters // 5)
        session.close()


def run_refused(number: int) -> None:
    session = open_session()
    block = """BEGIN PERFORM {}; RAISE 'accepted';
        EXCEPTION WHEN OTHERS THEN IF SQLSTATE <> '{}' THEN RAISE 'call {}: % %', SQLSTATE, SQLERRM; END IF; END;"""
    blocks = "\n".join(block.format(call, code, at) for at, (call, code) in enumerate(REFUSED))
    session.ask(f"""CREATE OR REPLACE PROCEDURE refuse(rounds integer) LANGUAGE plpgsql AS $body$
        DECLARE s text; d bytea;
        BEGIN
            SELECT given.s, given.d INTO s, d FROM given;
            FOR i IN 1..rounds LOOP
                {blocks}
            END LOOP;
        END $body$""")
    rounds = number // len(REFUSED) + 1
    session.ask("CALL refuse(?)", rounds // 10)
    before = status(session, "VmRSS")
    session.ask("CALL refuse(?)", rounds)
    grown = status(session, "VmRSS") - before
    expect_few_schemas(session)
    print(f"{rounds * len(REFUSED)} refused calls of {len(REFUSED)} kinds, resident memory grew by {grown} KiB of {before}")
    expect_flat(grown, 1024)


def ask_or_break(session: Session, sql: str, want: list[list[str]]) -> bool:
    """Whether the statement was broken off; else its answer is what is wanted."""
    try:
        got = session.ask(sql)
    except Refused as error:
        if error.code != CANCELED:
            die(f"{sql}: {error.code}: {error}")
        return True
    if got != want:
        die(f"{sql}: {got} in place of {want}")
    return False


def set_timeout(session: Session, milliseconds: int) -> None:
    """Sets the limit of time, which may break off this, too."""
    while ask_or_break(session, f"SET statement_timeout = {milliseconds}", []):
        pass


def run_broken(number: int) -> None:
    session, other = open_session(), Session()
    wanted = {sql: session.ask(sql) for sql in STATEMENTS}
    random_ = random.Random(7)
    before, run, by_time, by_other = 0, 0, 0, 0
    while by_time < number // 2:
        sql = random_.choice(STATEMENTS)
        set_timeout(session, random_.randrange(1, 16))
        by_time += ask_or_break(session, sql, wanted[sql])
        run += 1
        if by_time == number // 10:
            before = status(session, "VmRSS")
    set_timeout(session, 0)
    while by_other < number - number // 2:
        sql = random_.choice(STATEMENTS)
        other.send(f"SELECT pg_sleep({random_.random() * 0.012}), pg_cancel_backend({session.pid})")
        by_other += ask_or_break(session, sql, wanted[sql])
        other.receive()
        run += 1
    time.sleep(0.1)
    for sql in STATEMENTS:
        if ask_or_break(session, sql, wanted[sql]):
            die(f"{sql} is broken off still")
    grown = status(session, "VmRSS") - before
    expect_few_schemas(session)
    print(f"{run} statements, {by_time} broken off by time and {by_other} by a session, resident memory grew by {grown} KiB of {before}")
    expect_flat(grown, 4096)


# Statements with values of some megabytes, which take memory of PostgreSQL's and of the library's.
HEAVY = [
    "SELECT length(kormaglen_store(s, '{\"name\":\"' || repeat('x', 3000000) || '\"}')) FROM given",
    "SELECT length(kormaglen_json(s, 2, kormaglen_store(s, '{\"name\":\"' || repeat('x', 1000000) || '\"}'))::text) FROM given",
    "SELECT count(*), sum(length(term)) FROM given, kormaglen_terms(s, 2, kormaglen_store(s, '{\"price\":[' || repeat('12,', 50000) || '1]}'))",
    "SELECT count(*), max(value) FROM given, kormaglen_values(s, 2, kormaglen_store(s, '{\"price\":[' || repeat('12,', 50000) || '1]}'), 'price')",
    "SELECT kormaglen_facet_counts('/', n, kormaglen_facet('/a' || n % 9 || repeat('/b', 9))) FROM generate_series(1, 50000) AS n",
    "SELECT length(kormaglen_migrate(2, kormaglen_store(s, '{\"more\":{\"a\":[' || repeat('true,', 100000) || '1]}}'), 3)) FROM given",
    "SELECT length(kormaglen_store(replace(s, ' \"name\"', '\"' || repeat('n', 1000000) || '\"'), '{}')) FROM given",
]


def limit_memory(session: Session, size: str) -> None:
    """Sets the soft limit of the process's memory, as ulimit -v does, by a process of the same user."""
    command = ["prlimit", f"--pid={session.pid}", f"--as={size}:"]
    if os.geteuid() == 0:
        command = ["runuser", "-u", os.environ.get("SERVER_USER", "postgres"), "--", *command]
    subprocess.run(command, check=True)


def run_limited(number: int) -> None:
    session = open_session()
    wanted = {sql: session.ask(sql) for sql in HEAVY}
    cut = {sql: 0 for sql in HEAVY}
    before = 0
    for step in range(number):
        for sql in HEAVY:
            limit = (status(session, "VmSize") + 256 * step) * 1024
            limit_memory(session, str(limit))
            try:
                got = session.ask(sql)
                if got != wanted[sql]:
                    die(f"{sql}: {got} in place of {wanted[sql]}")
            except Refused as error:
                if error.code != OUT_OF_MEMORY:
                    die(f"{sql}: {error.code}: {error}")
                cut[sql] += 1
            limit_memory(session, "unlimited")
        if step == number // 2:
            before = status(session, "VmRSS")
    for sql in HEAVY:
        if session.ask(sql) != wanted[sql]:
            die(f"{sql} gives something else")
    grown = status(session, "VmRSS") - before
    expect_few_schemas(session)
    each = ", ".join(str(times) for times in cut.values())
    print(f"{number * len(HEAVY)} statements with a limit on memory, {sum(cut.values())} cut short ({each}); memory grew by {grown} KiB of {before}")
    if min(cut.values()) == 0 or grown > 16384:
        die("no statement was cut short, or memory grew")


def length_of(number: int) -> bytes:
    """A length as a stored document has it: seven bits a byte, the lowest first, and the last one marked."""
    written = b""
    while number > 127:
        written += bytes([number & 127])
        number >>= 7
    return written + bytes([number | 128])


def run_large(number: int) -> None:
    session = open_session()
    size = number * 1000000
    session.ask("CREATE TEMP TABLE large AS SELECT kormaglen_store(s, '{\"name\":\"' || repeat('x', ?) || '\"}')::bytea AS stored FROM given", size)
    checks = [
        ("SELECT length(kormaglen_json(s, 2, stored)::text) FROM given, large", size + len('{"name":[""]}')),
        ("SELECT length(kormaglen_value(s, 2, stored, 'name')) FROM given, large", size),
        ("SELECT length(term) FROM given, large, kormaglen_terms(s, 2, stored)", size + 5),
        ("SELECT length(kormaglen_migrate(2, stored, 3)) - length(stored) FROM large", 0),
        ("SELECT count(*) FROM large WHERE kormaglen_check(2, stored) IS NULL", 1),
        ("SELECT count(*) FROM large WHERE kormaglen_check(2, substr(stored, 1, length(stored) - 1)) = 'the bytes end too early'", 1),
    ]
    for sql, want in checks:
        if int(session.one(sql)) != want:
            die(f"{sql} is not {want}")
    # A text of 180 million characters, each of which JSON writes in six; and a facet's step of slashes, each of which is written in two.
    head = b"\x81\0\0\0\0\0" + length_of(180000000)
    for sql, arguments in [
        ("SELECT kormaglen_json(s, 2, ? || convert_to(repeat(E'\\x01', 180000000), 'UTF8')) FROM given", [head]),
        ("SELECT kormaglen_facet_text(convert_to(repeat('/', 540000000), 'UTF8'))", []),
    ]:
        try:
            session.ask(sql, *arguments)
            die(f"{sql} is accepted")
        except Refused as error:
            if error.code != TOO_LONG or "kormaglen_" not in str(error):
                die(f"{sql}: {error.code}: {error}")
    resident = status(session, "VmRSS")
    expect_few_schemas(session)
    print(f"values of {number} MB, and results above 1 GB refused; {resident // 1024} MiB are resident after that")
    if resident > 300 * 1024:
        die("memory is kept")


# ---- random arguments

RANDOM = [
    "kormaglen_store({s}, {line})", "kormaglen_json({s}, {v}, {d})", "kormaglen_migrate({v}, {d}, 3)", "kormaglen_check({v}, {d})",
    "kormaglen_value({s}, {v}, {d}, {field})", "kormaglen_bigint({s}, {v}, {d}, 'price')", "kormaglen_bytea({s}, {v}, {d}, 'kind')",
    "kormaglen_facet_text({d})", "kormaglen_facet({text})", "kormaglen_field({s}, {path})", "kormaglen_term({s}, {path}, {text})",
    "kormaglen_term_text({d})", "kormaglen_term_text(kormaglen_term({s}, {path}, {text}))",
    "kormaglen_range_start({s}, {path}, {text})", "kormaglen_range_end({s}, {path}, {text})", "(SELECT count(*) FROM kormaglen_terms({s}, {v}, {d}))",
    "(SELECT count(*) FROM kormaglen_terms({s}, {v}, {d}, true))",
    "(SELECT count(*) FROM kormaglen_values({s}, {v}, {d}, {field}))", "(SELECT count(*) FROM kormaglen_query_terms({s}, {path}, {text}))",
    "(SELECT count(*) FROM kormaglen_query_ranges({s}, {path}, {text}))", "(SELECT kormaglen_facet_counts({text}, 1, convert_to({path}, 'UTF8')))",
]
PATHS = ["name", "price", "kind", "more.size", "more.a\\.b", "more", "nothing"]
TEXTS = ["20", "[1 TO 2}", "[* TO a]", "lam*", "/shop/*", "/shop", "*", "2020-01-01T00:00:00Z", "true"]
CODES = {"22P02", "22003", "22023", "XX001", "42704", "42804", "22021", "21000", "22P03", "22P05"}


def changed(random_: random.Random, given: bytes) -> bytes:
    """With some bytes changed, taken out or put in; or random bytes alone."""
    if random_.random() < 0.1:
        return bytes(random_.randrange(16) if random_.random() < 0.5 else random_.randrange(256) for _ in range(random_.randrange(40)))
    changing = bytearray(given)
    for _ in range(random_.randrange(4) if random_.random() < 0.7 else 0):
        at = random_.randrange(len(changing) or 1)
        what = random_.randrange(3)
        if what == 0:
            changing[at:at + 1] = b""
        elif what == 1:
            changing[at:at] = bytes([random_.randrange(256)])
        else:
            changing[at:at + 1] = bytes([random_.choice(given) if given and random_.random() < 0.5 else random_.randrange(256)])
    return bytes(changing)


def changed_text(random_: random.Random, given: str) -> str:
    return changed(random_, given.encode()).decode(errors="ignore").replace("\0", "")


def run_random(number: int) -> None:
    session = open_session()
    random_ = random.Random(11)
    document = bytes.fromhex(session.one("SELECT encode(d, 'hex') FROM given"))
    accepted = {call: 0 for call in RANDOM}
    for at in range(number):
        call = RANDOM[at % len(RANDOM)]
        values = {
            "s": changed_text(random_, SCHEMA), "line": changed_text(random_, LINE), "d": changed(random_, document),
            "v": random_.choice([2, 2, 2, 1, 3, 0, 9]), "path": changed_text(random_, random_.choice(PATHS)),
            "text": changed_text(random_, random_.choice(TEXTS)), "field": random_.choice(PATHS),
        }
        if random_.random() < 0.7:
            values["s"] = SCHEMA
        names = sorted((name for name in values if f"{{{name}}}" in call), key=lambda name: call.find(f"{{{name}}}"))
        sql = "SELECT " + call.format(**{name: "?" for name in values})
        try:
            session.ask(sql, *(values[name] for name in names))
            accepted[call] += 1
        except Refused as error:
            if error.code not in CODES or "kormaglen_" not in str(error):
                die(f"{sql} {values}: {error.code}: {error}")
    expect_few_schemas(session)
    print(f"{number} calls with random arguments; of each accepted: {' '.join(str(each) for each in accepted.values())}")
    if min(accepted.values()) == 0:
        die("a function accepted nothing")


PARTS = {"long": run_long, "refused": run_refused, "broken": run_broken, "limited": run_limited, "large": run_large, "random": run_random}


def main() -> None:
    part, number = sys.argv[1:]
    PARTS[part](int(number))


if __name__ == "__main__":
    main()
