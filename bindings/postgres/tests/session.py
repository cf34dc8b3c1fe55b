"""A session of psql, over which statements are sent and answered one by one. The server is the one that PGHOST and its like name."""

import subprocess

FIELD, NULL, END = "\x1f", "\x1d", "--- end ---"


class Refused(Exception):
    """A statement ended with an error: its SQLSTATE, and psql's words."""

    def __init__(self, code: str, words: str) -> None:
        super().__init__(words)
        self.code = code


def quote(value: object) -> str:
    """A value as a literal of SQL."""
    if value is None:
        return "NULL"
    if isinstance(value, bytes):
        return f"'\\x{value.hex()}'::bytea"
    if isinstance(value, (bool, int)):
        return str(value)
    if "\0" in str(value):
        raise ValueError("PostgreSQL's texts have no U+0000")
    return "'" + str(value).replace("'", "''") + "'"


class Session:
    def __init__(self, database: str = "postgres") -> None:
        command = ["psql", "-XAtq", "-F", FIELD, "-P", "null=" + NULL, "-v", "VERBOSITY=default", "-v", "SHOW_CONTEXT=never", database]
        pipes = {"stdin": subprocess.PIPE, "stdout": subprocess.PIPE, "stderr": subprocess.STDOUT}
        self.psql = subprocess.Popen(command, **pipes, encoding="utf-8", errors="surrogateescape")
        self.pid = int(self.ask("SELECT pg_backend_pid()")[0][0])

    def send(self, sql: str) -> None:
        """Sends a statement, or commands of psql's, whose answer `receive` waits for."""
        self.psql.stdin.write(f"{sql}\n;\n\\echo {END} :SQLSTATE\n")
        self.psql.stdin.flush()

    def receive(self) -> list[list[str | None]]:
        """The rows of what was sent. NULL is None."""
        lines: list[str] = []
        while True:
            line = self.psql.stdout.readline()
            if not line:
                raise ConnectionError("the session has ended: " + "".join(lines))
            if line.startswith(END):
                code = line.split()[-1]
                break
            lines.append(line.rstrip("\n"))
        if code != "00000":
            raise Refused(code, "\n".join(lines))
        return [[None if value == NULL else value for value in line.split(FIELD)] for line in lines]

    def ask(self, sql: str, *arguments: object) -> list[list[str | None]]:
        """The rows of a statement, in which each `?` stands for an argument."""
        first, *rest = sql.split("?")
        self.send(first + "".join(quote(argument) + part for argument, part in zip(arguments, rest, strict=True)))
        return self.receive()

    def one(self, sql: str, *arguments: object) -> str | None:
        """The one value of a statement."""
        ((value,),) = self.ask(sql, *arguments)
        return value

    def close(self) -> None:
        self.psql.stdin.close()
        self.psql.wait()
