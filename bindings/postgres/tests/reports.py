"""Reads the logs of valgrind, one of each process: reports.py FOLDER. Prints the reports that have a frame of the extension's, and ends with 1 where
there is one. The server's own reports are counted: Debian's build does not say to valgrind how it takes memory."""

import pathlib
import re
import sys

OURS = re.compile(r"\bsql_\w+ \(|kormaglen\.so")


def reports(log: str) -> list[str]:
    """The paragraphs of a log that have frames."""
    lines = [re.sub(r"^==\d+== ?", "", line) for line in log.splitlines()]
    return [part for part in re.split(r"\n\s*\n", "\n".join(lines)) if "   at 0x" in part]


def main() -> None:
    (folder,) = sys.argv[1:]
    logs = sorted(pathlib.Path(folder).glob("*.log"))
    if len(logs) < 10:
        sys.exit(f"{len(logs)} processes were watched, which is too few")
    found = [each for log in logs for each in reports(log.read_text(errors="replace"))]
    ours = [each for each in found if OURS.search(each)]
    for each in ours:
        print(each, end="\n\n")
    print(f"valgrind: {len(logs)} processes, {len(found) - len(ours)} reports of the server's, {len(ours)} of the extension's")
    sys.exit(bool(ours))


if __name__ == "__main__":
    main()
