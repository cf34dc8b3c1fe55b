"""Compares the page with what runs: page.py PAGE SQL OUT [MARK MARK]. The page's blocks of SQL, one after the other, have to be the file SQL, and its
blocks of output the file OUT, which is what the other one prints. The blocks are those marked `sql` and `console`, or as the last two words say."""

import pathlib
import re
import sys


def blocks(page: str, mark: str) -> list[str]:
    return re.findall(rf"^```{mark}\n(.*?)^```$", page, re.S | re.M)


def main() -> None:
    page, sql, out = (pathlib.Path(word).read_text(encoding="utf-8") for word in sys.argv[1:4])
    sql_mark, out_mark = sys.argv[4:] or ["sql", "console"]
    statements, printed = blocks(page, sql_mark), blocks(page, out_mark)
    if "\n".join(statements) != sql:
        sys.exit(f"the page's SQL is not {sys.argv[2]}")
    if "".join(printed) != out:
        sys.exit(f"the page's output is not {sys.argv[3]}")
    print(f"the page has {len(statements)} blocks of SQL and {len(printed)} of output, as they run")


if __name__ == "__main__":
    main()
