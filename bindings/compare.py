"""Compares the library's answers, by the Python module, with what runs over lines must print: the first argument is the folder of their rows.
Of each run that is done each line of JSON is imported alone and printed back, also as one document, and all together; then the whole block is
carried over to version 3 and back."""

import json
import sys

import kormaglen

REFUSALS = {
    kormaglen.LineStatus.INVALID_JSON: "error InvalidJson",
    kormaglen.LineStatus.OVERFLOW: "error ValueError OverflowError",
    kormaglen.LineStatus.WRONG_TYPE: "error ValueError TypeError",
    kormaglen.LineStatus.BAD_TEXT: "error ValueError ParseError",
    kormaglen.LineStatus.BAD_BASE64: "error ValueError InvalidBase64",
    kormaglen.LineStatus.FLOAT: "error ValueError FloatNumber",
    kormaglen.LineStatus.NO_ROOM: "error HeapFull",
}


def answered(schema: kormaglen.Schema, line: bytes) -> str:
    """What a run prints for the line."""
    imported = schema.import_lines(line + b"\n")
    (said,) = imported.lines
    if said.status != kormaglen.LineStatus.STORED:
        return REFUSALS[said.status]
    return imported.block.hex() + " " + schema.export_block(imported.block).decode().rstrip("\n")


def compare_alone(schema: kormaglen.Schema, line: bytes, block: str, text: str) -> None:
    """The line's document alone is written and printed as in a block, and it is the document of its own values."""
    document = schema.parse(line)
    stored = document.write()
    if stored.hex() != block:
        sys.exit(f"{line!r}: {stored.hex()} instead of {block}")
    read, size = schema.read(stored)
    printed = read.to_json()
    if size != len(stored) or printed != text:
        sys.exit(f"{line!r}: {printed} instead of {text}")
    if schema.document(read).to_json() != text:
        sys.exit(f"{line!r}: the document of its values is another")


def bytes_of(word: str) -> bytes:
    """The bytes that a word of a row writes: as a text of JSON, or in hexadecimal."""
    return json.loads(word).encode() if word.startswith('"') else bytes.fromhex(word)


def compare_run(source: bytes, answers: str) -> tuple[int, int]:
    """The lines of a run, its schema's first, and what it prints. Returns how many documents' lines there are, and how many are stored."""
    schema, *lines = source.split(b"\n")
    if lines and lines[-1] == b"":
        lines.pop()
    wanted = answers.split("\n")[:-1]
    by = kormaglen.Schema(schema)
    for line, want in zip(lines, wanted, strict=True):
        got = answered(by, line)
        if got != want:
            sys.exit(f"{line!r}: {got} instead of {want}")
        if not want.startswith("error"):
            compare_alone(by, line, *want.split(" ", 1))
    whole = by.import_lines(b"\n".join(lines))
    stored = [want.split(" ", 1) for want in wanted if not want.startswith("error")]
    if whole.block.hex() != "".join(block for block, _ in stored):
        sys.exit("the lines' blocks aren't the whole block")
    printed = by.export_block(whole.block).decode()
    if printed != "".join(text + "\n" for _, text in stored):
        sys.exit("the lines of the whole block aren't those of the documents")
    if "".join(each.to_json() + "\n" for each in by.documents(whole.block)) != printed:
        sys.exit("the documents one by one aren't those of the block")
    if kormaglen.migrate_block(3, kormaglen.migrate_block(2, whole.block, 3), 2) != whole.block:
        sys.exit("the block isn't the same after version 3")
    return len(lines), len(stored)


def main() -> None:
    folder = sys.argv[1]
    with open(folder + "/stdin", encoding="utf-8") as rows, open(folder + "/stdout", encoding="utf-8") as answers:
        runs = [
            (row.rstrip("\n").split("\t")[3], answer.rstrip("\n").removeprefix("Done "))
            for row, answer in zip(rows, answers, strict=True)
            if row.startswith("lines\twhole\tall\t") and answer.startswith("Done ")
        ]
    counts = [compare_run(bytes_of(source), bytes_of(answer).decode()) for source, answer in runs]
    lines, stored = (sum(each) for each in zip(*counts))
    print(f"{lines} lines of {len(runs)} runs, {stored} of them stored, agree")


if __name__ == "__main__":
    main()
