"""Imports lines of JSON into a block of stored documents, reads them back, sorts the terms of a field and
finds those of a range, finds a field and a facet, finds documents by texts of queries, lists the values of
a field and the terms of all, counts documents by their facets, and handles one document alone."""

import kormaglen

LINES = """{"name":"Ada","age":36,"group":"/staff/research"}
{"name":"Bob","age":"old"}
{"name":["Alan","Adam"]}
{"name":"Cleo","age":7,"more":{"tags":["new",true]}}
"""


def print_range(block: bytes, prefix: str) -> None:
    """Prints in order the documents whose text in field 0 begins with a prefix."""
    start = kormaglen.term_of_text(0, prefix)
    end = kormaglen.end_of_prefix(start)
    found = [(term, document) for document, term in kormaglen.terms(0, block) if start <= term < end]
    for term, document in sorted(found):
        print(f"document {document}: {kormaglen.text_of_term(term)}")


def print_between(schema: kormaglen.Schema, block: bytes, path: str, text: str) -> None:
    """Prints the documents that have a value between the bounds of a text."""
    ranges = schema.ranges_of_text(path, text)
    for document, term in kormaglen.terms(schema.find_field(path).field, block):
        if any(start <= term and (end is None or term < end) for start, end in ranges):
            print(f"{path} {text}: document {document}")


def print_query(schema: kormaglen.Schema, path: str, text: str) -> None:
    """Prints how many terms a text of a query has, or why it has none."""
    try:
        terms = schema.terms_of_text(path, text)
    except kormaglen.QueryRefused as refused:
        words = str(refused).split(": ", 1)[1]  # (after the name of the field)
        print(f"field {refused.field_number}: {words}")
    else:
        # In a list of the library's each term stands after its length.
        print(f"{path} {text}: {len(terms)} term, {sum(8 + len(term) for term in terms)} bytes")


def print_values(schema: kormaglen.Schema, block: bytes, name: str) -> None:
    """Prints the values that a field has, and which documents have them."""
    for document, value in schema.values_of_block(name, block):
        print(f"document {document}: {name} {value}")


def print_counts(schema: kormaglen.Schema, block: bytes, name: str) -> None:
    """Prints the children of the root, and how many documents have a facet at or below each in a field
    of facets."""
    facets = schema.values_of_block(name, block)
    pairs = [(document, kormaglen.facet_of_text(text)) for document, text in facets]
    for child, documents in kormaglen.count_facets(b"", pairs):
        print(f"{kormaglen.text_of_facet(child)}: {documents}")


def print_one(schema: kormaglen.Schema) -> None:
    """One document at a time: of a mapping, written in version 3, and read back."""
    document = schema.document({"name": "Dora", "age": 41})
    read, size = schema.read(document.write(version=3), version=3)
    print(f"{read.to_json()} takes {size} bytes")
    try:
        schema.parse('{"age":"old"}')
    except kormaglen.LineRefused as refused:
        print(f"field {refused.field_number}: {kormaglen.LineStatus(refused.reason).words}")


def main() -> None:
    builder = kormaglen.SchemaBuilder()
    builder.text("name", stored=True).u64("age", indexed=True, stored=True).facet("group", stored=True)
    with builder.json_object("more", stored=True).build() as schema:
        imported = schema.import_lines(LINES)
        for number, line in enumerate(imported.lines, 1):
            print(f"line {number}: {line.status.words}, {line.size} bytes")
        for document in schema.documents(imported.block):
            print(document.to_json())
        print_range(imported.block, "Ad")
        migrated = kormaglen.migrate_block(2, imported.block, 3)
        print(f"version 2 takes {len(imported.block)} bytes, version 3 {len(migrated)}")
        for path in ["more.tags", "age"]:
            field, rest = schema.find_field(path)
            print(f"field {field}, path '{rest}'")
        print_between(schema, imported.block, "age", "[7 TO 36}")
        print_query(schema, "age", "36")
        print_query(schema, "more.tags", "new")
        print_values(schema, imported.block, "name")
        print(f"terms by the schema: {sum(1 for _ in schema.terms_of_block(imported.block))}")
        print_counts(schema, imported.block, "group")
        print_one(schema)
    encoded = kormaglen.facet_of_text("/staff/research")
    print(f"{kormaglen.text_of_facet(encoded)} takes {len(encoded)} bytes")


if __name__ == "__main__":
    main()
