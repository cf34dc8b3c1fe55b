import pathlib

import kormaglen
from kormaglen.dask import facet_counts, read_json_lines, term_documents, terms, write_blocks

schema = (
    kormaglen.SchemaBuilder()
    .text("name", indexing=kormaglen.STRING, stored=True)
    .u64("price", indexed=True, stored=True)
    .facet("kind", stored=True)
    .build()
)
pathlib.Path("products.jsonl").write_text("""\
{"name":"Desk lamp","price":20,"kind":"/shop/light/desk"}
{"name":["Lantern","Lamp"],"price":35,"kind":["/shop/light","/shop/light/old"]}
{"name":"Stool","price":"cheap","kind":"/shop"}
{"name":"Light box","price":12,"kind":"/shop/lightbox"}
{"name":"Garden chair","price":12,"kind":"/garden"}
""")
blocks = read_json_lines("products.jsonl", schema, blocksize=100)
print(blocks)

for piece in blocks.compute():
    print(piece.first, [line.status.name for line in piece.lines], len(piece.block))

for refused in blocks.refused().compute(scheduler="threads"):
    print(refused.line, refused.field, refused.text)

paths = write_blocks(blocks, "blocks")
block = b"".join(pathlib.Path(path).read_bytes() for path in paths)
print([pathlib.Path(path).name for path in paths])
print(block == schema.import_lines(pathlib.Path("products.jsonl").read_bytes()).block)

blocks = blocks.persist()
for term, count in terms(blocks, "price").compute():
    print(term.hex(), count)

print(facet_counts(blocks, "kind", "/shop").compute())

(lamp,) = schema.terms_of_text("name", "Lamp")
print(term_documents(blocks, "name").filter(lambda found: found.term == lamp).compute(scheduler="threads"))
