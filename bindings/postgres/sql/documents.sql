-- Documents, as docs/FORMATS.md describes their bytes.
\pset format unaligned
\pset tuples_only
\pset null NULL
SELECT json AS s FROM schema \gset
-- a text and a number
SELECT hex(kormaglen_store(:'s', '{"name":"Lamp","price":20}'));
-- the same by a subquery
SELECT hex(kormaglen_store((SELECT json FROM schema), '{"price":20,"name":"Lamp"}'));
-- two numbers, a facet, a date, an object
SELECT hex(kormaglen_store(:'s', '{"price":[1,2]}'));
SELECT hex(kormaglen_store(:'s', '{"kind":"/shop/light"}'));
SELECT hex(kormaglen_store(:'s', '{"added":"1970-01-01T00:00:01.5Z"}'));
SELECT hex(kormaglen_store(:'s', '{"more":{"a":1}}'));
-- no value, and a line feed in the JSON
SELECT hex(kormaglen_store(:'s', '{}')), hex(kormaglen_store(:'s', E'{\n}\n'));
-- JSON
SELECT kormaglen_json(:'s', 2, '\x820000000000844C616D7001000000011400000000000000');
SELECT kormaglen_json(:'s', 2, '\x8102000000038573686F7000'), kormaglen_json(:'s', 1, '\x80'), kormaglen_json(:'s', 3, '\x80');
SELECT kormaglen_json(:'s', 2, '\x810300000005002F685900000000');
-- microseconds in version 1
SELECT kormaglen_json(:'s', 1, '\x81030000000560E3160000000000');
-- a field that the schema does not have is left out
SELECT kormaglen_json(:'s', 2, '\x8109000000010100000000000000');
-- an object in version 3, and back
SELECT hex(kormaglen_migrate(2, '\x81040000000D82008161020100000000000000', 3));
SELECT hex(kormaglen_migrate(3, '\x81040000000D818161020100000000000000', 2));
-- one field, and one of its values
SELECT json_array_elements(kormaglen_json(:'s', 2, '\x820100000001010000000000000001000000010200000000000000') -> 'price');
SELECT kormaglen_json(:'s', 2, '\x820100000001010000000000000001000000010200000000000000') #>> '{price,1}';
-- what is right has no fault
SELECT kormaglen_check(2, '\x80'), kormaglen_check(1, '\x820000000000844C616D7001000000011400000000000000');
-- the end is missing, twice
SELECT kormaglen_check(2, ''), kormaglen_check(2, '\x820000000000844C616D70010000000114000000000000');
-- another type, an extension, a float
SELECT kormaglen_check(2, '\x81000000000E'), kormaglen_check(2, '\x810000000007FF'), kormaglen_check(2, '\x8100000000060000000000000000');
-- a truth value of 2, a text that is not UTF-8, an odd object
SELECT kormaglen_check(2, '\x81000000000902'), kormaglen_check(2, '\x81000000000081FF'), kormaglen_check(2, '\x81000000000D81');
-- bytes after the document
SELECT kormaglen_check(2, '\x8000'), kormaglen_check(3, '\x80808080');
-- NULL in, NULL out
SELECT kormaglen_store(NULL, '{}'), kormaglen_store(:'s', NULL), kormaglen_json(:'s', NULL, '\x80'), kormaglen_json(:'s', 2, NULL), kormaglen_migrate(2, NULL, 3), kormaglen_check(2, NULL);
-- facets
SELECT hex(kormaglen_facet('/shop/light')), hex(kormaglen_facet('/')), hex(kormaglen_facet('/shop/')), hex(kormaglen_facet('/a\/b'));
SELECT kormaglen_facet_text('\x73686F70006C69676874'), kormaglen_facet_text(''), kormaglen_facet_text('\x612F62'), kormaglen_facet_text(NULL);
-- types
SELECT pg_typeof(kormaglen_store(:'s', '{}')), pg_typeof(kormaglen_json(:'s', 2, '\x80')), pg_typeof(kormaglen_facet('/')), pg_typeof(kormaglen_facet_text('')), pg_typeof(kormaglen_field(:'s', 'price'));
-- the domain takes right documents of version 2 alone
CREATE TABLE checked(stored stored_document);
INSERT INTO checked VALUES (kormaglen_store(:'s', '{"price":7}')), ('\x80'), (NULL);
SELECT refusal($$INSERT INTO checked VALUES ('\x')$$);
SELECT refusal($$INSERT INTO checked VALUES ('\x8000')$$);
SELECT refusal($$INSERT INTO checked VALUES ('\x81040000000D818161020100000000000000')$$);
SELECT refusal($$SELECT '\x81'::stored_document$$);
SELECT refusal($$UPDATE checked SET stored = substr(stored, 1, length(stored) - 1) WHERE length(stored) > 1$$);
SELECT hex(stored) FROM checked;
SELECT kormaglen_require(2, '\x80'), kormaglen_require(2, NULL);
-- functions of JSON and of bytea go with what is given
SELECT kormaglen_json(:'s', 2, stored) -> 'price' -> 0, length(stored), kormaglen_json(:'s', 2, stored)::jsonb @> '{"price":[7]}' FROM checked;
