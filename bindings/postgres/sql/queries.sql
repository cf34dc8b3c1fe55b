-- Terms and texts of queries. A term is the field's number, the type's code and the value, see docs/FORMATS.md.
\pset format unaligned
\pset tuples_only
\pset null NULL
SELECT json AS s FROM schema \gset
-- fields of paths
SELECT kormaglen_field(:'s', 'name'), kormaglen_field(:'s', 'price'), kormaglen_field(:'s', 'more'), kormaglen_field(:'s', 'more.a.b'), kormaglen_field(:'s', NULL);
-- the terms of a document, of indexed fields
SELECT field, hex(term), value FROM kormaglen_terms(:'s', 2, kormaglen_store(:'s', '{"name":["Lamp","lamp"],"price":20,"kind":"/shop/light","added":"1970-01-01T00:00:01.5Z","more":{"a":1},"note":"x"}'));
-- terms that share bytes with the one before, all of them or none
SELECT hex(term), value FROM kormaglen_terms(:'s', 2, kormaglen_store(:'s', '{"name":["lamps","lamp","lamp","la"],"more":{"a":[1,1,2],"aa":{"b":"x","bb":"xy"}}}'));
-- three documents, of which the second has a number in a field of dates: by itself, and with faults
CREATE TABLE added(id integer, stored bytea);
INSERT INTO added VALUES (1, kormaglen_store(:'s', '{"name":"a"}')), (2, kormaglen_store(replace(:'s', 'date', 'u64'), '{"added":1714564800,"name":"b"}')), (3, kormaglen_store(:'s', '{"price":20}'));
SELECT hex(stored) FROM added WHERE id = 2;
SELECT id, field, hex(term), fault FROM added, kormaglen_terms(:'s', 2, stored);
SELECT id, field, hex(term), fault FROM added, kormaglen_terms(:'s', 2, stored, false) WHERE id <> 2;
SELECT id, field, hex(term), value, fault FROM added, kormaglen_terms(:'s', 2, stored, faults => true);
SELECT id FROM added, kormaglen_terms(:'s', 2, stored, true) WHERE fault IS NULL;
-- each fault: a field that is not there, another type, a key with U+0000, bytes in a JSON object
SELECT t.* FROM unnest(ARRAY['\x8109000000010100000000000000', '\x810100000000826162', '\x81040000000D82008100020100000000000000', '\x81040000000D8200816104818B']::bytea[]) AS stored, kormaglen_terms(:'s', 2, stored, true) AS t;
-- the term of another value comes before: it is left out, too
SELECT * FROM kormaglen_terms(:'s', 2, '\x820000000000846C616D70010000000082616B', true);
-- NULL for whether there are faults
SELECT count(*) FROM added, kormaglen_terms(:'s', 2, stored, NULL);
-- in JSON objects: a text, a number, a truth value and a date
SELECT field, hex(term) FROM kormaglen_terms(:'s', 2, kormaglen_store(:'s', '{"more":{"a":["x",1,true],"b":{"c":"y"}}}'));
-- in the list of what is selected
SELECT (kormaglen_terms(:'s', 2, stored)).field, id FROM (VALUES (1, kormaglen_store(:'s', '{"price":[1,2]}')), (2, kormaglen_store(:'s', '{}'))) AS given(id, stored);
-- no values, and NULL
SELECT count(*) FROM kormaglen_terms(:'s', 2, '\x80');
SELECT count(*) FROM kormaglen_terms(:'s', 2, NULL);
SELECT count(*) FROM kormaglen_terms(NULL, 2, '\x80');
-- terms of texts: a text, a number, a facet, a date
SELECT hex(kormaglen_term(:'s', 'name', 'Lamp')), hex(kormaglen_term(:'s', 'price', '20')), hex(kormaglen_term(:'s', 'kind', '/shop/light')), hex(kormaglen_term(:'s', 'added', '1970-01-01T00:00:01.5Z'));
-- texts of terms: of numbers, a truth value, bytes, addresses, of a value in a JSON object; an empty one, and NULL
SELECT kormaglen_term_text('\x0000000075FFFFFFFFFFFFFFFF'), kormaglen_term_text('\x00000000697FFFFFFFFFFFFFFF'), kormaglen_term_text('\x000000006F0000000000000001'), kormaglen_term_text('\x00000000620001');
SELECT kormaglen_term_text('\x000000007000000000000000000000FFFF7F000001'), kormaglen_term_text('\x000000007000000000000000000000000000000001'), kormaglen_term_text('\x000000006A61016200737A'), kormaglen_term_text('\x0000000073') = '', kormaglen_term_text(NULL);
-- a text of a query, and the text of its term
SELECT path, text, kormaglen_term_text(kormaglen_term(:'s', path, text)) FROM (VALUES ('name', 'Lamp'), ('price', '+020'), ('kind', '/shop/light'), ('added', '1970-01-01T01:00:01.5+01:00'), ('more.a', 'x')) AS given(path, text);
-- a text with the zero character, which PostgreSQL has not
SELECT encode(term, 'hex'), value FROM kormaglen_terms(:'s', 2, kormaglen_store(:'s', '{"name":"a\u0000b"}'));
-- at a path: a text, and a text that is a number too
SELECT hex(kormaglen_term(:'s', 'more.a', 'x')), hex(kormaglen_term(:'s', 'more.a\.b', 'x'));
SELECT hex(term) FROM kormaglen_query_terms(:'s', 'more.a', '1');
-- ranges: with both bounds, without one, without any
SELECT hex(kormaglen_range_start(:'s', 'price', '[10 TO 20]')), hex(kormaglen_range_end(:'s', 'price', '[10 TO 20]'));
SELECT hex(kormaglen_range_start(:'s', 'price', '{10 TO 20}')), hex(kormaglen_range_end(:'s', 'price', '{10 TO 20}'));
SELECT hex(kormaglen_range_start(:'s', 'price', '[10 TO *]')), hex(kormaglen_range_end(:'s', 'price', '[10 TO *]'));
SELECT hex(kormaglen_range_start(:'s', 'price', '*')), hex(kormaglen_range_end(:'s', 'price', '*'));
-- prefixes: of a text, and of facets, below one
SELECT hex(kormaglen_range_start(:'s', 'name', 'La*')), hex(kormaglen_range_end(:'s', 'name', 'La*'));
SELECT hex(kormaglen_range_start(:'s', 'kind', '/shop/*')), hex(kormaglen_range_end(:'s', 'kind', '/shop/*'));
SELECT hex(kormaglen_range_start(:'s', 'more.a', '1*')), hex(kormaglen_range_end(:'s', 'more.a', '1*'));
-- a prefix of nothing but a star has an end, too
SELECT hex(kormaglen_range_start(:'s', 'name', '**')), hex(kormaglen_range_end(:'s', 'name', '**'));
-- ranges at a path: of numbers, and of texts
SELECT hex(start), hex("end") FROM kormaglen_query_ranges(:'s', 'more.a', '[1 TO 2}');
-- one range, by the function of rows
SELECT hex(r.start), hex(r.end) FROM kormaglen_query_ranges(:'s', 'price', '[10 TO 20}') AS r;
-- NULL in, NULL out
SELECT kormaglen_term(:'s', 'name', NULL), kormaglen_range_start(:'s', NULL, '*'), kormaglen_range_end(NULL, 'name', '*');
SELECT count(*) FROM kormaglen_query_terms(:'s', 'name', NULL), kormaglen_query_ranges(:'s', 'name', NULL);
-- joined from any side
CREATE TABLE document(id integer PRIMARY KEY, stored bytea);
INSERT INTO document SELECT value, kormaglen_store(:'s', format('{"price":%s}', value)) FROM generate_series(1, 5) AS value;
SELECT id, hex(term) FROM document, kormaglen_terms(:'s', 2, stored) WHERE id > 3;
SELECT id, hex(term) FROM document LEFT JOIN kormaglen_terms(:'s', 2, stored) ON field = 'name' WHERE id < 2;
