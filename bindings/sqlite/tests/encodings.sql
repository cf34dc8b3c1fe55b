-- A database whose texts are UTF-16: the library has them as UTF-8.
PRAGMA encoding = 'UTF-16';
.read schema.sql
CREATE TABLE line(json TEXT);
INSERT INTO line VALUES ('{"name":"é棚","more":{"é":"𝄞"}}');
SELECT hex(json) FROM line;
SELECT hex(kormaglen_store(schema.json, line.json)) FROM schema, line;
SELECT kormaglen_json(schema.json, 2, kormaglen_store(schema.json, line.json)) FROM schema, line;
SELECT field, hex(term) FROM schema, line, kormaglen_terms(schema.json, 2, kormaglen_store(schema.json, line.json));
SELECT hex(term) FROM schema, kormaglen_query_terms(schema.json, 'more.é', '𝄞');
SELECT kormaglen_store(schema.json, '{"price":"é"}') FROM schema;
SELECT kormaglen_store(schema.json, '{"é" 1}') FROM schema;
SELECT kormaglen_value(schema.json, 2, kormaglen_store(schema.json, line.json), 'name') FROM schema, line;
SELECT value, kind FROM schema, line, kormaglen_values(schema.json, 2, kormaglen_store(schema.json, line.json), 'more');
SELECT facet, documents FROM kormaglen_facet_counts('/é', (SELECT kormaglen_facet_pairs(1, '/é/棚')));
