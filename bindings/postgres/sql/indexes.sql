-- The functions in generated columns, indexes, checks, triggers and views.
\pset format unaligned
\pset tuples_only
\set s '''[{"name":"price","type":"u64","options":{"indexed":true,"stored":true}}]'''
CREATE TABLE product(
    id integer PRIMARY KEY,
    line text,
    stored stored_document GENERATED ALWAYS AS (kormaglen_store('[{"name":"price","type":"u64","options":{"indexed":true,"stored":true}}]', line)) STORED,
    CHECK (kormaglen_check(2, stored) IS NULL)
);
CREATE INDEX by_newer ON product (kormaglen_migrate(2, stored, 3));
CREATE INDEX by_price ON product (kormaglen_bigint('[{"name":"price","type":"u64","options":{"indexed":true,"stored":true}}]', 2, stored, 'price'));
CREATE TABLE term(term bytea, id integer, PRIMARY KEY (term, id));
CREATE FUNCTION add_terms() RETURNS trigger LANGUAGE plpgsql AS $$
BEGIN
    INSERT INTO term SELECT DISTINCT t.term, new.id
    FROM kormaglen_terms('[{"name":"price","type":"u64","options":{"indexed":true,"stored":true}}]', 2, new.stored) AS t;
    RETURN NULL;
END $$;
CREATE TRIGGER added AFTER INSERT ON product FOR EACH ROW EXECUTE FUNCTION add_terms();
CREATE VIEW readable AS
    SELECT id, kormaglen_json('[{"name":"price","type":"u64","options":{"indexed":true,"stored":true}}]', 2, stored) AS json FROM product;
INSERT INTO product(id, line) VALUES (1, '{"price":7}'), (2, '{"price":[20,300]}'), (3, '{}');
SELECT id, hex(stored) FROM product;
SELECT hex(term), id FROM term ORDER BY term;
SELECT * FROM readable;
INSERT INTO product(id, line) VALUES (4, '{"price":7}'), (5, '{"price":"none"}');
SELECT count(*) FROM product;
SET enable_seqscan = off;
SET enable_bitmapscan = off;
EXPLAIN (COSTS OFF) SELECT id FROM product WHERE kormaglen_migrate(2, stored, 3) = '\x80';
SELECT id FROM product WHERE kormaglen_migrate(2, stored, 3) = '\x80';
EXPLAIN (COSTS OFF) SELECT id FROM product WHERE kormaglen_bigint(:s, 2, stored, 'price') < 10;
SELECT id FROM product WHERE kormaglen_bigint(:s, 2, stored, 'price') < 10;
-- a schema that is a constant gives a range of constants, and one of a subquery is looked for at the start
SELECT id FROM term WHERE term >= kormaglen_range_start(:s, 'price', '[10 TO 300}') AND term < kormaglen_range_end(:s, 'price', '[10 TO 300}');
EXPLAIN (COSTS OFF)
SELECT id FROM term WHERE term >= kormaglen_range_start(:s, 'price', '[10 TO 300}') AND term < kormaglen_range_end(:s, 'price', '[10 TO 300}');
CREATE TABLE priced AS SELECT :s AS json;
EXPLAIN (COSTS OFF)
SELECT id FROM term WHERE term >= kormaglen_range_start((SELECT json FROM priced), 'price', '[10 TO 300}') AND term < kormaglen_range_end((SELECT json FROM priced), 'price', '[10 TO 300}');
EXPLAIN (COSTS OFF)
SELECT id FROM kormaglen_query_ranges(:s, 'price', '[10 TO 300}') AS r JOIN term AS t ON t.term >= r.start AND t.term < r.end;
SELECT id FROM kormaglen_query_ranges(:s, 'price', '[10 TO 300}') AS r JOIN term AS t ON t.term >= r.start AND t.term < r.end;
-- a trigger that lets documents without terms be stored
CREATE TABLE received(id integer, stored bytea);
CREATE TABLE fault(id integer, field text, reason text);
CREATE FUNCTION index_received() RETURNS trigger LANGUAGE plpgsql AS $$
BEGIN
    INSERT INTO term SELECT DISTINCT t.term, new.id FROM kormaglen_terms('[{"name":"price","type":"u64","options":{"indexed":true,"stored":true}}]', 2, new.stored, true) AS t WHERE t.fault IS NULL;
    INSERT INTO fault SELECT new.id, t.field, t.fault FROM kormaglen_terms('[{"name":"price","type":"u64","options":{"indexed":true,"stored":true}}]', 2, new.stored, true) AS t WHERE t.fault IS NOT NULL;
    RETURN NULL;
END $$;
CREATE TRIGGER came AFTER INSERT ON received FOR EACH ROW EXECUTE FUNCTION index_received();
INSERT INTO received VALUES (11, '\x8100000000010900000000000000'), (12, '\x8100000000008178'), (13, '\x80');
SELECT id FROM received;
SELECT id, hex(term) FROM term WHERE id > 10;
SELECT * FROM fault;
-- more schemas in one statement than are kept, and each again
SELECT hex(string_agg(kormaglen_store(replace('[{"name":"price","type":"u64","options":{"indexed":true,"stored":true}}]', 'price', 'p' || i % 9), format('{"p%s":%s}', i % 9, i)), '' ORDER BY i)) FROM generate_series(1, 20) AS i WHERE i > 17;
SELECT count(*), sum(kormaglen_bigint(schema, 2, kormaglen_store(schema, format('{"p%s":%s}', i % 9, i)), 'p' || i % 9))
FROM generate_series(1, 3000) AS i, replace('[{"name":"price","type":"u64","options":{"indexed":true,"stored":true}}]', 'price', 'p' || i % 9) AS schema;
-- long schemas, which a table has compressed: one for the whole statement, and two that take turns
CREATE TABLE longer AS SELECT id, (SELECT json_agg(json_build_object('name', 'p' || i + id, 'type', 'u64', 'options', json_build_object('indexed', true, 'stored', true)))::text FROM generate_series(1, 60) AS i) AS json FROM generate_series(0, 1) AS id;
SELECT pg_column_compression(json), pg_column_size(json) < length(json) / 2 FROM longer;
SELECT hex(string_agg(kormaglen_store((SELECT json FROM longer WHERE id = 1), format('{"p2":%s}', i)), '')) FROM generate_series(1, 3) AS i;
SELECT hex(string_agg(kormaglen_store(json, format('{"p2":%s}', i)), '' ORDER BY i)) FROM generate_series(1, 4) AS i JOIN longer ON id = i % 2;
-- a statement that is prepared, and a function in PL/pgSQL that has another schema each time
PREPARE stored(text, text) AS SELECT hex(kormaglen_store($1, $2));
EXECUTE stored('[]', '{}');
EXECUTE stored(:s, '{"price":1}');
EXECUTE stored('[]', '{}');
DO $$
DECLARE
  stored bytea;
BEGIN
  FOR i IN 1..20 LOOP
    stored := kormaglen_store(replace('[{"name":"price","type":"u64","options":{"indexed":true,"stored":true}}]', 'price', 'p' || i), format('{"p%s":%s}', i, i));
    ASSERT substr(stored, 7, 1) = set_byte('\x00', 0, i);
  END LOOP;
END $$;
-- a B-tree has no entries above 2704 bytes: so long terms are left out of it
CREATE TABLE long AS SELECT kormaglen_store('[{"name":"name","type":"text","options":{"indexing":{},"stored":true}}]',
    json_build_object('name', ARRAY['short', (SELECT string_agg(md5(i::text), '') FROM generate_series(1, 200) AS i)])::text) AS stored;
SELECT split_part(refusal($$INSERT INTO term SELECT t.term, 1 FROM long, kormaglen_terms('[{"name":"name","type":"text","options":{"indexing":{},"stored":true}}]', 2, stored) AS t$$), E'\n', 1);
INSERT INTO term SELECT t.term, 1 FROM long, kormaglen_terms('[{"name":"name","type":"text","options":{"indexing":{},"stored":true}}]', 2, stored) AS t WHERE length(t.term) <= 2000 RETURNING hex(term);
