CREATE EXTENSION kormaglen;
CREATE TABLE line(id bigserial, json text);
\copy line(json) FROM 'lines' WITH (FORMAT csv, QUOTE e'\x01', DELIMITER e'\x02')
CREATE TABLE schema AS SELECT json, 2 AS version FROM line WHERE id = 1;
SELECT json AS schema FROM schema \gset

CREATE TABLE product(id bigint PRIMARY KEY, stored stored_document NOT NULL);
INSERT INTO product SELECT id - 1, kormaglen_store(:'schema', json) FROM line WHERE id > 1;
SELECT id, length(stored), kormaglen_json(:'schema', 2, stored) FROM product WHERE id = 4;

INSERT INTO product VALUES (0, kormaglen_store(:'schema', '{"name":"Stool","price":"cheap"}'));
INSERT INTO product VALUES (0, kormaglen_store(:'schema', '{"name" "Stool"}'));

SELECT id, kormaglen_value(:'schema', 2, stored, 'kind') AS kind, kormaglen_bigint(:'schema', 2, stored, 'price') AS price,
  kormaglen_timestamptz(:'schema', 2, stored, 'added') AT TIME ZONE 'UTC' AS added
FROM product WHERE id < 6 ORDER BY id;

SELECT id, kind, value FROM product, kormaglen_values(:'schema', 2, stored, 'name') WHERE id = 4;

CREATE TABLE term(term bytea, id bigint, PRIMARY KEY (term, id));
CREATE INDEX ON term(id);
INSERT INTO term SELECT DISTINCT t.term, id FROM product, kormaglen_terms(:'schema', 2, stored) AS t;
CREATE FUNCTION index_product() RETURNS trigger LANGUAGE plpgsql AS $$
BEGIN
  IF TG_OP <> 'INSERT' THEN
    DELETE FROM term WHERE id = old.id;
  END IF;
  IF TG_OP <> 'DELETE' THEN
    INSERT INTO term SELECT DISTINCT t.term, new.id FROM schema AS s, kormaglen_terms(s.json, s.version, new.stored) AS t;
  END IF;
  RETURN NULL;
END $$;
CREATE TRIGGER indexed AFTER INSERT OR UPDATE OR DELETE ON product FOR EACH ROW EXECUTE FUNCTION index_product();
INSERT INTO product VALUES (100001, kormaglen_store(:'schema', '{"name":"Lamp shade","price":19,"kind":"/shop/light","more":{"size":90}}'));
VACUUM ANALYZE product, term;
SELECT field, value, term FROM product, kormaglen_terms(:'schema', 2, stored) WHERE id = 100001;

SELECT count(*) FROM product, kormaglen_terms(replace(:'schema', 'u64', 'i64'), 2, stored);
SELECT id, field, term, fault FROM product, kormaglen_terms(replace(:'schema', 'u64', 'i64'), 2, stored, true) WHERE id IN (3, 4, 100001) AND field = 'price';

SELECT count(DISTINCT id) FROM term
WHERE term >= kormaglen_range_start(:'schema', 'price', '[12 TO 20}') AND term < kormaglen_range_end(:'schema', 'price', '[12 TO 20}');

EXPLAIN (COSTS OFF) SELECT count(DISTINCT id) FROM term
WHERE term >= kormaglen_range_start(:'schema', 'price', '[12 TO 20}') AND term < kormaglen_range_end(:'schema', 'price', '[12 TO 20}');

SELECT count(DISTINCT id) FROM kormaglen_query_ranges(:'schema', 'more.size', '[90 TO 95]') AS r JOIN term AS t ON t.term >= r.start AND t.term < r.end;

EXPLAIN (COSTS OFF)
SELECT count(DISTINCT id) FROM kormaglen_query_ranges((SELECT json FROM schema), 'more.size', '[90 TO 95]') AS r JOIN term AS t ON t.term >= r.start AND t.term < r.end;

SELECT id FROM term
WHERE term >= kormaglen_range_start(:'schema', 'price', '[12 TO 20}') AND term < kormaglen_range_end(:'schema', 'price', '[12 TO 20}')
INTERSECT SELECT id FROM term
WHERE term >= kormaglen_range_start(:'schema', 'name', 'La*') AND term < kormaglen_range_end(:'schema', 'name', 'La*')
INTERSECT SELECT id FROM term
WHERE term >= kormaglen_term(:'schema', 'kind', '/shop/light') AND term < kormaglen_range_end(:'schema', 'kind', '/shop/light/*')
INTERSECT SELECT id FROM kormaglen_query_terms(:'schema', 'more.size', '90') AS q JOIN term AS t ON t.term = q.term;

SELECT key AS kind, value AS products FROM json_each_text((
  SELECT kormaglen_facet_counts('/shop', id, substr(term, 6)) FROM term
  WHERE term >= kormaglen_range_start(:'schema', 'kind', '/shop/*') AND term < kormaglen_range_end(:'schema', 'kind', '/shop/*')));

EXPLAIN (COSTS OFF) SELECT count(kormaglen_check(2, stored)) FROM product;

CREATE TABLE received AS SELECT id, stored::bytea FROM product;
UPDATE received SET stored = substr(stored, 1, length(stored) - 1) WHERE id = 12345;
SELECT id, kormaglen_check(2, stored) FROM received WHERE kormaglen_check(2, stored) IS NOT NULL;

UPDATE product SET stored = (SELECT stored FROM received WHERE id = 12345) WHERE id = 12345;

BEGIN;
ALTER TABLE product ALTER stored TYPE bytea USING kormaglen_migrate(2, stored, 3), ADD CHECK (kormaglen_require(3, stored));
UPDATE schema SET version = 3;
COMMIT;
SELECT id, length(stored), kormaglen_json(:'schema', 3, stored) FROM product WHERE id IN (4, 100001);
