CREATE TABLE schema(json TEXT);
INSERT INTO schema VALUES ('[
  {"name":"name","type":"text","options":{"indexing":{"record":"basic"},"stored":true}},
  {"name":"price","type":"u64","options":{"indexed":true,"stored":true}},
  {"name":"kind","type":"facet","options":{"stored":true}},
  {"name":"more","type":"json_object","options":{"indexing":{"record":"basic"},"stored":true,"fast":false}}]');
.parameter set :schema "(SELECT json FROM schema)"

CREATE TABLE product(id INTEGER PRIMARY KEY, stored BLOB NOT NULL);
INSERT INTO product(stored) SELECT kormaglen_store(:schema, column1) FROM (VALUES
  ('{"name":"Desk lamp","price":20,"kind":"/shop/light/desk"}'),
  ('{"name":["Lantern","Lamp"],"price":35,"kind":"/shop/light"}'),
  ('{"name":"Light box","price":12,"kind":"/shop/lightbox","more":{"size":[30,40]}}'),
  ('{"name":"Garden chair","price":12,"kind":"/garden","more":{"size":90,"colour":"green"}}'));
SELECT id, length(stored), kormaglen_json(:schema, 2, stored) FROM product;

INSERT INTO product(stored) VALUES (kormaglen_store(:schema, '{"name":"Stool","price":"cheap"}'));
INSERT INTO product(stored) VALUES (kormaglen_store(:schema, '{"name" "Stool"}'));

SELECT id, kormaglen_value(:schema, 2, stored, 'name'), kormaglen_value(:schema, 2, stored, 'price') AS price
FROM product ORDER BY price LIMIT 2;
SELECT id, value, kind FROM product, kormaglen_values(:schema, 2, stored, 'name') WHERE id < 3;

CREATE TABLE term(term BLOB, id INTEGER, PRIMARY KEY (term, id)) WITHOUT ROWID;
CREATE TRIGGER product_added AFTER INSERT ON product BEGIN
  INSERT OR IGNORE INTO term SELECT term, new.id FROM kormaglen_terms((SELECT json FROM schema), 2, new.stored);
END;
INSERT OR IGNORE INTO term SELECT term, id FROM product, kormaglen_terms(:schema, 2, stored);
INSERT INTO product(stored) VALUES (kormaglen_store(:schema, '{"name":"Lamp shade","price":19}'));
SELECT field, type, value, hex(term) FROM product, kormaglen_terms(:schema, 2, stored) WHERE id = 3;

SELECT count(*) FROM product, kormaglen_terms(replace(:schema, 'u64', 'i64'), 2, stored);
SELECT id, field, term, fault FROM product, kormaglen_terms(replace(:schema, 'u64', 'i64'), 2, stored, TRUE) WHERE id < 3;

SELECT id FROM term
WHERE term >= kormaglen_range_start(:schema, 'price', '[12 TO 20}') AND term < kormaglen_range_end(:schema, 'price', '[12 TO 20}');
EXPLAIN QUERY PLAN SELECT id FROM term
WHERE term >= kormaglen_range_start(:schema, 'price', '[12 TO 20}') AND term < kormaglen_range_end(:schema, 'price', '[12 TO 20}');

SELECT DISTINCT id FROM kormaglen_query_ranges(:schema, 'name', 'La*') AS r JOIN term AS t ON t.term >= r.start AND t.term < r.end;
EXPLAIN QUERY PLAN
SELECT DISTINCT id FROM kormaglen_query_ranges(:schema, 'name', 'La*') AS r JOIN term AS t ON t.term >= r.start AND t.term < r.end;

SELECT id FROM term
WHERE term >= kormaglen_term(:schema, 'kind', '/shop/light') AND term < kormaglen_range_end(:schema, 'kind', '/shop/light/*');

SELECT facet, documents FROM kormaglen_facet_counts('/shop',
  (SELECT kormaglen_facet_pairs(id, value) FROM product, kormaglen_values(:schema, 2, stored, 'kind')));

SELECT hex(term) FROM kormaglen_query_terms(:schema, 'more.size', '90');
SELECT DISTINCT id FROM kormaglen_query_terms(:schema, 'more.size', '90') AS q JOIN term USING (term);

UPDATE product SET stored = substr(stored, 1, length(stored) - 1) WHERE id = 2;
SELECT id, kormaglen_check(2, stored) AS fault FROM product WHERE fault IS NOT NULL;

DELETE FROM product WHERE kormaglen_check(2, stored) IS NOT NULL;
DELETE FROM term WHERE id NOT IN (SELECT id FROM product);
ALTER TABLE product ADD COLUMN version INTEGER NOT NULL DEFAULT 2;
UPDATE product SET stored = kormaglen_migrate(version, stored, 3), version = 3 WHERE version < 3;
SELECT id, version, length(stored), kormaglen_json(:schema, version, stored) FROM product WHERE id > 2;
