-- The functions in generated columns, indexes, checks, triggers and views, where nothing in the schema of a database is trusted.
PRAGMA trusted_schema = OFF;
.parameter set :s "'[{\"name\":\"price\",\"type\":\"u64\",\"options\":{\"indexed\":true,\"stored\":true}}]'"
CREATE TABLE product(
    id INTEGER PRIMARY KEY,
    line TEXT,
    stored BLOB AS (kormaglen_store('[{"name":"price","type":"u64","options":{"indexed":true,"stored":true}}]', line)) STORED,
    CHECK (kormaglen_check(2, stored) IS NULL)
);
CREATE INDEX by_newer ON product(kormaglen_migrate(2, stored, 3));
CREATE TABLE term(term BLOB, id INTEGER, PRIMARY KEY (term, id)) WITHOUT ROWID;
CREATE TRIGGER added AFTER INSERT ON product BEGIN
    INSERT INTO term SELECT t.term, new.id
    FROM kormaglen_terms('[{"name":"price","type":"u64","options":{"indexed":true,"stored":true}}]', 2, new.stored) AS t;
END;
CREATE VIEW readable AS
    SELECT id, kormaglen_json('[{"name":"price","type":"u64","options":{"indexed":true,"stored":true}}]', 2, stored) AS json FROM product;
INSERT INTO product(id, line) VALUES (1, '{"price":7}'), (2, '{"price":[20,300]}'), (3, '{}');
SELECT id, hex(stored) FROM product;
SELECT hex(term), id FROM term;
SELECT * FROM readable;
INSERT INTO product(id, line) VALUES (4, '{"price":7}'), (5, '{"price":"none"}');
SELECT count(*) FROM product;
EXPLAIN QUERY PLAN SELECT id FROM product WHERE kormaglen_migrate(2, stored, 3) = x'80';
SELECT id FROM product WHERE kormaglen_migrate(2, stored, 3) = x'80';
CREATE TABLE received(id INTEGER PRIMARY KEY, stored BLOB);
CREATE TABLE fault(id INTEGER, field TEXT, reason TEXT);
CREATE TRIGGER came AFTER INSERT ON received BEGIN
    INSERT INTO term SELECT term, new.id FROM kormaglen_terms('[{"name":"price","type":"u64","options":{"indexed":true,"stored":true}}]', 2, new.stored, TRUE) WHERE fault IS NULL;
    INSERT INTO fault SELECT new.id, field, fault FROM kormaglen_terms('[{"name":"price","type":"u64","options":{"indexed":true,"stored":true}}]', 2, new.stored, TRUE) WHERE fault IS NOT NULL;
END;
INSERT INTO received VALUES (11, x'8100000000010900000000000000'), (12, x'8100000000008178'), (13, x'80');
SELECT id FROM received;
SELECT id, hex(term) FROM term WHERE id > 10;
SELECT * FROM fault;
SELECT id FROM term WHERE term >= kormaglen_range_start(:s, 'price', '[10 TO 300}') AND term < kormaglen_range_end(:s, 'price', '[10 TO 300}');
EXPLAIN QUERY PLAN
SELECT id FROM term WHERE term >= kormaglen_range_start(:s, 'price', '[10 TO 300}') AND term < kormaglen_range_end(:s, 'price', '[10 TO 300}');
EXPLAIN QUERY PLAN
SELECT id FROM term, kormaglen_query_ranges(:s, 'price', '[10 TO 300}') AS r WHERE term >= r.start AND term < r.end;
