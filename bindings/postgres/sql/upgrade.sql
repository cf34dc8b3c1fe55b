-- The extension is updated under what uses it, moved, and dropped. The script of the update stands in tests/.
\pset format unaligned
\pset tuples_only
CREATE DATABASE kormaglen_updated TEMPLATE template0;
\connect kormaglen_updated
CREATE EXTENSION kormaglen VERSION '1.0';
SELECT extversion FROM pg_extension WHERE extname = 'kormaglen';
CREATE TABLE product(id integer, stored stored_document);
CREATE INDEX by_price ON product (kormaglen_bigint('[{"name":"price","type":"u64","options":{"indexed":true,"stored":true}}]', 2, stored, 'price'));
INSERT INTO product SELECT i, kormaglen_store('[{"name":"price","type":"u64","options":{"indexed":true,"stored":true}}]', format('{"price":%s}', i)) FROM generate_series(1, 100) AS i;
SELECT kormaglen_is_right(2, '\x80');
SELECT * FROM pg_extension_update_paths('kormaglen') WHERE path IS NOT NULL;
ALTER EXTENSION kormaglen UPDATE TO 'next';
SELECT extversion FROM pg_extension WHERE extname = 'kormaglen';
SELECT kormaglen_is_right(2, '\x80'), kormaglen_is_right(2, '\x81');
SELECT obj_description('kormaglen_version'::regproc);
SET enable_seqscan = off;
SELECT id FROM product WHERE kormaglen_bigint('[{"name":"price","type":"u64","options":{"indexed":true,"stored":true}}]', 2, stored, 'price') BETWEEN 98 AND 99;
ALTER EXTENSION kormaglen UPDATE TO 'next';
ALTER EXTENSION kormaglen UPDATE TO '1.0';
-- to another schema of the database
CREATE SCHEMA elsewhere;
ALTER EXTENSION kormaglen SET SCHEMA elsewhere;
INSERT INTO product VALUES (101, '\x80');
INSERT INTO product VALUES (102, '\x81');
SELECT id FROM product WHERE elsewhere.kormaglen_bigint('[{"name":"price","type":"u64","options":{"indexed":true,"stored":true}}]', 2, stored, 'price') > 99;
-- dropped with what depends on it alone
DROP EXTENSION kormaglen;
DROP EXTENSION kormaglen CASCADE;
\d product
\connect postgres
DROP DATABASE kormaglen_updated;
