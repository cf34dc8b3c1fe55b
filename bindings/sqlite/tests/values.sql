-- Values of one field. docs/FORMATS.md describes the bytes of documents.
CREATE TABLE schema(json TEXT);
INSERT INTO schema VALUES ('[
{"name":"text","type":"text","options":{"stored":true}},
{"name":"u64","type":"u64","options":{"indexed":false,"stored":true}},
{"name":"i64","type":"i64","options":{"indexed":false,"stored":true}},
{"name":"bool","type":"bool","options":{"indexed":false,"stored":true}},
{"name":"date","type":"date","options":{"indexed":false,"fieldnorms":false,"stored":true}},
{"name":"facet","type":"facet","options":{"stored":true}},
{"name":"bytes","type":"bytes","options":{"indexed":false,"fast":false,"stored":true}},
{"name":"json","type":"json_object","options":{"stored":true,"fast":false}},
{"name":"ip_addr","type":"ip_addr","options":{"indexed":false,"fieldnorms":false,"fast":false,"stored":true}}]');
.parameter set :s "(SELECT json FROM schema)"
.nullvalue NULL
CREATE TABLE one AS SELECT kormaglen_store(:s, '{"text":["Lamp","x"],"u64":20,"i64":-5,"bool":true,"date":"1969-12-31T23:59:59.5Z",'
    || '"facet":"/a\\/b/c","bytes":"AP8=","json":{"b":[1,"x",null],"a":{}},"ip_addr":"::1"}') AS stored;
SELECT 'the first value of each field';
SELECT name, kormaglen_value(:s, 2, stored, name) AS value, typeof(kormaglen_value(:s, 2, stored, name))
FROM one, (SELECT value->>'name' AS name FROM json_each(:s)) WHERE name <> 'bytes';
SELECT hex(kormaglen_value(:s, 2, stored, 'bytes')), typeof(kormaglen_value(:s, 2, stored, 'bytes')) FROM one;
SELECT 'no value';
SELECT kormaglen_value(:s, 2, x'80', 'text'), kormaglen_value(:s, 1, x'80', 'json'), kormaglen_value(:s, 3, x'80', 'u64');
SELECT count(*) FROM kormaglen_values(:s, 2, x'80', 'text');
SELECT 'a second document is seen where it has a value of the field';
SELECT kormaglen_value(:s, 2, x'8080', 'u64');
SELECT kormaglen_value(:s, 2, x'808101000000010700000000000000', 'u64');
SELECT count(*) FROM kormaglen_values(:s, 2, x'8080', 'u64');
SELECT 'NULL in, NULL out';
SELECT kormaglen_value(NULL, 2, x'80', 'text'), kormaglen_value(:s, NULL, x'80', 'text'), kormaglen_value(:s, 2, NULL, 'text'), kormaglen_value(:s, 2, x'80', NULL);
SELECT count(*) FROM kormaglen_values(:s, 2, x'80', NULL);
SELECT 'all values, with their kinds';
SELECT value, kind FROM one, kormaglen_values(:s, 2, stored, 'text');
SELECT v.kind, count(*) FROM one, json_each(:s) AS f, kormaglen_values(:s, 2, stored, f.value->>'name') AS v GROUP BY v.kind;
SELECT kormaglen_field, kormaglen_version FROM one, kormaglen_values(:s, 2, stored, 'u64');
SELECT 'numbers at the ends';
SELECT value, typeof(value) FROM kormaglen_values(:s, 2, kormaglen_store(:s, '{"u64":[0,9223372036854775807,9223372036854775808,18446744073709551615]}'), 'u64');
SELECT value, typeof(value) FROM kormaglen_values(:s, 2, kormaglen_store(:s, '{"i64":[-9223372036854775808,-1,9223372036854775807]}'), 'i64');
SELECT value, typeof(value) FROM kormaglen_values(:s, 2, kormaglen_store(:s, '{"bool":[false,true]}'), 'bool');
SELECT 'dates: the first and the last nanosecond, a leap day, years that have none, and fractions';
SELECT value FROM kormaglen_values(:s, 2, x'8104000000050000000000000080', 'date');
SELECT value FROM kormaglen_values(:s, 2, x'810400000005FFFFFFFFFFFFFF7F', 'date');
SELECT value FROM kormaglen_values(:s, 2, kormaglen_store(:s, '{"date":["2000-02-29T23:59:59Z","1900-02-28T23:59:59.999999999Z","1900-03-01T00:00:00Z","2100-03-01T00:00:00.1Z","1970-01-01T00:00:00Z","2024-12-31T12:00:00.000000001Z","1969-12-31T23:59:59.999999999Z"]}'), 'date');
SELECT 'microseconds in version 1';
SELECT kormaglen_value(:s, 1, x'81040000000560E3160000000000', 'date');
SELECT 'addresses';
SELECT value FROM kormaglen_values(:s, 2, kormaglen_store(:s, '{"ip_addr":["::","1.2.3.4","::ffff:1.2.3.4","::1.2.3.4","::1:0:0:0:0","1:0:0:2:0:0:0:3","1:0:0:2:3:0:0:4","1:0:2:3:4:5:6:7","1:2:3:4:5:6:7:0","1::","fe80::1","2001:DB8:0:0:8:800:200C:417A","ffff:ffff:ffff:ffff:ffff:ffff:ffff:ffff","255.255.255.255","0:0:0:1::"]}'), 'ip_addr');
SELECT 'facets and bytes';
SELECT value, typeof(value) FROM kormaglen_values(:s, 2, kormaglen_store(:s, '{"facet":["/","/a","/a\\/b","/é"]}'), 'facet');
SELECT hex(value), typeof(value), length(value) FROM kormaglen_values(:s, 2, kormaglen_store(:s, '{"bytes":["","AAAA"]}'), 'bytes');
SELECT 'an empty text, one with U+0000, and one with tokens';
SELECT hex(value), typeof(value), kind FROM kormaglen_values(:s, 2, kormaglen_store(:s, '{"text":["","a\u0000b"]}'), 'text');
SELECT value, typeof(value), kind FROM kormaglen_values(:s, 2, x'810000000007008361206281808180816181', 'text');
SELECT 'null, an array, and values that are not of the type of their field';
SELECT value, kind FROM kormaglen_values(:s, 2, x'83010000000B010000000C810107000000000000000100000000826162', 'u64');
SELECT kormaglen_value(:s, 2, x'81010000000B', 'u64'), kormaglen_value(:s, 2, x'810100000000826162', 'u64');
SELECT 'an object in version 3 and in the form of version 1';
SELECT kormaglen_value(:s, 3, x'81070000000D818161020100000000000000', 'json');
SELECT kormaglen_value(:s, 1, x'8107000000087B2261223A317D', 'json');
SELECT 'values by an index, in a generated column and in a check';
CREATE TABLE product(
    stored BLOB CHECK (kormaglen_value('[{"name":"price","type":"u64","options":{"indexed":true,"stored":true}}]', 2, stored, 'price') < 100),
    price INTEGER AS (kormaglen_value('[{"name":"price","type":"u64","options":{"indexed":true,"stored":true}}]', 2, stored, 'price'))
);
CREATE INDEX by_price ON product(price);
INSERT INTO product VALUES (x'8100000000010700000000000000'), (x'8100000000011400000000000000'), (x'80');
INSERT INTO product VALUES (x'8100000000016400000000000000');
SELECT price, count(*) FROM product WHERE price >= 10;
EXPLAIN QUERY PLAN SELECT rowid FROM product WHERE price >= 10;
SELECT 'joined with the fields of the schema';
SELECT f.value->>'name' AS name, v.value FROM one, json_each(:s) AS f LEFT JOIN kormaglen_values(:s, 2, x'8101000000010700000000000000', f.value->>'name') AS v WHERE name IN ('u64', 'i64');
