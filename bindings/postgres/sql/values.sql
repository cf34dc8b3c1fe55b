-- Values of one field.
\pset format unaligned
\pset tuples_only
\pset null NULL
SELECT json AS s FROM schema \gset
SELECT '[{"name":"text","type":"text","options":{"stored":true}},
{"name":"u","type":"u64","options":{"indexed":true,"stored":true}},
{"name":"i","type":"i64","options":{"indexed":true,"stored":true}},
{"name":"yes","type":"bool","options":{"indexed":true,"stored":true}},
{"name":"date","type":"date","options":{"indexed":true,"fieldnorms":true,"stored":true}},
{"name":"facet","type":"facet","options":{"stored":true}},
{"name":"bytes","type":"bytes","options":{"indexed":true,"fast":false,"stored":true}},
{"name":"ip","type":"ip_addr","options":{"indexed":true,"fieldnorms":true,"fast":false,"stored":true}},
{"name":"object","type":"json_object","options":{"stored":true,"fast":false}}]' AS all \gset
CREATE TABLE every AS SELECT kormaglen_store(:'all', '{"text":["é","b"],"u":18446744073709551615,"i":[-5,7],"yes":[false,true],"date":["1969-12-31T23:59:59.9999999Z","2019-10-12T07:20:50.52Z"],
"facet":["/a/b","/a\\/b"],"bytes":["AAEC",""],"ip":["::1","127.0.0.1","2001:db8::1:0:0:1","::ffff:1.2.3.4"],"object":[{"a":[1,"x"]},{}]}') AS stored;
SELECT field, kind, value FROM every, unnest(ARRAY['text','u','i','yes','date','facet','bytes','ip','object']) AS field, kormaglen_values(:'all', 2, stored, field);
-- the first value, as a text and in types of PostgreSQL's
SELECT kormaglen_value(:'all', 2, stored, 'text'), kormaglen_value(:'all', 2, stored, 'u')::numeric + 1, kormaglen_value(:'all', 2, stored, 'ip')::inet FROM every;
SELECT kormaglen_bigint(:'all', 2, stored, 'i'), kormaglen_boolean(:'all', 2, stored, 'yes'), kormaglen_bytea(:'all', 2, stored, 'bytes'), kormaglen_bytea(:'all', 2, stored, 'facet'), kormaglen_bytea(:'all', 2, stored, 'ip') FROM every;
SET timezone = 'UTC';
SELECT kormaglen_timestamptz(:'all', 2, stored, 'date') FROM every;
SELECT kormaglen_timestamptz(:'all', 2, kormaglen_store(:'all', json_build_object('date', date)::text), 'date') AS utc FROM unnest(ARRAY['1677-09-21T00:12:44Z','1970-01-01T00:00:00Z','1999-12-31T23:59:59.999999999Z','2000-01-01T00:00:00.000001Z','2262-04-11T23:47:16.854775807Z']) AS date;
-- what a date's text is, is what the JSON has
SELECT kormaglen_value(:'all', 2, kormaglen_store(:'all', json_build_object('date', date)::text), 'date') FROM unnest(ARRAY['1677-09-21T00:12:44Z','1700-02-28T23:00:00.1Z','1970-01-01T00:00:00Z','2000-02-29T12:00:00.000000001Z','2262-04-11T23:47:16.854775807Z']) AS date;
-- what the JSON has are the values
SELECT count(*), bool_and(kormaglen_json(:'all', 2, stored) -> field ->> (n - 1)::int = value) FROM every, unnest(ARRAY['text','u','i','yes','date','facet','bytes','ip','object']) AS field, kormaglen_values(:'all', 2, stored, field) WITH ORDINALITY AS of(kind, value, n);
-- addresses, as RFC 5952 writes them, and as the JSON has them
SELECT value, value = json -> 'ip' ->> (n - 1)::int FROM kormaglen_store(:'all', '{"ip":["::","1::","::2:3","1:0:0:2:0:0:0:3","1:0:2:0:3:0:4:0","1:0:0:2:3:0:0:4","::ffff:0.0.0.0","::fffe:102:304","::102:304","fe80:0:0:0:0:0:0:0","0:1:2:3:4:5:6:7","2001:DB8::FF"]}') AS stored, kormaglen_json(:'all', 2, stored) AS json, kormaglen_values(:'all', 2, stored, 'ip') WITH ORDINALITY AS of(kind, value, n);
-- no value, NULL and an empty text
SELECT kormaglen_value(:'s', 2, '\x80', 'name'), kormaglen_bigint(:'s', 2, '\x80', 'price'), kormaglen_boolean(:'s', 2, '\x80', 'name'), kormaglen_timestamptz(:'s', 2, '\x80', 'added'), kormaglen_bytea(:'s', 2, '\x80', 'kind');
SELECT kormaglen_value(NULL, 2, '\x80', 'name'), kormaglen_value(:'s', NULL, '\x80', 'name'), kormaglen_value(:'s', 2, NULL, 'name'), kormaglen_value(:'s', 2, '\x80', NULL);
SELECT count(*) FROM kormaglen_values(:'s', 2, '\x80', 'name');
SELECT kormaglen_value(:'s', 2, kormaglen_store(:'s', '{"name":""}'), 'name') = '';
-- versions 1 and 3
SELECT kormaglen_value(:'s', 1, '\x81030000000560E3160000000000', 'added'), kormaglen_value(:'s', 3, '\x81040000000D818161020100000000000000', 'more');
-- refused
SELECT refusal(format('SELECT %s((SELECT json FROM schema), %s)', function, arguments)) FROM (VALUES
  ('kormaglen_value', $$2, '\x80', 'prize'$$),
  ('kormaglen_value', $$2, '\x80', 'more.a'$$),
  ('kormaglen_value', $$4, '\x80', 'name'$$),
  ('kormaglen_value', $$2, '\x81', 'name'$$),
  ('kormaglen_value', $$2, '\x81000000000081FF', 'name'$$),
  ('kormaglen_value', $$2, '\x820000000000844C616D70010000000114000000000000', 'name'$$),
  ('kormaglen_value', $$2, kormaglen_store((SELECT json FROM schema), '{"price":1}')::bytea || kormaglen_store((SELECT json FROM schema), '{"price":2}')::bytea, 'price'$$),
  ('kormaglen_value', $$2, kormaglen_store((SELECT json FROM schema), '{"name":"a\u0000b"}'), 'name'$$),
  ('kormaglen_values', $$2, '\xFF', 'name'$$),
  ('kormaglen_bigint', $$2, kormaglen_store((SELECT json FROM schema), '{"name":"7"}'), 'name'$$),
  ('kormaglen_bigint', $$2, kormaglen_store((SELECT json FROM schema), '{"price":9223372036854775808}'), 'price'$$),
  ('kormaglen_boolean', $$2, kormaglen_store((SELECT json FROM schema), '{"price":1}'), 'price'$$),
  ('kormaglen_timestamptz', $$2, kormaglen_store((SELECT json FROM schema), '{"price":1}'), 'price'$$),
  ('kormaglen_bytea', $$2, kormaglen_store((SELECT json FROM schema), '{"name":"x"}'), 'name'$$)) AS given(function, arguments);
SELECT kormaglen_json(:'s', 2, kormaglen_store(:'s', '{"name":"a\u0000b"}')), kormaglen_bigint(:'s', 2, kormaglen_store(:'s', '{"price":9223372036854775807}'), 'price');
-- in an index, where a date has to be the same in each time zone
CREATE TABLE dated(stored stored_document);
CREATE INDEX by_date ON dated (kormaglen_timestamptz('[{"name":"date","type":"date","options":{"indexed":true,"fieldnorms":true,"stored":true}}]', 2, stored, 'date'));
INSERT INTO dated SELECT kormaglen_store('[{"name":"date","type":"date","options":{"indexed":true,"fieldnorms":true,"stored":true}}]', format('{"date":"%s-01-01T00:00:00Z"}', year)) FROM generate_series(1990, 2020) AS year;
SET enable_seqscan = off;
EXPLAIN (COSTS OFF) SELECT count(*) FROM dated WHERE kormaglen_timestamptz('[{"name":"date","type":"date","options":{"indexed":true,"fieldnorms":true,"stored":true}}]', 2, stored, 'date') >= '2018-01-01Z';
SELECT count(*) FROM dated WHERE kormaglen_timestamptz('[{"name":"date","type":"date","options":{"indexed":true,"fieldnorms":true,"stored":true}}]', 2, stored, 'date') >= '2018-01-01Z';
