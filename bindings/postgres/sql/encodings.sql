-- A database whose texts are LATIN1: the library has them as UTF-8.
\pset format unaligned
\pset tuples_only
CREATE DATABASE kormaglen_latin1 ENCODING 'LATIN1' LC_COLLATE 'C' LC_CTYPE 'C' TEMPLATE template0;
\connect kormaglen_latin1
SET client_encoding = 'UTF8';
CREATE EXTENSION kormaglen;
SHOW server_encoding;
CREATE TABLE schema(json text);
INSERT INTO schema VALUES ('[{"name":"été","type":"text","options":{"indexing":{"record":"basic"},"stored":true}},
{"name":"more","type":"json_object","options":{"indexing":{"record":"basic"},"stored":true,"fast":false}},
{"name":"prix","type":"u64","options":{"indexed":true,"stored":true}},{"name":"\u68da","type":"u64","options":{"indexed":true,"stored":true}}]');
SELECT json AS s FROM schema \gset
SELECT encode(convert_to('é', 'LATIN1'), 'hex'), encode(kormaglen_store(:'s', '{"été":"é","more":{"é":"ü"}}'), 'hex');
SELECT kormaglen_json(:'s', 2, kormaglen_store(:'s', '{"été":"é","more":{"é":"ü"}}'));
SELECT kormaglen_value(:'s', 2, kormaglen_store(:'s', '{"été":"é"}'), 'été'), kormaglen_facet_text(kormaglen_facet('/é/ü'));
SELECT field, encode(term, 'hex'), value, kormaglen_term_text(term) FROM kormaglen_terms(:'s', 2, kormaglen_store(:'s', '{"été":"é","more":{"é":"ü"}}'));
SELECT encode(term, 'hex') FROM kormaglen_query_terms(:'s', 'more.é', 'ü');
SELECT encode(kormaglen_term(:'s', 'été', 'é'), 'hex'), encode(kormaglen_range_end(:'s', 'été', 'é*'), 'hex');
SELECT kormaglen_facet_counts('/é', 1, kormaglen_facet('/é/ü'));
-- a line that is no JSON object: the byte is that of its UTF-8
SELECT kormaglen_store(:'s', '{"été" 1}');
-- names of fields in messages, also where the encoding has no such name
SELECT kormaglen_store(:'s', '{"été":1}');
SELECT kormaglen_store(:'s', '{"\u68da":"x"}');
SELECT kormaglen_field(:'s', 'é');
-- characters that LATIN1 has not
SELECT encode(kormaglen_store(:'s', '{"été":"\u68da"}'), 'hex');
SELECT kormaglen_json(:'s', 2, kormaglen_store(:'s', '{"été":"\u68da"}'));
SELECT kormaglen_value(:'s', 2, kormaglen_store(:'s', '{"été":"\u68da"}'), 'été');
SELECT encode(term, 'hex'), value IS NULL FROM kormaglen_terms(:'s', 2, kormaglen_store(:'s', '{"été":"\u68da"}'));
SELECT kormaglen_term_text('\x0000000073e6a39a');
SELECT field FROM kormaglen_terms(:'s', 2, kormaglen_store(:'s', '{"\u68da":1}'));
-- A database without an encoding, where the bytes have to be UTF-8.
\connect postgres
DROP DATABASE kormaglen_latin1;
CREATE DATABASE kormaglen_ascii ENCODING 'SQL_ASCII' LC_COLLATE 'C' LC_CTYPE 'C' TEMPLATE template0;
\connect kormaglen_ascii
CREATE EXTENSION kormaglen;
SHOW server_encoding;
SELECT encode(kormaglen_store('[{"name":"a","type":"text","options":{"stored":true}}]', '{"a":"é"}'), 'hex');
SELECT kormaglen_json('[{"name":"a","type":"text","options":{"stored":true}}]', 2, '\x81000000000082c3a9');
SELECT kormaglen_store('[{"name":"a","type":"text","options":{"stored":true}}]', '{"a":"' || chr(233) || '"}');
\connect postgres
DROP DATABASE kormaglen_ascii;
