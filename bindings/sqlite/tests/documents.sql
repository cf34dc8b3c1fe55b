-- Documents, as docs/FORMATS.md describes their bytes.
.read schema.sql
.parameter set :s "(SELECT json FROM schema)"
.nullvalue NULL
SELECT 'a text and a number';
SELECT hex(kormaglen_store(:s, '{"name":"Lamp","price":20}'));
SELECT 'the same by a subquery';
SELECT hex(kormaglen_store((SELECT json FROM schema), '{"price":20,"name":"Lamp"}'));
SELECT 'two numbers, a facet, a date, an object';
SELECT hex(kormaglen_store(:s, '{"price":[1,2]}'));
SELECT hex(kormaglen_store(:s, '{"kind":"/shop/light"}'));
SELECT hex(kormaglen_store(:s, '{"added":"1970-01-01T00:00:01.5Z"}'));
SELECT hex(kormaglen_store(:s, '{"more":{"a":1}}'));
SELECT 'no value, and a line feed in the JSON';
SELECT hex(kormaglen_store(:s, '{}')), hex(kormaglen_store(:s, '{' || char(10) || '}' || char(10)));
SELECT 'JSON';
SELECT kormaglen_json(:s, 2, x'820000000000844C616D7001000000011400000000000000');
SELECT kormaglen_json(:s, 2, x'8102000000038573686F7000'), kormaglen_json(:s, 1, x'80'), kormaglen_json(:s, 3, x'80');
SELECT kormaglen_json(:s, 2, x'810300000005002F685900000000');
SELECT 'microseconds in version 1';
SELECT kormaglen_json(:s, 1, x'81030000000560E3160000000000');
SELECT 'a field that the schema does not have is left out';
SELECT kormaglen_json(:s, 2, x'8109000000010100000000000000');
SELECT 'an object in version 3, and back';
SELECT hex(kormaglen_migrate(2, x'81040000000D82008161020100000000000000', 3));
SELECT hex(kormaglen_migrate(3, x'81040000000D818161020100000000000000', 2));
SELECT 'one field, and one of its values';
SELECT value, typeof(value) FROM json_each(kormaglen_json(:s, 2, x'820100000001010000000000000001000000010200000000000000'), '$.price');
SELECT json_extract(kormaglen_json(:s, 2, x'820100000001010000000000000001000000010200000000000000'), '$.price[1]');
SELECT 'what is right has no fault';
SELECT kormaglen_check(2, x'80'), kormaglen_check(1, x'820000000000844C616D7001000000011400000000000000');
SELECT 'the end is missing, twice';
SELECT kormaglen_check(2, x''), kormaglen_check(2, x'820000000000844C616D70010000000114000000000000');
SELECT 'another type, an extension, a float';
SELECT kormaglen_check(2, x'81000000000E'), kormaglen_check(2, x'810000000007FF'), kormaglen_check(2, x'8100000000060000000000000000');
SELECT 'a truth value of 2, a text that is not UTF-8, an odd object';
SELECT kormaglen_check(2, x'81000000000902'), kormaglen_check(2, x'81000000000081FF'), kormaglen_check(2, x'81000000000D81');
SELECT 'bytes after the document';
SELECT kormaglen_check(2, x'8000'), kormaglen_check(3, x'80808080');
SELECT 'NULL in, NULL out';
SELECT kormaglen_store(NULL, '{}'), kormaglen_store(:s, NULL), kormaglen_json(:s, NULL, x'80'), kormaglen_json(:s, 2, NULL), kormaglen_migrate(2, NULL, 3), kormaglen_check(2, NULL);
SELECT 'facets';
SELECT hex(kormaglen_facet('/shop/light')), hex(kormaglen_facet('/')), hex(kormaglen_facet('/shop/')), hex(kormaglen_facet('/a\/b'));
SELECT kormaglen_facet_text(x'73686F70006C69676874'), kormaglen_facet_text(x''), kormaglen_facet_text(x'612F62'), kormaglen_facet_text(NULL);
SELECT 'types';
SELECT typeof(kormaglen_store(:s, '{}')), typeof(kormaglen_json(:s, 2, x'80')), typeof(kormaglen_facet('/')), typeof(kormaglen_facet_text(x'')), typeof(kormaglen_field(:s, 'price'));
