-- Calls that are refused: the code, the message, the detail and the hint. A message names the function, and the detail the argument or the field.
\pset format unaligned
\pset tuples_only
CREATE FUNCTION refusals(function text, VARIADIC arguments text[]) RETURNS SETOF text LANGUAGE sql AS $$
  SELECT refusal(format('SELECT %s(%s)', function, replace(each, ':s', '(SELECT json FROM schema)'))) FROM unnest(arguments) AS each $$;
-- types of arguments are PostgreSQL's to refuse
SELECT refusals('kormaglen_store', $$1, '{}'$$, $$:s, '\x7B7D'::bytea$$);
SELECT refusals('kormaglen_json', $$:s, 2.5, '\x80'$$);
SELECT refusals('kormaglen_facet', $$'\x2F'::bytea$$);
-- versions
SELECT refusals('kormaglen_json', $$:s, 0, '\x80'$$, $$:s, 4, '\x80'$$);
SELECT refusals('kormaglen_check', $$-1, '\x80'$$, $$2147483647, '\x80'$$);
SELECT refusals('kormaglen_migrate', $$4, '\x80', 2$$, $$2, '\x80', 1$$);
SELECT refusals('kormaglen_terms', $$:s, 9, '\x80'$$);
-- schemas
SELECT refusals('kormaglen_store', $$'', '{}'$$, $$'[', '{}'$$, $$'{}', '{}'$$);
SELECT refusals('kormaglen_store', $$'[{"name":"a","type":"u64","options":{"indexed":true}}]', '{}'$$, $$'[{"name":"a","type":"f64","options":{}}]', '{}'$$);
SELECT refusals('kormaglen_terms', $$'[]]', 2, '\x80'$$);
-- lines
SELECT refusals('kormaglen_store', $$:s, ''$$, $$:s, '[1]'$$);
SELECT refusals('kormaglen_store', $$:s, '{"price" 20}'$$, $$:s, '{"price":20'$$, $$:s, '{"name":"Lamp'$$, $$:s, '{"price":20}}'$$);
SELECT refusals('kormaglen_store', $$:s, '{"name":"\x"}'$$, $$:s, '{"price":1e400}'$$, $$:s, '{"more":' || repeat('[', 128)$$);
SELECT refusals('kormaglen_store', $$:s, '{"price":-1}'$$, $$:s, '{"price":"1"}'$$, $$:s, '{"price":1.5}'$$);
SELECT refusals('kormaglen_store', $$:s, '{"kind":"shop"}'$$, $$:s, '{"added":"yesterday"}'$$, $$:s, '{"more":{"a":1.5}}'$$);
-- documents
SELECT refusals('kormaglen_json', $$:s, 2, '\x'$$, $$:s, 2, '\x8000'$$, $$:s, 2, '\x81000000000E'$$);
SELECT refusals('kormaglen_migrate', $$2, '\x8080', 3$$, $$2, '\x81000000000902', 3$$);
SELECT refusals('kormaglen_terms', $$:s, 2, '\x8080'$$, $$:s, 2, '\x81'$$);
-- documents that have no terms by the schema: a field that it has not, a text in a field of numbers
SELECT refusals('kormaglen_terms', $$:s, 2, '\x8109000000010100000000000000'$$, $$:s, 2, '\x8101000000008178'$$);
-- with faults a document that is not read is refused as before
SELECT refusals('kormaglen_terms', $$:s, 2, '\x8080', true$$, $$:s, 2, '\x81', true$$, $$:s, 2, '\x80', 1$$);
-- facets
SELECT refusals('kormaglen_facet', $$'shop'$$, $$''$$);
SELECT refusals('kormaglen_facet_text', $$'\xFF'$$);
-- terms: no type, no type's letter, seven bytes of a number, no UTF-8, a path alone, the zero character
SELECT refusals('kormaglen_term_text', $$'\x00000000'$$, $$'\x0000000078'$$, $$'\x000000007500000000000000'$$, $$'\x0000000073FF'$$, $$'\x000000006A6100'$$, $$'\x00000000736100'$$);
-- queries
SELECT refusals('kormaglen_field', $$:s, 'prize'$$);
SELECT refusals('kormaglen_term', $$:s, 'prize', '1'$$, $$:s, 'price.a', '1'$$, $$:s, 'price', '-1'$$, $$:s, 'note', 'x'$$, $$:s, 'more', 'x'$$, $$:s, 'more.a', '1'$$);
SELECT refusals('kormaglen_range_start', $$:s, 'price', '10'$$, $$:s, 'kind', 'shop*'$$, $$:s, 'more.a', '[1 TO 2]'$$);
SELECT refusals('kormaglen_range_end', $$:s, 'price', '[20 TO 10]'$$, $$:s, 'price', '1*'$$);
SELECT refusals('kormaglen_query_terms', $$:s, 'added', 'today'$$);
SELECT refusals('kormaglen_query_ranges', $$:s, 'note', '*'$$);
-- as psql shows it
SELECT kormaglen_store(json, '{"price":"cheap"}') FROM schema;
