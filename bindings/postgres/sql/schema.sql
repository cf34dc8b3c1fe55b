-- The schema of the tests, and what they print by. Field 5 is not indexed.
CREATE TABLE schema(json text);
INSERT INTO schema VALUES ('[
{"name":"name","type":"text","options":{"indexing":{"record":"basic"},"stored":true}},
{"name":"price","type":"u64","options":{"indexed":true,"stored":true}},
{"name":"kind","type":"facet","options":{"stored":true}},
{"name":"added","type":"date","options":{"indexed":true,"fieldnorms":true,"stored":true}},
{"name":"more","type":"json_object","options":{"indexing":{"record":"basic"},"stored":true,"fast":false}},
{"name":"note","type":"text","options":{"stored":true}}]');
CREATE FUNCTION hex(bytea) RETURNS text LANGUAGE sql IMMUTABLE RETURN upper(encode($1, 'hex'));
-- What a statement is refused with: the code, the message, the detail and the hint.
CREATE FUNCTION refusal(statement text) RETURNS text LANGUAGE plpgsql AS $$
DECLARE
  code text;
  message text;
  detail text;
  hint text;
BEGIN
  EXECUTE statement;
  RETURN 'accepted: ' || statement;
EXCEPTION WHEN OTHERS THEN
  GET STACKED DIAGNOSTICS code = RETURNED_SQLSTATE, message = MESSAGE_TEXT, detail = PG_EXCEPTION_DETAIL, hint = PG_EXCEPTION_HINT;
  RETURN concat_ws(E'\n      ', code || ' ' || message, nullif(detail, ''), nullif(hint, ''));
END $$;
