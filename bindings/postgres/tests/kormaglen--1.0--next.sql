-- An update as a later version may bring one: the tests put it into the folder of their own server. It adds a function, and one gets another comment.
\echo Use "ALTER EXTENSION kormaglen UPDATE TO 'next'" to load this file. \quit

CREATE FUNCTION kormaglen_is_right(version integer, document bytea) RETURNS boolean
    LANGUAGE sql IMMUTABLE STRICT PARALLEL SAFE RETURN kormaglen_check(version, document) IS NULL;
COMMENT ON FUNCTION kormaglen_version IS 'the version of the library, with which this extension was built';
