-- The functions of the extension. docs/ENGINES.md describes them.
\echo Use "CREATE EXTENSION kormaglen" to load this file. \quit

CREATE FUNCTION kormaglen_version() RETURNS text
    AS 'MODULE_PATHNAME', 'sql_version' LANGUAGE C STABLE STRICT PARALLEL SAFE;
COMMENT ON FUNCTION kormaglen_version IS 'the version of the library';

-- Stored documents.

CREATE FUNCTION kormaglen_check(version integer, document bytea) RETURNS text
    AS 'MODULE_PATHNAME', 'sql_check' LANGUAGE C IMMUTABLE STRICT PARALLEL SAFE COST 25;
COMMENT ON FUNCTION kormaglen_check IS 'why a stored document is corrupt; NULL where it is right';

CREATE FUNCTION kormaglen_require(version integer, document bytea) RETURNS boolean
    AS 'MODULE_PATHNAME', 'sql_require' LANGUAGE C IMMUTABLE STRICT PARALLEL SAFE COST 25;
COMMENT ON FUNCTION kormaglen_require IS 'true where a stored document is right; an error that says why, where it is corrupt';

CREATE DOMAIN stored_document AS bytea CHECK (kormaglen_require(2, VALUE));
COMMENT ON DOMAIN stored_document IS 'a stored document of version 2, which tantivy 0.26.2 reads';

CREATE FUNCTION kormaglen_store(schema text, line text) RETURNS stored_document
    AS 'MODULE_PATHNAME', 'sql_store' LANGUAGE C IMMUTABLE STRICT PARALLEL SAFE COST 100;
COMMENT ON FUNCTION kormaglen_store IS 'the stored document of a JSON object, in version 2';

CREATE FUNCTION kormaglen_json(schema text, version integer, document bytea) RETURNS json
    AS 'MODULE_PATHNAME', 'sql_json' LANGUAGE C IMMUTABLE STRICT PARALLEL SAFE COST 75;
COMMENT ON FUNCTION kormaglen_json IS 'the JSON of a stored document';

CREATE FUNCTION kormaglen_migrate("from" integer, document bytea, "to" integer) RETURNS bytea
    AS 'MODULE_PATHNAME', 'sql_migrate' LANGUAGE C IMMUTABLE STRICT PARALLEL SAFE COST 75;
COMMENT ON FUNCTION kormaglen_migrate IS 'a stored document in version 2 or 3';

-- Values of one field.

CREATE FUNCTION kormaglen_value(schema text, version integer, document bytea, field text) RETURNS text
    AS 'MODULE_PATHNAME', 'sql_value' LANGUAGE C IMMUTABLE STRICT PARALLEL SAFE COST 25;
COMMENT ON FUNCTION kormaglen_value IS 'the first value of a field, as a text';

CREATE FUNCTION kormaglen_bigint(schema text, version integer, document bytea, field text) RETURNS bigint
    AS 'MODULE_PATHNAME', 'sql_bigint' LANGUAGE C IMMUTABLE STRICT PARALLEL SAFE COST 25;
COMMENT ON FUNCTION kormaglen_bigint IS 'the first value of a field of numbers';

CREATE FUNCTION kormaglen_boolean(schema text, version integer, document bytea, field text) RETURNS boolean
    AS 'MODULE_PATHNAME', 'sql_boolean' LANGUAGE C IMMUTABLE STRICT PARALLEL SAFE COST 25;
COMMENT ON FUNCTION kormaglen_boolean IS 'the first value of a field of truth values';

CREATE FUNCTION kormaglen_timestamptz(schema text, version integer, document bytea, field text) RETURNS timestamptz
    AS 'MODULE_PATHNAME', 'sql_timestamptz' LANGUAGE C IMMUTABLE STRICT PARALLEL SAFE COST 25;
COMMENT ON FUNCTION kormaglen_timestamptz IS 'the first value of a field of dates, to the microsecond';

CREATE FUNCTION kormaglen_bytea(schema text, version integer, document bytea, field text) RETURNS bytea
    AS 'MODULE_PATHNAME', 'sql_bytea' LANGUAGE C IMMUTABLE STRICT PARALLEL SAFE COST 25;
COMMENT ON FUNCTION kormaglen_bytea IS 'the first value of a field of bytes, facets or addresses';

CREATE FUNCTION kormaglen_values(schema text, version integer, document bytea, field text, OUT kind text, OUT value text) RETURNS SETOF record
    AS 'MODULE_PATHNAME', 'sql_values' LANGUAGE C IMMUTABLE STRICT PARALLEL SAFE COST 50 ROWS 2;
COMMENT ON FUNCTION kormaglen_values IS 'all values of a field, each with its kind';

-- Terms, of documents and of texts of queries.

CREATE FUNCTION kormaglen_terms(schema text, version integer, document bytea, faults boolean DEFAULT false,
    OUT field text, OUT term bytea, OUT value text, OUT fault text)
    RETURNS SETOF record AS 'MODULE_PATHNAME', 'sql_terms' LANGUAGE C IMMUTABLE STRICT PARALLEL SAFE COST 200 ROWS 16;
COMMENT ON FUNCTION kormaglen_terms IS 'the terms of a stored document, each with the name of its field and its value as a text; with faults, why there are none';

CREATE FUNCTION kormaglen_field(schema text, path text) RETURNS bigint
    AS 'MODULE_PATHNAME', 'sql_field' LANGUAGE C IMMUTABLE STRICT PARALLEL SAFE COST 10;
COMMENT ON FUNCTION kormaglen_field IS 'the number of the field that a path names';

CREATE FUNCTION kormaglen_term(schema text, path text, "text" text) RETURNS bytea
    AS 'MODULE_PATHNAME', 'sql_term' LANGUAGE C IMMUTABLE STRICT PARALLEL SAFE COST 25;
COMMENT ON FUNCTION kormaglen_term IS 'the one term that a text has at a path';

CREATE FUNCTION kormaglen_term_text(term bytea) RETURNS text
    AS 'MODULE_PATHNAME', 'sql_term_text' LANGUAGE C IMMUTABLE STRICT PARALLEL SAFE COST 2;
COMMENT ON FUNCTION kormaglen_term_text IS 'the value of a term, as a text';

CREATE FUNCTION kormaglen_range_start(schema text, path text, "text" text) RETURNS bytea
    AS 'MODULE_PATHNAME', 'sql_range_start' LANGUAGE C IMMUTABLE STRICT PARALLEL SAFE COST 25;
COMMENT ON FUNCTION kormaglen_range_start IS 'the start of the one range that a text has at a path';

CREATE FUNCTION kormaglen_range_end(schema text, path text, "text" text) RETURNS bytea
    AS 'MODULE_PATHNAME', 'sql_range_end' LANGUAGE C IMMUTABLE STRICT PARALLEL SAFE COST 25;
COMMENT ON FUNCTION kormaglen_range_end IS 'the end of the one range that a text has at a path: terms in the range are below it';

CREATE FUNCTION kormaglen_query_terms(schema text, path text, "text" text, OUT term bytea) RETURNS SETOF bytea
    AS 'MODULE_PATHNAME', 'sql_query_terms' LANGUAGE C IMMUTABLE STRICT PARALLEL SAFE COST 50 ROWS 2;
COMMENT ON FUNCTION kormaglen_query_terms IS 'all terms that a text has at a path';

CREATE FUNCTION kormaglen_query_ranges(schema text, path text, "text" text, OUT "start" bytea, OUT "end" bytea) RETURNS SETOF record
    AS 'MODULE_PATHNAME', 'sql_query_ranges' LANGUAGE C IMMUTABLE STRICT PARALLEL SAFE COST 50 ROWS 2;
COMMENT ON FUNCTION kormaglen_query_ranges IS 'all ranges that a text has at a path';

-- Facets.

CREATE FUNCTION kormaglen_facet("text" text) RETURNS bytea
    AS 'MODULE_PATHNAME', 'sql_facet' LANGUAGE C IMMUTABLE STRICT PARALLEL SAFE COST 2;
COMMENT ON FUNCTION kormaglen_facet IS 'the encoded facet that a text as /first/second names';

CREATE FUNCTION kormaglen_facet_text(facet bytea) RETURNS text
    AS 'MODULE_PATHNAME', 'sql_facet_text' LANGUAGE C IMMUTABLE STRICT PARALLEL SAFE COST 2;
COMMENT ON FUNCTION kormaglen_facet_text IS 'the text that names an encoded facet';

CREATE FUNCTION kormaglen_facet_counts_add(internal, parent text, document bigint, facet bytea) RETURNS internal
    AS 'MODULE_PATHNAME', 'sql_facet_counts_add' LANGUAGE C IMMUTABLE PARALLEL SAFE COST 2;
CREATE FUNCTION kormaglen_facet_counts_combine(internal, internal) RETURNS internal
    AS 'MODULE_PATHNAME', 'sql_facet_counts_combine' LANGUAGE C IMMUTABLE PARALLEL SAFE;
CREATE FUNCTION kormaglen_facet_counts_serialize(internal) RETURNS bytea
    AS 'MODULE_PATHNAME', 'sql_facet_counts_serialize' LANGUAGE C IMMUTABLE STRICT PARALLEL SAFE;
CREATE FUNCTION kormaglen_facet_counts_deserialize(bytea, internal) RETURNS internal
    AS 'MODULE_PATHNAME', 'sql_facet_counts_deserialize' LANGUAGE C IMMUTABLE STRICT PARALLEL SAFE;
CREATE FUNCTION kormaglen_facet_counts_end(internal) RETURNS json
    AS 'MODULE_PATHNAME', 'sql_facet_counts_end' LANGUAGE C IMMUTABLE PARALLEL SAFE;

CREATE AGGREGATE kormaglen_facet_counts(parent text, document bigint, facet bytea) (
    SFUNC = kormaglen_facet_counts_add,
    STYPE = internal,
    SSPACE = 8192,
    COMBINEFUNC = kormaglen_facet_counts_combine,
    SERIALFUNC = kormaglen_facet_counts_serialize,
    DESERIALFUNC = kormaglen_facet_counts_deserialize,
    FINALFUNC = kormaglen_facet_counts_end,
    PARALLEL = SAFE
);
COMMENT ON AGGREGATE kormaglen_facet_counts(text, bigint, bytea) IS 'how many documents have each child of a facet, as a JSON object';
