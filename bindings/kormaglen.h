/* Kormaglen for C: schemas, stored documents, terms and facets of tantivy 0.26.2, as calls over blocks of bytes.
 *
 * Each call is given its input as bytes and writes into buffers of the caller's. It keeps nothing of the input, and nothing from one call
 * to the next but what a handle holds. What it needs meanwhile it takes by malloc, and gives back before it returns.
 *
 * Buffers. Every buffer is the caller's. A pointer may be NULL where its length is 0. A buffer that is written overlaps no other buffer and
 * no handle of the same call; what is only read may overlap. A pointer that is NULL and has a length, a buffer that overlaps, and a length
 * that no buffer has are refused as KORMAGLEN_BAD_ARGUMENT.
 *
 * Refusals. Where a buffer is too small, nothing is written, and the answer says how many bytes are needed. So a call with a buffer of
 * length 0 only asks for the size. After every other refusal the buffers are as they were, too. Each call below names its refusals; each may
 * also refuse a pointer as KORMAGLEN_BAD_ARGUMENT, and then buffers and handles are as they were.
 *
 * A block has documents one after the other, as a block of a document store has them. A schema is its JSON, as tantivy writes it, or a
 * handle that holds one, so that its JSON is read once.
 *
 * A handle is the caller's struct, and what it holds is the library's: a schema, or a document. One that is all zeros is closed. Whoever
 * opens it closes it. It may be moved, but a copy of it is never used beside it, nor after it was closed.
 *
 * Threads. A handle is used by one call at a time, by any thread. A call changes the handle of a schema, too, while it runs: nobody else reads
 * its struct meanwhile. Calls with different handles, and calls without one, run at the same time on any threads. The bytes that a call reads
 * stay as they are until it returns: the library relies on that.
 */
#ifndef KORMAGLEN_H
#define KORMAGLEN_H

#include <stddef.h>
#include <stdint.h>

#ifdef __cplusplus
extern "C" {
#endif

/* The version of this header. */
#define KORMAGLEN_VERSION "0.1.0"

/* What a call answers: kormaglen_answer.status. */
enum kormaglen_status {
    KORMAGLEN_OK = 0,
    KORMAGLEN_TOO_SMALL = 1,     /* a buffer is too small; bytes and lines say what is needed */
    KORMAGLEN_NO_MEMORY = 2,     /* malloc gave nothing */
    KORMAGLEN_NOT_UTF8 = 3,      /* a text is not UTF-8 */
    KORMAGLEN_NOT_A_FACET = 4,   /* a facet's text begins with '/' */
    KORMAGLEN_INVALID_JSON = 5,  /* the schema is not JSON */
    KORMAGLEN_BAD_SCHEMA = 6,    /* the JSON describes no schema; detail says why, place names the entry from 1, or 0 for the whole */
    KORMAGLEN_NO_FIELD = 7,      /* the path names no field */
    KORMAGLEN_BAD_DOCUMENT = 8,  /* a document is refused; detail says why, place is where in the block it begins */
    KORMAGLEN_WRONG_VERSION = 9, /* there is no such version of the store */
    KORMAGLEN_NO_END = 10,       /* no byte string is above all that begin with the prefix */
    KORMAGLEN_BAD_LINE = 11,     /* a line has no document; detail is of kormaglen_line_status, place is the field whose value is refused, or of kormaglen_json_fault */
    KORMAGLEN_FOREIGN_FIELD = 12,/* a document has a field that the schema does not have; place is its number */
    KORMAGLEN_BAD_QUERY = 13,    /* a text of a query has no terms, or no ranges; detail says why, place is the field, or 0 for NO_RANGE */
    KORMAGLEN_BAD_PAIRS = 14,    /* pairs of a document and a facet are refused; place is where the first such pair begins */
    KORMAGLEN_CLOSED = 15,       /* a handle holds nothing */
    KORMAGLEN_BAD_ARGUMENT = 16, /* a pointer can't be used; detail says why, place is its number among the call's pointers, from 1 */
    KORMAGLEN_NOT_A_TERM = 17    /* bytes are no term, or one of a text or a facet that is not UTF-8 */
};

/* With KORMAGLEN_BAD_SCHEMA: kormaglen_answer.detail. From 6 on it is the key of the entry whose value is missing or is not what it has to
 * be; kormaglen_detail_text says what is wanted. */
enum kormaglen_schema_detail {
    KORMAGLEN_SCHEMA_BAD_NAME = 1,
    KORMAGLEN_SCHEMA_SAME_NAME = 2,
    KORMAGLEN_SCHEMA_TOO_MANY_FIELDS = 3,
    KORMAGLEN_SCHEMA_BAD_ENTRY = 4, /* the entry is not an object; with place 0, the whole is not an array */
    KORMAGLEN_SCHEMA_FLOAT_FIELD = 5,
    KORMAGLEN_SCHEMA_NAME = 6,
    KORMAGLEN_SCHEMA_TYPE = 7,
    KORMAGLEN_SCHEMA_OPTIONS = 8,
    KORMAGLEN_SCHEMA_INDEXED = 9,
    KORMAGLEN_SCHEMA_STORED = 10,
    KORMAGLEN_SCHEMA_FIELDNORMS = 11,
    KORMAGLEN_SCHEMA_FAST = 12,
    KORMAGLEN_SCHEMA_FAST_OF_TEXT = 13, /* "fast" of a text or JSON field */
    KORMAGLEN_SCHEMA_COERCE = 14,
    KORMAGLEN_SCHEMA_PRECISION = 15,
    KORMAGLEN_SCHEMA_INDEXING = 16,
    KORMAGLEN_SCHEMA_RECORD = 17,              /* "record" of "indexing" */
    KORMAGLEN_SCHEMA_INDEXING_FIELDNORMS = 18, /* "fieldnorms" of "indexing" */
    KORMAGLEN_SCHEMA_TOKENIZER = 19,           /* "tokenizer" of "indexing" */
    KORMAGLEN_SCHEMA_WITH_TOKENIZER = 20,      /* "with_tokenizer" of "fast" */
    KORMAGLEN_SCHEMA_EXPAND_DOTS = 21          /* "expand_dots_enabled" */
};

/* With KORMAGLEN_BAD_DOCUMENT: kormaglen_answer.detail. From 15 on the document can be read, but has no terms by the schema. */
enum kormaglen_document_detail {
    KORMAGLEN_DOCUMENT_UNEXPECTED_END = 1,
    KORMAGLEN_DOCUMENT_UNKNOWN_TYPE = 2,
    KORMAGLEN_DOCUMENT_UNKNOWN_EXTENSION = 3,
    KORMAGLEN_DOCUMENT_FLOAT = 4,
    KORMAGLEN_DOCUMENT_BAD_NUMBER = 5,
    KORMAGLEN_DOCUMENT_BAD_BOOL = 6,
    KORMAGLEN_DOCUMENT_NOT_UTF8 = 7,
    KORMAGLEN_DOCUMENT_ODD_OBJECT = 8,
    KORMAGLEN_DOCUMENT_DATE_RANGE = 9,
    KORMAGLEN_DOCUMENT_OLD_JSON = 10,
    KORMAGLEN_DOCUMENT_OLD_FLOAT = 11,
    KORMAGLEN_DOCUMENT_KEY_NO_TEXT = 12,
    KORMAGLEN_DOCUMENT_NO_ROOM = 13,
    KORMAGLEN_DOCUMENT_TOO_LONG = 14,
    KORMAGLEN_DOCUMENT_FOREIGN_FIELD = 15, /* it has a field that the schema does not have */
    KORMAGLEN_DOCUMENT_WRONG_TYPE = 16,    /* a value is not of its field's type */
    KORMAGLEN_DOCUMENT_NUL_IN_KEY = 17,    /* a key in a value of a field of JSON objects has U+0000 */
    KORMAGLEN_DOCUMENT_NO_TERM = 18        /* a facet, bytes, an address or a pre-tokenized text stands in such a value */
};

/* With faults in kormaglen_schema_terms_of_block: in place of how many bytes a term shares, where the record is of a document without terms. */
#define KORMAGLEN_NO_TERMS UINT64_MAX

/* What became of a line: kormaglen_line_answer.status, and with KORMAGLEN_BAD_LINE kormaglen_answer.detail. */
enum kormaglen_line_status {
    KORMAGLEN_LINE_STORED = 0,
    KORMAGLEN_LINE_INVALID_JSON = 1, /* it is no JSON object: kormaglen_json_fault says why */
    KORMAGLEN_LINE_OVERFLOW = 2,     /* a number does not fit the field's type */
    KORMAGLEN_LINE_WRONG_TYPE = 3,   /* a value is of another kind than the field's; a text that is no date, too */
    KORMAGLEN_LINE_BAD_TEXT = 4,     /* a date is out of its range, or a text is no address or facet */
    KORMAGLEN_LINE_BAD_BASE64 = 5,
    KORMAGLEN_LINE_FLOAT = 6,        /* a number is not whole, or does not fit 64 bits */
    KORMAGLEN_LINE_NO_ROOM = 7       /* the values need more than 4294967295 bytes */
};

/* Why a line is no JSON object: with KORMAGLEN_LINE_INVALID_JSON kormaglen_line_answer.field, and kormaglen_answer.place. From 4 on it is what was
 * expected at the byte that the answer's bytes say, or where the line ends there. */
enum kormaglen_json_fault {
    KORMAGLEN_JSON_NOT_UTF8 = 0,
    KORMAGLEN_JSON_TOO_DEEP = 1,         /* the list that begins at the byte lies within 127 others */
    KORMAGLEN_JSON_NUMBER_TOO_LARGE = 2, /* the number at the byte is too large for a float */
    KORMAGLEN_JSON_NO_OBJECT = 3,        /* it is JSON, and no object */
    KORMAGLEN_JSON_VALUE = 4,
    KORMAGLEN_JSON_VALUE_OR_ARRAY_END = 5,
    KORMAGLEN_JSON_KEY = 6,
    KORMAGLEN_JSON_KEY_OR_OBJECT_END = 7,
    KORMAGLEN_JSON_COLON = 8,
    KORMAGLEN_JSON_COMMA_OR_ARRAY_END = 9,
    KORMAGLEN_JSON_COMMA_OR_OBJECT_END = 10,
    KORMAGLEN_JSON_TEXT_END = 11,
    KORMAGLEN_JSON_STRING_CHARACTER = 12, /* a character of a text, an escape or the closing quote */
    KORMAGLEN_JSON_ESCAPE = 13,           /* one of "\/bfnrtu after a backslash */
    KORMAGLEN_JSON_HEXADECIMAL_DIGIT = 14,
    KORMAGLEN_JSON_HEXADECIMAL_DIGIT_BELOW_C = 15, /* after \ud: no high surrogate stands before */
    KORMAGLEN_JSON_LOW_SURROGATE = 16,             /* the escape of a low surrogate, after that of a high one */
    KORMAGLEN_JSON_DIGIT = 17,
    KORMAGLEN_JSON_DIGIT_OR_SIGN = 18,
    KORMAGLEN_JSON_WORD = 19 /* the rest of true, false or null */
};

/* With KORMAGLEN_BAD_QUERY: kormaglen_answer.detail. From 12 on the text, or a bound of the range, is no value of the field's type. */
enum kormaglen_query_detail {
    KORMAGLEN_QUERY_NOT_INDEXED = 1, /* the field is not indexed */
    KORMAGLEN_QUERY_PATH_ENDS = 2,   /* the path ends at a field of JSON objects */
    KORMAGLEN_QUERY_NUL_IN_PATH = 3, /* the path below a field of JSON objects has U+0000 */
    KORMAGLEN_QUERY_NO_RANGE = 4,    /* the text is neither '*' nor two bounds in brackets with ' TO ' between them */
    KORMAGLEN_QUERY_BACKWARDS = 5,   /* the range's start is above its end */
    KORMAGLEN_QUERY_OVERFLOW = 12,   /* a number does not fit the field's type; kept for numbers that are no texts */
    KORMAGLEN_QUERY_WRONG_TYPE = 13, /* it is no number that fits, no truth value or no date, whichever the field has */
    KORMAGLEN_QUERY_BAD_TEXT = 14,   /* a date is out of its range, or a text is no address or facet */
    KORMAGLEN_QUERY_BAD_BASE64 = 15,
    KORMAGLEN_QUERY_FLOAT = 16       /* a number is not whole, or does not fit 64 bits; kept for numbers that are no texts */
};

/* The kind of a value in what kormaglen_schema_values_of_block writes, and what its bytes are then. */
enum kormaglen_value_kind {
    KORMAGLEN_VALUE_NULL = 0,    /* no bytes */
    KORMAGLEN_VALUE_TEXT = 1,    /* the text, in UTF-8 */
    KORMAGLEN_VALUE_U64 = 2,     /* eight bytes, the lowest first */
    KORMAGLEN_VALUE_I64 = 3,     /* eight bytes in two's complement, the lowest first */
    KORMAGLEN_VALUE_BOOL = 4,    /* one byte, 0 or 1 */
    KORMAGLEN_VALUE_DATE = 5,    /* nanoseconds since 1970 (UTC), as for I64 */
    KORMAGLEN_VALUE_FACET = 6,   /* the encoded facet, as kormaglen_facet_of_text writes it */
    KORMAGLEN_VALUE_BYTES = 7,   /* the bytes */
    KORMAGLEN_VALUE_IP_ADDR = 8, /* sixteen bytes, the highest first (IPv6 byte order; IPv4 is mapped) */
    KORMAGLEN_VALUE_JSON = 9     /* a pre-tokenized text, an array or an object: its JSON text, as kormaglen_document_to_json prints it */
};

/* With KORMAGLEN_BAD_ARGUMENT: kormaglen_answer.detail. */
enum kormaglen_argument_detail {
    KORMAGLEN_ARGUMENT_NULL = 1,      /* the pointer is NULL, and its length is not 0 */
    KORMAGLEN_ARGUMENT_TOO_LARGE = 2, /* no buffer has this length */
    KORMAGLEN_ARGUMENT_UNALIGNED = 3, /* the pointer is not aligned for what it points to */
    KORMAGLEN_ARGUMENT_OVERLAP = 4    /* the buffer overlaps one that stands before it in the call, and one of the two is written */
};

typedef struct kormaglen_answer {
    uint32_t status; /* of kormaglen_status */
    uint32_t detail;
    uint64_t place;
    uint64_t bytes; /* how many bytes were written, or are needed; with KORMAGLEN_LINE_INVALID_JSON those of the line before its fault */
    uint64_t lines; /* how many answers of lines were written, or are needed */
} kormaglen_answer;

typedef struct kormaglen_line_answer {
    uint32_t status; /* of kormaglen_line_status */
    uint32_t field;  /* the field whose value is refused, with 2 to 6; of kormaglen_json_fault, with 1; else 0 */
    uint64_t bytes;  /* how many bytes its document takes in the block; with 1 those of the line before its fault; else 0 */
} kormaglen_line_answer;

typedef struct kormaglen_found_field {
    uint32_t field; /* the field's number */
    uint64_t rest;  /* where the rest of the path begins: the path into the field's JSON objects */
} kormaglen_found_field;

/* A schema that was read once, or none, and the memory that reading lines needs: as much as the longest line took, and 16 KiB at least once
 * a line was read. The caller neither reads nor writes what is in it. */
typedef struct kormaglen_schema {
    void *at;
} kormaglen_schema;

/* A document, or none. The caller neither reads nor writes what is in it. */
typedef struct kormaglen_document {
    void *at;
} kormaglen_document;

/* The library's version, as "0.1.0". A library that was built without its proofs says so: "0.1.0 (unproved)". */
const char *kormaglen_version(void);

/* The words of a status, of a detail (an empty text where the status has none), of a line's status, and of why a line is no JSON object ("a colon
 * was expected"). None is NULL, and none is freed. */
const char *kormaglen_status_text(uint32_t status);
const char *kormaglen_detail_text(uint32_t status, uint32_t detail);
const char *kormaglen_line_status_text(uint32_t status);
const char *kormaglen_json_fault_text(uint32_t fault);

/* Stores the documents of lines of JSON, one after the other in version 2, and answers each line. A line ends at a line feed, and the last
 * may lack it. A line that is refused stores nothing, and the next line follows. bytes is the block's size, lines the number of answers.
 * Refusals: TOO_SMALL, NO_MEMORY, INVALID_JSON, BAD_SCHEMA. */
kormaglen_answer kormaglen_import_lines(
    const uint8_t *schema, size_t schema_len,
    const uint8_t *lines, size_t lines_len,
    uint8_t *block, size_t block_len,
    kormaglen_line_answer *answers, size_t answers_len);

/* Writes the documents of a block, of version 1, 2 or 3, as lines of JSON with the names of the schema's fields, each with a line feed.
 * Refusals: TOO_SMALL, NO_MEMORY, INVALID_JSON, BAD_SCHEMA, BAD_DOCUMENT, WRONG_VERSION. */
kormaglen_answer kormaglen_export_block(
    const uint8_t *schema, size_t schema_len,
    uint32_t version,
    const uint8_t *block, size_t block_len,
    uint8_t *lines, size_t lines_len);

/* Writes the documents of a block, of version 1, 2 or 3, in version 2 or 3.
 * Refusals: TOO_SMALL, NO_MEMORY, BAD_DOCUMENT, WRONG_VERSION. */
kormaglen_answer kormaglen_migrate_block(
    uint32_t from,
    const uint8_t *block, size_t block_len,
    uint32_t to,
    uint8_t *migrated, size_t migrated_len);

/* Finds the field that a path of a query names, as author.name: the field of the whole path, or of the part before the last dot
 * that names one. found is 0 and 0 where there is none. bytes is 0.
 * Refusals: NO_MEMORY, INVALID_JSON, BAD_SCHEMA, NOT_UTF8, NO_FIELD. */
kormaglen_answer kormaglen_find_field(
    const uint8_t *schema, size_t schema_len,
    const uint8_t *path, size_t path_len,
    kormaglen_found_field *found);

/* Writes the encoded facet that a text as /first/second names: the steps with a zero byte between each two of them.
 * Refusals: TOO_SMALL, NO_MEMORY, NOT_UTF8, NOT_A_FACET. */
kormaglen_answer kormaglen_facet_of_text(
    const uint8_t *text, size_t text_len,
    uint8_t *encoded, size_t encoded_len);

/* Writes the text that names an encoded facet.
 * Refusals: TOO_SMALL, NO_MEMORY, NOT_UTF8. */
kormaglen_answer kormaglen_text_of_facet(
    const uint8_t *encoded, size_t encoded_len,
    uint8_t *text, size_t text_len);

/* Writes the terms of a field's values in the documents of a block, of version 1, 2 or 3, in their order: for each the number of its document,
 * from 0, and the term's length, both in eight bytes, the lowest first, and the term. Terms are compared as their bytes, by memcmp and then
 * by length, and so by field, then by type, then by value. A date is cut to the second, as it is indexed, and a text is whole.
 * Refusals: TOO_SMALL, NO_MEMORY, BAD_DOCUMENT, WRONG_VERSION. */
kormaglen_answer kormaglen_terms_of_block(
    uint32_t field,
    uint32_t version,
    const uint8_t *block, size_t block_len,
    uint8_t *terms, size_t terms_len);

/* Counts documents by the children of a facet. pairs is records in any order: the number of a document and the length of a facet, each in
 * eight bytes, the lowest first, and the encoded facet. What is written is a record for each child of parent at or below which a facet of the
 * pairs lies, in the order of facets: how many documents have a facet at or below that child (a document counts once for a child), the length
 * of the encoded child, both in eight bytes, the lowest first, and the encoded child. place is where in pairs the first record begins that is
 * cut short or whose facet is not UTF-8.
 * Refusals: TOO_SMALL, NO_MEMORY, NOT_UTF8 where parent is not UTF-8, BAD_PAIRS. */
kormaglen_answer kormaglen_count_facets(
    const uint8_t *parent, size_t parent_len,
    const uint8_t *pairs, size_t pairs_len,
    uint8_t *counts, size_t counts_len);

/* Writes the term of a text. The terms of all texts that begin with it begin with this term.
 * Refusals: TOO_SMALL, NO_MEMORY, NOT_UTF8. */
kormaglen_answer kormaglen_term_of_text(
    uint32_t field,
    const uint8_t *text, size_t text_len,
    uint8_t *term, size_t term_len);

/* Writes the text of a term's value, in UTF-8: a text as it is, a number in decimal, true or false, a date, a facet, bytes and an address as
 * the library's JSON has them; of a term of a value in a JSON object the text of that value. kormaglen_schema_terms_of_text reads such a text.
 * Refusals: TOO_SMALL, NO_MEMORY, NOT_A_TERM. */
kormaglen_answer kormaglen_text_of_term(
    const uint8_t *term, size_t term_len,
    uint8_t *text, size_t text_len);

/* Writes the least byte string above all that begin with a prefix: the terms that begin with it are those from the prefix on and below
 * what is written.
 * Refusals: TOO_SMALL, NO_MEMORY, NO_END. */
kormaglen_answer kormaglen_end_of_prefix(
    const uint8_t *prefix, size_t prefix_len,
    uint8_t *end, size_t end_len);

/* Reads a schema's JSON, and has the handle hold the schema. What it held before is given up, and after a refusal it is closed. bytes is 0.
 * Refusals: NO_MEMORY, INVALID_JSON, BAD_SCHEMA. */
kormaglen_answer kormaglen_schema_open(
    const uint8_t *json, size_t json_len,
    kormaglen_schema *schema);

/* Gives up the schema. A handle that is closed stays closed, and NULL is passed over. */
void kormaglen_schema_close(kormaglen_schema *schema);

/* Writes the schema as JSON: each option is written out, and the keys of an object stand in the order of their bytes.
 * Refusals: TOO_SMALL, NO_MEMORY, CLOSED. */
kormaglen_answer kormaglen_schema_to_json(
    kormaglen_schema *schema,
    uint8_t *text, size_t text_len);

/* As kormaglen_import_lines, by the handle's schema.
 * Refusals: TOO_SMALL, NO_MEMORY, CLOSED. */
kormaglen_answer kormaglen_schema_import_lines(
    kormaglen_schema *schema,
    const uint8_t *lines, size_t lines_len,
    uint8_t *block, size_t block_len,
    kormaglen_line_answer *answers, size_t answers_len);

/* As kormaglen_export_block, by the handle's schema.
 * Refusals: TOO_SMALL, NO_MEMORY, BAD_DOCUMENT, WRONG_VERSION, CLOSED. */
kormaglen_answer kormaglen_schema_export_block(
    kormaglen_schema *schema,
    uint32_t version,
    const uint8_t *block, size_t block_len,
    uint8_t *lines, size_t lines_len);

/* Writes the values of the field that has this name by the handle's schema in the documents of a block, of version 1, 2 or 3, in their order:
 * for each the number of its document, from 0, its kind of kormaglen_value_kind and its length, each in eight bytes, the lowest first, and its
 * bytes. Values of other fields are tested, and passed over. The name is the whole name of a field, and no path.
 * Refusals: TOO_SMALL, NO_MEMORY, NOT_UTF8, NO_FIELD, BAD_DOCUMENT, WRONG_VERSION, CLOSED. */
kormaglen_answer kormaglen_schema_values_of_block(
    kormaglen_schema *schema,
    const uint8_t *name, size_t name_len,
    uint32_t version,
    const uint8_t *block, size_t block_len,
    uint8_t *values, size_t values_len);

/* Writes the terms of the documents of a block, of version 1, 2 or 3, as kormaglen_terms_of_block, of all fields that are indexed by the
 * handle's schema, and also of the values in JSON objects: those of each document, in their order. For each term that is three numbers in
 * eight bytes each, the lowest first, and then bytes: the number of its document, from 0; how many of its first bytes are those of the term
 * before it, which is 0 for the first term of a document; the length of the rest; and the rest. So what is written is in proportion to the
 * block, however long the keys are.
 *
 * A document that has a value without a term by the schema is refused where with_faults is 0. Where it is not, such a document has one record:
 * its number; KORMAGLEN_NO_TERMS, which is 2^64 - 1; the length 16; and then 15 to 18 of kormaglen_document_detail, and the number of the
 * field whose value has no term, in eight bytes each, the lowest first. A document that can't be read is refused in both cases.
 * Refusals: TOO_SMALL, NO_MEMORY, BAD_DOCUMENT, WRONG_VERSION, CLOSED. */
kormaglen_answer kormaglen_schema_terms_of_block(
    kormaglen_schema *schema,
    uint32_t version,
    uint32_t with_faults,
    const uint8_t *block, size_t block_len,
    uint8_t *terms, size_t terms_len);

/* As kormaglen_find_field, by the handle's schema.
 * Refusals: NOT_UTF8, NO_FIELD, CLOSED. */
kormaglen_answer kormaglen_schema_find_field(
    kormaglen_schema *schema,
    const uint8_t *path, size_t path_len,
    kormaglen_found_field *found);

/* Writes the terms that a text of a query has at what the path names by the handle's schema, in their order: each after its own length in
 * eight bytes, the lowest first. In a field that is not of JSON objects it is the one term of the value that the text writes: a number in
 * decimal, true or false, a date by RFC 3339, a facet's path, base64, an address, or the text itself. At a path into JSON objects the text has
 * the term of itself, and also those of the number, the truth value and the date that it writes. The terms are those that documents have
 * which hold such a value; a text is whole, and a date is cut to the second.
 * Refusals: TOO_SMALL, NO_MEMORY, NOT_UTF8, NO_FIELD, BAD_QUERY, CLOSED. */
kormaglen_answer kormaglen_schema_terms_of_text(
    kormaglen_schema *schema,
    const uint8_t *path, size_t path_len,
    const uint8_t *text, size_t text_len,
    uint8_t *terms, size_t terms_len);

/* Writes the ranges of terms that a text of a query bounds at what the path names by the handle's schema, in their order: for each range the
 * length of its start and the length of its end, both in eight bytes, the lowest first, then the start and then the end. Terms from the start on
 * and below the end are in the range. The length of an end is 2^64 - 1 where the range has none, and then no bytes stand for it. The text is
 * '*', or two bounds with ' TO ' between them: '[' and ']' stand by a bound that is within the range, '{' and '}' by one that is not, and '*' is no
 * bound, as '[10 TO 20}' and '{2019-10-12T07:20:50Z TO *]'. A field that is not of JSON objects has one range; of dates the second of a bound is
 * within. At a path into JSON objects there is a range for each kind of value that both bounds write: dates, numbers below 2^63, truth values,
 * texts, numbers from 2^63 on.
 * Refusals: TOO_SMALL, NO_MEMORY, NOT_UTF8, NO_FIELD, BAD_QUERY, CLOSED. */
kormaglen_answer kormaglen_schema_ranges_of_text(
    kormaglen_schema *schema,
    const uint8_t *path, size_t path_len,
    const uint8_t *text, size_t text_len,
    uint8_t *ranges, size_t ranges_len);

/* Reads the document with which the bytes begin, of version 1, 2 or 3, and has the handle hold it, in the memory of what it held before.
 * bytes is how many bytes the document takes. After a refusal the handle is closed.
 * Refusals: NO_MEMORY, BAD_DOCUMENT with place 0, WRONG_VERSION. */
kormaglen_answer kormaglen_document_read(
    uint32_t version,
    const uint8_t *bytes, size_t bytes_len,
    kormaglen_document *document);

/* Makes the document of a line of JSON, and has the handle hold it, in the memory of what it held before. bytes is 0, but with BAD_LINE of
 * a line that is no JSON object. After a refusal the document's handle is closed.
 * Refusals: NO_MEMORY, BAD_LINE, CLOSED. */
kormaglen_answer kormaglen_document_parse(
    kormaglen_schema *schema,
    const uint8_t *line, size_t line_len,
    kormaglen_document *document);

/* Writes the document as JSON with the names of the schema's fields, without a line feed. Values of fields that the schema does not have are
 * left out.
 * Refusals: TOO_SMALL, NO_MEMORY, CLOSED. */
kormaglen_answer kormaglen_document_to_json(
    kormaglen_document *document,
    kormaglen_schema *schema,
    uint8_t *text, size_t text_len);

/* Writes the values of stored fields, as version 2 or 3 has them.
 * Refusals: TOO_SMALL, NO_MEMORY, FOREIGN_FIELD, WRONG_VERSION, CLOSED. */
kormaglen_answer kormaglen_document_write(
    kormaglen_document *document,
    kormaglen_schema *schema,
    uint32_t version,
    uint8_t *bytes, size_t bytes_len);

/* Gives up the document. A handle that is closed stays closed, and NULL is passed over. */
void kormaglen_document_close(kormaglen_document *document);

#ifdef __cplusplus
}
#endif

#endif
