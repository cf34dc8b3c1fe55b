/* The library's version, and the words of its numbers. */
#include "kormaglen.h"

const char *kormaglen_version(void) {
#ifdef KORMAGLEN_UNPROVED
    return KORMAGLEN_VERSION " (unproved)";
#else
    return KORMAGLEN_VERSION;
#endif
}

const char *kormaglen_status_text(uint32_t status) {
    switch (status) {
    case KORMAGLEN_OK: return "done";
    case KORMAGLEN_TOO_SMALL: return "a buffer is too small";
    case KORMAGLEN_NO_MEMORY: return "memory was refused";
    case KORMAGLEN_NOT_UTF8: return "a text is not UTF-8";
    case KORMAGLEN_NOT_A_FACET: return "a facet's text begins with /";
    case KORMAGLEN_INVALID_JSON: return "the schema is not JSON";
    case KORMAGLEN_BAD_SCHEMA: return "the JSON describes no schema";
    case KORMAGLEN_NO_FIELD: return "the path names no field";
    case KORMAGLEN_BAD_DOCUMENT: return "a document is refused";
    case KORMAGLEN_WRONG_VERSION: return "there is no such version of the store";
    case KORMAGLEN_NO_END: return "no byte string is above all that begin with the prefix";
    case KORMAGLEN_BAD_LINE: return "a line has no document";
    case KORMAGLEN_FOREIGN_FIELD: return "a document has a field that the schema does not have";
    case KORMAGLEN_BAD_QUERY: return "a text of a query has no terms, or no ranges";
    case KORMAGLEN_BAD_PAIRS: return "a pair of a document and a facet is cut short, or its facet is not UTF-8";
    case KORMAGLEN_CLOSED: return "a handle is closed";
    case KORMAGLEN_BAD_ARGUMENT: return "an argument can't be used";
    case KORMAGLEN_NOT_A_TERM: return "the bytes are no term";
    default: return "unknown status";
    }
}

static const char *schema_text(uint32_t detail) {
    switch (detail) {
    case KORMAGLEN_SCHEMA_BAD_NAME: return "a name is empty or begins with -";
    case KORMAGLEN_SCHEMA_SAME_NAME: return "a field has this name already";
    case KORMAGLEN_SCHEMA_TOO_MANY_FIELDS: return "there are 4294967295 fields already";
    case KORMAGLEN_SCHEMA_BAD_ENTRY: return "a schema is an array, and each of its entries an object";
    case KORMAGLEN_SCHEMA_FLOAT_FIELD: return "the type f64 is not supported";
    case KORMAGLEN_SCHEMA_NAME: return "\"name\": a text is wanted";
    case KORMAGLEN_SCHEMA_TYPE:
        return "\"type\": one of text, u64, i64, bool, date, facet, bytes, json_object and ip_addr is wanted";
    case KORMAGLEN_SCHEMA_OPTIONS: return "\"options\": an object is wanted";
    case KORMAGLEN_SCHEMA_INDEXED: return "\"indexed\": true or false is wanted";
    case KORMAGLEN_SCHEMA_STORED: return "\"stored\": true or false is wanted";
    case KORMAGLEN_SCHEMA_FIELDNORMS: return "\"fieldnorms\": true or false is wanted";
    case KORMAGLEN_SCHEMA_FAST: return "\"fast\": true or false is wanted";
    case KORMAGLEN_SCHEMA_FAST_OF_TEXT: return "\"fast\": true, false or an object with \"with_tokenizer\" is wanted";
    case KORMAGLEN_SCHEMA_COERCE: return "\"coerce\": true or false is wanted";
    case KORMAGLEN_SCHEMA_PRECISION:
        return "\"precision\": one of seconds, milliseconds, microseconds and nanoseconds is wanted";
    case KORMAGLEN_SCHEMA_INDEXING: return "\"indexing\": an object or null is wanted";
    case KORMAGLEN_SCHEMA_RECORD: return "\"record\" of \"indexing\": one of basic, freq and position is wanted";
    case KORMAGLEN_SCHEMA_INDEXING_FIELDNORMS: return "\"fieldnorms\" of \"indexing\": true or false is wanted";
    case KORMAGLEN_SCHEMA_TOKENIZER: return "\"tokenizer\" of \"indexing\": a text is wanted";
    case KORMAGLEN_SCHEMA_WITH_TOKENIZER: return "\"with_tokenizer\" of \"fast\": a text is wanted";
    case KORMAGLEN_SCHEMA_EXPAND_DOTS: return "\"expand_dots_enabled\": true or false is wanted";
    default: return "";
    }
}

static const char *document_text(uint32_t detail) {
    switch (detail) {
    case KORMAGLEN_DOCUMENT_UNEXPECTED_END: return "the bytes end too early";
    case KORMAGLEN_DOCUMENT_UNKNOWN_TYPE: return "a type's code is unknown";
    case KORMAGLEN_DOCUMENT_UNKNOWN_EXTENSION: return "an extension's code is unknown";
    case KORMAGLEN_DOCUMENT_FLOAT: return "a value is a float, which is not supported";
    case KORMAGLEN_DOCUMENT_BAD_NUMBER: return "a number of variable length is 2^64 or more, or has more than ten bytes";
    case KORMAGLEN_DOCUMENT_BAD_BOOL: return "a truth value is neither 0 nor 1";
    case KORMAGLEN_DOCUMENT_NOT_UTF8: return "a text is not UTF-8";
    case KORMAGLEN_DOCUMENT_ODD_OBJECT: return "the number of an object's keys and values is odd";
    case KORMAGLEN_DOCUMENT_DATE_RANGE: return "a date's nanoseconds do not fit 64 bits";
    case KORMAGLEN_DOCUMENT_OLD_JSON: return "an object of an older store is not JSON";
    case KORMAGLEN_DOCUMENT_OLD_FLOAT: return "an object of an older store has a number that is not a whole 64-bit number";
    case KORMAGLEN_DOCUMENT_KEY_NO_TEXT: return "a key is not a text";
    case KORMAGLEN_DOCUMENT_NO_ROOM: return "the document needs more than 4294967295 bytes";
    case KORMAGLEN_DOCUMENT_TOO_LONG: return "more than 2^64 - 1 bytes were read";
    case KORMAGLEN_DOCUMENT_FOREIGN_FIELD: return "a field is none of the schema's";
    case KORMAGLEN_DOCUMENT_WRONG_TYPE: return "a value is not of its field's type";
    case KORMAGLEN_DOCUMENT_NUL_IN_KEY: return "a key has U+0000";
    case KORMAGLEN_DOCUMENT_NO_TERM: return "a facet, bytes, an address or a pre-tokenized text stands in a JSON value";
    default: return "";
    }
}

static const char *query_text(uint32_t detail) {
    switch (detail) {
    case KORMAGLEN_QUERY_NOT_INDEXED: return "the field is not indexed";
    case KORMAGLEN_QUERY_PATH_ENDS: return "the path ends at a field of JSON objects";
    case KORMAGLEN_QUERY_NUL_IN_PATH: return "the path has U+0000";
    case KORMAGLEN_QUERY_NO_RANGE: return "a range is * or two bounds as in [10 TO 20}";
    case KORMAGLEN_QUERY_BACKWARDS: return "the bounds of the range run backwards";
    case KORMAGLEN_QUERY_OVERFLOW: return "a number does not fit the field's type";
    case KORMAGLEN_QUERY_WRONG_TYPE: return "a text is not the number, the truth value or the date that the field wants";
    case KORMAGLEN_QUERY_BAD_TEXT: return "a date is out of its range, or a text is not an address or a facet";
    case KORMAGLEN_QUERY_BAD_BASE64: return "a text is not base64";
    case KORMAGLEN_QUERY_FLOAT: return "a number is not whole, or does not fit 64 bits";
    default: return "";
    }
}

static const char *argument_text(uint32_t detail) {
    switch (detail) {
    case KORMAGLEN_ARGUMENT_NULL: return "a pointer is NULL";
    case KORMAGLEN_ARGUMENT_TOO_LARGE: return "a length is too large";
    case KORMAGLEN_ARGUMENT_UNALIGNED: return "a pointer is not aligned";
    case KORMAGLEN_ARGUMENT_OVERLAP: return "a buffer overlaps another one";
    default: return "";
    }
}

const char *kormaglen_line_status_text(uint32_t status) {
    switch (status) {
    case KORMAGLEN_LINE_STORED: return "stored";
    case KORMAGLEN_LINE_INVALID_JSON: return "the line is not a JSON object";
    case KORMAGLEN_LINE_OVERFLOW: return "a number does not fit the field's type";
    case KORMAGLEN_LINE_WRONG_TYPE: return "a value is of another kind than the field's";
    case KORMAGLEN_LINE_BAD_TEXT: return "a date is out of its range, or a text is not an address or a facet";
    case KORMAGLEN_LINE_BAD_BASE64: return "a text is not base64";
    case KORMAGLEN_LINE_FLOAT: return "a number is not whole, or does not fit 64 bits";
    case KORMAGLEN_LINE_NO_ROOM: return "the values need more than 4294967295 bytes";
    default: return "unknown status of a line";
    }
}

const char *kormaglen_json_fault_text(uint32_t fault) {
    switch (fault) {
    case KORMAGLEN_JSON_NOT_UTF8: return "it is not UTF-8";
    case KORMAGLEN_JSON_TOO_DEEP: return "the list nests too deep";
    case KORMAGLEN_JSON_NUMBER_TOO_LARGE: return "the number is too large";
    case KORMAGLEN_JSON_NO_OBJECT: return "it is JSON, but no object";
    case KORMAGLEN_JSON_VALUE: return "a value was expected";
    case KORMAGLEN_JSON_VALUE_OR_ARRAY_END: return "a value or ] was expected";
    case KORMAGLEN_JSON_KEY: return "a key was expected";
    case KORMAGLEN_JSON_KEY_OR_OBJECT_END: return "a key or } was expected";
    case KORMAGLEN_JSON_COLON: return "a colon was expected";
    case KORMAGLEN_JSON_COMMA_OR_ARRAY_END: return "a comma or ] was expected";
    case KORMAGLEN_JSON_COMMA_OR_OBJECT_END: return "a comma or } was expected";
    case KORMAGLEN_JSON_TEXT_END: return "the end of the text was expected";
    case KORMAGLEN_JSON_STRING_CHARACTER: return "a character or the closing quote was expected";
    case KORMAGLEN_JSON_ESCAPE: return "one of \"\\/bfnrtu was expected";
    case KORMAGLEN_JSON_HEXADECIMAL_DIGIT: return "a hexadecimal digit was expected";
    case KORMAGLEN_JSON_HEXADECIMAL_DIGIT_BELOW_C: return "a hexadecimal digit below c was expected";
    case KORMAGLEN_JSON_LOW_SURROGATE: return "the escape of a low surrogate was expected";
    case KORMAGLEN_JSON_DIGIT: return "a digit was expected";
    case KORMAGLEN_JSON_DIGIT_OR_SIGN: return "a digit or a sign was expected";
    case KORMAGLEN_JSON_WORD: return "the rest of true, false or null was expected";
    default: return "";
    }
}

const char *kormaglen_detail_text(uint32_t status, uint32_t detail) {
    switch (status) {
    case KORMAGLEN_BAD_SCHEMA: return schema_text(detail);
    case KORMAGLEN_BAD_DOCUMENT: return document_text(detail);
    case KORMAGLEN_BAD_LINE:
        return detail >= KORMAGLEN_LINE_INVALID_JSON && detail <= KORMAGLEN_LINE_NO_ROOM ? kormaglen_line_status_text(detail) : "";
    case KORMAGLEN_BAD_QUERY: return query_text(detail);
    case KORMAGLEN_BAD_ARGUMENT: return argument_text(detail);
    default: return "";
    }
}
