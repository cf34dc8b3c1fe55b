/* The values of one field of a document: kormaglen_value gives the first one, and the table kormaglen_values all of them. */
#include "extension.h"

#include <inttypes.h>
#include <stdio.h>

enum { VERSION = 1, DOCUMENT = 2, FIELD = 3, VALUE = 0, KIND = 1, COLUMNS = 2, RECORD = 24, ROOM = 1024 };

typedef struct field_values {
    opened_schema *schema;
    uint32_t version;
    bytes blob, field;
} field_values;

/* A value: its kind, of kormaglen_value_kind, and its bytes. */
typedef struct value {
    uint64_t kind;
    bytes bytes;
} value;

static kormaglen_answer write_values(void *state, uint8_t *start, size_t len) {
    const field_values *of = state;
    return kormaglen_schema_values_of_block(&of->schema->schema, of->field.start, of->field.len, of->version, of->blob.start, of->blob.len,
                                            start, len);
}

/* A record is the number of the document, the kind, the length, and the bytes. */
static value value_at(const uint8_t *record) {
    return (value){number_at(record + 8), {record + RECORD, (size_t)number_at(record + 16)}};
}

static size_t record_len(const uint8_t *record) {
    return RECORD + value_at(record).bytes.len;
}

static void give_unsigned(call *it, uint64_t number) {
    if (number <= INT64_MAX) {
        sqlite3_result_int64(it->context, (sqlite3_int64)number);
    } else {
        char digits[24];
        snprintf(digits, sizeof digits, "%" PRIu64, number);
        sqlite3_result_text(it->context, digits, -1, SQLITE_TRANSIENT);
    }
}

/* Ends the call with a value, as the type that SQLite has for it. */
static void give_value(call *it, value of) {
    const uint8_t *start = of.bytes.start;
    switch (of.kind) {
    case KORMAGLEN_VALUE_TEXT:
    case KORMAGLEN_VALUE_JSON: sqlite3_result_text64(it->context, (const char *)start, of.bytes.len, SQLITE_TRANSIENT, SQLITE_UTF8); break;
    case KORMAGLEN_VALUE_U64: give_unsigned(it, number_at(start)); break;
    case KORMAGLEN_VALUE_I64: sqlite3_result_int64(it->context, (sqlite3_int64)number_at(start)); break;
    case KORMAGLEN_VALUE_BOOL: sqlite3_result_int(it->context, start[0]); break;
    case KORMAGLEN_VALUE_DATE: give_date(it, (int64_t)number_at(start)); break;
    case KORMAGLEN_VALUE_FACET: give_facet(it, of.bytes); break;
    case KORMAGLEN_VALUE_BYTES: sqlite3_result_blob64(it->context, start, of.bytes.len, SQLITE_TRANSIENT); break;
    case KORMAGLEN_VALUE_IP_ADDR: give_address(it, start); break;
    default: break; /* NULL */
    }
}

static bool value_arguments(call *it, field_values *of) {
    of->schema = it->schema;
    if (!version_argument(it, VERSION, 1, &of->version) || !blob_argument(it, DOCUMENT, &of->blob) || !path_argument(it, FIELD, &of->field)) {
        return false;
    }
    note_size(it->schema, of->blob.len);
    /* (no bytes are no document, but they are a block, of none) */
    return of->blob.len > 0 || read_document(it, of->version, of->blob, &it->schema->document);
}

/* A second document is seen if it has a value of the field. */
static bool expect_one_document(call *it, const uint8_t *records, size_t len) {
    for (size_t at = 0; at < len; at += record_len(records + at)) {
        if (number_at(records + at) > 0) {
            return fail_argument(it, DOCUMENT, "it is more than one document");
        }
    }
    return true;
}

/* Gives the first of the values, or NULL where there is none. */
static void give_first(call *it, const uint8_t *records, size_t len) {
    if (expect_one_document(it, records, len) && len > 0) {
        give_value(it, value_at(records));
    }
}

void give_first_value(call *it) {
    field_values of;
    if (!schema_argument(it) || !value_arguments(it, &of)) {
        return;
    }
    /* (most values need no memory but this) */
    uint8_t room[ROOM];
    kormaglen_answer answer = write_values(&of, room, sizeof room);
    buffer values = {0};
    if (answer.status == KORMAGLEN_OK) {
        give_first(it, room, (size_t)answer.bytes);
    } else if (answer.status != KORMAGLEN_TOO_SMALL) {
        refuse(it, answer);
    } else if (reserve(it, &values, (size_t)answer.bytes) && append(it, &values, write_values, &of)) {
        give_first(it, values.start, values.len);
    }
    sqlite3_free(values.start);
}

static bool fill(call *it, cursor *to) {
    field_values of;
    return cursor_schema(it, to) && value_arguments(it, &of) && read_document(it, of.version, of.blob, &it->schema->document)
        && append(it, &to->records, write_values, &of);
}

/* The words for kinds, by their numbers: those of types in the schema's JSON, and `null` and `json`. */
static const char *const WORDS[] = {"null", "text", "u64", "i64", "bool", "date", "facet", "bytes", "ip_addr", "json"};

static void give_column(call *it, const cursor *at, int column) {
    value of = value_at(at->records.start + at->at);
    if (column == VALUE) {
        give_value(it, of);
    } else if (of.kind < sizeof WORDS / sizeof *WORDS) {
        sqlite3_result_text(it->context, WORDS[of.kind], -1, SQLITE_STATIC);
    }
}

const table DOCUMENT_VALUES = {
    .signature = {"kormaglen_values", {"schema", "version", "document", "field"}},
    .declaration = "CREATE TABLE it(value, kind TEXT, kormaglen_schema HIDDEN, kormaglen_version HIDDEN, kormaglen_document HIDDEN, "
                   "kormaglen_field HIDDEN)",
    .columns = COLUMNS,
    .rows = 2,
    .fill = fill,
    .record_len = record_len,
    .give_column = give_column,
};
