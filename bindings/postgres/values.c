/* Values of one field of a document. */
#include "extension.h"

#include "datatype/timestamp.h"
#include "utils/builtins.h"
#include "utils/memutils.h"
#include "utils/timestamp.h"

enum { VERSION = 1, DOCUMENT = 2, FIELD = 3 };

typedef struct field_values {
    opened_schema *schema;
    uint32_t version;
    bytes document, field;
} field_values;

/* A value: its kind, of kormaglen_value_kind, and its bytes. */
typedef struct value {
    uint64_t kind;
    bytes bytes;
} value;

/* The words for kinds, by their numbers. */
static const char *const KINDS[] = {"null", "text", "u64", "i64", "bool", "date", "facet", "bytes", "ip_addr", "json"};

static kormaglen_answer write_values(void *state, uint8_t *start, size_t len) {
    const field_values *of = state;
    return kormaglen_schema_values_of_block(&of->schema->schema, of->field.start, of->field.len, of->version, of->document.start,
                                            of->document.len, start, len);
}

/* A record is the number of the document, the kind, the length, and the bytes. */
static value value_at(const uint8_t *record) {
    return (value){number_at(record + 8), {record + 24, (size_t)number_at(record + 16)}};
}

static size_t value_record_len(const uint8_t *record) {
    return 24 + value_at(record).bytes.len;
}

/* The records of the field that a call's arguments name. */
static buffer read_values(call *it) {
    buffer values = {0};
    schema_argument(it);
    field_values of = {it->schema, version_argument(it, VERSION, 1), blob_argument(it, DOCUMENT), text_argument(it, FIELD)};
    note_size(it->schema, of.document.len);
    reserve(it, &values, guess_size(of.document.len, 2));
    append(it, DOCUMENT, &values, write_values, &of);
    for (size_t at = 0; at < values.len; at += value_record_len(values.start + at)) {
        if (number_at(values.start + at) > 0) {
            const char *what = kormaglen_status_text(KORMAGLEN_BAD_DOCUMENT);
            refuse_argument(it, DOCUMENT, ERRCODE_DATA_CORRUPTED, what, "it is more than one document");
        }
    }
    return values;
}

static int64_t integer_of(value of) {
    return (int64_t)number_at(of.bytes.start);
}

/* The text of a value, as the document's JSON has it. None is null. */
static text *text_of(const call *it, value of) {
    char digits[MAXINT8LEN + 1];
    switch (of.kind) {
    case KORMAGLEN_VALUE_TEXT:
    case KORMAGLEN_VALUE_JSON: return make_text(it, of.bytes);
    case KORMAGLEN_VALUE_U64: return cstring_to_text_with_len(digits, pg_ulltoa_n(number_at(of.bytes.start), digits));
    case KORMAGLEN_VALUE_I64: return cstring_to_text_with_len(digits, pg_lltoa(integer_of(of), digits));
    case KORMAGLEN_VALUE_BOOL: return cstring_to_text(of.bytes.start[0] != 0 ? "true" : "false");
    case KORMAGLEN_VALUE_DATE: return print_date(it, DOCUMENT, integer_of(of));
    case KORMAGLEN_VALUE_FACET: return print_facet(it, DOCUMENT, of.bytes);
    case KORMAGLEN_VALUE_BYTES: return cstring_to_text(print_base64(it, of.bytes));
    case KORMAGLEN_VALUE_IP_ADDR: return print_address(it, DOCUMENT, of.bytes.start);
    default: elog(ERROR, "%s: kind %llu", it->signature->name, (unsigned long long)of.kind);
    }
}

/* Reads the first value of the field. Returns false where there is none, or it is null. */
static bool first_value(call *it, value *first) {
    buffer values = read_values(it);
    if (values.len == 0) {
        return false;
    }
    *first = value_at(values.start);
    return first->kind != KORMAGLEN_VALUE_NULL;
}

static const char *word_for(uint64_t kind) {
    return kind < lengthof(KINDS) ? KINDS[kind] : "unknown";
}

/* Refuses a value that the function's type has not. */
static void refuse_kind(const call *it, value of, const char *type) pg_attribute_noreturn();
static void refuse_kind(const call *it, value of, const char *type) {
    const char *field = message_text(text_argument(it, FIELD));
    ereport(ERROR, errcode(ERRCODE_DATATYPE_MISMATCH), errmsg("%s: the value is no %s", it->signature->name, type),
            errdetail("Field \"%s\" has a value of the kind %s.", field != NULL ? field : "", word_for(of.kind)),
            errhint("kormaglen_value gives each value as a text."));
}

PG_FUNCTION_INFO_V1(sql_values);
Datum sql_values(PG_FUNCTION_ARGS) {
    static const signature NAMES = {"kormaglen_values", {"schema", "version", "document", "field"}};
    call it = {.signature = &NAMES, .fcinfo = fcinfo};
    buffer values = read_values(&it);
    const MemoryContext before = begin_rows(&it);
    for (size_t at = 0; at < values.len; at += value_record_len(values.start + at)) {
        const value of = value_at(values.start + at);
        const bool is_null = of.kind == KORMAGLEN_VALUE_NULL;
        text *kind = cstring_to_text(word_for(of.kind));
        text *value = is_null ? NULL : text_of(&it, of);
        add_row(&it, (Datum[]){PointerGetDatum(kind), PointerGetDatum(value)}, (bool[]){false, is_null});
    }
    end_rows(before);
    return (Datum)0;
}

PG_FUNCTION_INFO_V1(sql_value);
Datum sql_value(PG_FUNCTION_ARGS) {
    static const signature NAMES = {"kormaglen_value", {"schema", "version", "document", "field"}};
    call it = {.signature = &NAMES, .fcinfo = fcinfo};
    value first;
    if (!first_value(&it, &first)) {
        PG_RETURN_NULL();
    }
    PG_RETURN_TEXT_P(text_of(&it, first));
}

PG_FUNCTION_INFO_V1(sql_bigint);
Datum sql_bigint(PG_FUNCTION_ARGS) {
    static const signature NAMES = {"kormaglen_bigint", {"schema", "version", "document", "field"}};
    call it = {.signature = &NAMES, .fcinfo = fcinfo};
    value first;
    if (!first_value(&it, &first)) {
        PG_RETURN_NULL();
    }
    if (first.kind != KORMAGLEN_VALUE_U64 && first.kind != KORMAGLEN_VALUE_I64) {
        refuse_kind(&it, first, "whole number");
    }
    if (first.kind == KORMAGLEN_VALUE_U64 && number_at(first.bytes.start) > PG_INT64_MAX) {
        ereport(ERROR, errcode(ERRCODE_NUMERIC_VALUE_OUT_OF_RANGE), errmsg("%s: the number is above those of bigint", NAMES.name),
                errdetail("It is %llu.", (unsigned long long)number_at(first.bytes.start)),
                errhint("kormaglen_value(..)::numeric has it."));
    }
    PG_RETURN_INT64(integer_of(first));
}

PG_FUNCTION_INFO_V1(sql_boolean);
Datum sql_boolean(PG_FUNCTION_ARGS) {
    static const signature NAMES = {"kormaglen_boolean", {"schema", "version", "document", "field"}};
    call it = {.signature = &NAMES, .fcinfo = fcinfo};
    value first;
    if (!first_value(&it, &first)) {
        PG_RETURN_NULL();
    }
    if (first.kind != KORMAGLEN_VALUE_BOOL) {
        refuse_kind(&it, first, "truth value");
    }
    PG_RETURN_BOOL(first.bytes.start[0] != 0);
}

/* Nanoseconds since 1970 as microseconds since 2000, rounded down. All are within PostgreSQL's range. */
static TimestampTz timestamp_of(int64_t nanoseconds) {
    const int64_t microseconds = nanoseconds / 1000 - (nanoseconds % 1000 < 0 ? 1 : 0);
    return microseconds - (POSTGRES_EPOCH_JDATE - UNIX_EPOCH_JDATE) * USECS_PER_DAY;
}

PG_FUNCTION_INFO_V1(sql_timestamptz);
Datum sql_timestamptz(PG_FUNCTION_ARGS) {
    static const signature NAMES = {"kormaglen_timestamptz", {"schema", "version", "document", "field"}};
    call it = {.signature = &NAMES, .fcinfo = fcinfo};
    value first;
    if (!first_value(&it, &first)) {
        PG_RETURN_NULL();
    }
    if (first.kind != KORMAGLEN_VALUE_DATE) {
        refuse_kind(&it, first, "date");
    }
    PG_RETURN_TIMESTAMPTZ(timestamp_of(integer_of(first)));
}

PG_FUNCTION_INFO_V1(sql_bytea);
Datum sql_bytea(PG_FUNCTION_ARGS) {
    static const signature NAMES = {"kormaglen_bytea", {"schema", "version", "document", "field"}};
    call it = {.signature = &NAMES, .fcinfo = fcinfo};
    value first;
    if (!first_value(&it, &first)) {
        PG_RETURN_NULL();
    }
    if (first.kind != KORMAGLEN_VALUE_BYTES && first.kind != KORMAGLEN_VALUE_FACET && first.kind != KORMAGLEN_VALUE_IP_ADDR) {
        refuse_kind(&it, first, "bytes, facet or address");
    }
    PG_RETURN_BYTEA_P(make_blob(&it, first.bytes));
}
