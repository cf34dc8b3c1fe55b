/* kormaglen_terms(schema, version, document, faults): the terms of a document's values, or why it has none. */
#include "extension.h"

#include "utils/builtins.h"

enum { VERSION = 1, DOCUMENT = 2, FAULTS = 3, HEAD = 24 };

typedef struct document_terms {
    opened_schema *schema;
    uint32_t version;
    bytes document;
    bool with_faults;
} document_terms;

static kormaglen_answer write_terms(void *state, uint8_t *start, size_t len) {
    const document_terms *of = state;
    return kormaglen_schema_terms_of_block(&of->schema->schema, of->version, of->with_faults, of->document.start, of->document.len, start,
                                           len);
}

/* A record is the number of the document, how many bytes its term shares with the one before it, the length of the rest, and the rest. */
static uint64_t shared_len(const uint8_t *record) {
    return number_at(record + 8);
}

static bytes rest_of(const uint8_t *record) {
    return (bytes){record + HEAD, (size_t)number_at(record + 16)};
}

static size_t record_len(const uint8_t *record) {
    return HEAD + rest_of(record).len;
}

/* Whether a record says why its document has no terms. Then the rest is the reason, and the number of the field whose value has none. */
static bool is_fault(const uint8_t *record) {
    return shared_len(record) == KORMAGLEN_NO_TERMS;
}

/* Puts the rest of a record's term after what it shares with the term before. */
static void take_term(const call *it, const uint8_t *record, buffer *term) {
    const bytes rest = rest_of(record);
    term->len = (size_t)shared_len(record);
    reserve(it, term, rest.len);
    memcpy(term->start + term->len, rest.start, rest.len);
    term->len += rest.len;
}

/* A term begins with the number of its field, the highest byte first. */
static uint64_t field_of(bytes term) {
    uint64_t field = 0;
    for (size_t i = 0; i < 4 && i < term.len; i++) {
        field = field << 8 | term.start[i];
    }
    return field;
}

static text *name_of(const call *it, uint64_t field) {
    return field < it->schema->fields ? make_text(it, it->schema->names[field]) : NULL;
}

/* A row has the name of a field, a term, its value as a text, and a fault. What is NULL here is NULL there. */
static void add_columns(const call *it, text *name, bytea *term, text *value, text *fault) {
    add_row(it, (Datum[]){PointerGetDatum(name), PointerGetDatum(term), PointerGetDatum(value), PointerGetDatum(fault)},
            (bool[]){name == NULL, term == NULL, value == NULL, fault == NULL});
}

static void add_term(const call *it, bytes term) {
    add_columns(it, name_of(it, field_of(term)), make_blob(it, term), term_value(it, DOCUMENT, term), NULL);
}

static void add_fault(const call *it, const uint8_t *record) {
    const uint8_t *rest = rest_of(record).start;
    const char *why = kormaglen_detail_text(KORMAGLEN_BAD_DOCUMENT, (uint32_t)number_at(rest));
    add_columns(it, name_of(it, number_at(rest + 8)), NULL, NULL, cstring_to_text(why));
}

/* Adds a row for each record. */
static void add_rows(const call *it, const buffer *records) {
    /* (it takes its memory before the rows do, and so it stays from one to the next) */
    buffer term = {0};
    reserve(it, &term, 1);
    const MemoryContext before = begin_rows(it);
    for (size_t at = 0; at < records->len; at += record_len(records->start + at)) {
        const uint8_t *record = records->start + at;
        if (is_fault(record)) {
            add_fault(it, record);
        } else {
            take_term(it, record, &term);
            add_term(it, (bytes){term.start, term.len});
        }
    }
    end_rows(before);
}

PG_FUNCTION_INFO_V1(sql_terms);
Datum sql_terms(PG_FUNCTION_ARGS) {
    static const signature NAMES = {"kormaglen_terms", {"schema", "version", "document", "faults"}};
    call it = {.signature = &NAMES, .fcinfo = fcinfo};
    buffer records = {0};
    schema_argument(&it);
    document_terms of = {it.schema, version_argument(&it, VERSION, 1), blob_argument(&it, DOCUMENT), PG_GETARG_BOOL(FAULTS)};
    note_size(it.schema, of.document.len);
    read_document(&it, DOCUMENT, of.version, of.document, &it.schema->document);
    reserve(&it, &records, guess_size(of.document.len, 4));
    append(&it, DOCUMENT, &records, write_terms, &of);
    read_names(it.schema);
    add_rows(&it, &records);
    return (Datum)0;
}
