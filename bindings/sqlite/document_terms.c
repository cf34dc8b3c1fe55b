/* kormaglen_terms(schema, version, document [, faults]): the terms of a document's values, or why it has none. */
#include "extension.h"

#include <string.h>

enum { VERSION = 1, DOCUMENT = 2, FAULTS = 3 };
enum { FIELD, TYPE, TERM, VALUE, FAULT, COLUMNS };
enum { HEAD = 24, LARGEST_MULTIPLIED = 1 << 22 };

typedef struct document_terms {
    opened_schema *schema;
    uint32_t version;
    bytes blob;
    bool with_faults;
} document_terms;

static kormaglen_answer write_terms(void *state, uint8_t *start, size_t len) {
    const document_terms *of = state;
    return kormaglen_schema_terms_of_block(&of->schema->schema, of->version, of->with_faults, of->blob.start, of->blob.len, start, len);
}

/* A record is the number of the document, how many bytes its term shares with the one before it, the length of the rest, and the rest. */
static uint64_t shared_len(const uint8_t *record) {
    return number_at(record + 8);
}

static bytes rest_of(const uint8_t *record) {
    return (bytes){record + HEAD, (size_t)number_at(record + 16)};
}

static size_t record_len(const uint8_t *record) {
    return HEAD + rest_of(record).len;
}

/* Whether a record says why its document has no terms. Then the rest is the reason, and the number of the field whose value has none. */
static bool is_fault(const uint8_t *record) {
    return shared_len(record) == KORMAGLEN_NO_TERMS;
}

/* Room for the records of most documents, so that the library is called once; for those of a long one, no more than it has bytes. */
static size_t guess_size(size_t len) {
    return len < LARGEST_MULTIPLIED ? 4 * len : len;
}

static bool fill(call *it, cursor *to) {
    document_terms of = {0};
    if (!cursor_schema(it, to) || !version_argument(it, VERSION, 1, &of.version) || !blob_argument(it, DOCUMENT, &of.blob)
        || !truth_argument(it, FAULTS, &of.with_faults)) {
        return false;
    }
    of.schema = it->schema;
    note_size(it->schema, of.blob.len);
    return read_document(it, of.version, of.blob, &it->schema->document) && read_names(it)
        && reserve(it, &to->records, guess_size(of.blob.len)) && append(it, &to->records, write_terms, &of);
}

/* Puts the rest of the record's term after what it shares with the term before. */
static bool enter_record(call *it, cursor *at) {
    const uint8_t *record = at->records.start + at->at;
    if (is_fault(record)) {
        return true;
    }
    const bytes rest = rest_of(record);
    at->term.len = (size_t)shared_len(record);
    if (!reserve_often(it, &at->term, rest.len)) {
        return false;
    }
    memcpy(at->term.start + at->term.len, rest.start, rest.len);
    at->term.len += rest.len;
    return true;
}

/* The word that the schema's JSON has for the type of a term's value. */
static const char *word_of(bytes term) {
    switch (type_of(term)) {
    case 's': return "text";
    case 'u': return "u64";
    case 'i': return "i64";
    case 'o': return "bool";
    case 'd': return "date";
    case 'h': return "facet";
    case 'b': return "bytes";
    case 'p': return "ip_addr";
    default: return NULL;
    }
}

/* A term begins with the number of its field, the highest byte first. */
static uint64_t field_of(bytes term) {
    uint64_t field = 0;
    for (size_t i = 0; i < 4 && i < term.len; i++) {
        field = field << 8 | term.start[i];
    }
    return field;
}

static void give_name(call *it, const opened_schema *schema, uint64_t field) {
    if (field < schema->fields) {
        sqlite3_result_value(it->context, schema->names[field]);
    }
}

static void give_column(call *it, const cursor *at, int column) {
    const bytes term = {at->term.start, at->term.len};
    switch (column) {
    case FIELD: give_name(it, at->schema, field_of(term)); break;
    case TYPE: sqlite3_result_text(it->context, word_of(term), -1, SQLITE_STATIC); break;
    case TERM: sqlite3_result_blob64(it->context, term.start, term.len, SQLITE_TRANSIENT); break;
    case VALUE: give_term_text(it, term); break;
    default: break; /* NULL: it is no fault */
    }
}

/* All other columns of a fault are NULL. */
static void give_fault(call *it, const cursor *at, int column) {
    const uint8_t *rest = rest_of(at->records.start + at->at).start;
    if (column == FIELD) {
        give_name(it, at->schema, number_at(rest + 8));
    } else if (column == FAULT) {
        const char *why = kormaglen_detail_text(KORMAGLEN_BAD_DOCUMENT, (uint32_t)number_at(rest));
        sqlite3_result_text(it->context, why, -1, SQLITE_STATIC);
    }
}

static void give_column_or_fault(call *it, const cursor *at, int column) {
    if (is_fault(at->records.start + at->at)) {
        give_fault(it, at, column);
    } else {
        give_column(it, at, column);
    }
}

const table DOCUMENT_TERMS = {
    .signature = {"kormaglen_terms", {"schema", "version", "document", "faults"}},
    .declaration = "CREATE TABLE it(field TEXT, type TEXT, term BLOB, value TEXT, fault TEXT, kormaglen_schema HIDDEN, "
                   "kormaglen_version HIDDEN, kormaglen_document HIDDEN, kormaglen_faults HIDDEN)",
    .columns = COLUMNS,
    .has_option = true,
    .rows = 16,
    .fill = fill,
    .record_len = record_len,
    .enter_record = enter_record,
    .give_column = give_column_or_fault,
};
