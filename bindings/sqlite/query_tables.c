/* kormaglen_query_terms(schema, path, text) and kormaglen_query_ranges(schema, path, text): all terms and all ranges of a query's text. */
#include "extension.h"

static bool fill_terms(call *it, cursor *to) {
    query of;
    return cursor_schema(it, to) && query_arguments(it, &of) && append_terms(it, &of, &to->records);
}

static void give_term_column(call *it, const cursor *at, int column) {
    (void)column;
    bytes term = term_of(at->records.start + at->at);
    sqlite3_result_blob64(it->context, term.start, term.len, SQLITE_TRANSIENT);
}

static bool fill_ranges(call *it, cursor *to) {
    query of;
    return cursor_schema(it, to) && query_arguments(it, &of) && append_ranges(it, &of, &to->records);
}

static void give_range_column(call *it, const cursor *at, int column) {
    const uint8_t *record = at->records.start + at->at;
    bytes bound = column == 0 ? start_of(record) : end_of(record);
    if (bound.start != NULL) {
        sqlite3_result_blob64(it->context, bound.start, bound.len, SQLITE_TRANSIENT);
    }
}

const table QUERY_TERMS = {
    .signature = {"kormaglen_query_terms", {"schema", "path", "text"}},
    .declaration = "CREATE TABLE it(term BLOB, kormaglen_schema HIDDEN, kormaglen_path HIDDEN, kormaglen_text HIDDEN)",
    .columns = 1,
    .rows = 2,
    .fill = fill_terms,
    .record_len = term_record_len,
    .give_column = give_term_column,
};

const table QUERY_RANGES = {
    .signature = {"kormaglen_query_ranges", {"schema", "path", "text"}},
    .declaration = "CREATE TABLE it(start BLOB, \"end\" BLOB, kormaglen_schema HIDDEN, kormaglen_path HIDDEN, kormaglen_text HIDDEN)",
    .columns = 2,
    .rows = 2,
    .fill = fill_ranges,
    .record_len = range_record_len,
    .give_column = give_range_column,
};
