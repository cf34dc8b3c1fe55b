/* How many documents have a facet at or below each child of a facet. The aggregate kormaglen_facet_pairs puts documents and facets into a blob, as
 * the library's records, and the table kormaglen_facet_counts has the counts as rows. */
#include "extension.h"

#include <string.h>

enum { DOCUMENT = 0, FACET = 1, PARENT = 0, PAIRS = 1, CHILD = 0, COLUMNS = 2, RECORD = 16 };

typedef struct counted {
    bytes parent, pairs;
} counted;

static kormaglen_answer write_counts(void *state, uint8_t *start, size_t len) {
    const counted *of = state;
    return kormaglen_count_facets(of->parent.start, of->parent.len, of->pairs.start, of->pairs.len, start, len);
}

/* A record is a number, the length of an encoded facet or of its text, and that. */
static bytes recorded_facet(const uint8_t *record) {
    return (bytes){record + RECORD, (size_t)number_at(record + 8)};
}

static size_t record_len(const uint8_t *record) {
    return RECORD + recorded_facet(record).len;
}

/* Appends the head of a record. The length is put there when it is known. */
static bool begin_record(call *it, buffer *to, uint64_t number, size_t guess) {
    if (!reserve_often(it, to, RECORD + guess)) {
        return false;
    }
    put_number(to->start + to->len, number);
    put_number(to->start + to->len + 8, 0);
    to->len += RECORD;
    return true;
}

static void end_record(buffer *to, size_t start) {
    put_number(to->start + start + 8, to->len - start - RECORD);
}

/* Appends the encoded facet of an argument: of a text, or a blob that is one, which the library tests when it counts. */
static bool append_facet(call *it, int number, buffer *to) {
    bytes facet;
    if (sqlite3_value_type(it->arguments[number]) != SQLITE_BLOB) {
        return text_argument(it, number, &facet) && append_encoded(it, facet, to);
    }
    if (!blob_argument(it, number, &facet) || !reserve(it, to, facet.len + 1)) {
        return false;
    }
    memcpy(to->start + to->len, facet.start, facet.len);
    to->len += facet.len;
    return true;
}

void add_pair(call *it) {
    sqlite3_int64 document;
    buffer *pairs = sqlite3_aggregate_context(it->context, sizeof *pairs);
    if (pairs == NULL) {
        fail(it, SQLITE_NOMEM);
        return;
    }
    const size_t start = pairs->len;
    if (number_argument(it, DOCUMENT, &document)
        && begin_record(it, pairs, (uint64_t)document, (size_t)sqlite3_value_bytes(it->arguments[FACET]))
        && append_facet(it, FACET, pairs)) {
        end_record(pairs, start);
    }
}

void give_pairs(call *it) {
    /* (SQLite finishes also what failed, and what had no rows) */
    buffer *pairs = sqlite3_aggregate_context(it->context, 0);
    if (pairs == NULL || pairs->start == NULL) {
        sqlite3_result_zeroblob(it->context, 0);
    } else {
        sqlite3_result_blob64(it->context, pairs->start, pairs->len, sqlite3_free);
    }
}

/* Appends the counts with the texts of facets. */
static bool append_texts(call *it, const buffer *counts, buffer *to) {
    for (size_t at = 0; at < counts->len; at += record_len(counts->start + at)) {
        const size_t start = to->len;
        bytes child = recorded_facet(counts->start + at);
        if (!begin_record(it, to, number_at(counts->start + at), child.len + RECORD) || !append_printed(it, child, to)) {
            return false;
        }
        end_record(to, start);
    }
    return true;
}

static bool fill(call *it, cursor *to) {
    counted of;
    buffer parent = {0}, counts = {0};
    bool is_fine = append_facet(it, PARENT, &parent) && blob_argument(it, PAIRS, &of.pairs);
    if (is_fine) {
        of.parent = (bytes){parent.start, parent.len};
        is_fine = append(it, &counts, write_counts, &of) && append_texts(it, &counts, &to->records);
    }
    sqlite3_free(parent.start);
    sqlite3_free(counts.start);
    return is_fine;
}

static void give_column(call *it, const cursor *at, int column) {
    const uint8_t *record = at->records.start + at->at;
    bytes text = recorded_facet(record);
    if (column != CHILD) {
        sqlite3_result_int64(it->context, (sqlite3_int64)number_at(record));
    } else {
        sqlite3_result_text64(it->context, (const char *)text.start, text.len, SQLITE_TRANSIENT, SQLITE_UTF8);
    }
}

const table FACET_COUNTS = {
    .signature = {"kormaglen_facet_counts", {"parent", "pairs"}},
    .declaration = "CREATE TABLE it(facet TEXT, documents INTEGER, kormaglen_parent HIDDEN, kormaglen_pairs HIDDEN)",
    .columns = COLUMNS,
    .rows = 16,
    .fill = fill,
    .record_len = record_len,
    .give_column = give_column,
};
