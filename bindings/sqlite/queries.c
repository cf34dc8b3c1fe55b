/* Texts of queries: their terms, and the ranges that they bound. A text that ends with a star is a prefix. */
#include "extension.h"

#include <string.h>

bool query_arguments(call *it, query *of) {
    of->schema = it->schema;
    return path_argument(it, 1, &of->path) && text_argument(it, 2, &of->text);
}

static kormaglen_answer write_terms(void *state, uint8_t *start, size_t len) {
    const query *of = state;
    return kormaglen_schema_terms_of_text(&of->schema->schema, of->path.start, of->path.len, of->text.start, of->text.len, start, len);
}

static kormaglen_answer write_ranges(void *state, uint8_t *start, size_t len) {
    const query *of = state;
    return kormaglen_schema_ranges_of_text(&of->schema->schema, of->path.start, of->path.len, of->text.start, of->text.len, start, len);
}

static kormaglen_answer write_end(void *state, uint8_t *start, size_t len) {
    const bytes *prefix = state;
    return kormaglen_end_of_prefix(prefix->start, prefix->len, start, len);
}

size_t term_record_len(const uint8_t *record) {
    return 8 + (size_t)number_at(record);
}

bytes term_of(const uint8_t *record) {
    return (bytes){record + 8, (size_t)number_at(record)};
}

static bool has_end(const uint8_t *record) {
    return number_at(record + 8) != UINT64_MAX;
}

bytes start_of(const uint8_t *record) {
    return (bytes){record + 16, (size_t)number_at(record)};
}

bytes end_of(const uint8_t *record) {
    bytes start = start_of(record);
    return has_end(record) ? (bytes){start.start + start.len, (size_t)number_at(record + 8)} : (bytes){NULL, 0};
}

size_t range_record_len(const uint8_t *record) {
    return 16 + start_of(record).len + end_of(record).len;
}

bool append_terms(call *it, query *of, buffer *to) {
    return append(it, to, write_terms, of);
}

uint8_t type_of(bytes term) {
    const uint8_t *code = term.len > 4 ? term.start + 4 : NULL;
    if (code != NULL && *code == 'j') {
        const uint8_t *zero = memchr(code, 0, term.len - 4);
        code = zero != NULL && zero + 1 < term.start + term.len ? zero + 1 : NULL;
    }
    return code != NULL ? *code : 0;
}

/* Appends the range of the terms that begin with this one. */
static bool append_prefix(call *it, bytes term, buffer *to) {
    const size_t begin = to->len;
    if (!reserve(it, to, 16 + 2 * term.len)) {
        return false;
    }
    put_number(to->start + begin, term.len);
    memcpy(to->start + begin + 16, term.start, term.len);
    to->len = begin + 16 + term.len;
    if (!append(it, to, write_end, &term)) {
        return false;
    }
    put_number(to->start + begin + 8, to->len - begin - 16 - term.len);
    return true;
}

/* Appends the ranges of the terms that begin with the text in front of the star. Of a number or a date there are none: what begins with its
 * term is this one term. */
static bool append_prefixes(call *it, query of, buffer *to) {
    const size_t begin = to->len;
    buffer terms = {0};
    of.text.len -= 1;
    bool is_fine = append_terms(it, &of, &terms);
    for (size_t at = 0; is_fine && at < terms.len; at += term_record_len(terms.start + at)) {
        const bytes term = term_of(terms.start + at);
        const uint8_t type = type_of(term);
        if (type == 's' || type == 'h') {
            is_fine = append_prefix(it, term, to);
        }
    }
    sqlite3_free(terms.start);
    if (is_fine && to->len == begin) {
        return fail_with(it, sqlite3_mprintf("%s: a prefix is of texts and facets", it->signature->name));
    }
    return is_fine;
}

/* (a star alone is a range without bounds) */
static bool is_prefix(bytes text) {
    return text.len > 1 && text.start[text.len - 1] == '*';
}

bool append_ranges(call *it, query *of, buffer *to) {
    return is_prefix(of->text) ? append_prefixes(it, *of, to) : append(it, to, write_ranges, of);
}

/* Whether there is just one record; else the call fails, and names the table that has them all. */
static bool is_one(call *it, const buffer *records, size_t (*record_len)(const uint8_t *), const char *what, const char *instead) {
    int count = 0;
    for (size_t at = 0; at < records->len; at += record_len(records->start + at)) {
        count += 1;
    }
    if (count == 1) {
        return true;
    }
    return fail_with(it, sqlite3_mprintf("%s: the text has %d %s, which %s gives", it->signature->name, count, what, instead));
}

void give_field(call *it) {
    bytes path;
    kormaglen_found_field found;
    if (!schema_argument(it) || !path_argument(it, 1, &path)) {
        return;
    }
    kormaglen_answer answer = kormaglen_schema_find_field(&it->schema->schema, path.start, path.len, &found);
    if (answer.status == KORMAGLEN_OK) {
        sqlite3_result_int64(it->context, found.field);
    } else {
        refuse(it, answer);
    }
}

void give_term(call *it) {
    query of;
    buffer terms = {0};
    if (schema_argument(it) && query_arguments(it, &of) && append_terms(it, &of, &terms)
        && is_one(it, &terms, term_record_len, "terms", "kormaglen_query_terms")) {
        bytes term = term_of(terms.start);
        sqlite3_result_blob64(it->context, term.start, term.len, SQLITE_TRANSIENT);
    }
    sqlite3_free(terms.start);
}

/* Gives the start or the end of the one range. */
static void give_bound(call *it, bytes (*bound_of)(const uint8_t *)) {
    query of;
    buffer ranges = {0};
    if (schema_argument(it) && query_arguments(it, &of) && append_ranges(it, &of, &ranges)
        && is_one(it, &ranges, range_record_len, "ranges", "kormaglen_query_ranges")) {
        bytes bound = bound_of(ranges.start);
        if (bound.start != NULL) {
            sqlite3_result_blob64(it->context, bound.start, bound.len, SQLITE_TRANSIENT);
        } else {
            /* (NULL would be compared with, and nothing is below it) */
            fail_with(it, sqlite3_mprintf("%s: no bytes are above the range", it->signature->name));
        }
    }
    sqlite3_free(ranges.start);
}

void give_range_start(call *it) {
    give_bound(it, start_of);
}

void give_range_end(call *it) {
    give_bound(it, end_of);
}
