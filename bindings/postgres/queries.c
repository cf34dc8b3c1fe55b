/* Texts of queries: their terms, and the ranges that they bound. A text that ends with a star is a prefix. */
#include "extension.h"

enum { PATH = 1, TEXT = 2 };

/* A text that is looked for at a path. */
typedef struct query {
    opened_schema *schema;
    bytes path, text;
} query;

/* Reads arguments 0 to 2. */
static query query_arguments(call *it) {
    schema_argument(it);
    return (query){it->schema, text_argument(it, PATH), text_argument(it, TEXT)};
}

static kormaglen_answer write_terms(void *state, uint8_t *start, size_t len) {
    const query *of = state;
    return kormaglen_schema_terms_of_text(&of->schema->schema, of->path.start, of->path.len, of->text.start, of->text.len, start, len);
}

static kormaglen_answer write_ranges(void *state, uint8_t *start, size_t len) {
    const query *of = state;
    return kormaglen_schema_ranges_of_text(&of->schema->schema, of->path.start, of->path.len, of->text.start, of->text.len, start, len);
}

static kormaglen_answer write_end(void *state, uint8_t *start, size_t len) {
    const bytes *prefix = state;
    return kormaglen_end_of_prefix(prefix->start, prefix->len, start, len);
}

/* ---- records, as the library writes them: of terms, each after its length, and of ranges, each after two lengths */

static size_t term_record_len(const uint8_t *record) {
    return 8 + (size_t)number_at(record);
}

static bytes term_of(const uint8_t *record) {
    return (bytes){record + 8, (size_t)number_at(record)};
}

static bool has_end(const uint8_t *record) {
    return number_at(record + 8) != UINT64_MAX;
}

static bytes start_of(const uint8_t *record) {
    return (bytes){record + 16, (size_t)number_at(record)};
}

/* The end of a range that has none is NULL. */
static bytes end_of(const uint8_t *record) {
    bytes start = start_of(record);
    return has_end(record) ? (bytes){start.start + start.len, (size_t)number_at(record + 8)} : (bytes){NULL, 0};
}

static size_t range_record_len(const uint8_t *record) {
    return 16 + start_of(record).len + end_of(record).len;
}

/* ---- the records of a query */

static void append_terms(const call *it, query *of, buffer *to) {
    reserve(it, to, 64 + 2 * (of->path.len + of->text.len));
    append(it, TEXT, to, write_terms, of);
}

/* The code of a term's type: after the field's number, and of a value in JSON objects after the zero byte that ends its path. */
static uint8_t type_of(bytes term) {
    const uint8_t *code = term.len > 4 ? term.start + 4 : NULL;
    if (code != NULL && *code == 'j') {
        const uint8_t *zero = memchr(code, 0, term.len - 4);
        code = zero != NULL && zero + 1 < term.start + term.len ? zero + 1 : NULL;
    }
    return code != NULL ? *code : 0;
}

/* Appends the range of the terms that begin with this one. */
static void append_prefix(const call *it, bytes term, buffer *to) {
    const size_t begin = to->len;
    reserve(it, to, 16 + 2 * term.len + 1);
    put_number(to->start + begin, term.len);
    memcpy(to->start + begin + 16, term.start, term.len);
    to->len = begin + 16 + term.len;
    append(it, TEXT, to, write_end, &term);
    put_number(to->start + begin + 8, to->len - begin - 16 - term.len);
}

/* Appends the ranges of the terms that begin with the text before the star. Of a number or a date there are none: what begins with its term
 * is this one term. */
static void append_prefixes(const call *it, query of, buffer *to) {
    const size_t begin = to->len;
    buffer terms = {0};
    of.text.len -= 1;
    append_terms(it, &of, &terms);
    for (size_t at = 0; at < terms.len; at += term_record_len(terms.start + at)) {
        const bytes term = term_of(terms.start + at);
        const uint8_t type = type_of(term);
        if (type == 's' || type == 'h') {
            append_prefix(it, term, to);
        }
    }
    pfree(terms.start);
    if (to->len == begin) {
        const char *what = kormaglen_status_text(KORMAGLEN_BAD_QUERY);
        refuse_argument(it, TEXT, ERRCODE_INVALID_PARAMETER_VALUE, what, "a prefix is of texts and facets");
    }
}

/* (a star alone is a range without bounds) */
static bool is_prefix(bytes text) {
    return text.len > 1 && text.start[text.len - 1] == '*';
}

static void append_ranges(const call *it, query *of, buffer *to) {
    if (is_prefix(of->text)) {
        append_prefixes(it, *of, to);
    } else {
        reserve(it, to, 128 + 2 * (of->path.len + of->text.len));
        append(it, TEXT, to, write_ranges, of);
    }
}

/* Refuses more than one record, and names the function that gives them all. */
static void expect_one(const call *it, const buffer *records, size_t (*record_len)(const uint8_t *), const char *what,
                       const char *instead) {
    int count = 0;
    for (size_t at = 0; at < records->len; at += record_len(records->start + at)) {
        count += 1;
    }
    if (count != 1) {
        ereport(ERROR, errcode(ERRCODE_CARDINALITY_VIOLATION), errmsg("%s: the text has %d %s", it->signature->name, count, what),
                errdetail("Argument %d (%s): at a path into JSON objects a text may be a number, too.", TEXT + 1,
                          it->signature->arguments[TEXT]),
                errhint("%s gives them all.", instead));
    }
}

/* ---- functions with one result */

PG_FUNCTION_INFO_V1(sql_field);
Datum sql_field(PG_FUNCTION_ARGS) {
    static const signature NAMES = {"kormaglen_field", {"schema", "path"}};
    call it = {.signature = &NAMES, .fcinfo = fcinfo};
    kormaglen_found_field found;
    schema_argument(&it);
    bytes path = text_argument(&it, PATH);
    kormaglen_answer answer = kormaglen_schema_find_field(&it.schema->schema, path.start, path.len, &found);
    if (answer.status != KORMAGLEN_OK) {
        refuse(&it, PATH, answer);
    }
    PG_RETURN_INT64((int64)found.field);
}

PG_FUNCTION_INFO_V1(sql_term);
Datum sql_term(PG_FUNCTION_ARGS) {
    static const signature NAMES = {"kormaglen_term", {"schema", "path", "text"}};
    call it = {.signature = &NAMES, .fcinfo = fcinfo};
    query of = query_arguments(&it);
    buffer terms = {0};
    append_terms(&it, &of, &terms);
    expect_one(&it, &terms, term_record_len, "terms", "kormaglen_query_terms");
    PG_RETURN_BYTEA_P(make_blob(&it, term_of(terms.start)));
}

PG_FUNCTION_INFO_V1(sql_range_start);
Datum sql_range_start(PG_FUNCTION_ARGS) {
    static const signature NAMES = {"kormaglen_range_start", {"schema", "path", "text"}};
    call it = {.signature = &NAMES, .fcinfo = fcinfo};
    query of = query_arguments(&it);
    buffer ranges = {0};
    append_ranges(&it, &of, &ranges);
    expect_one(&it, &ranges, range_record_len, "ranges", "kormaglen_query_ranges");
    PG_RETURN_BYTEA_P(make_blob(&it, start_of(ranges.start)));
}

PG_FUNCTION_INFO_V1(sql_range_end);
Datum sql_range_end(PG_FUNCTION_ARGS) {
    static const signature NAMES = {"kormaglen_range_end", {"schema", "path", "text"}};
    call it = {.signature = &NAMES, .fcinfo = fcinfo};
    query of = query_arguments(&it);
    buffer ranges = {0};
    append_ranges(&it, &of, &ranges);
    expect_one(&it, &ranges, range_record_len, "ranges", "kormaglen_query_ranges");
    bytes end = end_of(ranges.start);
    if (end.start == NULL) {
        /* (NULL would be compared with, and nothing is below it) */
        refuse_argument(&it, TEXT, ERRCODE_INVALID_PARAMETER_VALUE, "the range has no end", "no bytes are above the range");
    }
    PG_RETURN_BYTEA_P(make_blob(&it, end));
}

/* ---- functions with rows */

PG_FUNCTION_INFO_V1(sql_query_terms);
Datum sql_query_terms(PG_FUNCTION_ARGS) {
    static const signature NAMES = {"kormaglen_query_terms", {"schema", "path", "text"}};
    call it = {.signature = &NAMES, .fcinfo = fcinfo};
    query of = query_arguments(&it);
    buffer terms = {0};
    append_terms(&it, &of, &terms);
    const MemoryContext before = begin_rows(&it);
    for (size_t at = 0; at < terms.len; at += term_record_len(terms.start + at)) {
        bytea *term = make_blob(&it, term_of(terms.start + at));
        add_row(&it, (Datum[]){PointerGetDatum(term)}, (bool[]){false});
    }
    end_rows(before);
    return (Datum)0;
}

PG_FUNCTION_INFO_V1(sql_query_ranges);
Datum sql_query_ranges(PG_FUNCTION_ARGS) {
    static const signature NAMES = {"kormaglen_query_ranges", {"schema", "path", "text"}};
    call it = {.signature = &NAMES, .fcinfo = fcinfo};
    query of = query_arguments(&it);
    buffer ranges = {0};
    append_ranges(&it, &of, &ranges);
    const MemoryContext before = begin_rows(&it);
    for (size_t at = 0; at < ranges.len; at += range_record_len(ranges.start + at)) {
        const uint8_t *record = ranges.start + at;
        bytea *start = make_blob(&it, start_of(record));
        bytea *end = has_end(record) ? make_blob(&it, end_of(record)) : NULL;
        add_row(&it, (Datum[]){PointerGetDatum(start), PointerGetDatum(end)}, (bool[]){false, end == NULL});
    }
    end_rows(before);
    return (Datum)0;
}
